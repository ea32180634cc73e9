"""What the engine takes of a condition: how many nodes, and how many levels of them."""
from .attributes import parts_of
from .tree import Node

MOST_NODES = 2048
MOST_LEVELS = 64
# Many more words and signs than a text of so many nodes has, whatever parentheses are in it.
MOST_WORDS = 16 * MOST_NODES
LONGEST_TEXT = 1_048_576
TOO_LARGE = 8
TOO_MANY_NODES = f"the condition has more than {MOST_NODES} nodes"


def is_within_limits(tree: Node) -> bool:
    """Whether a tree has no more nodes and levels than the engine takes."""
    count, level = 0, [tree]
    for _ in range(MOST_LEVELS):
        count += len(level)
        level = [part for node in level for part, _ in parts_of(node, frozenset())]
        if not level or count > MOST_NODES:
            return count <= MOST_NODES
    return False
