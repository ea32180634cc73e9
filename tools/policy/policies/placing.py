"""Places of a condition's nodes in the file that says it, and the place that the engine names below a refusal."""
import re
from functools import lru_cache
from typing import Dict, NamedTuple, Optional

from .cel.tree import Entry, Node, in_order
from .cel.words import shown
from .conditions_typing import Condition, condition_of
from .messages import Message
from .places import Place
from .spelling import spread
from .trees import node_paths

# `policy "p": permissions[0].and_rules.rules[2]`; a node's id or an unknown field's number may be after it.
ENGINE_PLACE = re.compile(
    r'(?:policy "(?P<policy>(?:[^"\\]|\\.)*)")?(?:(?::\ )?(?P<part>[a-z_@][\w.\[\]"@-]*))?'
    r"(?:, node (?P<node>-?\d+)|, field \d+)?\Z"
)
# How the engine writes characters of a policy's name.
ESCAPE = re.compile(r"\\(?:u\{(?P<code>[0-9a-f]{1,6})\}|(?P<letter>.))")
LETTERS = {"n": "\n", "r": "\r", "t": "\t", "0": "\0"}
# The maps of a checked condition whose keys are ids of nodes.
MAPS = ("type_map", "reference_map")
UNNAMED = ("", "<input>")


class EnginePlace(NamedTuple):
    """The path of a part, and the id of a condition's node where one is named."""

    path: tuple
    node: Optional[int]


def engine_place(place: Optional[str]) -> EnginePlace:
    """The part that the engine names, or none."""
    found = ENGINE_PLACE.match(place or "")
    if found is None or (found["policy"] is None and not found["part"]):
        return EnginePlace((), None)
    steps = re.findall(r"[A-Za-z_@]\w*|-?\d+", found["part"] or "")
    path = tuple(int(step) if step.lstrip("-").isdigit() else step for step in steps)
    node = int(found["node"]) if found["node"] else None
    if node is None and path[-2:-1] and path[-2] in MAPS:
        node = path[-1]
    if found["policy"] is not None:
        path = ("rules", "policies", ESCAPE.sub(_character, found["policy"]), *path)
    return EnginePlace(path, node)


def _character(escape: re.Match) -> str:
    if escape["code"]:
        code = int(escape["code"], 16)
        return chr(code) if code < 0x110000 else "\ufffd"
    return LETTERS.get(escape["letter"], escape["letter"])


def node_places(tree: Node, path: tuple, encoding) -> Dict[Node, Place]:
    """The places of a condition's nodes: in its text, or in its tree; none without a file of text."""
    if encoding is None:
        return {}
    if path not in encoding.texts:
        return {node: encoding.place_of(where) for node, where in node_paths(tree, path)}
    scalar, source, written = encoding.marks[path], encoding.source, encoding.texts[path]
    indices = spread(source, scalar)
    return {node: source.place_of(indices[other.place]) for node, other in zip(in_order(tree), in_order(written))}


class Named(NamedTuple):
    """A condition and one of its nodes."""

    condition: Condition
    tree: Node
    node: Node
    path: tuple

    def told(self) -> str:
        """The node as text, and where the text has it that the condition was made of, if `source_info` says so."""
        where = origin(self.condition.message, self.node.id)
        part = self.node.value if isinstance(self.node, Entry) else self.node
        return shown(part) + (f", {where}" if where else "")


def named_node(told: EnginePlace, message: Optional[Message]) -> Optional[Named]:
    """The node that the engine names, or None; also None if several nodes have its id."""
    known = _known_at(told.path, message)
    if known is None or told.node is None:
        return None
    found = [node for node in in_order(known.tree) if node.id == told.node]
    return Named(known.condition, known.tree, found[0], known.path) if len(found) == 1 else None


def node_at(path: tuple, message: Message) -> Optional[Named]:
    """The innermost node of a condition on the way to a part, or None."""
    known = _known_at(path, message)
    if known is None:
        return None
    while len(path) > len(known.path) and path not in known.nodes:
        path = path[:-1]
    node = known.nodes.get(path)
    return None if node is None else Named(known.condition, known.tree, node, known.path)


class Known(NamedTuple):
    """A condition with its tree, the path of that, and the nodes by their paths."""

    condition: Condition
    tree: Node
    path: tuple
    nodes: Dict[tuple, Node]


def _known_at(path: tuple, message: Optional[Message]) -> Optional[Known]:
    """The condition of the policy that a path leads into, or None."""
    if message is None or path[:2] != ("rules", "policies") or len(path) < 3:
        return None
    return _known(message, path[2])


@lru_cache(maxsize=2)
def _known(message: Message, policy: str) -> Optional[Known]:
    """The condition of a policy, kept for the next question about the same one."""
    rules = message.get("rules")
    policies = dict(rules.values.get("policies") or []) if rules is not None else {}
    condition = condition_of(policies[policy]) if policy in policies else None
    tree = condition.tree() if condition is not None else None
    if condition is None or tree is None:
        return None
    path = ("rules", "policies", policy, *condition.path)
    return Known(condition, tree, path, {where: node for node, where in node_paths(tree, path)})


def origin(condition: Message, number: int) -> Optional[str]:
    """Where a node is in the text that a checked condition was made of, by its `source_info`, or None."""
    info = condition.get("source_info") if condition.get("expr") is not None else None
    positions = dict(info.get("positions") or []) if info is not None else {}
    if number not in positions:
        return None
    before = [start for start in info.get("line_offsets") or [] if 0 < start <= positions[number]]
    column = positions[number] - max(before, default=0) + 1
    if column < 1:
        return None
    name = info.scalar("location")
    if name in UNNAMED or not name.isprintable():
        return f"line {len(before) + 1}, column {column} of its text"
    return f"{name}:{len(before) + 1}:{column}"


def place_in_file(told: EnginePlace, message: Optional[Message], encoding) -> Optional[Place]:
    """The place in the file of what the engine names."""
    if encoding is None:
        return None
    if told.path[-2:-1] and told.path[-2] in MAPS and told.path in encoding.marks:
        return encoding.place_of(told.path)
    named = named_node(told, message)
    if named is not None:
        return node_places(named.tree, named.path, encoding).get(named.node, encoding.place_of(told.path))
    return encoding.place_of(told.path)
