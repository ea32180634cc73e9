"""What several tests share."""
import importlib.util
import os
import pathlib
import sys

from policies import engine, messages
from policies.encode import encode
from policies.places import Source
from policies.reader import read
from policies.trees import message_tree

HERE = pathlib.Path(__file__).resolve().parent
TOP = HERE.parent.parent.parent
# The engine: the program of RBACD, or the proved one where it is built (`bin/rbacd` builds it).
ENGINE = pathlib.Path(os.environ.get("RBACD") or TOP / "crates" / "rbacd" / "out" / "rbacd")
NO_ENGINE = f"the engine is not built: {ENGINE} is not there"
NO_SOLVER = "python3-z3 is not installed"
sys.setrecursionlimit(20_000)
# a busy machine takes longer to answer
engine.PATIENCE = 600
POLICY = """rules:
  policies:
    p:
      permissions:
      - any: true
      principals:
      - any: true
"""


def has_solver() -> bool:
    """Whether questions to policies can be decided."""
    return importlib.util.find_spec("z3") is not None


def times() -> int:
    """How many times as many random cases are tried as usually."""
    return int(os.environ.get("TIMES") or 1)


def encoded(text: str, dotted: bool = False) -> bytes:
    """The bytes of a filter's YAML."""
    return encode(Source("filter.yaml", text.encode()), dotted)[0]


def condition(text: str, beside: str = "") -> str:
    """The YAML of the filter with one policy, any and any, and a condition's text; lines of other keys stand beside."""
    lines = ["checked_condition:", f"  text: {quoted(text)}"] + ["  " + line for line in beside.splitlines()]
    return POLICY + "".join(f"      {line}\n" for line in lines)


def tree_condition(tree: str) -> str:
    """The YAML of the same filter with a condition's tree in flow style."""
    return POLICY + "      checked_condition:\n        expr: " + tree + "\n"


def quoted(text: str) -> str:
    """A text in YAML's double quotes."""
    named = {"\\": "\\\\", '"': '\\"', "\n": "\\n", "\r": "\\r", "\t": "\\t", "\f": "\\f"}
    return '"' + "".join(named.get(character, character) for character in text) + '"'


def tree_of(data: bytes):
    """The tree of an `Expr`'s bytes."""
    return message_tree(read(messages.descriptor(messages.EXPR), data))


def condition_tree(data: bytes):
    """The tree of the condition of a filter's policy p."""
    message = read(messages.descriptor(messages.FILTER), data)
    policy = dict(message.get("rules").get("policies"))["p"]
    return message_tree(policy.get("checked_condition").get("expr"))


def field(number, payload):
    """A field of bytes."""
    length, digits = len(payload), []
    while length >= 128:
        digits.append(length % 128 + 128)
        length //= 128
    return bytes([number * 8 + 2, *digits, length]) + payload


def told(text: str, budget: int = 1_000_000) -> list:
    """What is told of a filter's YAML: the first line of each finding, in the order of the file."""
    source = Source("filter.yaml", text.encode())
    return sorted(source.tell(one.place, one.told()).split("\n")[0] for one in encode(source, budget=budget)[1])


def numbers(text: str) -> set:
    """The refusals' numbers that are found in a filter's YAML."""
    return {one.number for one in encode(Source("filter.yaml", text.encode()))[1] if one.number}
