"""Other spellings of a path: which of them a filter lets pass although it denies the path.

A filter is asked about a path alone. Whatever else it tests is unknown, and so may be its answer.
"""
import re
from typing import Callable, Dict, Iterable, List, NamedTuple, Optional

from ..cel.attributes import attribute_name
from ..cel.overloads import EQUALITY, MEMBERSHIP
from ..cel.tree import Call, Const, ListLiteral, Node, is_call
from ..compare.leaves import KINDS, OLD_TESTS
from ..compare.texts import ENDS, TextTest, lower_ascii
from ..conditions_typing import condition_of
from ..messages import Message
from .names import OTHER_PATHS, Lint

Truth = Optional[bool]
PATHS = ("request.path", "request.url_path")
PATH_FUNCTIONS: Dict[str, Callable[[str, str], bool]] = {
    "startsWith": str.startswith,
    "endsWith": str.endswith,
    "contains": str.__contains__,
}
LETTER = re.compile("[A-Za-z0-9]")


def spellings(path: str) -> List[str]:
    """Other spellings of a path, as an application may read it: each is refused by strict paths."""
    found = ["/" + path, "/x/.." + path, "/." + path]
    middle = path.find("/", 1)
    if 0 < middle < len(path):
        found += [path[:middle] + between + path[middle:] for between in ("/", "/.", "/x/..")]
    return found


def encoded(path: str) -> str:
    """The path with its first letter or digit encoded, which strict paths do not refuse; itself if it has none."""
    return LETTER.sub(lambda one: f"%{ord(one[0]):02x}", path, count=1)


# Of more policies, a path is only asked of its own policy and of those that match odd spellings of any path.
MANY = 64
ANY_PATHS = ("/qzj7", "/qzj7/vkw8")


class Paths:
    """The policies of a filter, asked about paths."""

    def __init__(self, policies: Iterable[Message], is_deny: bool):
        self.policies, self.is_deny = list(policies), is_deny
        if len(self.policies) > MANY:
            odd = [other for path in ANY_PATHS for other in (path, *spellings(path), encoded(path))]
            self.policies = [each for each in self.policies if any(_matches(each, other) for other in odd)]

    def beside(self, policy: Message) -> "Paths":
        """The same, with a policy that may not be among them."""
        if any(each is policy for each in self.policies):
            return self
        found = Paths([], self.is_deny)
        found.policies = [policy, *self.policies]
        return found

    def note(self, sought: str, passes: Callable[[str], bool]) -> Optional[Lint]:
        """The note on a test of a path by a text, if another spelling passes: one that the test tells apart from the path, while the
        filter may deny the path and may allow the spelling."""
        if not sought.startswith("/") or self.denies(sought) is False:
            return None
        for other in spellings(sought):
            if passes(other) != passes(sought) and self.denies(other) is not True:
                return Lint(OTHER_PATHS, _words(sought, other, self.denies(encoded(sought)) is not True))
        return None

    def denies(self, path: str) -> Truth:
        """Whether a request with the path is denied."""
        found = one_of(_matches(policy, path) for policy in self.policies)
        return found if self.is_deny else opposite(found)


def _words(sought: str, other: str, passes_encoded: bool) -> str:
    words = (
        f"`{other}` passes, and an application may read it as `{sought}`: set `\"paths\": \"strict\"` in the server's settings, or let "
        "the front normalise paths first"
    )
    spelled = encoded(sought)
    return words + (f"; `{spelled}` passes also then, so rather list the paths to allow" if passes_encoded and spelled != sought else "")


def opposite(truth: Truth) -> Truth:
    return None if truth is None else not truth


def one_of(truths: Iterable[Truth]) -> Truth:
    """Whether one holds."""
    all_of = list(truths)
    return True if True in all_of else None if None in all_of else False


def every(truths: Iterable[Truth]) -> Truth:
    """Whether all hold."""
    return opposite(one_of(map(opposite, truths)))


def _matches(policy: Message, path: str) -> Truth:
    sides = [one_of(_rule(rule, path) for rule in policy.get(side) or []) for side in ("permissions", "principals")]
    condition = condition_of(policy)
    if condition is not None:
        tree = condition.tree()
        sides.append(None if tree is None else truth_of(tree, path))
    return every(sides)


def _rule(rule: Message, path: str) -> Truth:
    """Whether a rule holds of a path; a rule with faults is unknown."""
    for member, held in rule.values.items() if rule.is_whole else ():
        if member == "any":
            return bool(held)
        if member in ("not_rule", "not_id"):
            return opposite(_rule(held, path))
        if member in ("and_rules", "and_ids", "or_rules", "or_ids") and held.is_whole:
            inner = [_rule(each, path) for each in held.get("rules" if member.endswith("rules") else "ids") or []]
            return every(inner) if member.startswith("and") else one_of(inner)
        test = _test(member, held)
        return None if test is None else test.passes(path) != _is_inverted(member, held)
    return None


def _is_inverted(member: str, held: Message) -> bool:
    return member == "header" and bool(held.scalar("invert_match"))


def _test(member: str, held) -> Optional[TextTest]:
    """The test of a path, if the rule is one."""
    if member == "url_path" and held.is_whole:
        return _matcher(held.get("path"), of_path=True)
    if member != "header" or not held.is_whole or lower_ascii(held.scalar("name")) != ":path":
        return None
    kind = held.which("header_match_specifier")
    if kind in OLD_TESTS:
        return TextTest(OLD_TESTS[kind], held.get(kind))
    return _matcher(held.get(kind)) if kind == "string_match" else None


def _matcher(matcher: Optional[Message], of_path: bool = False) -> Optional[TextTest]:
    kind = matcher.which("match_pattern") if matcher is not None and matcher.is_whole else None
    if kind not in KINDS or matcher.get(kind) is None:
        return None
    return TextTest(kind, matcher.get(kind), bool(matcher.scalar("ignore_case")), of_path)


def truth_of(node: Node, path: str) -> Truth:
    """Whether a condition is true of a path."""
    if isinstance(node, Const) and node.kind == "bool":
        return bool(node.value)
    if is_call(node, "!_", 1):
        return opposite(truth_of(node.args[0], path))
    if is_call(node, "_&&_", 2):
        return every(truth_of(part, path) for part in node.args)
    if is_call(node, "_||_", 2):
        return one_of(truth_of(part, path) for part in node.args)
    if is_call(node, "_?_:_", 3):
        condition, *branches = (truth_of(part, path) for part in node.args)
        return branches[0] if condition else branches[1] if condition is False else None
    test = path_test(node)
    return None if test is None else test.holds(path)


class PathTest(NamedTuple):
    """A test of the path in a condition: by which function, and by which texts, one of which has to pass."""

    function: str
    texts: List[str]
    is_negated: bool
    of_path: bool

    def holds(self, path: str) -> bool:
        """Whether the test is true of a path."""
        for end in ENDS if self.of_path else "":
            path = path.partition(end)[0]
        compare = PATH_FUNCTIONS.get(self.function, str.__eq__)
        return any(compare(path, text) for text in self.texts) != self.is_negated


def path_test(node: Node) -> Optional[PathTest]:
    """The test that a node is, if it compares the path with a text, or asks whether a list of texts has it."""
    if not isinstance(node, Call):
        return None
    parts = ([node.target] if node.target is not None else []) + node.args
    if len(parts) != 2:
        return None
    is_equal = node.function in EQUALITY
    name = attribute_name(parts[0], frozenset())
    other = parts[1]
    if is_equal and name not in PATHS:
        name, other = attribute_name(parts[1], frozenset()), parts[0]
    if name not in PATHS or not (is_equal or node.function in MEMBERSHIP or node.target is not None and node.function in PATH_FUNCTIONS):
        return None
    texts = _texts(other, node.function in MEMBERSHIP)
    return None if texts is None else PathTest(node.function, texts, node.function == "_!=_", name == PATHS[1])


def _texts(node: Node, is_list: bool) -> Optional[List[str]]:
    parts = node.elements if is_list and isinstance(node, ListLiteral) else [] if is_list else [node]
    if not parts or not all(isinstance(part, Const) and part.kind == "string" for part in parts):
        return None
    return [part.value for part in parts]
