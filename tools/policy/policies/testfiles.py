"""Files of tests: which filter each test is of, what it asks, and what it expects.

A mistake is kept with the tests that it is of: these are not run, and all others are.
"""
import json
import os
import re
from typing import Dict, List, NamedTuple, Optional, Tuple, Union

import yaml

from .bounds import GREATEST, Budget
from .engine import Request
from .files import (
    BYTES,
    bounded,
    is_binary,
    kind_of,
    name_of,
    policy_text,
    read_file,
    real_path_below,
    text_of_policy,
)
from .forms.binary import filters_in
from .forms.envoy import Form, rewritten
from .forms.nodes import Node, get, items, text_of
from .messages import FILTER, descriptor
from .places import Mistake, Source, start_of, together
from .reader import read
from .reading import contents, encoded
from .requests import Reader

FILE_FIELDS = ("policy", "filter", "budget", "visits", "facts", "tests")
TEST_FIELDS = ("name", "policy", "filter", "budget", "visits", "request", "facts", "expect", "matched")
EXPECTATION = re.compile(r"(allow|deny|steps|refused(?: (?:\d+ )?\w+)?|head (?:400|431|501))\Z")
# What `matched` says if no policy matched.
NO_POLICY = "none"
EXPECTATIONS = "allow, deny, steps, refused (or refused 9), or head 400, 431 or 501"


class Subject(NamedTuple):
    """A filter under test: what it is called, its bytes, and its budget."""

    name: str
    data: bytes
    budget: Budget


class Test(NamedTuple):
    """One test: its name, file and line, the filter, the request, and what it expects; with mistakes it is not run."""

    name: str
    file: str
    line: int
    subject: Optional[Subject] = None
    request: Optional[Request] = None
    expect: str = ""
    matched: Optional[str] = None
    mistakes: Tuple[Mistake, ...] = ()
    # Whether it is for a whole file, which cannot be read.
    is_unread: bool = False


def policy_names(data: bytes) -> Optional[List[str]]:
    """The names of a filter's policies, or None if its bytes do not read."""
    rules = read(descriptor(FILTER), data, None).get("rules")
    return sorted(name for name, _ in rules.get("policies") or []) if rules is not None and rules.is_whole else None


class NoPolicy(Mistake):
    """The mistake of a file that is not known to hold a policy; who did not name it himself sees no line of it."""


def read_tests(name: str, root: Optional[str] = None) -> List[Test]:
    """The tests of a file, in order; mistakes of the file itself are those of a test of its name."""
    told = name_of(name)
    try:
        return TestFile(name, root).tests()
    except Mistake as mistake:
        return [Test(told, told, 1, mistakes=(mistake, *mistake.rest))]
    except OSError as fault:
        unread = Mistake(f"policy: cannot read {told}: {fault.strerror}")
        return [Test(told, told, 1, mistakes=(unread,), is_unread=True)]


class TestFile:
    """One file of tests. It reads policies below `root`, or without one below its own folder or the current one."""

    def __init__(self, name: str, root: Optional[str] = None):
        self.folder = os.path.dirname(name) if name != "-" else ""
        self.root = root
        self.source = Source(name_of(name), policy_text(name))
        self.names: Dict[str, Node] = {}
        self.reader = Reader(self.source)
        self.subjects: Dict[tuple, Union[Subject, Mistake]] = {}

    def tests(self) -> List[Test]:
        """Its tests, in order; raises Mistake where it has none that are known."""
        node = self.source.compose()
        around = self.reader.known(node, FILE_FIELDS, "a file of tests")
        listed = items(around.get("tests"))
        if not listed:
            self.reader.tell(around.get("tests", node), "a file of tests has a list `tests`, which is not empty")
            raise together(self.reader.mistakes)
        of_file = tuple(self.reader.mistakes)
        facts = self.reader.facts(around.get("facts"))
        of_facts = tuple(self.reader.mistakes[len(of_file) :])
        own = [Test(self.source.name, self.source.name, 1, mistakes=of_file)] if of_file else []
        return own + [self._test(part, index, around, facts, of_facts) for index, part in enumerate(listed)]

    def _test(self, node: Node, index: int, around: Dict[str, Node], facts: dict, of_facts: tuple) -> Test:
        before = len(self.reader.mistakes)
        fields = self.reader.known(node, TEST_FIELDS, "a test")
        name = self._name(fields["name"]) if "name" in fields else f"test {index + 1}"
        expect = self._expect(fields, node)
        request = None
        if "request" in fields:
            facts = {**facts, **self.reader.facts(fields.get("facts"))}
            request = Request(self.reader.head(fields["request"]), facts)
        elif not expect.startswith("refused"):
            self.reader.tell(node, "a test has a `request`, unless it expects the filter to be refused")
        matched = self.reader.line(fields["matched"], "the name of a policy") if "matched" in fields else None
        subject = self._subject({**around, **fields}, node)
        if isinstance(subject, Subject) and matched is not None:
            self._check_matched(fields["matched"], matched, subject)
        mistakes = [*of_facts, *self.reader.mistakes[before:]]
        if isinstance(subject, Mistake):
            mistakes += [subject, *subject.rest]
            subject = None
        mistakes.sort(key=lambda mistake: mistake.place or (0, 0))
        line = start_of(node)[0] + 1
        return Test(name, self.source.name, line, subject, request, expect, matched, tuple(mistakes))

    def _name(self, node: Node) -> str:
        """The name of a test, which no other one has."""
        name = self.reader.line(node, "a name")
        if name in self.names:
            line = start_of(self.names[name])[0] + 1
            self.reader.tell(node, f"the test of line {line} has this name too: give each another one")
        self.names.setdefault(name, node)
        return name

    def _check_matched(self, node: Node, matched: str, subject: Subject) -> None:
        """Tells the name of a policy that the filter does not have."""
        names = policy_names(subject.data)
        if names is not None and matched not in (NO_POLICY, *names):
            known = ", ".join(json.dumps(name, ensure_ascii=False) for name in names) or "none"
            self.reader.tell(node, f"the filter has no policy of this name: it has {known}; `{NO_POLICY}` is for no policy")

    def _expect(self, fields: Dict[str, Node], at: Node) -> str:
        if "expect" not in fields:
            self.reader.tell(at, f"a test has `expect`: {EXPECTATIONS}")
            return "refused"
        expect = self.reader.line(fields["expect"], "an expectation")
        if expect and not EXPECTATION.match(expect):
            self.reader.tell(fields["expect"], f"`{expect}` is no expectation: write {EXPECTATIONS}")
            return "refused"
        return expect

    def _subject(self, fields: Dict[str, Node], at: Node) -> Union[Subject, Mistake]:
        """The filter of a test, or the mistake in it, which all tests of the filter share."""
        policy = fields.get("policy")
        key = (id(policy), text_of(fields.get("filter")), id(fields.get("budget")), id(fields.get("visits")))
        if key not in self.subjects:
            try:
                self.subjects[key] = self._filter(policy, fields, at)
            except Mistake as mistake:
                self.subjects[key] = mistake
        return self.subjects[key]

    def _filter(self, policy: Optional[Node], fields: Dict[str, Node], at: Node) -> Subject:
        if policy is None:
            told = "`policy` is expected, in the test or in the file: a file's name, or the filter itself"
            raise self.reader.mistake(at, told)
        budget = self._budget(fields)
        if isinstance(policy, yaml.MappingNode):
            return self._inline(policy, budget)
        return self._file(policy, text_of(fields.get("filter")), budget)

    def _budget(self, fields: Dict[str, Node]) -> Budget:
        """The budget of a test, which has the usual number of what is not given."""
        usual = Budget()
        return Budget(
            self._number(fields.get("budget"), usual.steps, GREATEST.steps, "a budget is a number"),
            self._number(fields.get("visits"), usual.visits, GREATEST.visits, "visits are a number"),
        )

    def _number(self, node: Optional[Node], usual: int, most: int, told: str) -> int:
        """A number from 1 to another."""
        text = text_of(node) if node is not None else str(usual)
        if text is None or not text.isascii() or not text.isdigit() or not 1 <= int(text) <= most:
            raise self.reader.mistake(node, f"{told} from 1 to {most}")
        return int(text)

    def _inline(self, node: Node, budget: Budget) -> Subject:
        if get(node, "rules") is None:
            raise self.reader.mistake(node, "a filter has `rules`")
        made = encoded(self.source, rewritten(self.source, Form("", node)), budget.steps, False)
        if made.mistakes:
            raise together(made.mistakes)
        return Subject(f"the policy of {self.source.name}", made.data, budget)

    def _file(self, node: Node, chosen: Optional[str], budget: Budget) -> Subject:
        name = text_of(node)
        if not name or not name.isprintable():
            raise self.reader.mistake(node, "a file's name is a text of one line")
        path = os.path.join(self.folder, name)
        try:
            return Subject(name, filter_in(path, self._bytes(node, path), chosen), budget)
        except NoPolicy:
            raise self.reader.mistake(node, f"{path} holds no policy: `policy check {path}` says why") from None

    def _bytes(self, node: Node, path: str) -> bytes:
        """The bytes of a file that a test names."""
        real = real_path_below(path, self.root or self.folder or ".")
        if real is None and self.root is None and real_path_below(self.folder or ".", ".") is not None:
            # the file of tests is below the folder where this runs
            real = real_path_below(path, ".")
        if real is None:
            where = f"the folder {self.root}" if self.root else "the folder of this file, and of the current one"
            raise self.reader.mistake(node, f"{path} is outside of {where}: --root names another folder")
        if os.path.exists(real) and not os.path.isfile(real):
            raise self.reader.mistake(node, f"{path} is no plain file")
        try:
            return read_file(real)
        except OSError as fault:
            raise self.reader.mistake(node, f"cannot read {path}: {fault.strerror}") from None


def filter_of_file(path: str, chosen: Optional[str] = None) -> bytes:
    """The bytes of the filter of a file; raises Mistake and OSError."""
    return filter_in(path, read_file(path), chosen)


def filter_in(path: str, data: bytes, chosen: Optional[str] = None) -> bytes:
    """The bytes of the filter in those of a file of any form, of that name where it holds some with names; raises
    Mistake, and NoPolicy where the file may hold something else."""
    if kind_of(data) == BYTES and is_binary(data):
        held = filters_in(bounded(path, data))
    else:
        held = _filters_of_text(path, data)
    alone = len(held) == 1 and not held[0][0]
    named = [bytes_ for name, bytes_ in held if chosen in (None, name) or alone]
    if len(named) != 1:
        known = ", ".join(name for name, _ in held) or "none"
        what = "no filter of that name is here" if chosen and not named else f"this file holds {len(held)} filters"
        raise Mistake(f"{name_of(path)}: {what}: {known}; `filter` in a test or --filter of a command names one")
    return named[0]


def _filters_of_text(path: str, data: bytes) -> List[Tuple[str, bytes]]:
    """The filters of a file of text, each with its name."""
    try:
        held = contents(Source(name_of(path), text_of_policy(path, data)), budget=None)
    except Mistake as mistake:
        raise NoPolicy(str(mistake), mistake.place, mistake.words) from None
    if held.mistakes:
        first = together(held.mistakes)
        raise first if held.is_policy else NoPolicy(str(first), first.place, first.words)
    return [(one.name, one.data) for one in held.filters]
