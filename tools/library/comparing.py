"""The filters and heads by which the library is compared with `rbacd judge --batch`: those of crates/rbacd/cases, and random ones."""
import concurrent.futures
import importlib.machinery
import importlib.util
import ipaddress
import json
import random
import re
import subprocess
import sys
from pathlib import Path
from typing import Dict, Iterator, List, NamedTuple, Tuple

TOP = Path(__file__).resolve().parent.parent.parent
sys.path[1:1] = [str(TOP / "scripts/gate"), str(TOP / "bench")]
import messages as wire  # noqa: E402
from expressions import checked_expression, expression_of  # noqa: E402


def script(name: str):
    """The module of a script that has no suffix."""
    loader = importlib.machinery.SourceFileLoader(name, str(TOP / "scripts/gate" / name))
    module = importlib.util.module_from_spec(importlib.util.spec_from_loader(name, loader))
    sys.modules[name] = module
    loader.exec_module(module)
    return module


cases = script("run_cases")
BUDGET = 1_000_000
SEED, RANDOM_FILTERS, HEADS_OF_EACH = 20, 1000, 8
ADDRESSES = ("direct_remote_ip", "remote_ip", "destination_ip")
NUMBERS = ("source.port", "destination.port", "connection.id")


class Asked(NamedTuple):
    """A head and the facts of its connection."""

    head: bytes
    facts: Dict[str, object]


class Trial(NamedTuple):
    """A filter, and what it is asked."""

    about: str
    message: bytes
    budget: int
    asked: List[Asked]


def functions_of(header: str) -> List[str]:
    """The functions that the library has, by its header."""
    return sorted(set(re.findall(r"(?m)^(?!static)[a-z0-9_]+ (vupresal_\w+)\(", header)))


def address_bytes(text: str) -> bytes:
    return ipaddress.ip_address(text).packed


def fact_line(name: str, value: object) -> str:
    """The line by which the program judge.c takes a fact."""
    if name == "connection.mtls":
        return f"fact {name} {int(bool(value))}"
    if name in NUMBERS:
        return f"fact {name} {value}"
    raw = address_bytes(str(value)) if name in ADDRESSES else str(value).encode()
    return f"fact {name} {raw.hex() or '-'}"


def job_lines(trial: Trial) -> Iterator[str]:
    yield f"filter {trial.budget} {trial.message.hex() or '-'}"
    for asked in trial.asked:
        yield from (fact_line(name, value) for name, value in asked.facts.items())
        yield f"head {asked.head.hex() or '-'}"


def by_library(judge: Path, trials: List[Trial]) -> List[List[str]]:
    """What the library answers, in the words of judge.c, for each trial."""
    jobs = "".join(f"{line}\n" for trial in trials for line in job_lines(trial))
    ran = subprocess.run([judge], input=jobs.encode(), capture_output=True)
    if ran.returncode:
        raise SystemExit(f"test: judge: status {ran.returncode}: {ran.stderr.decode(errors='replace')[-2000:]}")
    lines = iter(ran.stdout.decode().splitlines())
    found = []
    for trial in trials:
        first = next(lines)
        rest = [next(lines) for _ in trial.asked]
        # a refused filter leaves the handle as it was, so what it is asked then is not compared
        found.append([first, *rest] if first.startswith("admitted") else [first])
    return found


def answer_of(told: Dict[str, object]) -> str:
    """An answer of `rbacd judge --json` in the words of judge.c."""
    if "head" in told:
        return f"status {told['head']}"
    if told.get("policy") is None:
        return f"{told['verdict']} - -"
    return f"{told['verdict']} {told['policy']} {str(told['name']).encode().hex() or '-'}"


def by_program(program: Path, file: Path, trial: Trial) -> List[str]:
    """What `rbacd` says of the trial, whose filter is written to this file, in the same words."""
    file.write_bytes(trial.message)
    words = [program, "check", "--policy", file, "--budget", str(trial.budget), "--json"]
    told = json.loads(subprocess.run(words, capture_output=True, check=False).stdout)
    if "refused" in told:
        return [f"refused {told['refused']} {told['place'] or ''}"]
    return [f"admitted {told['policies']} {told['bound']}", *map(answer_of, answers(program, file, trial))]


def answers(program: Path, file: Path, trial: Trial) -> Iterator[Dict[str, object]]:
    """What `rbacd judge` answers. Heads that are text are judged as a batch, all others one by one."""
    words = [program, "judge", "--policy", file, "--budget", str(trial.budget)]
    if not all(is_text(asked.head) for asked in trial.asked):
        for asked in trial.asked:
            yield json.loads(subprocess.run([*words, "--json"], input=asked.head, capture_output=True, check=False).stdout)
        return
    lines = "".join(json.dumps({"head": asked.head.decode(), "facts": asked.facts}) + "\n" for asked in trial.asked)
    told = subprocess.run([*words, "--batch"], input=lines.encode(), capture_output=True, check=True).stdout.decode().splitlines()
    yield from map(json.loads, told)


def is_text(head: bytes) -> bool:
    """Whether a line of a batch can have the head."""
    try:
        head.decode()
    except UnicodeDecodeError:
        return False
    return True


def of_the_cases() -> Iterator[Trial]:
    """Each filter of examples/filters with all heads of heads.txt, and with the heads and facts of its own rows."""
    every = [Asked(cases.bytes_of(head), {}) for _, head, _, _ in cases.rows("heads.txt", 3)]
    heads = [asked for asked in every if is_text(asked.head)]
    found = cases.filters()
    yield Trial("heads that are no text", found["any_any"], BUDGET, [asked for asked in every if not is_text(asked.head)])
    own: Dict[str, List[Asked]] = {name: [] for name in found}
    for _, _, name, target, fields, facts, _ in cases.rows("verdicts.txt", 6):
        own[name].append(Asked(cases.head_of(target, fields), json.loads(facts)))
    for _, name, _, fields, facts, _, _ in cases.rows("conditions.txt", 6):
        own[name].append(Asked(cases.head_of("/", fields), json.loads(facts)))
    for name, message in found.items():
        yield Trial(name, message, BUDGET, heads + own[name])
    for _, name, budget, _, _, _, _ in cases.rows("conditions.txt", 6):
        yield Trial(f"{name} of {budget}", found[name], int(budget), own[name])


# what random filters test and random heads have
WORDS = ["", "a", "ab", "b", "abc", "A", "é", "a,b", "alice"]
NAMES = ["x-user", "x-a", "cookie", ":path", ":method", ":authority", "user-agent"]
TARGETS = ["/", "/a", "/ab?a=b", "/abc", "/A", "/b/a", "/%61", "/é", "/a#b", "/a?a?b"]
METHODS = ["GET", "POST", "A", "ALICE"]
CONDITIONS = ['(== request.method "GET")', '(startsWith request.path "/a")', '(== (index request.headers "x-user") "alice")',
              '(in request.method (list "GET" "POST"))', '(> (size request.path) 3)', '(== source.port 80)', 'connection.mtls',
              '(== (field request.headers "x-a") "a")', '(has request.headers "x-user")', '(&& (contains request.url_path "b") (! connection.mtls))',
              '(|| (== (/ 1 source.port) 0) (== request.host "h"))', '(== request.scheme "http")', '(== (+ request.method "a") "GETa")',
              '(== (index (list 1 2) source.port) 2)', '(matches request.path)', '(+ request.path 1)', '(== (? connection.mtls 1 2) 1)']
RANGES = [(b"10.0.0.0", 8), (b"10.1.2.3", 32), (b"0.0.0.0", 0), (b"::1", 128), (b"2001:db8::", 32)]
BAD_RANGES = [(b"10.0.0", 8), (b"10.0.0.0", 33), (b"::1", 129)]
FACTS = {"source.address": ["1.2.3.4:80", ""], "source.port": [0, 80, 65535], "destination.port": [1, 80], "connection.mtls": [True, False],
         "remote_ip": ["10.0.0.1", "::1", "255.255.255.255"], "direct_remote_ip": ["10.0.0.1", "2001:db8::1"], "destination_ip": ["10.1.2.3"],
         "connection.requested_server_name": ["a", "alice"], "connection.id": [0, 2**64 - 1], "request.scheme": ["http", "https", ""]}


class Making:
    """Makes filters and heads by chance."""

    def __init__(self, seed: int):
        self.chance = random.Random(seed)

    def one_of(self, choices):
        return self.chance.choice(choices)

    def word(self) -> bytes:
        """A text to compare with; an empty one, which only some tests take, is rare."""
        return self.one_of(WORDS if self.chance.random() < 0.02 else WORDS[1:]).encode()

    def matcher(self) -> bytes:
        kind = self.one_of([wire.EXACT, wire.PREFIX, wire.SUFFIX, wire.CONTAINS])
        return wire.string_matcher(kind, self.word(), self.chance.random() < 0.3)

    def header_rule(self, number: int) -> bytes:
        tests = [wire.text(4, self.word()), wire.flag(7, 1), wire.text(9, self.word()), wire.text(13, self.matcher()),
                 wire.text(6, wire.flag(1, 0) + wire.flag(2, 9))]
        return wire.text(number, wire.text(1, self.one_of(NAMES).encode()) + self.one_of(tests) + (wire.flag(8, 1) if self.chance.random() < 0.2 else b""))

    def address_rule(self, number: int) -> bytes:
        text, length = self.one_of(RANGES if self.chance.random() < 0.98 else BAD_RANGES)
        return wire.text(number, wire.text(1, text) + wire.text(2, wire.flag(1, length)))

    def rule(self, depth: int, is_principal: bool) -> bytes:
        if depth and self.chance.random() < 0.4:
            kind = self.chance.randrange(3)
            if kind == 2:
                return wire.none_of(self.rule(depth - 1, is_principal))
            return (wire.every if kind else wire.either)([self.rule(depth - 1, is_principal) for _ in range(self.chance.randrange(1, 4))])
        if is_principal:
            leaves = [lambda: wire.ANY, lambda: self.header_rule(6), lambda: self.address_rule(11), lambda: self.address_rule(10),
                      lambda: wire.text(9, wire.text(1, self.matcher())), lambda: wire.text(4, wire.text(2, self.matcher()))]
        else:
            leaves = [lambda: wire.ANY, lambda: self.header_rule(4), lambda: self.address_rule(5), lambda: wire.text(10, wire.text(1, self.matcher())),
                      lambda: wire.flag(6, self.one_of([1, 80] if self.chance.random() < 0.98 else [70000])), lambda: wire.text(9, self.matcher())]
        return self.one_of(leaves)()

    def filter(self) -> bytes:
        entries = []
        for name in self.chance.sample(["p", "q", "", "é", "a", "pp"], self.chance.randrange(1, 5)):
            rules = [[self.rule(2, is_principal) for _ in range(self.chance.randrange(1, 3))] for is_principal in (False, True)]
            condition = wire.text(4, checked_expression(expression_of(self.one_of(CONDITIONS)))) if self.chance.random() < 0.5 else b""
            entries.append(wire.entry(name.encode(), wire.policy(*rules) + condition))
        action = wire.flag(1, 1) if self.chance.random() < 0.3 else b""
        message = wire.text(1, action + b"".join(entries))
        if self.chance.random() < 0.1:
            # a byte is changed
            at = self.chance.randrange(len(message))
            message = message[:at] + bytes([self.chance.randrange(256)]) + message[at + 1:]
        return message

    def asked(self) -> Asked:
        lines = [f"{self.one_of(NAMES[:3] + ['X-User', 'user-agent'])}: {self.one_of(WORDS)}" for _ in range(self.chance.randrange(4))]
        version = self.one_of(["1.1", "1.1", "1.0"])
        hosts = ["Host: h"] * (self.chance.random() < 0.95)
        head = f"{self.one_of(METHODS)} {self.one_of(TARGETS)} HTTP/{version}\r\n" + "".join(f"{line}\r\n" for line in [*hosts, *lines, ""])
        facts = {name: self.one_of(values) for name, values in FACTS.items() if self.chance.random() < 0.5}
        return Asked(head.encode(), facts)


def at_random(count: int = RANDOM_FILTERS) -> Iterator[Trial]:
    for number in range(count):
        making = Making(SEED * 1_000_000 + number)
        message = making.filter()
        yield Trial(f"random filter {number}", message, making.one_of([BUDGET, BUDGET, 100]), [making.asked() for _ in range(HEADS_OF_EACH)])


def differences(program: Path, judge: Path, folder: Path, trials: List[Trial]) -> Tuple[int, int, List[str]]:
    """How many filters were admitted, how many heads were judged, and what differs."""
    admitted = judged = 0
    wrong = []
    with concurrent.futures.ThreadPoolExecutor() as pool:
        said = list(pool.map(lambda numbered: by_program(program, folder / f"filter{numbered[0]}", numbered[1]), enumerate(trials)))
    for trial, got, wanted in zip(trials, by_library(judge, trials), said):
        if got != wanted:
            at = next((at for at, (one, other) in enumerate(zip(got, wanted)) if one != other), min(len(got), len(wanted)))
            asked = trial.asked[at - 1] if at else None
            wrong.append(f"{trial.about}: {got[at:at + 1]}, and rbacd says {wanted[at:at + 1]}: {asked}")
        admitted += wanted[0].startswith("admitted")
        judged += len(wanted) - 1
    return admitted, judged, wrong
