"""The engine `rbacd` as processes: what it answers on a filter, and what it decides on requests.

It is the program that `RBACD` names, the proved one of this checkout (`bin/rbacd build` builds it), one that was installed
beside this tool, one on the path, or the one of this checkout that is not proved. It is never built from here.
"""
import concurrent.futures
import json
import os
import pathlib
import shutil
import subprocess
import tempfile
import threading
from typing import Callable, Dict, Iterable, List, NamedTuple, Optional

from .bounds import Budget

TOP = pathlib.Path(__file__).resolve().parents[3]
BUILT = TOP / "crates" / "rbacd" / "out" / "rbacd"
# Compiled without a proof, by `bin/rbacd build --unproved`.
UNPROVED = BUILT.with_name("unproved")
# Beside this tool where both are installed into one prefix.
INSTALLED = TOP.parent / "bin" / "rbacd" if TOP.name == "lib" else BUILT
# How many seconds an answer may take, and how many requests a second are judged at least.
PATIENCE = 60
REQUESTS_A_SECOND = 100
AT_ONCE = max(2, os.cpu_count() or 2)


class NoEngine(Exception):
    """Why there is no engine to ask."""


class Admission(NamedTuple):
    """The engine's answer on a filter, an object of `check --json`."""

    answer: dict

    @property
    def number(self) -> int:
        """The refusal's number, 0 if the filter is admitted."""
        return self.answer.get("refused", 0)

    @property
    def bound(self) -> int:
        """How many steps the conditions may take."""
        return self.answer.get("bound", 0)

    @property
    def line(self) -> str:
        """The answer as `check` prints it."""
        if self.number:
            return f"refused: {self.number} {self.answer['name']}"
        return f"admitted: policies {self.answer['policies']} bound {self.bound}"


class Request(NamedTuple):
    """A request: the bytes of its head, and the connection's facts."""

    head: bytes
    facts: dict


def find(named: Optional[str] = None) -> pathlib.Path:
    """The engine's program; raises NoEngine."""
    asked = named or os.environ.get("RBACD")
    if asked:
        found = shutil.which(asked)
        if found is None:
            raise NoEngine(f"{asked} is no program that can be run")
        return pathlib.Path(found).absolute()
    for place in (BUILT, INSTALLED):
        if os.access(place, os.X_OK):
            return place
    found = shutil.which("rbacd")
    if found is not None and pathlib.Path(found).resolve() != TOP / "bin" / "rbacd":
        return pathlib.Path(found).absolute()
    if os.access(UNPROVED, os.X_OK):
        return UNPROVED
    raise NoEngine(
        "rbacd is not built: run bin/rbacd build (`bin/rbacd build --unproved` takes two minutes), or name a program by "
        "--engine or RBACD"
    )


class Engine:
    """A program of the engine, with a folder for the files that it reads."""

    def __init__(self, program: pathlib.Path):
        self.program = program
        self.room = tempfile.TemporaryDirectory(prefix="policy-")
        self.files: Dict[bytes, str] = {}
        self.lock = threading.Lock()

    def __enter__(self) -> "Engine":
        return self

    def __exit__(self, *_) -> None:
        self.room.cleanup()

    def _file(self, data: bytes) -> str:
        """A file with these bytes."""
        with self.lock:
            if data not in self.files:
                # several processes may use the folder
                path = os.path.join(self.room.name, f"{os.getpid()}-{len(self.files)}")
                with open(path, "wb") as file:
                    file.write(data)
                self.files[data] = path
            return self.files[data]

    def _run(self, words: List[str], given: bytes = b"", patience: int = PATIENCE) -> subprocess.CompletedProcess:
        try:
            return subprocess.run([self.program, *words], input=given, capture_output=True, timeout=patience)
        except OSError as fault:
            raise NoEngine(f"{self.program} cannot be run: {fault.strerror}") from None
        except subprocess.TimeoutExpired:
            raise NoEngine(f"{self.program} does not answer within {patience} seconds") from None

    def _object(self, line: str) -> dict:
        """The object of a line that the engine printed."""
        try:
            answer = json.loads(line)
        except ValueError:
            answer = None
        if not isinstance(answer, dict):
            raise NoEngine(f"{self.program} printed {line[:200]!r}: is this rbacd?")
        if "error" in answer and "line" not in answer:
            raise NoEngine(f"{self.program}: {answer['error']}: {answer.get('cause')}")
        return answer

    def admission(self, data: bytes, budget: Budget) -> Admission:
        """What the engine says of a filter."""
        ran = self._run(["check", "--policy", self._file(data), *budget.words(), "--json"])
        answer = self._object(ran.stdout.decode(errors="replace").strip())
        if not ("policies" in answer or "refused" in answer):
            raise NoEngine(f"{self.program} answered {answer}: is this rbacd?")
        return Admission(answer)

    def admissions(self, filters: Iterable[bytes], budget: Budget) -> List[Admission]:
        """What the engine says of several filters, several at a time."""
        return list(in_parallel(lambda data: self.admission(data, budget), filters))

    def decisions(self, data: bytes, requests: List[Request], budget: Budget, explain: bool = False) -> List[dict]:
        """What the engine decides on requests, by one process: the object that `judge --json` prints for each."""
        words = ["judge", "--policy", self._file(data), *budget.words(), "--json", "--batch"]
        words += ["--explain"] if explain else []
        given = "".join(map(_batch_line, requests)).encode()
        ran = self._run(words, given, PATIENCE + len(requests) // REQUESTS_A_SECOND)
        lines = ran.stdout.decode(errors="replace").splitlines()
        if ran.returncode == 1:  # the filter is refused, and one line says so
            lines = lines[:1] * len(requests)
        if len(lines) != len(requests):
            told = "; ".join(line.strip() for line in ran.stderr.decode(errors="replace").splitlines())
            raise NoEngine(f"{self.program} answered {len(lines)} of {len(requests)} requests: {told}")
        answers = map(self._object, lines)
        # an object with a line's number says that the facts were bad
        return [{"bad_facts": answer["cause"]} if "line" in answer else answer for answer in answers]


def _batch_line(request: Request) -> str:
    """A request as a line of `judge --batch`."""
    facts = {"facts": request.facts} if request.facts else {}
    return json.dumps({"head": request.head.decode(), **facts}) + "\n"


def in_parallel(work: Callable, given: Iterable) -> Iterable:
    """What is made of each, in order, several at a time."""
    given = list(given)
    if len(given) < 2:
        yield from map(work, given)
        return
    with concurrent.futures.ThreadPoolExecutor(AT_ONCE) as pool:
        yield from pool.map(work, given)
