"""Work in a process of its own, which is ended after its time: the solver does not always keep its own."""
import io
import os
import pickle
import select
import signal
import time
import traceback
from typing import BinaryIO, Callable, Iterator, List, NamedTuple

from .questions import NotDecided
from .terms import NotModelled

# More seconds than the work itself may take.
GRACE = 2.0


class Done(NamedTuple):
    """What work found, and why it did not end by itself, or nothing."""

    found: List[object]
    why: str = ""


class _End(NamedTuple):
    """The end of the work, and why there is no more."""

    why: str


def worked(work: Callable[[], Iterator[object]], seconds: float, meanwhile: Callable[[], None] = lambda: None) -> Done:
    """What the work yields in at most so many seconds; something else is done meanwhile."""
    until = time.monotonic() + seconds + GRACE
    reads, writes = os.pipe()
    child = os.fork()
    if not child:
        os.close(reads)
        with os.fdopen(writes, "wb") as file:
            _work(work, file)
        os._exit(0)
    os.close(writes)
    try:
        meanwhile()
        with os.fdopen(reads, "rb", buffering=0) as file:
            return _collected(file, until)
    finally:
        _end(child)


def _work(work: Callable[[], Iterator[object]], file: BinaryIO) -> None:
    """Writes what the work yields, and how it ended."""
    try:
        for one in work():
            pickle.dump(one, file)
            file.flush()
        end = _End("")
    except (NotModelled, NotDecided) as gap:
        end = _End(str(gap))
    except BaseException as fault:  # whatever it is, the other side has to hear of it
        end = _End("a fault of the tool: " + "".join(traceback.format_exception(fault)).strip())
    pickle.dump(end, file)


def _collected(file, until: float) -> Done:
    """What is read until the end, or until the time is over and nothing is there."""
    data = b""
    while True:
        if not select.select([file], [], [], max(0.0, until - time.monotonic()))[0]:
            return _done(data, "no answer in time")
        part = file.read(65536)
        if part:
            data += part
            continue
        return _done(data, "the process that decides ended")


def _done(data: bytes, why: str) -> Done:
    """What some bytes say was found; why there is no more, if they do not say it."""
    found = _objects(data)
    if found and isinstance(found[-1], _End):
        return Done(found[:-1], found[-1].why)
    return Done(found, why)


def _objects(data: bytes) -> List[object]:
    """The whole objects of some bytes."""
    stream, found = io.BytesIO(data), []
    while True:
        try:
            found.append(pickle.load(stream))
        except (EOFError, pickle.UnpicklingError):
            return found


def _end(child: int) -> None:
    """Ends the process, if it has not ended."""
    try:
        os.kill(child, signal.SIGKILL)
    except ProcessLookupError:
        pass
    os.waitpid(child, 0)
