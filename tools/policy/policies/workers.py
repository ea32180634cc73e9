"""Work on many things by several processes."""
import os
import signal
from typing import Callable, Iterable, List, Optional, TypeVar

Given, Made = TypeVar("Given"), TypeVar("Made")
AT_ONCE = os.cpu_count() or 1
# So many things at least are the work of each process if nothing else is said, and so many at most are given to one at a time.
FEWEST, MOST = 2, 16

# What the processes of a pool do: they have it from the process that starts them.
_work: Optional[Callable] = None


def in_processes(work: Callable[[Given], Made], given: List[Given], fewest: int = FEWEST) -> Iterable[Made]:
    """What is made of each thing, in order, by a process for each processor; it has to be small, as it is copied."""
    count = min(AT_ONCE, len(given) // fewest)
    if count < 2:
        yield from map(work, given)
        return
    # it takes as long as reading two files, and most commands have one
    import multiprocessing

    pool = multiprocessing.get_context("fork").Pool(count, _start, (work,))
    try:
        yield from pool.imap(_one, given, max(1, min(MOST, len(given) // (4 * count))))
    finally:
        pool.terminate()
        pool.join()


def _start(work: Callable) -> None:
    """Begins a process: who interrupts the command is answered by the process that started this one."""
    global _work
    _work = work
    signal.signal(signal.SIGINT, signal.SIG_IGN)


def _one(one: object) -> object:
    return _work(one)
