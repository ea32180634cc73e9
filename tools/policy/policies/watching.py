"""`--watch`: a command that runs again whenever its files change."""
import argparse
import gc
import os
import time
from typing import Callable, Dict, List, Tuple

from . import output
from .files import files_in

# How often the files are looked at, in seconds.
PAUSE = 0.5
# What tells that a file has changed: its time, its size and its number.
State = Dict[str, Tuple[int, int, int]]


def add_watch(parser: argparse.ArgumentParser) -> None:
    """Gives a command the option to run again."""
    parser.add_argument("--watch", action="store_true", help="run again whenever a file changes, until it is interrupted")


def watched(words: argparse.Namespace, names: List[str], work: Callable[[argparse.Namespace], int]) -> int:
    """The status of the work; with `--watch` it is done again whenever one of the files or folders changes."""
    if not words.watch:
        return work(words)
    if "-" in names:
        words.parser.error("--watch takes files, not standard input")
    while True:
        before = state_of(names)
        status = work(words)
        output.tell(f"policy: {time.strftime('%H:%M:%S')}: status {status}; waiting for a change")
        # what was made is not needed any more
        gc.collect()
        wait_for_change(names, before)


def wait_for_change(names: List[str], before: State) -> None:
    """Returns once a file is not as it was."""
    while state_of(names) == before:
        time.sleep(PAUSE)


def state_of(names: List[str]) -> State:
    """The state of each file, and of those in each folder."""
    found: State = {}
    for name in names:
        for file in files_in(name) if os.path.isdir(name) else [name]:
            try:
                known = os.stat(file)
                found[file] = (known.st_mtime_ns, known.st_size, known.st_ino)
            except OSError:
                continue
    return found
