"""What is written: to standard output or to a file, whole or not at all, and words to standard error."""
import os
import sys
import tempfile
import time


# A progress line is for more parts than these, and is written again after a pause, in seconds.
MANY, PAUSE = 20, 0.2


class CannotWrite(Exception):
    """Why an output takes no bytes; no words where its reader closed a pipe."""


def visible(text: str) -> str:
    """A text in which no character controls a terminal: those that are not shown are escaped, but line ends and tabs."""
    return "".join(one if one.isprintable() or one in "\n\t" else _escaped(one) for one in text)


def _escaped(character: str) -> str:
    point = ord(character)
    return f"\\x{point:02x}" if point < 256 else f"\\u{point:04x}" if point < 65536 else f"\\U{point:08x}"


def tell(text: str) -> None:
    """Writes a line to standard error, as far as it takes one."""
    if sys.stderr is None:
        return
    try:
        print(visible(text), file=sys.stderr, flush=True)
    except OSError:
        _drop(sys.stderr)


def write(data: bytes, name: str = "-") -> None:
    """Writes all bytes to standard output or to a file, which else keeps what it held; raises CannotWrite."""
    if name != "-":
        _replace(name, data)
        return
    if sys.stdout is None:
        raise CannotWrite("cannot write: standard output is closed")
    try:
        sys.stdout.flush()
        sys.stdout.buffer.write(data)
        sys.stdout.buffer.flush()
    except BrokenPipeError:
        _drop(sys.stdout)
        raise CannotWrite("") from None
    except OSError as fault:
        _drop(sys.stdout)
        raise CannotWrite(f"cannot write: {fault.strerror}") from None


class Progress:
    """A line on a terminal that says how far a long piece of work is; nothing elsewhere."""

    def __init__(self, what: str, total: int):
        self.what, self.total, self.done = what, total, 0
        self.is_shown = sys.stderr is not None and sys.stderr.isatty() and total > MANY
        self.next = time.monotonic() + PAUSE

    def step(self) -> None:
        """Counts one part more."""
        self.done += 1
        if self.is_shown and (self.done == self.total or time.monotonic() >= self.next):
            self.next = time.monotonic() + PAUSE
            end = "\r\033[K" if self.done == self.total else ""
            try:
                print(f"\rpolicy: {self.what} {self.done} of {self.total}{end}", end="", file=sys.stderr, flush=True)
            except OSError:
                self.is_shown = False


def _replace(name: str, data: bytes) -> None:
    """Writes a file beside the old one, and then puts it in its place."""
    beside = None
    try:
        if os.path.exists(name) and not os.path.isfile(name):
            with open(name, "wb") as file:
                file.write(data)
            return
        handle, beside = tempfile.mkstemp(dir=os.path.dirname(name) or ".", prefix=".policy-")
        with os.fdopen(handle, "wb") as file:
            file.write(data)
        mask = os.umask(0)
        os.umask(mask)
        os.chmod(beside, 0o666 & ~mask)
        os.replace(beside, name)
    except OSError as fault:
        if beside is not None and os.path.exists(beside):
            os.unlink(beside)
        raise CannotWrite(f"cannot write {name}: {fault.strerror}") from None


def _drop(stream) -> None:
    """Lets an output that fails take nothing more, so that the end of the program does not try again."""
    nowhere = os.open(os.devnull, os.O_WRONLY)
    os.dup2(nowhere, stream.fileno())
    os.close(nowhere)


def finish() -> bool:
    """Writes out what is still kept back; whether standard output took it."""
    if sys.stdout is None:
        return True
    try:
        sys.stdout.flush()
        return True
    except BrokenPipeError:
        _drop(sys.stdout)
    except OSError as fault:
        _drop(sys.stdout)
        tell(f"policy: cannot write: {fault.strerror}")
    return False
