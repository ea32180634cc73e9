"""Fields that leave a request before the library gets it."""

from __future__ import annotations

import re
from typing import Iterable, List, Tuple, Union

Part = Union[str, bytes]

# a field's name (RFC 9110, section 5.6.2)
_NAME = re.compile(r"[!#$%&'*+.^_`|~0-9A-Za-z-]+")
# the empty lines before a head, and its request line
_BEGINNING = re.compile(rb"(?:\r?\n)*[^\n]*\n")
# the attributes of conditions that read a field without its name
_ATTRIBUTES = {b"user-agent": b"useragent", b"x-request-id": b"id"}


def _lowered(name: Part) -> bytes:
    """The bytes of a name, with its ASCII letters in lower case."""
    return (name.encode("utf-8", "surrogateescape") if isinstance(name, str) else bytes(memoryview(name))).lower()


def _checked(name: str) -> bytes:
    """The name of a field that can be ignored."""
    if not isinstance(name, str):
        raise TypeError(f"ignore: a name is a str, not {type(name).__name__}")
    if name.startswith(":"):
        raise ValueError(f"ignore: {name!r} is no field: it is part of each request")
    if not _NAME.fullmatch(name):
        raise ValueError(f"ignore: {name!r} is not the name of a field")
    if name.lower() == "host":
        raise ValueError(f"ignore: {name!r} cannot be ignored: a request needs its host")
    return name.lower().encode()


def _has_text(low: bytes, text: bytes) -> bool:
    """Whether a message in lower case has this text, with its length before it."""
    return len(text) < 128 and (bytes([len(text)]) + text).lower() in low


class Ignored:
    """The names of fields that are left out."""

    def __init__(self, names: Iterable[str]) -> None:
        if isinstance(names, (str, bytes)):
            raise TypeError("ignore: several names are a list, not one text")
        self._names = dict.fromkeys(_checked(name) for name in names)
        # a whole line of a head; of bytes, `^` is after a line feed alone
        self._line = re.compile(rb"^(?:%s):[\t -~\x80-\xff]*\r?\n" % b"|".join(map(re.escape, self._names)), re.MULTILINE | re.IGNORECASE)

    def __bool__(self) -> bool:
        return bool(self._names)

    def lines_without(self, lines: Iterable[Tuple[Part, Part]]) -> List[Tuple[Part, Part]]:
        """The lines of other names."""
        return [(name, value) for name, value in lines if _lowered(name) not in self._names]

    def head_without(self, head: bytes) -> bytes:
        """The head without whole lines of these names. What is no such line stays, and the library judges it."""
        beginning = _BEGINNING.match(head)
        if beginning is None:
            return head
        return beginning[0] + self._line.sub(b"", head[beginning.end():])

    def texts_of(self, message: bytes) -> Tuple[str, ...]:
        """Those names that the message has as a text, with its length before it, in any case."""
        if not self._names:
            return ()
        low = message.lower()
        return tuple(name.decode() for name in self._names if _has_text(low, name) or _has_text(low, _ATTRIBUTES.get(name, name)))
