"""Records of `rbacd serve`: the requests of connections, each with the filters that were in force."""
import json
import re
from typing import Dict, Iterator, List, NamedTuple, Optional

from .engine import Request
from .files import name_of, read_record
from .forms.binary import filters_in
from .places import Mistake
from .wrap import HEAD

BLANK_LINE = re.compile(rb"\r?\n\r?\n")
LENGTH = re.compile(rb"^content-length:[ \t]*(\d{1,18})[ \t]*\r?$", re.IGNORECASE | re.MULTILINE)
CLOSES = re.compile(rb"^connection:(?:.*,)?[ \t]*close[ \t]*(?:,.*)?\r?$", re.IGNORECASE | re.MULTILINE)
CODED = re.compile(rb"^transfer-encoding:", re.IGNORECASE | re.MULTILINE)
# Bytes of a head that no head has.
LONGEST_HEAD = 65_536
EVENTS = ("ads_up", "ads_bytes", "ads_lost", "http_open", "http_bytes", "http_closed")
# A response that the update stream brought, as the filters in it by name.
Response = Dict[str, bytes]


class Recorded(NamedTuple):
    """A request: the file and the line where its head ends, and how many responses the update stream had brought by then."""

    file: str
    line: int
    request: Request
    responses: int

    def told(self) -> str:
        """The method and the target."""
        return " ".join(self.request.head.split(b"\r\n")[0].split(b"\n")[0].decode().split(" ")[:2])


class Record(NamedTuple):
    """The requests of a file, in order, and the responses of the update stream."""

    requests: List[Recorded]
    responses: List[Response]


class _Connection:
    """The bytes of one connection that are not read yet."""

    def __init__(self, facts: dict):
        self.facts, self.data, self.body, self.is_over = facts, b"", 0, False

    def heads(self, more: bytes) -> Iterator[bytes]:
        """The heads that end in more bytes."""
        self.data += b"" if self.is_over else more
        while not self.is_over:
            passed = min(self.body, len(self.data))
            self.body, self.data = self.body - passed, self.data[passed:]
            self.data = self.data.lstrip(b"\r\n") if not self.body else self.data
            found = BLANK_LINE.search(self.data)
            if self.body or found is None or found.end() > LONGEST_HEAD:
                return
            head, self.data = self.data[: found.end()], self.data[found.end() :]
            length = LENGTH.search(head)
            self.body = int(length[1]) if length else 0
            is_old = b" HTTP/1.0" in head.split(b"\n")[0]
            self.is_over = is_old or bool(CLOSES.search(head) or CODED.search(head))
            yield head


class _Stream:
    """The frames of the update stream."""

    def __init__(self):
        self.data = b""

    def responses(self, more: bytes) -> Iterator[Response]:
        """The responses whose frames end in more bytes; what is no frame of filters is left out."""
        self.data += more
        while len(self.data) >= HEAD and len(self.data) - HEAD >= int.from_bytes(self.data[1:HEAD], "big"):
            end = HEAD + int.from_bytes(self.data[1:HEAD], "big")
            message, self.data = self.data[HEAD:end], self.data[end:]
            yield {name: data for name, data in filters_in(message) if name}


def record_of(name: str) -> Record:
    """The requests of a record; raises Mistake at a line that is no event, and OSError."""
    found, connections, stream = Record([], []), {}, _Stream()
    for number, line in enumerate(read_record(name), 1):
        event = _event(name, number, line)
        kind, key = event["event"], event.get("k")
        if kind == "ads_bytes":
            found.responses.extend(stream.responses(_bytes(name, number, event)))
        elif kind in ("ads_up", "ads_lost"):
            stream = _Stream()
        elif kind == "http_open":
            connections[key] = _Connection(event.get("facts") or {})
        elif kind == "http_closed":
            connections.pop(key, None)
        elif key in connections:
            for head in connections[key].heads(_bytes(name, number, event)):
                request = _request(head, connections[key].facts)
                if request is not None:
                    found.requests.append(Recorded(name_of(name), number, request, len(found.responses)))
    return found


def _event(name: str, number: int, line: bytes) -> dict:
    """The event of a line."""
    try:
        event = json.loads(line)
    except ValueError:
        event = None
    if not isinstance(event, dict) or event.get("event") not in EVENTS:
        raise Mistake(f"{name_of(name)}:{number}: this line is no event of a record of `rbacd serve`")
    return event


def _bytes(name: str, number: int, event: dict) -> bytes:
    try:
        return bytes.fromhex(event.get("hex", ""))
    except (TypeError, ValueError):
        raise Mistake(f"{name_of(name)}:{number}: `hex` has pairs of hexadecimal digits") from None


def _request(head: bytes, facts: dict) -> Optional[Request]:
    """The request of a head, or None if it is not UTF-8: such a head is answered 400."""
    try:
        head.decode()
    except UnicodeDecodeError:
        return None
    return Request(head, facts)
