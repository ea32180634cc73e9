"""Decides on requests by Envoy's RBAC filters, with the library of include/vupresal.h.

    from vupresal import Facts, Filter

    with Filter(open("filter.bin", "rb").read()) as filter:
        decision = filter.decide("GET", "/about", [("host", "shop.example")], Facts(remote_ip="10.0.0.1"))
        if decision.allowed: ...

Any thread may ask a Filter; a lock lets one call at a time pass. `share` gives another Filter of the same message, and `EachThread` one
to each thread, so that none waits.

What is asked more than once is made once: a Connection checks its facts, and makes each Request for any filters. A FilterSet asks its
filters in order.

    request = Connection(Facts(remote_ip="10.0.0.1")).request("GET", "/about", [("host", "shop.example")])
    decisions = [filter.decide_request(request) for filter in filters]
"""

from __future__ import annotations

import ctypes
import functools
import ipaddress
import struct
import threading
import warnings
from dataclasses import dataclass, fields
from typing import Dict, Iterable, NamedTuple, Optional, Tuple, Union

from . import _ignored, _library

__all__ = ["Bounds", "Connection", "Decision", "EachThread", "Error", "Facts", "Filter", "FilterSet", "Refused", "Request", "SetDecision", "is_proved"]

Address = Union[str, ipaddress.IPv4Address, ipaddress.IPv6Address]
Text = Union[str, bytes]
Lines = Iterable[Tuple[Text, Text]]

_LIBRARY = _library.load()
_MEANINGS = {
    1: "the bytes are not whole fields of Protocol Buffers", 2: "a text is not UTF-8", 3: "a field is unknown, or has the wrong wire type",
    4: "a required part is missing", 5: "a value is outside its range", 6: "a part is known but not supported",
    7: "a policy has a checked and an unchecked condition", 8: "a limit of size, number or depth is exceeded",
    9: "a condition has a name that is not known", 10: "a condition's function does not take these operands",
    11: "a condition's type map names another type than the one found", 12: "a condition's reference map names something else",
    13: "the type of a condition is not bool", 14: "an empty list or map in a condition has no type",
    15: "the conditions may take more steps than the budget has", 19: "memory ran out", 20: "a condition took more steps than its bound",
    -1: "it is closed, or nothing was made", -2: "limits, a budget, a port, an address or a protocol are out of their ranges", 400: "the request or a text of its facts is malformed",
    431: "the request is outside the limits", 501: "the request has a Transfer-Encoding field",
}


def is_proved() -> bool:
    """Whether each function of the library is proved to meet its contract."""
    return bool(_library.version(_LIBRARY).is_proved)


class Error(Exception):
    """There is no decision. The request is to be refused; from 400 on, the status is one of HTTP."""

    def __init__(self, status: int) -> None:
        super().__init__(_MEANINGS.get(status, f"status {status}"))
        self.status = status


class Refused(Error):
    """A filter's message is refused, at this place."""

    def __init__(self, status: int, place: str) -> None:
        super().__init__(status)
        self.place = place

    def __str__(self) -> str:
        return f"{super().__str__()}: {self.place}" if self.place else super().__str__()


class Decision(NamedTuple):
    """What a filter says of a request, and the name of the first policy that matches, if one does."""

    allowed: bool
    policy: Optional[str]


@dataclass(frozen=True)
class Facts:
    """What is known of a connection; None stands for an absent fact."""

    scheme: str = "http"
    source_address: Optional[str] = None
    destination_address: Optional[str] = None
    requested_server_name: Optional[str] = None
    tls_version: Optional[str] = None
    subject_peer_certificate: Optional[str] = None
    dns_san_peer_certificate: Optional[str] = None
    uri_san_peer_certificate: Optional[str] = None
    direct_remote_ip: Optional[Address] = None
    remote_ip: Optional[Address] = None
    destination_ip: Optional[Address] = None
    source_port: Optional[int] = None
    destination_port: Optional[int] = None
    mtls: Optional[bool] = None
    connection_id: Optional[int] = None

    @functools.cached_property
    def _input(self) -> _library.FactsInput:
        """The facts as C has them, made once."""
        facts = _library.FactsInput()
        facts.scheme = _bytes_of(self.scheme)
        for name in ("source_address", "destination_address", "requested_server_name", "tls_version", "subject_peer_certificate",
                     "dns_san_peer_certificate", "uri_san_peer_certificate"):
            text = getattr(self, name)
            setattr(facts, name, _library.Text(_bytes_of(text or ""), text is not None))
        for name in ("direct_remote_ip", "remote_ip", "destination_ip"):
            address = getattr(self, name)
            setattr(facts, name, _bytes_of(b"" if address is None else ipaddress.ip_address(address).packed))
        facts.source_port, facts.destination_port = _port_of(self.source_port), _port_of(self.destination_port)
        facts.mtls = -1 if self.mtls is None else int(bool(self.mtls))
        if self.connection_id is not None:
            facts.connection_id, facts.has_connection_id = _in_range(self.connection_id, 2**64, "a connection's number"), True
        return facts

    @functools.cached_property
    def _address(self) -> int:
        return ctypes.addressof(self._input)

    def __getstate__(self) -> Dict[str, object]:
        """What is pickled: without what was made for C."""
        return {name: value for name, value in self.__dict__.items() if not name.startswith("_")}


@dataclass(frozen=True)
class Bounds:
    """The limits of the requests that a filter is asked for. All six 0 are the greatest: 64 fields, 128 bytes of a name, 4096 of a value, 32
    of a method, 4096 of a target, 1024 of another text. Otherwise each is from 1 to that. `visits` bounds the measuring of conditions; 0
    is 4194304."""

    fields: int = 0
    name: int = 0
    value: int = 0
    method: int = 0
    target: int = 0
    text: int = 0
    visits: int = 0

    def _input(self) -> _library.Bounds:
        return _library.Bounds(*(_in_range(getattr(self, it.name), 2**64, f"the limit `{it.name}`") for it in fields(self)))


_PROTOCOLS = {"HTTP/1.0": (False, 0), "HTTP/1.1": (True, 0), "HTTP/2": (True, 2), "HTTP/3": (True, 3)}


def _protocol_of(protocol: str) -> Tuple[bool, int]:
    """How C has the protocol."""
    if protocol not in _PROTOCOLS:
        raise ValueError(f"a protocol is one of {', '.join(_PROTOCOLS)}, not {protocol}")
    return _PROTOCOLS[protocol]


def _in_range(number: int, end: int, what: str) -> int:
    """The number; ctypes would cut one of more bits, and another would match."""
    if isinstance(number, bool) or not isinstance(number, int):
        raise TypeError(f"{what} is an int, not {type(number).__name__}")
    if not 0 <= number < end:
        raise ValueError(f"{what} is from 0 to {end - 1}, not {number}")
    return number


def _port_of(port: Optional[int]) -> int:
    return -1 if port is None else _in_range(port, 2**16, "a port")


def _bytes_of(text: Union[str, bytes]) -> _library.Bytes:
    """These bytes, which the struct keeps alive; ctypes keeps what a field of type c_char_p was given."""
    raw = text.encode("utf-8", "surrogateescape") if isinstance(text, str) else text
    return _library.Bytes(raw, len(raw))


_NO_FACTS = Facts()
# a vupresal_decision
_ANSWER = struct.Struct("Q??").unpack_from
_DECIDE, _DECIDE_HEAD = _LIBRARY.vupresal_filter_decide, _LIBRARY.vupresal_filter_decide_head


class Filter:
    """An admitted filter."""

    def __init__(self, message: bytes, budget: int = 1_000_000, bounds: Bounds = Bounds(), ignore: Iterable[str] = ()) -> None:
        """Admits the message of an HTTP RBAC filter; raises Refused if it is at fault. The budget is the most steps that its
        conditions may take for one request, 1 to 100,000,000. A number that C cannot hold raises ValueError.

        `ignore` names fields, in any case, whose lines are left out of each request before the limits apply; a name that is none, or the
        host's, raises ValueError. A filter that reads such a field finds none: a DENY on it never matches. There is a warning, and
        `may_read_ignored` has the name, if the message has it as a text. A name that a condition puts together, or meets in a loop over
        all headers, is not found."""
        self._ignored = _ignored.Ignored(ignore)
        self.may_read_ignored: Tuple[str, ...] = self._ignored.texts_of(message)
        for name in self.may_read_ignored:
            warnings.warn(f"the filter may read the field {name}, which is ignored: it finds none", stacklevel=2)
        self._open()
        place = ctypes.create_string_buffer(512)
        status = _LIBRARY.vupresal_filter_admit(ctypes.byref(self._handle), message, len(message), ctypes.byref(bounds._input()),
                                                _in_range(budget, 2**64, "a budget"), place, len(place))
        if status:
            raise Refused(status, place.value.decode())

    def _open(self) -> None:
        """An empty handle, and what each call needs."""
        self._lock, self._handle, self._room, self._output = threading.Lock(), _library.Handle(), _library.Room(), _library.DecisionOutput()
        # the decisions that were given so far, by what the library wrote: one for each policy, and one for none
        self._known: Dict[Tuple[int, bool, bool], Decision] = {}
        self._at, self._output_at = ctypes.addressof(self._handle), ctypes.addressof(self._output)

    def share(self) -> Filter:
        """Another Filter of the same message, which is not admitted again. Raises Error if this one is closed."""
        other = Filter.__new__(Filter)
        other._ignored, other.may_read_ignored = self._ignored, self.may_read_ignored
        other._open()
        with self._lock:
            status = _LIBRARY.vupresal_filter_share_distinct(ctypes.byref(self._handle), ctypes.byref(other._handle))
        if status:
            raise Error(status)
        return other

    def decide(self, method: Text, target: Text, lines: Lines, facts: Facts = _NO_FACTS, is_http11: bool = True,
               protocol: Optional[str] = None) -> Decision:
        """The decision on a request by its parts. The host is a line `host` or `:authority`. The protocol is "HTTP/1.0", "HTTP/1.1",
        "HTTP/2" or "HTTP/3"; without it `is_http11` says which of the first two. Raises Error without a decision.
        Facts are made ready for C once: keep those of a connection for its next requests."""
        http11, number = (bool(is_http11), 0) if protocol is None else _protocol_of(protocol)
        at = facts._address
        if self._ignored:
            lines = self._ignored.lines_without(lines)
        with self._lock:
            status = _DECIDE(self._at, self._room.put(method, target, lines, http11, number), at, self._output_at)
            return self._decision(status)

    def decide_head(self, head: bytes, facts: Facts = _NO_FACTS) -> Decision:
        """The decision on a request by its whole head of HTTP/1. Raises Error without a decision."""
        at = facts._address
        if self._ignored:
            head = self._ignored.head_without(head)
        with self._lock:
            return self._decision(_DECIDE_HEAD(self._at, head, len(head), at, self._output_at))

    def decide_request(self, request: Request) -> Decision:
        """The decision on a request that was made before: as on its parts, or on its head. No field of it is ignored. Raises Error without
        a decision."""
        with self._lock, request._lock:
            return self._decision(_LIBRARY.vupresal_filter_decide_request(self._at, request._at, self._output_at))

    def _decision(self, status: int) -> Decision:
        """What a call gave, which the lock still keeps."""
        if status:
            raise Error(status)
        answer = _ANSWER(self._output)
        if answer not in self._known:
            matched, is_matched, is_allowed = answer
            self._known[answer] = Decision(is_allowed, self._name(matched) if is_matched else None)
        return self._known[answer]

    def _name(self, number: int) -> str:
        """The name of a policy."""
        size = _LIBRARY.vupresal_filter_policy_name(ctypes.byref(self._handle), number, None, 0)
        room = ctypes.create_string_buffer(size + 1)
        _LIBRARY.vupresal_filter_policy_name(ctypes.byref(self._handle), number, room, size)
        return room.raw[:size].decode()

    @property
    def policies(self) -> int:
        """The number of policies."""
        with self._lock:
            return _LIBRARY.vupresal_filter_policies(ctypes.byref(self._handle))

    @property
    def bound(self) -> int:
        """The most steps that the conditions together take for one request."""
        with self._lock:
            return _LIBRARY.vupresal_filter_bound(ctypes.byref(self._handle))

    def close(self) -> None:
        """Frees the filter, if no other one shares it. It may be closed again."""
        with self._lock:
            _LIBRARY.vupresal_filter_free(ctypes.byref(self._handle))

    def __enter__(self) -> Filter:
        return self

    def __exit__(self, *_: object) -> None:
        self.close()

    def __del__(self) -> None:
        if hasattr(self, "_handle"):
            self.close()


class EachThread:
    """A filter that is admitted once, and shared with each thread when it first asks."""

    def __init__(self, message: bytes, budget: int = 1_000_000, bounds: Bounds = Bounds(), ignore: Iterable[str] = ()) -> None:
        self._first, self._own = Filter(message, budget, bounds, ignore), threading.local()

    @property
    def filter(self) -> Filter:
        """The Filter of the thread that asks."""
        if not hasattr(self._own, "filter"):
            self._own.filter = self._first.share()
        return self._own.filter


class _Once:
    """What is made once: a handle of the library, which is freed with it."""

    _free: str

    def __init__(self) -> None:
        self._lock, self._handle = threading.Lock(), _library.Handle()
        self._at = ctypes.addressof(self._handle)

    def close(self) -> None:
        """Frees it. It may be closed again."""
        with self._lock:
            getattr(_LIBRARY, self._free)(ctypes.byref(self._handle))

    def __del__(self) -> None:
        if hasattr(self, "_handle"):
            self.close()


class Request(_Once):
    """A request that was made once, for any filters. A Connection makes it."""

    _free = "vupresal_request_free"


class Connection(_Once):
    """The facts of a connection, which are checked once for all its requests."""

    _free = "vupresal_connection_free"

    def __init__(self, facts: Facts = _NO_FACTS) -> None:
        """Raises Error for facts that are none."""
        super().__init__()
        self._room = _library.Room()
        status = _LIBRARY.vupresal_connection_new(ctypes.byref(self._handle), facts._address)
        if status:
            raise Error(status)

    def request(self, method: Text, target: Text, lines: Lines, is_http11: bool = True, protocol: Optional[str] = None) -> Request:
        """A request by its parts, as Filter.decide takes them; it keeps ignored fields. Raises Error if there is none."""
        http11, number = (bool(is_http11), 0) if protocol is None else _protocol_of(protocol)
        made = Request()
        with self._lock:
            at = self._room.put(method, target, lines, http11, number)
            status = _LIBRARY.vupresal_request_of_parts(ctypes.byref(made._handle), ctypes.byref(self._handle), at)
        if status:
            raise Error(status)
        return made

    def head(self, head: bytes) -> Request:
        """A request by its whole head of HTTP/1; it keeps ignored fields. Raises Error if there is none."""
        made = Request()
        with self._lock:
            status = _LIBRARY.vupresal_request_of_head(ctypes.byref(made._handle), ctypes.byref(self._handle), head, len(head))
        if status:
            raise Error(status)
        return made


class SetDecision(NamedTuple):
    """What a set decides: whether the request may pass, which filter says so, from 0, and the name of its policy that matches."""

    allowed: bool
    filter: int
    policy: Optional[str]


class FilterSet(_Once):
    """Filters in order. The first that refuses a request decides; if none refuses, the last does."""

    _free = "vupresal_set_free"

    def __init__(self, filters: Iterable[Filter]) -> None:
        """The set shares the filters, which may be closed. Raises Error for one that is closed."""
        super().__init__()
        self._output, self._filters = _library.SetDecisionOutput(), [one.share() for one in filters]
        for one in self._filters:
            status = _LIBRARY.vupresal_set_add(ctypes.byref(self._handle), ctypes.byref(one._handle))
            if status:
                raise Error(status)

    def decide(self, request: Request) -> SetDecision:
        """The decision on a request that was made before. Raises Error without a decision."""
        with self._lock, request._lock:
            status = _LIBRARY.vupresal_set_decide(self._at, request._at, ctypes.addressof(self._output))
            if status:
                raise Error(status)
            is_by, of_it = self._output.filter, self._output.decision
            return SetDecision(of_it.is_allowed, is_by, self._filters[is_by]._name(of_it.matched) if of_it.is_matched else None)
