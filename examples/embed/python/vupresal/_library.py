"""The structs and functions of include/vupresal.h, by ctypes."""

from __future__ import annotations

import ctypes
import ctypes.util
import functools
import os
import struct
from ctypes import POINTER, Structure, c_bool, c_char_p, c_int32, c_size_t, c_uint64, c_void_p
from itertools import accumulate
from typing import Callable, Iterable, List, Sequence, Tuple, Union

# the version that this package was written for, and the ABI whose later versions it takes too
VERSION_NUMBER, ABI = 1000, 0


class Bytes(Structure):
    """vupresal_bytes. It keeps no copy: whoever makes it keeps the bytes until the call returns."""

    _fields_ = [("at", c_char_p), ("length", c_size_t)]


class Text(Structure):
    _fields_ = [("bytes", Bytes), ("is_there", c_bool)]


class Bounds(Structure):
    _fields_ = [*((name, c_size_t) for name in ("fields", "name", "value", "method", "target", "text")), ("visits", c_uint64)]


class FactsInput(Structure):
    _fields_ = [
        ("scheme", Bytes),
        *((name, Text) for name in ("source_address", "destination_address", "requested_server_name", "tls_version", "subject_peer_certificate",
                                    "dns_san_peer_certificate", "uri_san_peer_certificate")),
        *((name, Bytes) for name in ("direct_remote_ip", "remote_ip", "destination_ip")),
        *((name, c_int32) for name in ("source_port", "destination_port", "mtls")),
        ("connection_id", c_uint64),
        ("has_connection_id", c_bool),
    ]


class Line(Structure):
    _fields_ = [("name", Bytes), ("value", Bytes)]


class RequestInput(Structure):
    _fields_ = [("method", Bytes), ("target", Bytes), ("lines", POINTER(Line)), ("line_count", c_size_t), ("is_http11", c_bool),
                ("protocol", c_uint64)]


class DecisionOutput(Structure):
    _fields_ = [("matched", c_uint64), ("is_matched", c_bool), ("is_allowed", c_bool)]


class Handle(Structure):
    _fields_ = [("at", c_void_p), ("held", c_bool)]


class SetDecisionOutput(Structure):
    _fields_ = [("decision", DecisionOutput), ("filter", c_uint64)]


class Build(Structure):
    _fields_ = [("number", c_uint64),
                *((name, c_size_t) for name in ("filter", "proxy", "bounds", "facts", "line", "request", "decision", "resource", "settings",
                                                "given", "build")),
                ("is_proved", c_bool)]


def load() -> ctypes.CDLL:
    """The library: that of VUPRESAL_LIBRARY, or the one that the linker finds."""
    path = os.environ.get("VUPRESAL_LIBRARY") or ctypes.util.find_library("vupresal") or "libvupresal.so.0"
    library = ctypes.CDLL(path)
    functions = {
        "version": (None, [POINTER(Build)]),
        "filter_admit": (c_int32, [POINTER(Handle), c_char_p, c_size_t, POINTER(Bounds), c_uint64, c_char_p, c_size_t]),
        # by addresses, which ctypes passes faster than structs
        "filter_decide": (c_int32, [c_void_p, c_void_p, c_void_p, c_void_p]),
        "filter_decide_head": (c_int32, [c_void_p, c_char_p, c_size_t, c_void_p, c_void_p]),
        "filter_policies": (c_size_t, [POINTER(Handle)]),
        "filter_bound": (c_uint64, [POINTER(Handle)]),
        "filter_policy_name": (c_size_t, [POINTER(Handle), c_uint64, c_char_p, c_size_t]),
        "filter_share_distinct": (c_int32, [POINTER(Handle), POINTER(Handle)]),
        "filter_free": (None, [POINTER(Handle)]),
        "connection_new": (c_int32, [POINTER(Handle), c_void_p]),
        "connection_free": (None, [POINTER(Handle)]),
        "request_of_parts": (c_int32, [POINTER(Handle), POINTER(Handle), c_void_p]),
        "request_of_head": (c_int32, [POINTER(Handle), POINTER(Handle), c_char_p, c_size_t]),
        "request_free": (None, [POINTER(Handle)]),
        "filter_decide_request": (c_int32, [c_void_p, c_void_p, c_void_p]),
        "set_add": (c_int32, [POINTER(Handle), POINTER(Handle)]),
        "set_decide": (c_int32, [c_void_p, c_void_p, c_void_p]),
        "set_free": (None, [POINTER(Handle)]),
    }
    for name, (result, arguments) in functions.items():
        function = getattr(library, f"vupresal_{name}")
        function.restype, function.argtypes = result, arguments
    check(library)
    return library


def version(library: ctypes.CDLL) -> Build:
    build = Build()
    library.vupresal_version(ctypes.byref(build))
    return build


def check(library: ctypes.CDLL) -> None:
    """Refuses a library of another ABI, an older one, and one whose structs are others than those here."""
    build = version(library)
    sizes = {"filter": Handle, "bounds": Bounds, "facts": FactsInput, "line": Line, "request": RequestInput, "decision": DecisionOutput, "build": Build}
    is_same = all(getattr(build, name) == ctypes.sizeof(struct) for name, struct in sizes.items())
    if build.number // 1_000_000 != ABI or build.number < VERSION_NUMBER or not is_same:
        raise ImportError(f"vupresal: the library has version {build.number}, and this package is for {VERSION_NUMBER} and later ones of ABI {ABI}")


Part = Union[str, bytes]
# a request by its parts has this many words, and a line has four: two pairs of an address and a length
REQUEST_WORDS, LINE_WORDS = ctypes.sizeof(RequestInput) // 8, ctypes.sizeof(Line) // 8


def joined(parts: Sequence[Part]) -> Tuple[bytes, List[int]]:
    """The parts as UTF-8, one after another, and the length of each."""
    try:
        text = "".join(parts)  # type: ignore[arg-type]
    except TypeError:
        text = None
    if text is not None and text.isascii():
        return text.encode(), list(map(len, parts))
    raw = [part.encode("utf-8", "surrogateescape") if isinstance(part, str) else part for part in parts]
    return b"".join(raw), list(map(len, raw))


@functools.lru_cache(maxsize=None)
def packer(words: int) -> Callable[..., None]:
    return struct.Struct(f"{words}Q").pack_into


class Room:
    """Memory by which one call at a time passes a request to the library: its texts, and the words of its structs."""

    def __init__(self) -> None:
        self._take(4096, 64)

    def _take(self, texts: int, words: int) -> None:
        self._texts, self._words = (ctypes.c_char * texts)(), (c_uint64 * words)()
        self._bytes = memoryview(self._texts).cast("B")
        self._first, self.request = ctypes.addressof(self._texts), ctypes.addressof(self._words)

    def put(self, method: Part, target: Part, lines: Iterable[Tuple[Part, Part]], is_http11: bool, protocol: int) -> int:
        """Writes a vupresal_request; its address, which counts until the next call."""
        # each line has two parts, or one of these two raises ValueError
        names, values = tuple(zip(*lines, strict=True)) or ((), ())
        raw, lengths = joined((method, target, *names, *values))
        size, count = len(raw), len(names)
        total = REQUEST_WORDS + LINE_WORDS * count
        if size > len(self._bytes) or total > len(self._words):
            self._take(max(2 * size, 4096), max(2 * total, 64))
        self._bytes[:size] = raw
        at = list(accumulate(lengths, initial=self._first))
        words = [at[0], lengths[0], at[1], lengths[1], self.request + 8 * REQUEST_WORDS, count, is_http11, protocol] + [0] * (LINE_WORDS * count)
        middle = count + 2
        words[8::4], words[9::4], words[10::4], words[11::4] = at[2:middle], lengths[2:middle], at[middle:-1], lengths[middle:]
        packer(total)(self._words, 0, *words)
        return self.request
