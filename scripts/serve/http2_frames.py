"""Frames of HTTP/2 (RFC 9113, section 4.1), written by hand."""
import struct

DATA, HEADERS, PRIORITY, RESET, SETTINGS, PUSH, PING, AWAY, UPDATE, MORE = range(10)
# the codes of section 7 that the tests wait for
PROTOCOL, FLOW, SIZE, CANCEL, COMPRESSION, CALM = 1, 3, 6, 8, 9, 11
# the flags ACK and END_STREAM, END_HEADERS, PADDED, PRIORITY
ACK = END = 1
WHOLE, PADDED, PRIOR = 4, 8, 32
PREFACE = b"PRI * HTTP/2.0\r\n\r\nSM\r\n\r\n"
# a header block: `:status: 200` by its index, and `content-type: application/grpc`, which goes into no table (RFC 7541, section 6)
ANSWER = b"\x88\x0f\x10\x10application/grpc"


def frame(kind, flags, stream, payload, size=None):
    """A frame; its head says another size if one is given."""
    length = len(payload) if size is None else size
    return struct.pack(">I", length)[1:] + bytes([kind, flags]) + struct.pack(">I", stream) + payload


def number(value):
    return struct.pack(">I", value)


def setting(name, value):
    return struct.pack(">HI", name, value)


def literal(name, value):
    """A field whose name and value are no codes of Huffman's, each below 127 octets, and that goes into no table."""
    return b"\0" + bytes([len(name)]) + name + bytes([len(value)]) + value


def frame_at(octets, at):
    """The frame at a place as type, flags, stream and payload, and the place after it; no frame if it is not whole."""
    end = at + 9 + int.from_bytes(octets[at:at + 3], "big")
    if len(octets) < at + 9 or len(octets) < end:
        return None, at
    return (octets[at + 3], octets[at + 4], int.from_bytes(octets[at + 5:at + 9], "big"), octets[at + 9:end]), end


def frames_of(octets):
    """The frames that octets are."""
    frames, at = [], 0
    while at < len(octets):
        found, at = frame_at(octets, at)
        assert found, "a part of a frame"
        frames.append(found)
    return frames
