"""Filters in bytes: the message itself, or a discovery response or an extension around it."""
from typing import List, Tuple

from ..messages import EXTENSION, FILTER, PREFIX, RESPONSE, Message, descriptor
from ..reader import BAD_TEXT, BAD_WIRE, UNKNOWN_FIELD, read
from ..wrap import HEAD


def filters_in(data: bytes) -> List[Tuple[str, bytes]]:
    """The filters that bytes hold, each with its name there; the bytes themselves where they are nothing else."""
    if data[:1] == b"\0" and len(data) >= HEAD and int.from_bytes(data[1:HEAD], "big") == len(data) - HEAD:
        data = data[HEAD:]
    if _is_plain(read(descriptor(FILTER), data, None)):
        return [("", data)]
    response = read(descriptor(RESPONSE), data, None)
    if _is_plain(response) and response.scalar("type_url") == PREFIX + EXTENSION:
        return [
            held for resource in response.get("resources") or [] for held in _in_extension(resource.scalar("value"))
        ]
    return _in_extension(data) or [("", data)]


def _is_plain(message: Message) -> bool:
    """Whether bytes are whole fields of a message, in it and one level down."""
    parts = [message, *message.parts()]
    return not any(number in (BAD_WIRE, BAD_TEXT, UNKNOWN_FIELD) for part in parts for _, number, _ in part.faults)


def _in_extension(data: bytes) -> List[Tuple[str, bytes]]:
    extension = read(descriptor(EXTENSION), data, None)
    held = extension.get("typed_config")
    if not extension.is_whole or held is None or held.scalar("type_url") != PREFIX + FILTER:
        return []
    return [(extension.scalar("name"), held.scalar("value"))]
