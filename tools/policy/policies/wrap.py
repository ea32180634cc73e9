"""Filters in a discovery response with its frame, as the update stream brings them."""
from typing import List, Optional, Tuple

from .messages import ANY, EXTENSION, FILTER, PREFIX, RESPONSE, Message, descriptor
from .writer import PLAIN

HEAD = 5
MOST_FILTERS = 8
LONGEST_NAME = 256


def _message(kind: str, values: dict) -> Message:
    message = Message(descriptor(kind))
    message.values = values
    return message


def _any(name: str, data: bytes) -> Message:
    """A message of any type, by the bytes of the message that it holds."""
    return _message(ANY, {"type_url": PREFIX + name, "value": data})


def response(filters: List[Tuple[str, bytes]], version: str, nonce: str) -> bytes:
    """The discovery response that brings filters by name, without its frame."""
    resources = []
    for name, data in filters:
        extension = _message(EXTENSION, {"name": name, "typed_config": _any(FILTER, data)})
        resources.append(_any(EXTENSION, PLAIN.write(extension)))
    values = {"version_info": version, "resources": resources, "type_url": PREFIX + EXTENSION, "nonce": nonce}
    return PLAIN.write(_message(RESPONSE, values))


def frame(message: bytes) -> bytes:
    """A message of fewer than 2^32 bytes after its head: no compression, and the length."""
    return bytes([0]) + len(message).to_bytes(HEAD - 1, "big") + message


def name_fault(names: List[str]) -> Optional[str]:
    """What is wrong with the names of filters, or None."""
    for name in names:
        if not name:
            return "a filter's name is empty: --name takes 1 to 256 bytes"
        if len(name.encode(errors="surrogateescape")) > LONGEST_NAME:
            return f"the filter's name {name[:32]}.. is longer than {LONGEST_NAME} bytes"
        if not _is_text(name):
            return "a filter's name is not UTF-8"
        if names.count(name) > 1:
            return f"the name {name} is given twice: the engine refuses such a response (16 DuplicateResource)"
    if len(names) > MOST_FILTERS:
        return f"{len(names)} filters; the engine takes at most {MOST_FILTERS}"
    return None


def text_fault(what: str, text: str) -> Optional[str]:
    """What is wrong with a text of the command line, or None."""
    return None if _is_text(text) else f"the {what} is not UTF-8"


def _is_text(text: str) -> bool:
    """Whether an argument is UTF-8: Python reads other bytes as surrogates."""
    return not any(0xD800 <= ord(character) <= 0xDFFF for character in text)
