"""Files as they are read: their bounds, and what they look like where they are not what is expected."""
import base64
import binascii
import os
import re
import sys
from typing import Iterator, List, Optional

from .bounds import GREATEST_FILTER
from .places import Mistake
from .wrap import HEAD

GREATEST_FILE = 16 * 1024 * 1024
STANDARD_INPUT = "standard input"
TEXT_ENDINGS = (".yaml", ".yml", ".json")
ENDINGS = (*TEXT_ENDINGS, ".bin", ".pb")
WORDS = re.compile(rb"\b(?:rules|policies|permissions|principals|AuthorizationPolicy|allow_rules|deny_rules)\b|RBAC|rbac")
OF_TESTS = re.compile(rb"^(?:tests:|\s*[{,]?\s*\"tests\"\s*:)", re.MULTILINE)
CONTROLS = re.compile(rb"[\x00-\x08\x0b\x0c\x0e-\x1f\x7f]")
JSON, YAML, HEX, BASE64, BYTES, EMPTY, GZIP, UTF16 = (
    "JSON",
    "YAML",
    "hexadecimal digits",
    "base64",
    "bytes",
    "empty",
    "gzip",
    "UTF-16",
)


def name_of(name: str) -> str:
    """What messages call a file."""
    return STANDARD_INPUT if name == "-" else name


def read_file(name: str) -> bytes:
    """The bytes of a file, or of standard input for `-`; raises Mistake above 16 MiB, and OSError."""
    if name == "-":
        if sys.stdin is None:
            raise OSError(9, "it is closed", STANDARD_INPUT)
        data = sys.stdin.buffer.read(GREATEST_FILE + 1)
    else:
        with open(name, "rb") as file:
            data = file.read(GREATEST_FILE + 1)
    if len(data) > GREATEST_FILE:
        raise Mistake(f"{name_of(name)}: a file has at most 16 MiB")
    return data


def read_record(name: str) -> Iterator[bytes]:
    """The lines of a record, which may be long; raises OSError."""
    if name == "-":
        yield from sys.stdin.buffer
        return
    with open(name, "rb") as file:
        yield from file


def real_path_below(path: str, root: str) -> Optional[str]:
    """The real path of a file, all links followed, or None if that is not below a folder."""
    real, top = os.path.realpath(path), os.path.realpath(root)
    return real if os.path.commonpath([real, top]) == top else None


def files_in(folder: str) -> List[str]:
    """The files of a folder and of those in it that may hold policies, by their endings, in order; no hidden ones."""
    found = []
    for where, folders, names in os.walk(folder):
        folders[:] = sorted(name for name in folders if not name.startswith("."))
        found += [os.path.join(where, name) for name in sorted(names) if name.endswith(ENDINGS) and name[0] != "."]
    return found


def test_files_in(folder: str) -> List[str]:
    """The files of tests in a folder and in those in it, in order."""
    return [file for file in files_in(folder) if file.endswith(TEXT_ENDINGS) and OF_TESTS.search(read_file(file))]


def text_files_in(folder: str) -> List[str]:
    """The files of text in a folder and in those in it that hold policies or tests, in order."""
    texts = [(file, read_file(file)) for file in files_in(folder) if file.endswith(TEXT_ENDINGS)]
    return [file for file, data in texts if WORDS.search(data) or OF_TESTS.search(data)]


def may_hold_policy(data: bytes) -> bool:
    """Whether a file of a folder is worth a report: a policy's words are in it, and it is no file of tests."""
    return WORDS.search(data) is not None and OF_TESTS.search(data) is None


def kind_of(data: bytes) -> str:
    """What a file's bytes look like."""
    if not data:
        return EMPTY
    if data.startswith(b"\x1f\x8b"):
        return GZIP
    if data[:2] in (b"\xff\xfe", b"\xfe\xff") and _is_utf16(data):
        return UTF16
    if CONTROLS.search(data) or not _is_utf8(data):
        return BYTES
    text = data.decode().strip()
    if text[:1] in ("{", "["):
        return JSON
    if re.fullmatch(r"(?:[0-9a-fA-F]{2}\s*)+", text):
        return HEX
    return BASE64 if _is_base64(text) else YAML


def _is_utf8(data: bytes) -> bool:
    try:
        data.decode()
        return True
    except UnicodeDecodeError:
        return False


def _is_utf16(data: bytes) -> bool:
    """Whether bytes are a text in UTF-16 after its mark, as far as its beginning tells."""
    text = data[:400].decode("utf-16", errors="replace")
    return all(character.isprintable() or character in "\t\r\n" for character in text[:-1])


def _is_base64(text: str) -> bool:
    joined = "".join(text.split())
    if len(joined) < 4 or not re.fullmatch(r"[A-Za-z0-9+/]+={0,2}", joined):
        return False
    try:
        return bool(CONTROLS.search(base64.b64decode(joined, validate=True)))
    except binascii.Error:
        return False


def bounded(name: str, data: bytes) -> bytes:
    """The bytes of a filter or of what is around it, if the engine takes so many; else raises Mistake."""
    if len(data) > GREATEST_FILTER + HEAD:
        raise Mistake(f"{name_of(name)}: these are {len(data)} bytes; the engine takes at most {GREATEST_FILTER}")
    return data


def filter_bytes(name: str) -> bytes:
    """The bytes of a file that holds a filter's message; raises Mistake where it plainly holds something else."""
    data, told = read_file(name), name_of(name)
    kind = kind_of(data)
    if kind == BYTES:
        return data
    raise Mistake(f"{told}: {_instead(kind, name)}")


def _instead(kind: str, name: str) -> str:
    """What a file is that is no filter's bytes, and what makes these of it."""
    if kind == EMPTY:
        return "this file is empty; a command that fails leaves such a file after `>` (use --output for that)"
    if kind == GZIP:
        return f"this is compressed by gzip; `gunzip < {name}` gives what it holds"
    if kind == UTF16:
        return f"this is text in UTF-16; `iconv -f UTF-16 -t UTF-8 {name}` gives UTF-8"
    if kind == HEX:
        return f"this is text, of hexadecimal digits; `xxd -r -p {name}` gives the bytes"
    if kind == BASE64:
        return f"this is text in base64; `base64 -d {name}` gives the bytes"
    return f"this is {kind}, and a filter's bytes are expected; `policy encode {name}` makes them"


def is_binary(data: bytes) -> bool:
    """Whether bytes are no text, not even one with a mistake in it: a message begins with a field of this kind."""
    return b"\0" in data or data[:1] in (b"\n", b"\x12") and CONTROLS.search(data) is not None


def policy_text(name: str) -> bytes:
    """The bytes of a file that holds a policy's text; raises Mistake where it plainly holds something else."""
    return text_of_policy(name, read_file(name))


def text_of_policy(name: str, data: bytes) -> bytes:
    """The bytes that were read of a file, which are a policy's text; raises Mistake."""
    told, kind = name_of(name), kind_of(data)
    if kind == EMPTY:
        raise Mistake(f"{told}: this file is empty; a filter holds `rules`, such as `rules: {{policies: {{}}}}`")
    if kind in (GZIP, UTF16):
        raise Mistake(f"{told}: {_instead(kind, name)}")
    if kind in (HEX, BASE64):
        raise Mistake(f"{told}: {_instead(kind, name)}, and `policy decode` shows them as YAML")
    if kind == BYTES and is_binary(data):
        raise Mistake(f"{told}: this is no text; if it is a filter's bytes, `policy decode {name}` shows them as YAML")
    return data
