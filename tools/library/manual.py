"""The manual page vupresal(3), made of include/vupresal.h: its first comment, its functions with their comments, its statuses and causes."""
import re
from typing import Iterator, List, NamedTuple, Tuple

PARAGRAPH = re.compile(r"\n[ \t]*\*?[ \t]*\n")
# a function, or a line that begins a body
PROTOTYPE = re.compile(r"(?ms)^(?:static inline )?((?:const )?\w+ \*?(vupresal_\w+)\([^;{]*\))(?:;| \{)")
COMMENT = re.compile(r"(?s)/\*(.*?)\*/")


class Group(NamedTuple):
    """A comment, and the functions below it."""

    said: str
    prototypes: List[Tuple[str, str]]


def plain(comment: str) -> List[str]:
    """The paragraphs of a comment, without its stars. Lines that are indented stay lines."""
    lines = [re.sub(r"^[ \t]*\*? ?", "", line, count=1) for line in comment.strip("*").strip().splitlines()]
    return [it for it in re.split(r"\n\s*\n", "\n".join(lines)) if it.strip()]


def escaped(text: str) -> str:
    """Text as roff takes it."""
    return re.sub(r"(?m)^([.'])", r"\\&\1", text.replace("\\", "\\e").replace("-", "\\-"))


def paragraphs(comment: str) -> Iterator[str]:
    for text in plain(comment):
        if re.search(r"(?m)^ {2,}", text):
            yield f".P\n.nf\n{escaped(text)}\n.fi\n"
        else:
            yield f".P\n{escaped(text)}\n"


def groups(header: str) -> Iterator[Group]:
    """The functions of the header, with the comment that comes before them."""
    for part in re.split(r"(?m)^(?=/\*)", header):
        found = COMMENT.match(part)
        prototypes = [(name, " ".join(text.split())) for text, name in PROTOTYPE.findall(part)]
        shown = [it for it in prototypes if not it[0].endswith(("_of", "_distinct"))]
        if found and shown:
            yield Group(found[1], shown)


def names(header: str) -> List[str]:
    """The functions that the page has."""
    return [name for group in groups(header) for name, _ in group.prototypes]


def numbers(header: str, first: str) -> Iterator[str]:
    """The names of the enumeration that begins with this one, and what is said of them."""
    found = re.search(rf"(?s)enum \{{\s*{first} = .*?\}};", header)
    assert found, f"the header has no {first}"
    for name, said in re.findall(r"(?m)^ +(VUPRESAL_\w+) = -?\d+,?(?: +/\* (.*?) \*/)?$", found[0]):
        yield f".TP\n.B {name}\n{escaped(said)}\n"


def page(header: str, version: str) -> str:
    """The page, as roff."""
    first = COMMENT.search(header)
    assert first, "the header has no comment"
    functions = list(groups(header))
    parts = [f'.TH VUPRESAL 3 "" "Vupresal {version}" "Library Functions"\n.nh\n', ".SH NAME\nvupresal \\- decide on HTTP requests by Envoy RBAC filters\n",
             ".SH SYNOPSIS\n.nf\n#include <vupresal.h>\n\n"]
    parts += [f"{escaped(text)};\n" for group in functions for _, text in group.prototypes]
    parts += ["\ncc program.c $(pkg\\-config \\-\\-cflags \\-\\-libs vupresal)\n.fi\n", ".SH DESCRIPTION\n", *paragraphs(first[1]), ".SH FUNCTIONS\n"]
    for group in functions:
        parts += [".SS " + ", ".join(name for name, _ in group.prototypes) + "\n", *paragraphs(group.said)]
    parts += [".SH STATUSES\n", *numbers(header, "VUPRESAL_OK"), ".SH CAUSES\n", *numbers(header, "VUPRESAL_CAUSE_NONE"),
              ".SH LIMITS\n", *numbers(header, "VUPRESAL_LIMIT_UNKNOWN"), ".SH SEE ALSO\n.BR rbacd (1),\n.BR policy (1)\n"]
    return "".join(parts)


def link() -> str:
    """The page of one function, which is the whole one."""
    return ".so man3/vupresal.3\n"
