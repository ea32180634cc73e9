"""The variables of a request that are texts, and which texts each may have.

A header's text is `h:NAME`. A header of any name has the name `n:N` and the text `v:N`. The others are `method`, `target`,
`authority`, `scheme`, and facts by their own names.
"""
from ..compare.spaces import AUTHORITY, METHOD, OF_FACTS, OF_HEADERS, OF_LENGTH, TARGET, TOKEN, domain_of
from ..compare.texts import Domain

METHOD_TEXT, TARGET_TEXT, AUTHORITY_TEXT, SCHEME_TEXT = "method", "target", "authority", "scheme"
CONTENT_LENGTH = "content-length"
# Names that no header of a request that is judged has.
IMPOSSIBLE = ("host", "transfer-encoding")
LONGEST_NAME = 128
OF_NAMES = Domain(lambda one: TOKEN.match(one) is not None and one == one.lower(), LONGEST_NAME, may_be_empty=False)
SERVER_NAME = "connection.requested_server_name"
OF_TEXTS = {
    METHOD_TEXT: domain_of(METHOD),
    TARGET_TEXT: domain_of(TARGET),
    AUTHORITY_TEXT: domain_of(AUTHORITY),
    # A to Z of a server name are lowered where it comes in
    SERVER_NAME: OF_FACTS._replace(is_allowed=lambda one: not "A" <= one <= "Z"),
}
WHOLE, PATH, QUERY = "whole", "path", "query"


def header_text(name: str) -> str:
    """The variable of a header's text."""
    return f"h:{name}"


def other_name(number: int) -> str:
    """The variable of the name of a header of any name."""
    return f"n:{number}"


def other_text(number: int) -> str:
    """The variable of the text of a header of any name."""
    return f"v:{number}"


def domain(variable: str) -> Domain:
    """The texts that a variable may have."""
    if variable.startswith("n:"):
        return OF_NAMES
    if variable == header_text(CONTENT_LENGTH):
        return OF_LENGTH
    return OF_HEADERS if variable.startswith(("h:", "v:")) else OF_TEXTS.get(variable, OF_FACTS)


def longest(variable: str, part: str) -> int:
    """How many characters a variable's text, or a part of it, has at most: a query is after a path and its sign."""
    return domain(variable).longest - (len("/?") if part == QUERY else 0)


def is_character(variable: str, character: str) -> bool:
    """Whether a variable's text may have a character somewhere."""
    return not "\ud800" <= character <= "\udfff" and domain(variable).is_allowed(character)


def part_of(text: str, part: str) -> str:
    """The whole of a target, its path or its query."""
    if part == WHOLE:
        return text
    path, _, query = text.partition("#")[0].partition("?")
    return path if part == PATH else query
