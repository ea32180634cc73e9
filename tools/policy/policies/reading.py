"""A file of any form, to the filters in it: their bytes, and what is found in them."""
from typing import List, NamedTuple, Optional

from .bounds import BUDGET, GREATEST_FILTER, TOO_LONG
from .encode import Encoding
from .faults import UNSUPPORTED
from .findings import Finding
from .forms.envoy import Form, Reading
from .messages import Message
from .places import Mistake, Source


class Encoded(NamedTuple):
    """A filter of a file: its name there, its bytes and message, what is found in it, and the parts' places.

    If it has mistakes, the message is without the parts that have them, and there are no bytes.
    """

    name: str
    data: bytes
    message: Message
    findings: List[Finding]
    encoding: Encoding
    mistakes: List[Mistake]


class Contents(NamedTuple):
    """The filters of a file, the notes and mistakes on the file itself, and whether it is known to hold a policy."""

    filters: List[Encoded]
    findings: List[Finding]
    own_mistakes: List[Mistake]
    is_policy: bool

    @property
    def mistakes(self) -> List[Mistake]:
        """All mistakes, those of the file itself and those of its filters."""
        return self.own_mistakes + [mistake for one in self.filters for mistake in one.mistakes]


def contents(source: Source, budget: Optional[int] = BUDGET, dotted: bool = False) -> Contents:
    """The filters of a file; without a budget what the engine would refuse or skip is not looked for."""
    reading = Reading(source)
    reading.read()
    filters = [encoded(source, form, budget, dotted) for form in reading.forms]
    return Contents(filters, reading.findings, reading.mistakes, reading.is_policy)


def encoded(source: Source, form: Form, budget: Optional[int], dotted: bool) -> Encoded:
    """The filter of one form."""
    encoding = Encoding(source, dotted, is_bounded=True)
    message, data = encoding.filter_of(form.node), b""
    if not encoding.mistakes:
        data = encoding.writer.write(message)
        if len(data) > GREATEST_FILTER:
            encoding.mistakes.append(encoding.mistake(form.node, TOO_LONG))
    if budget is not None:
        encoding.find_faults(message, budget)
    findings = [*form.findings, *(found for found in encoding.findings if not _is_told(found, form))]
    return Encoded(form.name, data, message, findings, encoding, encoding.mistakes)


def _is_told(found: Finding, form: Form) -> bool:
    """Whether a regular expression is refused for which the form already says what in it is too much."""
    is_regex = found.path[-1:] in (("safe_regex",), ("safe_regex_match",)) and found.number == UNSUPPORTED
    return is_regex and any(other.number == UNSUPPORTED for other in form.findings)


def chosen(source: Source, filters: List[Encoded], name: Optional[str]) -> Encoded:
    """The filter of that name, or the file's only one; raises Mistake."""
    names = ", ".join(one.name for one in filters if one.name) or "one without a name"
    if name is None and len(filters) == 1:
        return filters[0]
    if name is None:
        raise Mistake(f"{source.name}: this file holds {len(filters)} filters; take one by --name: {names}")
    found = [one for one in filters if one.name == name]
    if not found:
        raise Mistake(f"{source.name}: no filter of the name {name} is here: {names}")
    return found[0]
