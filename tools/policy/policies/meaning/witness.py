"""A model of the formulas as a request: the values of its parts."""
import ipaddress
from typing import Dict

import z3

from ..compare.drafts import Draft
from ..compare.spaces import AUTHORITY, DEFAULTS, METHOD, TARGET, VERSION
from .domains import (
    AUTHORITY_TEXT,
    CONTENT_LENGTH,
    METHOD_TEXT,
    SCHEME_TEXT,
    TARGET_TEXT,
    header_text,
    other_name,
    other_text,
)
from .request import MTLS, RequestModel

IPV4_BITS = 2**32 - 1
# Texts of parts that no test looks at.
PLAIN, PLAIN_LENGTH = "x", "1"
# The names of headers that are only counted begin so.
MORE = "more-"


class Witness:
    """The values of one model."""

    def __init__(self, request: RequestModel, model: z3.ModelRef, texts: Dict[str, str]):
        self.request, self.model, self.texts = request, model, texts

    def draft(self) -> Draft:
        """The request."""
        found: Draft = {METHOD: self._text(METHOD_TEXT, "GET"), TARGET: self._text(TARGET_TEXT, "/")}
        has_host = AUTHORITY_TEXT not in self.request.has or self._has(AUTHORITY_TEXT)
        found[AUTHORITY] = self._text(AUTHORITY_TEXT, str(DEFAULTS[AUTHORITY])) if has_host else None
        is_old = z3.is_false(self.model.eval(self.request.http11))
        found[VERSION] = "1.0" if is_old or not has_host else "1.1"
        return {**found, **self._headers(), **self._facts()}

    def _has(self, name: str) -> bool:
        present = self.request.has.get(name)
        return present is not None and z3.is_true(self.model.eval(present))

    def _text(self, variable: str, plain: str) -> str:
        return self.texts.get(variable, plain)

    def _headers(self) -> Draft:
        found: Draft = {}
        for name in self.request.names:
            if self._has(header_text(name)):
                plain = PLAIN_LENGTH if name == CONTENT_LENGTH else PLAIN
                found["header", name] = self._text(header_text(name), plain)
        for number in range(self.request.known.others):
            if self._has(other_text(number)):
                name = self._text(other_name(number), f"other-{number}")
                found["header", name] = self._text(other_text(number), PLAIN)
        if self.request.counts_headers:
            count = self.model.eval(self.request.more_headers, model_completion=True).as_long()
            found.update({("header", f"{MORE}{number}"): PLAIN for number in range(count)})
        return found

    def _facts(self) -> Draft:
        """The facts that are present: all optional parts that are no headers."""
        names = [name for name in self.request.has if name != AUTHORITY_TEXT and name[:2] not in ("h:", "v:")]
        found: Draft = {("fact", name): self._fact(name) for name in names if self._has(name)}
        if SCHEME_TEXT in self.texts:
            found["fact", "request.scheme"] = self.texts[SCHEME_TEXT]
        return found

    def _fact(self, name: str) -> object:
        request = self.request
        if name == MTLS:
            return z3.is_true(self.model.eval(request.mtls))
        if name in request.numbers:
            return self.model.eval(request.numbers[name], model_completion=True).as_long()
        if name not in request.addresses:
            return self._text(name, "")
        address = request.addresses[name]
        bits = self.model.eval(address.bits, model_completion=True).as_long()
        if z3.is_true(self.model.eval(address.is_v6)):
            return str(ipaddress.IPv6Address(bits))
        return str(ipaddress.IPv4Address(bits & IPV4_BITS))
