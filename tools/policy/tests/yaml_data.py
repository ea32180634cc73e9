"""Filters in YAML as plain data, alike where they differ in order, in defaults and in the spelling of names alone."""
import re

import yaml

from policies.cel.parse import parse
from policies.cel.printing import describe

FLAGS = {"ignore_case", "invert_match", "treat_missing_header_as_empty", "test_only", "dotted", "invert", "is_optional"}
WORDS = {"accu_var", "iter_var", "iter_var2", "name", "field", "shadow_rules_stat_prefix", "expr_version", "function"}
NUMBERS = {"start", "end", "id"}
TEXTS = {"exact", "prefix", "suffix", "contains", "string_value", "name", "field"}


def as_data(text: str):
    """A file's data without defaults."""
    return _plain(yaml.safe_load(text) or {})


def _plain(value, key=None):
    if isinstance(value, dict):
        return _mapping(value)
    if isinstance(value, list):
        return [_plain(part) for part in value]
    if key == "text":
        return describe(parse(value))
    if isinstance(value, str) and key not in TEXTS and re.fullmatch(r"-?[0-9]+", value):
        return int(value)
    return value


def _mapping(value: dict) -> dict:
    plain = {}
    for key, part in value.items():
        key = re.sub("([A-Z])", lambda letter: "_" + letter[1].lower(), key) if isinstance(key, str) else key
        part = _plain(part, key)
        if part is not None and part != [] and not _is_default(key, part, value):
            plain[key] = part
    return plain


def _is_default(key, part, beside: dict) -> bool:
    if part is False:
        return key in FLAGS
    if part == 0:
        return key in NUMBERS
    if part == "ALLOW":
        return key == "action"
    if part == {}:
        return key == "policies" or (key == "type_map" and "text" not in beside)
    return part == "" and key in WORDS
