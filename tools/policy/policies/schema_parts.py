"""What the schema is made of: messages with both spellings of their names, lists, and members of which one is given."""
from typing import List

from .forms.nodes import camel

TEXT = {"type": "string"}
NOT_EMPTY = {"type": "string", "minLength": 1}
FLAG = {"type": "boolean"}
INT64 = {"anyOf": [{"type": "integer"}, {"type": "string", "pattern": "^-?[0-9]+$"}]}
ANYTHING = {"type": "object"}


def ref(name: str) -> dict:
    """The place of a definition."""
    return {"$ref": f"#/definitions/{name}"}


def some(of: dict) -> dict:
    """A list that is not empty."""
    return {"type": "array", "items": of, "minItems": 1}


def message(about: str, fields: dict, wanted: List[str] = ()) -> dict:
    """A message with these fields, by both spellings of their names."""
    properties = {name: value for field, value in fields.items() for name in (field, camel(field))}
    made = {"type": "object", "description": about, "properties": properties, "additionalProperties": False}
    if wanted:
        made["allOf"] = [has(name) for name in wanted]
    return made


def has(name: str) -> dict:
    """An object with this field, in either spelling."""
    names = sorted({name, camel(name)})
    return {"required": names} if len(names) == 1 else {"anyOf": [{"required": [one]} for one in names]}


def one_of(about: str, members: dict, beside: dict = {}) -> dict:
    """A message that has exactly one of some members."""
    made = message(about, {**members, **beside})
    made["oneOf"] = [has(name) for name in members]
    return made
