"""The numbers of the engine's refusals, and their names."""

NAMES = {
    1: "BadWire",
    2: "BadText",
    3: "UnknownField",
    4: "Missing",
    5: "OutOfRange",
    6: "Unsupported",
    7: "BothConditions",
    8: "TooLarge",
    9: "UnknownName",
    10: "NoOverload",
    11: "BadTypeEntry",
    12: "BadReference",
    13: "NotBool",
    14: "NeedsType",
    15: "TooCostly",
    16: "DuplicateResource",
    17: "WrongType",
    18: "CodeRefused",
    19: "Memory",
}
