"""The Debian packages that the tool needs, and which of them are missing."""
import importlib.util
import shutil
from typing import List

MODULES = {"google.protobuf": "python3-protobuf", "yaml": "python3-yaml", "lark": "python3-lark"}
PROGRAMS = {"protoc": "protobuf-compiler"}
# Without it questions to policies are not decided.
SOLVER = {"z3": "python3-z3"}


def missing() -> List[str]:
    """The packages that are missing."""
    return [package for module, package in MODULES.items() if not _is_there(module)] + [
        package for program, package in PROGRAMS.items() if shutil.which(program) is None
    ]


def missing_solver() -> List[str]:
    """The package of the solver, if it is missing."""
    return [package for module, package in SOLVER.items() if not _is_there(module)]


def _is_there(module: str) -> bool:
    try:
        return importlib.util.find_spec(module) is not None
    except ModuleNotFoundError:
        return False


def advice(packages: List[str]) -> str:
    """What to do about packages that are missing."""
    names = " ".join(packages)
    return f"missing: {names}\nto install: apt-get install -y --no-install-recommends {names}"
