"""The formulas of z3's sequences, asked of the program `cvc5` where z3 finds no answer."""
import re
import shutil
import subprocess
from typing import List, Optional, Tuple

import z3

from .sequences import Formulas, Sequences
from .strings import string

DECLARED = re.compile(r"\(declare-fun (\|[^|]*\||\S+) \(\) ([^\n]*)\)")
VALUE = re.compile(r"\(\((?:\|[^|]*\||\S+) (.*)\)\)\Z")
ESCAPE = re.compile(r"\\u\{([0-9a-fA-F]+)\}")


def is_there() -> bool:
    """Whether the program is on the path."""
    return shutil.which("cvc5") is not None


class Cvc5(Sequences):
    """Texts as sequences, by cvc5."""

    name = "cvc5"

    def ask(self, formulas: Formulas, seconds: float) -> Tuple[z3.CheckSatResult, Optional[z3.ModelRef]]:
        """The answer, and if there is one a model of z3 with the values that cvc5 found."""
        # it is asked once, so everything is said at once
        self.strict = set(self.parts)
        solver = z3.Solver()
        solver.add(*formulas, *self.domain())
        text = solver.to_smt2().replace("(set-info :status unknown)", "").replace("(check-sat)", "")
        declared = DECLARED.findall(text)
        asked = "".join(f"(get-value ({name}))\n" for name, _ in declared)
        text = f"(set-option :produce-models true)\n(set-logic ALL)\n{text}\n(check-sat)\n{asked}"
        lines = _run(text, seconds)
        if lines[:1] != ["sat"]:
            return (z3.unsat if lines[:1] == ["unsat"] else z3.unknown), None
        fixed = z3.Solver()
        fixed.add(*(_with_value(name.strip("|"), sort, line) for (name, sort), line in zip(declared, lines[1:])))
        return (z3.sat, fixed.model()) if fixed.check() == z3.sat else (z3.unknown, None)


def _run(text: str, seconds: float) -> List[str]:
    """The lines that the program prints."""
    words = ["cvc5", "--lang=smt2", "--strings-exp", f"--tlimit={int(seconds * 1000)}", "-"]
    try:
        ran = subprocess.run(words, input=text, capture_output=True, text=True, timeout=seconds + 2)
    except (subprocess.TimeoutExpired, OSError):
        return []
    return ran.stdout.splitlines()


def _with_value(name: str, sort: str, line: str) -> z3.BoolRef:
    """That a variable has the value of a line."""
    value = VALUE.match(line)[1]
    if sort == "Bool":
        return z3.Bool(name) if value == "true" else z3.Not(z3.Bool(name))
    if sort == "Int":
        return z3.Int(name) == int(value.strip("()").replace("- ", "-"))
    if sort == "String":
        text = ESCAPE.sub(lambda one: chr(int(one[1], 16)), value[1:-1].replace('""', '"'))
        return z3.String(name) == string(text)
    bits = int(sort.rstrip(")").split()[-1])
    return z3.BitVec(name, bits) == z3.BitVecVal(int(value[2:], 2 if value[1] == "b" else 16), bits)
