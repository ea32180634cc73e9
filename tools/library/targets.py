"""The machines that the library is compiled for."""
import re
import subprocess
from typing import NamedTuple, Tuple


class Target(NamedTuple):
    """A machine: its name for clang, flags of the compiler, and what the names of Debian's tools for it begin with."""

    triple: str
    flags: Tuple[str, ...]
    prefix: str

    def tool(self, name: str) -> str:
        return {"cc": f"{self.prefix}gcc" if self.prefix else "cc"}.get(name, f"{self.prefix}{name}")


TARGETS = {
    "x86_64": Target("x86_64-unknown-linux-gnu", ("-march=x86-64-v2", "-fPIC", "-ffunction-sections", "-fdata-sections"), ""),
    "aarch64": Target("aarch64-unknown-linux-gnu", ("-fPIC", "-ffunction-sections", "-fdata-sections"), "aarch64-linux-gnu-"),
    "wasm64": Target("wasm64-unknown-unknown", ("-mbulk-memory", "-ffunction-sections", "-fdata-sections"), ""),
}
# what a module for x86-64 says of its processor
OF_X86 = re.compile(r' "(?:probe-stack|stack-probe-size|target-cpu)"="[^"]*"')


def retargeted(text: str, clang: str, target: Target) -> str:
    """The module's text for another machine of 64 bits that has the same byte order and sizes of types."""
    asked = [clang, "--no-default-config", f"--target={target.triple}", "-S", "-emit-llvm", "-x", "c", "/dev/null", "-o", "-"]
    own = subprocess.run(asked, check=True, capture_output=True, text=True).stdout
    for name in ("datalayout", "triple"):
        line = re.search(rf'(?m)^target {name} = ".*"$', own)
        text, count = re.subn(rf'(?m)^target {name} = ".*"$', line[0] if line else "", text)
        if not line or count != 1:
            raise SystemExit(f"build: the module does not say its {name} once")
    return re.sub(r"(?m)^attributes #\d+ = .*$", lambda it: OF_X86.sub("", it[0]), text)
