"""The library on other machines: aarch64 by qemu-user, and WebAssembly by Node. Their answers are compared with those of x86-64."""
import os
import shlex
import shutil
import subprocess

import comparing
from comparing import TOP

PROGRAMS = TOP / "tools" / "library" / "programs"
CONDITION = TOP / "examples" / "condition.bin"
# so many random filters are asked, since an emulator is slow
FILTERS = 300
# the module of WebAssembly imports nothing, and exports the functions of the header with a heap
EXPORTS = """
const { readFileSync } = require("node:fs");
const it = new WebAssembly.Module(readFileSync(process.argv[1]));
console.log(JSON.stringify([WebAssembly.Module.imports(it), WebAssembly.Module.exports(it).map((each) => each.name).sort()]));
"""


def command_file(trials, name, *words):
    """A program that is this command."""
    made = trials.folder / name
    made.write_text(f"#!/bin/sh\nexec {shlex.join(map(str, words))} \"$@\"\n")
    made.chmod(0o755)
    return made


def compare(trials, name, judge):
    """All filters and heads of the cases, and random ones, get the answers of the library on this machine."""
    own = trials.compile(PROGRAMS / "judge.c")
    if not own:
        return
    asked = [*comparing.of_the_cases(), *comparing.at_random(FILTERS)]
    answers = zip(asked, comparing.by_library(judge, asked), comparing.by_library(own, asked))
    wrong = [(trial.about, got, wanted) for trial, got, wanted in answers if got != wanted]
    if wrong:
        trials.note(name, f"{len(wrong)} filters have other answers: {wrong[0]}")
    else:
        trials.passed(name, f": {sum(len(trial.asked) for trial in asked)} heads")


def on_aarch64(trials):
    """Programs in C for aarch64, by qemu."""
    library = trials.library / "aarch64"
    if trials.is_of_gate:
        return
    if not (library / "lib" / "libvupresal.a").exists():
        trials.leave("aarch64", "not built: tools/library/build --unproved --target aarch64")
        return
    if trials.misses("aarch64", "aarch64-linux-gnu-gcc", "qemu-aarch64"):
        return
    made = {}
    for name in ("abi", "inputs", "threads", "judge"):
        made[name] = trials.folder / f"{name}.aarch64"
        words = ["aarch64-linux-gnu-gcc", "-O2", "-static", "-pthread", f"-I{library / 'include'}", PROGRAMS / f"{name}.c", library / "lib" / "libvupresal.a"]
        if not trials.run(f"{name}.c for aarch64", *words, "-o", made[name]):
            return
    for name in ("abi", "inputs", "threads"):
        if not trials.run(f"{name}, aarch64", "qemu-aarch64", made[name], CONDITION):
            return
    trials.passed("aarch64: the ABI, inputs and threads")
    compare(trials, "aarch64, compared with x86-64", command_file(trials, "judge.qemu", "qemu-aarch64", made["judge"]))


def in_wasm(trials):
    """The module of WebAssembly, by Node."""
    module = trials.library / "wasm64" / "lib" / "vupresal.wasm"
    if trials.is_of_gate:
        return
    if not module.exists():
        trials.leave("wasm64", "not built: tools/library/build --unproved --target wasm64")
        return
    node = [shutil.which("node") or "node", "--experimental-wasm-memory64", "--no-warnings"]
    if trials.misses("wasm64", "node") or subprocess.run([*node, "-e", ""], capture_output=True).returncode:
        trials.skip("wasm64", "missing: node of version 20 or later")
        return
    shown = subprocess.run([*node, "-e", EXPORTS, module], capture_output=True, text=True, env={**os.environ, "NODE_OPTIONS": ""})
    header = (trials.library / "include" / "vupresal.h").read_text()
    wanted = sorted({"free", "malloc", "memory", *comparing.functions_of(header)})
    if shown.returncode or shown.stdout != comparing.json.dumps([[], wanted], separators=(",", ":")) + "\n":
        trials.note("wasm64", f"its imports and exports: {shown.stdout}{shown.stderr}")
        return
    if trials.run("wasm64, the package", *node, TOP / "examples" / "embed" / "wasm" / "test.mjs",
                  env={**os.environ, "VUPRESAL_WASM": str(module), "NODE_OPTIONS": ""}):
        trials.passed("wasm64: the package for JavaScript")
    compare(trials, "wasm64, compared with x86-64", command_file(trials, "judge.node", *node, PROGRAMS / "judge.mjs", module))
