"""Compiles the library as its sources are, without a proof: the objects of libvupresal.a.

`rt try` compiles programs alone. So the crate becomes a program in a copy of the sources, whose `main` calls each export. A copy of
the kit's folder, of links, has a `clang` of its own, which keeps the program's module. The module's exports are then made visible, and
the kit's clang compiles it. It keeps the checks of `rt try`: each access to memory, each sum, each cast.

By itself, `tools/library/unproved.py [--races] OBJECT` writes the object alone. With --races ThreadSanitizer sees each access of the
library: link the object and the kit's c/liblibc_c.a into a program by `cc -fsanitize=thread`.
"""
import os
import pathlib
import re
import shutil
import stat
import subprocess
import sys
import tempfile
import time

from targets import TARGETS, retargeted

TOP = pathlib.Path(__file__).resolve().parent.parent.parent
CALLS = pathlib.Path(__file__).with_name("calls.rt.text")
# the constant of the crate that says whether the library is proved
PROVED = "const IS_PROVED: bool = true;"
# what the kit's clang calls of ThreadSanitizer, and older runtimes have under the names of the C library
OF_LATER_RUNTIMES = ("memcpy", "memmove", "memset")
# how often the folder is looked at, in seconds
PAUSE = 0.2
# keeps the module of the program, which is compiled with AddressSanitizer, and compiles all others
CLANG = """#!/bin/sh
case " $* " in
  *' -fsanitize=address '*) cp module.bc {room}/module.new && mv {room}/module.new {room}/module.bc; exit 1 ;;
esac
exec {kit}/toolchain/bin/clang "$@"
"""
# an export by the path of its function
EXPORT = re.compile(r'@"vupresal_c::(?:\w+::)*(vupresal_\w+)"')


def kit_folder():
    """The kit of the command rt."""
    rt = shutil.which("rt")
    if not rt:
        sys.exit("build: the kit's command rt is not on the PATH")
    return pathlib.Path(rt).resolve().parent.parent


def linked(source, target, but=()):
    """A folder of links to what the source has, but these names."""
    target.mkdir()
    for each in source.iterdir():
        if each.name not in but:
            (target / each.name).symlink_to(each)


def kit_copy(room, kit):
    """A kit whose clang keeps the module; its check for names, which a proof repeats, is left out."""
    copy = room / "kit"
    linked(kit, copy, ("bin", "toolchain"))
    linked(kit / "bin", copy / "bin", ("rt", "rtlib.py", "rattle"))
    for name in ("rt", "rtlib.py"):
        shutil.copy(kit / "bin" / name, copy / "bin")
    (copy / "bin" / "rattle").symlink_to(shutil.which("true"))
    linked(kit / "toolchain", copy / "toolchain", ("bin",))
    linked(kit / "toolchain" / "bin", copy / "toolchain" / "bin", ("clang",))
    clang = copy / "toolchain" / "bin" / "clang"
    clang.write_text(CLANG.format(room=room, kit=kit))
    clang.chmod(clang.stat().st_mode | stat.S_IXUSR)
    return copy


def replaced(path, old, new):
    text = path.read_text()
    if text.count(old) != 1:
        sys.exit(f"build: {path.name} does not have {old!r} once")
    path.write_text(text.replace(old, new))


def program_of(room):
    """The crate as a program, in a copy of the sources."""
    shutil.copytree(TOP / "crates", room / "crates", ignore=shutil.ignore_patterns("out"))
    for name in ("HANDLES", "crates.txt"):
        shutil.copy(TOP / name, room)
    subprocess.run(["git", "init", "-q", room], check=True)
    replaced(room / "crates.txt", "vupresal_c staticlib:", "vupresal_c:")
    sources = room / "crates" / "vupresal_c" / "src"
    replaced(sources / "version.rt", PROVED, PROVED.replace("true", "false"))
    root = sources / "lib.rt"
    uses = "".join(f"use {module}::{name};\n" for name, module in sorted(exports().items()))
    (sources / "main.rt").write_text(f"{root.read_text()}\n{uses}{CALLS.read_text()}")
    root.unlink()
    return sources.parent


def module_of(room, kit):
    """The module of the program."""
    crate, copy = program_of(room), kit_copy(room, kit)
    (room / "tmp").mkdir()
    with open(room / "said", "w+b") as said:
        run = subprocess.Popen([copy / "bin" / "rt", "try"], cwd=crate, stdin=subprocess.DEVNULL, stdout=said, stderr=said,
                               env={**os.environ, "TMPDIR": str(room / "tmp")})
        module = room / "module.bc"
        while run.poll() is None and not module.exists():
            time.sleep(PAUSE)
        # the program itself is not run
        run.terminate()
        run.wait()
        said.seek(0)
        if not module.exists():
            sys.exit(said.read().decode(errors="replace") + "build: the library does not compile")
    return module


def exports_shown(text, names):
    """The module's text with the exports of these names visible, and without the program."""
    missing = set(names) - set(EXPORT.findall(text))
    if missing:
        sys.exit(f"build: the module has no {', '.join(sorted(missing))}: add calls of these to {CALLS}")
    text = EXPORT.sub(r"@\1", text)
    text = re.sub(r"(?m)^define internal ([^@\n]*@vupresal_)", r"define \1", text)
    return re.sub(r"(?m)^define i32 @main\(", "define internal i32 @unused_main(", text)


def exports():
    """The names of the crate's exports, and the module of each."""
    sources = (TOP / "crates" / "vupresal_c" / "src").glob("*.rt")
    return {name: path.stem for path in sources for name in re.findall(r'pub extern "C" fn (\w+)', path.read_text())}


def shown_module(room, kit):
    """The text of the module, in which the exports are visible."""
    shown = room / "shown.ll"
    words = [kit / "toolchain" / "bin" / "clang", "--no-default-config", f"--target={TARGETS['x86_64'].triple}", "-x", "ir", "-S", "-emit-llvm",
             "-Xclang", "-disable-llvm-passes", module_of(room, kit), "-o", shown]
    subprocess.run(words, check=True)
    # a table for each function, by which debuggers and profilers find its caller
    return re.sub(r"(?m)^(attributes #\d+ = \{)", r"\1 uwtable", exports_shown(shown.read_text(), exports()))


def compile_object(kit, text, target, wanted, flags=("-O3",)):
    """Compiles the module's text for this machine."""
    clang = kit / "toolchain" / "bin" / "clang"
    with tempfile.TemporaryDirectory(prefix="vupresal-") as folder:
        source = pathlib.Path(folder) / "library.ll"
        source.write_text(text if target == TARGETS["x86_64"] else retargeted(text, clang, target))
        words = [clang, "--no-default-config", f"--target={target.triple}", "-x", "ir", *target.flags, *flags, "-c", source, "-o", wanted]
        subprocess.run(words, check=True)


def make_races(wanted):
    """Writes an object of the library whose accesses ThreadSanitizer sees."""
    kit = kit_folder()
    with tempfile.TemporaryDirectory(prefix="vupresal-") as folder:
        text = re.sub(r"(?m)^(attributes #\d+ = \{)", r"\1 sanitize_thread", shown_module(pathlib.Path(folder), kit))
        compile_object(kit, text, TARGETS["x86_64"], wanted, ("-O1", "-fsanitize=thread"))
    subprocess.run(["objcopy", *(f"--redefine-sym=__tsan_{name}={name}" for name in OF_LATER_RUNTIMES), wanted], check=True)


def make_objects(wanted):
    """Writes an object of the library for each machine, to the file of its name."""
    kit = kit_folder()
    with tempfile.TemporaryDirectory(prefix="vupresal-") as folder:
        text = shown_module(pathlib.Path(folder), kit)
        for name, file in wanted.items():
            compile_object(kit, text, TARGETS[name], file)


if __name__ == "__main__":
    file = pathlib.Path(sys.argv[-1]).resolve()
    if "--races" in sys.argv[1:-1]:
        make_races(file)
    else:
        make_objects({"x86_64": file})
