"""Whether the ABI can grow: an old program with a newer library, and a newer program with an old one."""
import os
import pathlib
import re
import subprocess

HERE = pathlib.Path(__file__).resolve().parent
PROGRAMS, EXPORTS = HERE / "programs", HERE / "exports.map"
NEWER = "VUPRESAL_0.3 {\n  global:\n    vupresal_newer;\n} VUPRESAL_0.2;\n"
# the number of another library, how much larger its facts are, and what the old program says
LIBRARIES = ((1_000, 0, "allow"), (1_001, 0, "allow"), (2_000, 0, "allow"), (999_999, 0, "allow"), (1_000_000, 0, "not expected"),
             (999, 0, "not expected"), (2_000, 8, "not expected"))


def newer_library(trials, number, more):
    """The folder of a shared library of this number."""
    folder = trials.folder / f"library{number}_{more}"
    folder.mkdir()
    whole, inner = folder / "vupresal.o", folder / "inner.o"
    script = folder / "exports.map"
    script.write_text(EXPORTS.read_text() + NEWER)
    header = f"-I{trials.library / 'include'}"
    steps = (("ar", "p", trials.library / "lib" / "libvupresal.a", "vupresal.o"),
             ("objcopy", "--redefine-sym", "vupresal_version=inner_version", whole, inner),
             ("cc", "-shared", "-fPIC", "-O2", header, f"-DNUMBER={number}", f"-DMORE={more}",
              f"-Wl,-soname,libvupresal.so.0,--version-script,{script}", PROGRAMS / "newer.c", inner, "-o", folder / "libvupresal.so.0"))
    whole.write_bytes(subprocess.run([str(word) for word in steps[0]], check=True, capture_output=True).stdout)
    for step in steps[1:]:
        if not trials.run("a newer library", *step):
            return None
    (folder / "libvupresal.so").symlink_to("libvupresal.so.0")
    return folder


def said_with(program, folder):
    """What the program says with the library of this folder."""
    done = subprocess.run([program], capture_output=True, text=True, env={**os.environ, "LD_LIBRARY_PATH": str(folder)})
    return done.stdout.strip() if done.returncode == 0 else done.stderr


def compiled(trials, name, folder, *flags):
    """The program of old.c, linked with the library of a folder, without a path of its own."""
    made = trials.folder / name
    words = ["cc", "-O2", *flags, f"-I{trials.library / 'include'}", f"-I{PROGRAMS}", PROGRAMS / "old.c", "-o", made, f"-L{folder}", "-lvupresal"]
    return made if trials.run(name, *words) else None


def structs_stay(trials):
    """The sizes and places of the first version of this ABI."""
    if trials.run("structs of the ABI", "cc", "-std=c11", "-fsyntax-only", f"-I{trials.library / 'include'}", PROGRAMS / "abi.c"):
        trials.passed("structs of the ABI")


def names_have_versions(trials):
    """Each name of the shared library has the version below which exports.map lists it."""
    own = trials.library / "lib"
    wanted = {f"{name}@@{node}" for node, names in re.findall(r"(?ms)^(VUPRESAL_[\d.]+) \{(.*?)^\}", EXPORTS.read_text())
              for name in re.findall(r"(vupresal_\w+);", names)}
    told = subprocess.run(["nm", "-D", "--defined-only", own / "libvupresal.so"], capture_output=True, text=True, check=True).stdout
    got = {line.split()[-1] for line in told.splitlines() if " A " not in line}
    if got != wanted:
        return trials.note("versions of names", f"{sorted(got ^ wanted)}")
    return trials.passed("versions of names", f": {len(got)}")


def old_and_newer(trials):
    """An old program runs with newer libraries of its ABI, and with no other; a newer program does not run with an old library."""
    if trials.misses("an old program with a newer library", "cc", "ar", "objcopy"):
        return
    structs_stay(trials)
    names_have_versions(trials)
    old = compiled(trials, "old", trials.library / "lib")
    folders = {(number, more): newer_library(trials, number, more) for number, more, _ in LIBRARIES}
    if not old or None in folders.values():
        return
    wrong = [(number, more, said_with(old, folders[number, more])) for number, more, wanted in LIBRARIES
             if said_with(old, folders[number, more]) != wanted]
    newer = compiled(trials, "newer", folders[2_000, 0], "-DNEWER")
    if not newer:
        return
    refused = said_with(newer, trials.library / "lib")
    wrong += [] if said_with(newer, folders[2_000, 0]) == "allow" else [("a newer program", 0, said_with(newer, folders[2_000, 0]))]
    wrong += [] if "VUPRESAL_0.3" in refused else [("a newer program with an old library", 0, refused)]
    if wrong:
        trials.note("an old program with a newer library", repr(wrong))
    else:
        trials.passed("an old program with a newer library", f": {len(LIBRARIES)} libraries")
