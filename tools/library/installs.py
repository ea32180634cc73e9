"""Whether an installation is as docs/EMBEDDING.md says: a prefix of one's own, DESTDIR, manual pages, tables of functions."""
import os
import pathlib
import re
import subprocess

HERE = pathlib.Path(__file__).resolve().parent
TOP = HERE.parent.parent
BUILD, DECIDE = HERE / "build", TOP / "examples" / "embed" / "decide.c"
CONDITION = TOP / "examples" / "condition.bin"


def documented(trials):
    """The program of docs/EMBEDDING.md, built and run by exactly the lines that are printed there, with a fresh prefix: ~/vupresal."""
    page = (TOP / "docs" / "EMBEDDING.md").read_text()
    program, lines = re.search(r"(?s)```c\n(.*?)```", page), re.search(r"(?s)<!-- the prefix is your own -->\n```sh\n(.*?)```", page)
    if not program or not lines:
        trials.note("docs/EMBEDDING.md", "it has no program, or no lines for a prefix of one's own")
        return
    if trials.misses("docs/EMBEDDING.md", "pkg-config"):
        return
    home = trials.folder / "home"
    place = home / "work"
    place.mkdir(parents=True)
    (place / "program.c").write_text(program[1])
    (place / "examples").symlink_to(TOP / "examples")
    env = {name: value for name, value in os.environ.items() if name not in ("PKG_CONFIG_PATH", "LD_LIBRARY_PATH", "DESTDIR")}
    if not trials.run("an installation again", BUILD, "--from", trials.library, "--prefix", home / "vupresal", env=env):
        return
    done = subprocess.run(["sh", "-e", "-c", lines[1]], cwd=place, capture_output=True, text=True, env={**env, "HOME": str(home)})
    if (done.stdout, done.returncode) != ("allow\n", 0):
        trials.note("docs/EMBEDDING.md", f"its lines print {done.stdout!r}, with status {done.returncode}\n{done.stderr}")
    else:
        trials.passed("docs/EMBEDDING.md, in a fresh prefix")


def installed(trials):
    """An installation for a package: DESTDIR, another folder of libraries, a static program, and the manual pages."""
    if trials.misses("an installation with DESTDIR", "pkg-config"):
        return
    root, libdir = trials.folder / "root", "lib/x86_64-linux-gnu"
    words = [BUILD, "--from", trials.library, "--prefix", "/opt/vupresal", "--libdir", libdir]
    if not trials.run("an installation with DESTDIR", *words, env={**os.environ, "DESTDIR": str(root)}):
        return
    below = root / "opt" / "vupresal"
    names = {str(it.relative_to(below)) for it in below.rglob("*") if not it.is_dir()}
    wanted = {"include/vupresal.h", f"{libdir}/libvupresal.a", f"{libdir}/libvupresal.so", f"{libdir}/libvupresal.so.0", f"{libdir}/pkgconfig/vupresal.pc",
              "share/man/man3/vupresal.3", "share/man/man3/vupresal_filter_admit.3"}
    env = {**os.environ, "PKG_CONFIG_PATH": str(below / libdir / "pkgconfig"), "PKG_CONFIG_SYSROOT_DIR": str(root)}
    made = trials.folder / "decide_static"
    command = f"cc -static -o {made} {DECIDE} $(pkg-config --static --cflags --libs vupresal) && {made} {CONDITION} {TOP / 'examples/get.http'}"
    told = subprocess.run(["pkg-config", "--static", "--libs", "vupresal"], capture_output=True, text=True, env={**env, "PKG_CONFIG_SYSROOT_DIR": ""}).stdout.split()
    if not wanted <= names or str(root) in (below / libdir / "pkgconfig" / "vupresal.pc").read_text():
        trials.note("an installation with DESTDIR", f"it has not {wanted - names}, or names its folder")
    elif told != [f"-L/opt/vupresal/{libdir}", "-lvupresal", "-lc"]:
        trials.note("pkg-config --static", repr(told))
    elif trials.run("a static program", "sh", "-c", command, env=env):
        trials.passed("an installation with DESTDIR and --libdir, and a static program")
    manual_pages(trials, below / "share" / "man")


def manual_pages(trials, folder):
    """The manual page has each function of the header, and roff accepts it."""
    if trials.misses("manual pages", "man", "groff"):
        return
    header = (trials.library / "include" / "vupresal.h").read_text()
    shown = subprocess.run(["man", "--warnings", "-M", folder, "-P", "cat", "3", "vupresal_filter_admit"], capture_output=True, text=True,
                           env={**os.environ, "MANWIDTH": "200", "LC_ALL": "C.UTF-8"})
    text = re.sub(r".\x08", "", shown.stdout)
    missing = [name for name in {*re.findall(r"(?m)^[a-z0-9_]+ (vupresal_\w+)\(", header), "vupresal_filter_share", "vupresal_is_expected", "vupresal_status_text"}
               if f"{name}(" not in text and not name.endswith("_distinct")]
    if shown.returncode or shown.stderr or missing or "VUPRESAL_OUT_OF_STEPS" not in text:
        trials.note("manual pages", f"status {shown.returncode}, not in it: {missing}\n{shown.stderr}")
    else:
        trials.passed("manual pages")


def unwind_tables(trials, is_real):
    """Debuggers and profilers find the caller of each function by its table; a proved library has none."""
    library = trials.library / "lib" / "libvupresal.so"
    if trials.misses("unwind tables", "readelf", "nm"):
        return
    if is_real:
        print("library: unwind tables: none, since the kit compiles a proved library without them", flush=True)
        return
    symbols = subprocess.run(["nm", "-D", "--defined-only", library], capture_output=True, text=True, check=True).stdout
    starts = {int(line.split()[0], 16) for line in symbols.splitlines() if " T " in line}
    told = subprocess.run(["readelf", "--debug-dump=frames", library], capture_output=True, text=True, check=True).stdout
    covered = {int(start, 16) for start in re.findall(r"FDE .* pc=([0-9a-f]+)\.\.", told)}
    if starts - covered:
        trials.note("unwind tables", f"{len(starts - covered)} of {len(starts)} functions have none")
    else:
        trials.passed("unwind tables", f": {len(covered)} functions")
