"""Installs the library: header, both libraries, the file for pkg-config and the manual page, below a prefix."""
import os
import pathlib
import re
import shutil
import subprocess
import sys
import tempfile

import manual
from targets import TARGETS

TOP = pathlib.Path(__file__).resolve().parent.parent.parent
HEADER = TOP / "include" / "vupresal.h"
EXPORTS = pathlib.Path(__file__).with_name("exports.map")
PKG_CONFIG = """prefix={prefix}
includedir=${{prefix}}/include
libdir=${{prefix}}/{libdir}

Name: vupresal
Description: RBAC filters, and the core of a proxy
Version: {version}
Cflags: -I${{includedir}}
Libs: -L${{libdir}} -lvupresal
Libs.private: -lc
"""


def stop(why):
    print(f"build: {why}", file=sys.stderr)
    sys.exit(2)


def call(*words):
    if subprocess.run([str(word) for word in words]).returncode:
        stop(f"failed: {' '.join(map(str, words))}")


def version():
    """The number of the file VERSION, which the header and the library have to have too."""
    text = (TOP / "VERSION").read_text().split()[0]
    major, minor, patch = map(int, text.split("."))
    number = 1_000_000 * major + 1_000 * minor + patch
    header, code = HEADER.read_text(), (TOP / "crates" / "vupresal_c" / "src" / "version.rt").read_text()
    said = [re.search(pattern, source)[1].replace("_", "") for pattern, source in (
        (r"(?m)^#define VUPRESAL_VERSION_NUMBER (\d+)$", header), (r"(?m)^const NUMBER: u64 = ([\d_]+);$", code),
        (r"(?m)^#define VUPRESAL_ABI (\d+)u$", header))]
    if said != [str(number), str(number), str(major)] or f'#define VUPRESAL_VERSION_TEXT "{text}"' not in header:
        stop(f"VERSION is {text}, and the header and crates/vupresal_c have {', '.join(said)}")
    return text


def soname():
    """The name by which programs find the shared library: it has the number of the ABI."""
    return f"libvupresal.so.{version().split('.', maxsplit=1)[0]}"


class Place:
    """Where the library is installed: below the prefix, or below DESTDIR and the prefix."""

    def __init__(self, prefix, libdir):
        self.prefix, self.libdir = pathlib.Path(os.path.abspath(prefix)), libdir
        destination = os.environ.get("DESTDIR", "")
        self.root = pathlib.Path(os.path.abspath(destination) + str(self.prefix)) if destination else self.prefix
        self.lib = self.root / libdir

    def files(self):
        """All but the libraries themselves."""
        header, now = HEADER.read_text(), version()
        pages = self.root / "share" / "man" / "man3"
        for folder in (self.root / "include", self.lib / "pkgconfig", pages):
            folder.mkdir(parents=True, exist_ok=True)
        shutil.copyfile(HEADER, self.root / "include" / HEADER.name)
        (self.lib / "pkgconfig" / "vupresal.pc").write_text(PKG_CONFIG.format(prefix=self.prefix, libdir=self.libdir, version=now))
        (pages / "vupresal.3").write_text(manual.page(header, now))
        for name in manual.names(header):
            (pages / f"{name}.3").write_text(manual.link())

    def links(self):
        """The names of the shared library, and its file."""
        real, wanted = self.lib / f"libvupresal.so.{version()}", soname()
        for link, target in ((wanted, real.name), ("libvupresal.so", wanted)):
            place = self.lib / link
            place.unlink(missing_ok=True)
            place.symlink_to(target)
        return real


def names_of(tool, library):
    told = subprocess.run([tool, "-D", "--defined-only", library], check=True, capture_output=True, text=True).stdout
    return sorted({line.split()[-1].partition("@")[0] for line in told.splitlines() if "VUPRESAL_" not in line.split()[-1].partition("@")[0]})


def combine(target, wanted, parts, shown):
    """One object of these, which shows the exports alone."""
    call(target.tool("ld"), "-r", "--whole-archive", *parts, "-o", wanted)
    call(target.tool("objcopy"), *(f"--keep-global-symbol={name}" for name in shown), wanted)


def share(target, wanted, whole, shown):
    """The shared library, which shows the exports alone, each with its version."""
    listed = sorted(re.findall(r"(?m)^    (vupresal_\w+);$", EXPORTS.read_text()))
    if listed != sorted(shown):
        stop(f"{EXPORTS.name} has other names than crates/vupresal_c: {sorted(set(listed) ^ set(shown))}")
    call(target.tool("cc"), "-shared", f"-Wl,-soname,{soname()},--version-script,{EXPORTS},-z,relro,-z,now,-z,defs,--gc-sections", whole, "-o", wanted)
    if names_of(target.tool("nm"), wanted) != sorted(shown):
        stop(f"{wanted} shows other names than the exports")


def install(place, target, parts, shown):
    """The library of these parts, and what belongs to it."""
    place.files()
    with tempfile.TemporaryDirectory(prefix="vupresal-") as folder:
        whole = pathlib.Path(folder) / "vupresal.o"
        combine(target, whole, parts, shown)
        archive = place.lib / "libvupresal.a"
        archive.unlink(missing_ok=True)
        call(target.tool("ar"), "rcsD", archive, whole)
        share(target, place.links(), whole, shown)


def install_again(place, earlier):
    """What an earlier build installed, at another place."""
    found = sorted(it.parent for it in earlier.rglob("libvupresal.a") if not set(TARGETS) & set(it.relative_to(earlier).parts))
    if len(found) != 1:
        stop(f"{earlier} has {len(found) or 'no'} libraries: build one there first")
    place.files()
    for source, target in ((found[0] / "libvupresal.a", place.lib / "libvupresal.a"), (found[0] / f"libvupresal.so.{version()}", place.links())):
        if not source.exists():
            stop(f"{earlier} has another version")
        target.unlink(missing_ok=True)
        shutil.copyfile(source, target)
        target.chmod(source.stat().st_mode & 0o777)
