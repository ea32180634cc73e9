"""The files of a release, as they are installed: what the Debian packages and the tarball have."""
import os
import pathlib
import re
import shutil
import subprocess

TOP = pathlib.Path(__file__).resolve().parent.parent.parent
TRIPLET = "x86_64-linux-gnu"
SETTINGS = """{
  "proxy": {"node": "edge-1", "cluster": "edge", "filters": [{"name": "f"}]},
  "listen": "127.0.0.1:8181",
  "control": "file:/etc/rbacd/policies.bin",
  "paths": "strict",
  "admin": 9901,
  "access_log": {"path": "/var/log/rbacd/access.log"},
  "update_log": "/var/log/rbacd/updates.log"
}
"""
# what makes a template of several processes the unit of one
SINGLE = ((" %i", ""), ("Requires=rbacd.socket\n", ""), ("After=rbacd.socket ", "After="), ("Sockets=rbacd.socket\n", ""), ("serve-%i", "serve"),
          ("990%i", "9901"), ("DynamicUser=yes\n", ""), ("LogsDirectory=", "RuntimeDirectory=rbacd\nLogsDirectory="))
PKG_CONFIG = """prefix=/usr
includedir=${{prefix}}/include
libdir=${{prefix}}/lib/{triplet}

Name: vupresal
Description: RBAC filters, and the core of a proxy
Version: {version}
Libs: -L${{libdir}} -lvupresal
Libs.private: -lc
Cflags: -I${{includedir}}
"""


def put(file, text, mode=0o644):
    file.parent.mkdir(parents=True, exist_ok=True)
    file.write_text(text)
    file.chmod(mode)


def copied(source, target, mode=0o644):
    target.parent.mkdir(parents=True, exist_ok=True)
    shutil.copyfile(source, target)
    target.chmod(mode)


def tracked(*places):
    """The files of the commit below these places of the repository."""
    told = subprocess.run(["git", "ls-files", "-z", "--", *places], cwd=TOP, check=True, capture_output=True, text=True).stdout
    return [name for name in told.split("\0") if name]


def units(folder):
    """The systemd units: one for one process, and a socket with a template for several."""
    template = (TOP / "examples/systemd/rbacd@.service").read_text().replace("/usr/local/bin/", "/usr/bin/")
    single = template.partition("\n")[2]
    for old, new in SINGLE:
        if old not in single:
            raise SystemExit(f"build: examples/systemd/rbacd@.service has no {old!r}")
        single = single.replace(old, new)
    put(folder / "rbacd@.service", template)
    put(folder / "rbacd.service", "# One process of rbacd. Its user can be changed by `systemctl edit rbacd`.\n" + single)
    copied(TOP / "examples/systemd/rbacd.socket", folder / "rbacd.socket")


def bridge_manual(program):
    """The bridge's manual page: its help, as roff."""
    told = subprocess.run([program, "--help"], check=True, capture_output=True, text=True, env={**os.environ, "COLUMNS": "80"}).stdout
    text = re.sub(r"(?m)^([.'])", r"\\&\1", told.replace("\\", "\\e").replace("-", "\\-").replace("usage: bridge", "usage: rbacd\\-bridge"))
    return '.TH RBACD\\-BRIDGE 1 "" "Vupresal" "User Commands"\n.SH NAME\nrbacd\\-bridge \\- join rbacd to a control plane of gRPC with TLS\n' \
           f".SH DESCRIPTION\n.nf\n{text}.fi\n.SH SEE ALSO\n.BR rbacd (1)\n"


def documents(folder):
    """README, the documents without notes, and the examples."""
    for name in tracked("README.md", "docs/*.md", "examples", "LICENSE", "CHANGELOG.md"):
        if not name.startswith("docs/notes/"):
            file = TOP / name
            copied(file, folder / name, 0o755 if os.access(file, os.X_OK) else 0o644)


def library(stage, built, version):
    """The library for C, at the places of Debian."""
    lib = stage / "usr/lib" / TRIPLET
    copied(built / "include/vupresal.h", stage / "usr/include/vupresal.h")
    copied(built / "lib/libvupresal.a", lib / "libvupresal.a")
    [real] = (built / "lib").glob("libvupresal.so.0.*")
    copied(real, lib / real.name)
    (lib / "libvupresal.so.0").symlink_to(real.name)
    (lib / "libvupresal.so").symlink_to(real.name)
    put(lib / "pkgconfig/vupresal.pc", PKG_CONFIG.format(triplet=TRIPLET, version=version))
    for page in (built / "share/man/man3").glob("*.3"):
        copied(page, stage / "usr/share/man/man3" / page.name)


def make(stage, program, built, version):
    """All files below the folder `stage`."""
    usr = stage / "usr"
    subprocess.run([TOP / "tools/policy/install", usr, program], check=True, stdout=subprocess.DEVNULL)
    (usr / "lib/vupresal/policy.rbacd").unlink()
    for cache in usr.rglob("__pycache__"):
        shutil.rmtree(cache)
    library(stage, built, version)
    bridge = TOP / "tools/bridge/bridge"
    copied(bridge, usr / "bin/rbacd-bridge", 0o755)
    put(usr / "share/man/man1/rbacd-bridge.1", bridge_manual(bridge))
    units(stage / "lib/systemd/system")
    put(stage / "etc/rbacd/serve.json", SETTINGS)
    documents(stage / "doc")
