#!/usr/bin/env -S /usr/bin/python3 -E -s -B
"""An image of rbacd as a tar: an OCI image layout (version 1.0.0 of the specification) with the file `manifest.json` of `docker load`.

Usage: tools/release/image.py PROGRAM FILE    writes the image of the program rbacd to FILE; it needs Debian's busybox-static

Its one layer has the program, the files of Debian's C library that it is linked with, Debian's static busybox as the shell, and
examples/container/start."""
import datetime
import hashlib
import io
import json
import pathlib
import re
import subprocess
import sys
import tarfile

MANIFEST = "application/vnd.oci.image.manifest.v1+json"
CONFIG = "application/vnd.oci.image.config.v1+json"
LAYER = "application/vnd.oci.image.layer.v1.tar"
INDEX = "application/vnd.oci.image.index.v1+json"
BUSYBOX = pathlib.Path("/bin/busybox")
START = pathlib.Path(__file__).resolve().parent.parent.parent / "examples/container/start"
TRIPLET = "x86_64-linux-gnu"
# what `start` and a health check call of busybox
APPLETS = ("nc", "sh", "sleep")
FOLDERS = ("bin", "etc", "etc/rbacd", "lib", f"lib/{TRIPLET}", "lib64", "run", "run/rbacd", "tmp", "usr", "usr/local", "usr/local/bin", "var", "var/log", "var/log/rbacd")
# the folders of the socket and of the logs, which belong to the image's user
OWN = ("run/rbacd", "var/log/rbacd")
USER = 33
SECOND = 10**9
# how it runs: the socket and the logs belong to www-data, the user of nginx in Debian's packages; `start` drains rbacd at SIGTERM
SETTINGS = {
    "User": f"{USER}:{USER}", "Env": ["PATH=/usr/local/bin:/bin", "ADMIN=9901"], "Entrypoint": ["/usr/local/bin/start"],
    "Cmd": ["serve", "--config", "/etc/rbacd/serve.json"], "StopSignal": "SIGTERM",
    "Healthcheck": {"Test": ["CMD", "/usr/local/bin/start", "--ready"], "Interval": 10 * SECOND, "Timeout": 3 * SECOND},
}
PASSWD = "root:x:0:0:root:/:/bin/sh\nwww-data:x:33:33:www-data:/:/bin/sh\n"


def entry(name, when, kind=tarfile.REGTYPE, mode=0o644, owner=0, data=b"", target=""):
    """A member of a tar that says nothing of this machine."""
    it = tarfile.TarInfo(name)
    it.type, it.mode, it.mtime, it.uid, it.gid, it.size, it.linkname = kind, mode, when, owner, owner, len(data), target
    return it, io.BytesIO(data)


def tar(members):
    """The bytes of a tar of these members, in this order."""
    whole = io.BytesIO()
    with tarfile.open(fileobj=whole, mode="w", format=tarfile.USTAR_FORMAT) as it:
        for member in members:
            it.addfile(*member)
    return whole.getvalue()


def libraries(program):
    """The files that a program is linked with, at the places where Debian's loader looks; none for a static program."""
    said = subprocess.run(["ldd", program], capture_output=True, text=True).stdout
    found = re.findall(r"(?m)^\s*(?:(\S+) => )?(/\S+) \(0x", said)
    return {f"lib/{TRIPLET}/{name}" if name else file.lstrip("/"): pathlib.Path(file) for name, file in found}


def layer(program, when):
    """The file tree of the image."""
    members = [entry(name, when, tarfile.DIRTYPE, 0o750 if name in OWN else 0o755, USER if name in OWN else 0) for name in FOLDERS]
    members += [entry(f"bin/{name}", when, tarfile.SYMTYPE, 0o777, target="busybox") for name in APPLETS]
    files = {"bin/busybox": BUSYBOX.read_bytes(), "usr/local/bin/rbacd": program.read_bytes(), "usr/local/bin/start": START.read_bytes()}
    files.update((name, file.read_bytes()) for name, file in sorted(libraries(program).items()))
    members += [entry(name, when, mode=0o755, data=data) for name, data in files.items()]
    return tar([*members, entry("etc/passwd", when, data=PASSWD.encode())])


def plain(value):
    return json.dumps(value, sort_keys=True, separators=(",", ":")).encode()


def image(tree, version, commit, when):
    """The bytes of the image's tar. `tree` is the layer's bytes."""
    created = datetime.datetime.fromtimestamp(when, datetime.timezone.utc).strftime("%Y-%m-%dT%H:%M:%SZ")
    named = lambda data: "sha256:" + hashlib.sha256(data).hexdigest()  # noqa: E731
    told = lambda kind, data: {"mediaType": kind, "digest": named(data), "size": len(data)}  # noqa: E731
    labels = {"org.opencontainers.image.version": version, "org.opencontainers.image.revision": commit}
    config = plain({"architecture": "amd64", "os": "linux", "created": created, "config": {**SETTINGS, "Labels": labels},
                    "rootfs": {"type": "layers", "diff_ids": [named(tree)]}, "history": [{"created": created, "created_by": "tools/release/image.py"}]})
    manifest = plain({"schemaVersion": 2, "mediaType": MANIFEST, "config": told(CONFIG, config), "layers": [told(LAYER, tree)]})
    tag = f"rbacd:{version.replace('~', '-')}"
    names = {"org.opencontainers.image.ref.name": tag.partition(":")[2]}
    index = plain({"schemaVersion": 2, "mediaType": INDEX, "manifests": [{**told(MANIFEST, manifest), "annotations": names}]})
    at = lambda data: f"blobs/sha256/{named(data)[7:]}"  # noqa: E731
    older = plain([{"Config": at(config), "RepoTags": [tag], "Layers": [at(tree)]}])
    files = {"oci-layout": plain({"imageLayoutVersion": "1.0.0"}), "index.json": index, "manifest.json": older}
    files.update({at(data): data for data in (config, manifest, tree)})
    folders = [entry(name, when, tarfile.DIRTYPE, 0o755) for name in ("blobs", "blobs/sha256")]
    return tar([*folders, *(entry(name, when, data=files[name]) for name in sorted(files))])


def main(words):
    if len(words) != 2 or words[0].startswith("-"):
        print(__doc__, file=sys.stderr)
        return 2
    program = pathlib.Path(words[0]).resolve()
    said = subprocess.run([program, "--version"], check=True, capture_output=True, text=True).stdout
    version = said.split()[1].rstrip(",") + ("~unproved" if said.strip().endswith("not proved") else "")
    pathlib.Path(words[1]).write_bytes(image(layer(program, 0), version, "", 0))
    return 0


if __name__ == "__main__":
    sys.exit(main(sys.argv[1:]))
