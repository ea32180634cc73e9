"""What tools/release/test runs in a clean root: installs the packages of a release, uses them, upgrades and removes them.

Usage: inside.py FOLDER OTHER    folders of two releases, the second one of a higher version

It has a network of its own, with loopback alone. Systemd does not run: the unit's lines run as its user instead, in folders that are made
as the unit says.
"""
import os
import pathlib
import pwd
import re
import shlex
import socket
import subprocess
import sys
import tempfile
import time

UNIT, DOC = pathlib.Path("/lib/systemd/system/rbacd.service"), pathlib.Path("/usr/share/doc/rbacd")
PACKAGES = ("libvupresal-dev", "libvupresal0", "rbacd", "rbacd-bridge", "vupresal-policy")
PATIENCE, FRONT, ADMIN = 20, 8181, 9901
HEAD = b"GET /about HTTP/1.1\r\nHost: h\r\n"


class Trial:
    def __init__(self):
        self.wrong, self.server, self.room = 0, None, pathlib.Path(tempfile.mkdtemp())

    def same(self, what, got, wanted):
        self.wrong += got != wanted
        print(f"release: {what}: {got!r}" + ("" if got == wanted else f"\n  WRONG: wanted {wanted!r}"), flush=True)

    def runs(self, what, command, wanted=""):
        """A command of the shell that ends with status 0 and prints this, among other things."""
        done = subprocess.run(["bash", "-c", command], cwd=DOC if DOC.exists() else "/", capture_output=True, text=True, timeout=120, stdin=subprocess.DEVNULL)
        has_it = wanted in done.stdout
        self.same(what, (done.returncode, has_it), (0, True))
        if done.returncode or not has_it:
            print(done.stdout[-2000:] + done.stderr[-2000:])

    def install(self, folder):
        files = " ".join(map(str, sorted(pathlib.Path(folder).glob("*.deb"))))
        self.runs(f"dpkg -i of {folder}", f"DEBIAN_FRONTEND=noninteractive dpkg -i {files}")

    # the service

    def start(self):
        """ExecStart as the unit's user, with the folders that the unit names."""
        user = pwd.getpwnam(unit("User"))
        for kind, top in (("RuntimeDirectory", "/run"), ("LogsDirectory", "/var/log")):
            place = pathlib.Path(top, unit(kind))
            place.mkdir(exist_ok=True)
            os.chown(place, user.pw_uid, user.pw_gid)
        words = ["setpriv", f"--reuid={user.pw_uid}", f"--regid={user.pw_gid}", "--clear-groups", "--no-new-privs", "--bounding-set=-all",
                 *shlex.split(unit("ExecStart"))]
        self.server = subprocess.Popen(words, stdin=subprocess.DEVNULL)
        self.same("ExecStart listens", until(lambda: status(ADMIN, "/healthz") == 200), True)

    def serves(self):
        self.same("before policies: /ready, a request", (status(ADMIN, "/ready"), status(FRONT, "/about")), (503, 503))
        self.runs("policy encode and wrap", f"policy encode examples/condition.yaml -o {self.room}/f.bin && "
                  f"policy wrap --name f --version 1 {self.room}/f.bin -o {self.room}/f.response && "
                  f"mv {self.room}/f.response /etc/rbacd/policies.bin")
        self.same("with policies: /ready", until(lambda: status(ADMIN, "/ready") == 200), True)
        self.same("/about, /admin, //about", [status(FRONT, path) for path in ("/about", "/admin", "//about")], [200, 403, 400])
        owner = pathlib.Path(f"/proc/{self.server.pid}").stat().st_uid
        self.same("the server's user", pwd.getpwuid(owner).pw_name, "rbacd")
        log = pathlib.Path("/var/log/rbacd/access.log")
        self.same("lines of the access log", until(lambda: len(log.read_text().splitlines()) == 4), True)
        self.runs("ExecReload", unit("ExecReload"))

    def stop(self):
        """ExecStop, as systemd runs it when the service is stopped or started again."""
        command = subprocess.Popen(shlex.split(unit("ExecStop")), env={**os.environ, "MAINPID": str(self.server.pid)}, stdout=subprocess.DEVNULL)
        return command

    def upgrade(self, other):
        """The packages are replaced below the server. A request that is half sent while it drains gets its answer."""
        self.runs("a change of the settings", "sed -i 's/\"edge-1\"/\"edge-2\"/' /etc/rbacd/serve.json")
        self.install(other)
        self.same("while the packages are new: a request at the old server", status(FRONT, "/about"), 200)
        # a head has ten seconds
        with socket.create_connection(("127.0.0.1", FRONT), PATIENCE) as peer:
            peer.sendall(HEAD)
            stopping = self.stop()
            self.same("it drains: /ready", until(lambda: status(ADMIN, "/ready") == 503), True)
            peer.sendall(b"\r\n")
            self.same("the half sent request", peer.recv(4096).split()[1:2], [b"200"])
        self.same("the old server's status, and that of ExecStop", (self.server.wait(PATIENCE), stopping.wait(PATIENCE)), (0, 0))
        self.runs("the changed settings", "cat /etc/rbacd/serve.json", '"edge-2"')
        self.runs("the package restarts the service where systemd runs", "cat /var/lib/dpkg/info/rbacd.postinst", "_dh_action=restart")
        self.start()
        self.same("the new server: /ready, /about", (until(lambda: status(ADMIN, "/ready") == 200), status(FRONT, "/about")), (True, 200))
        stopping = self.stop()
        self.same("the new server's status", (self.server.wait(PATIENCE), stopping.wait(PATIENCE)), (0, 0))

    # what else the packages have

    def first_page(self):
        """The commands of README, with the installed program."""
        section = (DOC / "README.md").read_text().partition("\n## Try it\n")[2].partition("\n## ")[0]
        pasted = re.search(r"(?ms)^```sh\n(.*?)^```$", section)[1]
        commands = re.sub(r"bin/rbacd --unproved ", "rbacd ", "".join(line for line in pasted.splitlines(True) if " build " not in line))
        # the server goes on until it is stopped
        ran = subprocess.run(["bash"], cwd=DOC, input=f"{commands}kill $server\nwait\n", capture_output=True, text=True, timeout=120)
        wanted = re.findall(r"(?m)^[^#\n]+# (\d{3}): .*$", commands)
        self.same("README's commands", re.findall(r"(?m)^HTTP/1\.1 (\d{3})", ran.stdout), wanted)
        if not wanted:
            self.same("README has statuses", False, True)

    def programs(self):
        text = (DOC / "docs/EMBEDDING.md").read_text()
        ten = self.room / "ten"
        ten.with_suffix(".c").write_text(re.search(r"(?s)```c\n(.*?)```", text)[1])
        self.runs("a program with the shared library", f"cc -o {ten} {ten}.c $(pkg-config --cflags --libs vupresal) && {ten}", "allow\n")
        self.runs("it needs libvupresal.so.0", f"ldd {ten}", "libvupresal.so.0")
        self.runs("a program with the static library", f"cc -o {ten} {ten}.c -l:libvupresal.a && {ten}", "allow\n")
        self.runs("policy check", "policy check examples/condition.yaml", "admitted: policies 1")
        self.runs("policy test", "policy test examples/policies/condition.tests.yaml")
        self.runs("rbacd-bridge --help", "rbacd-bridge --help", "--control")
        for page, wanted in (("rbacd", "rbacd serve"), ("policy", "policy"), ("rbacd-bridge", "control"), ("vupresal", "vupresal_filter_admit"),
                             ("vupresal_filter_share", "vupresal_filter_admit")):
            self.runs(f"man {page}", f"MANWIDTH=100 man -P cat {page} | sed 's/.\\x08//g'", wanted)
        self.runs("proof.txt", "cat proof.txt && cmp proof.txt /usr/share/doc/libvupresal0/proof.txt", f"program {summed('/usr/bin/rbacd')}")

    def remove(self):
        self.runs("dpkg -r", f"dpkg -r {' '.join(PACKAGES)}")
        left = [str(it) for it in map(pathlib.Path, ("/usr/bin/rbacd", "/usr/bin/policy", "/usr/bin/rbacd-bridge", UNIT, "/usr/include/vupresal.h",
                                                     "/usr/lib/vupresal")) if it.exists()]
        self.same("what is left of the programs", left, [])
        self.same("the settings stay", pathlib.Path("/etc/rbacd/serve.json").exists(), True)
        self.runs("dpkg --purge", f"dpkg --purge {' '.join(PACKAGES)}")
        self.same("after a purge: settings, logs, the administrator's policies",
                  [pathlib.Path(it).exists() for it in ("/etc/rbacd/serve.json", "/var/log/rbacd", "/etc/rbacd/policies.bin")], [False, False, True])


def unit(key):
    """What the unit says under a key."""
    return re.search(rf"(?m)^{key}=(.+)$", UNIT.read_text())[1]


def summed(file):
    return subprocess.run(["sha256sum", file], check=True, capture_output=True, text=True).stdout.split()[0]


def status(port, path):
    """The status of a request; 0 if there is no answer."""
    try:
        with socket.create_connection(("127.0.0.1", port), PATIENCE) as it:
            it.sendall(f"GET {path} HTTP/1.1\r\nHost: localhost\r\nConnection: close\r\n\r\n".encode())
            return int(it.recv(4096).split()[1])
    except (OSError, IndexError):
        return 0


def until(is_so):
    end = time.monotonic() + PATIENCE
    while not is_so() and time.monotonic() < end:
        time.sleep(0.05)
    return is_so()


def main(folder, other):
    trial = Trial()
    try:
        trial.install(folder)
        trial.start()
        trial.serves()
        trial.programs()
        trial.first_page()
        trial.upgrade(other)
        trial.remove()
    finally:
        if trial.server and trial.server.poll() is None:
            trial.server.kill()
    print(f"release: in the clean root: {'all as wanted' if not trial.wrong else f'{trial.wrong} wrong'}")
    return 1 if trial.wrong else 0


if __name__ == "__main__":
    sys.exit(main(*sys.argv[1:]))
