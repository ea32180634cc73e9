"""Runs `rt try`, which compiles with checks of its own (each access to memory, each sum), and keeps the program that it runs."""
import os
import shutil
import subprocess
import sys
import tempfile
import time

# how often the folder is looked at, in seconds: the program is there for as long as its shortest run takes
PAUSE = 0.004
# Beside its own work `rt try` has the names looked at by the prover. That takes as long, and decides nothing: this leaves it out.
TRY = """
import importlib.machinery, importlib.util, sys
sys.dont_write_bytecode = True
loader = importlib.machinery.SourceFileLoader("rt", sys.argv[1])
rt = importlib.util.module_from_spec(importlib.util.spec_from_loader("rt", loader))
loader.exec_module(rt)
rt.rtlib.RATTLE = "true"
sys.exit(rt.main(["try", *sys.argv[2:]]))
"""


def program_in(folder):
    """The program that stands in the folder, complete, if there is one."""
    for top, _, names in os.walk(folder):
        if "program" in names and os.access(f"{top}/program", os.X_OK):
            return f"{top}/program"
    return None


def gives_way(parent):
    """Makes the session that a child starts as nice as this process, since each has a share of the processors by itself; whether there
    is one."""
    try:
        with open(f"/proc/{parent}/task/{parent}/children") as it:
            sessions = [child for child in it.read().split() if os.getsid(int(child)) == int(child)]
        for session in sessions:
            with open(f"/proc/{session}/autogroup", "w") as it:
                it.write(str(os.nice(0)))
        return sessions != []
    except OSError:
        return False  # it has ended, or the system has no such groups


def keep(crate, words, wanted):
    """Runs `rt try` with these words in the crate's folder, and links its program to this file before it is gone; what was printed,
    and the status."""
    with tempfile.TemporaryDirectory(prefix="unproved-", dir=wanted.parent) as room, tempfile.TemporaryFile() as said:
        command = [sys.executable, "-c", TRY, os.path.realpath(shutil.which("rt") or "rt"), *words]
        run = subprocess.Popen(command, cwd=crate, env={**os.environ, "TMPDIR": room}, stdin=subprocess.DEVNULL,
                               stdout=said, stderr=subprocess.STDOUT)
        is_done = os.nice(0) == 0
        while run.poll() is None:
            is_done = is_done or gives_way(run.pid)
            found = None if wanted.exists() else program_in(room)
            if found:
                try:
                    os.link(found, wanted)
                except FileNotFoundError:
                    pass
            time.sleep(PAUSE)
        said.seek(0)
        return said.read().decode(errors="replace"), run.returncode
