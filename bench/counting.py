"""Counts the instructions of one work of the engine: valgrind's (callgrind), so load does not change them."""
import os
import pathlib
import re
import subprocess
import tempfile

WORK = pathlib.Path(os.environ.get("BENCH_WORK") or os.path.join(os.environ.get("TMPDIR") or "/tmp", "vupresal-bench"))
# Long copies go by vectors: the one instruction that glibc has for them counts once for each byte, and only from some
# length on.
TUNED = {**os.environ, "GLIBC_TUNABLES": "glibc.cpu.x86_rep_movsb_threshold=1073741824"}
TOOL = ["valgrind", "--tool=callgrind", f"--callgrind-out-file={os.devnull}", "--toggle-collect=engine_*"]


def instructions(words):
    """The instructions of a work of the probe, and its answer; what is bytes among its words goes to a file."""
    with tempfile.TemporaryDirectory() as folder:
        arguments = []
        for number, word in enumerate(words):
            if isinstance(word, bytes):
                file = pathlib.Path(folder) / str(number)
                file.write_bytes(word)
                word = str(file)
            arguments.append(word)
        ran = subprocess.run([*TOOL, str(WORK / "probe"), *arguments], capture_output=True, check=True, env=TUNED)
    return int(re.search(rb"Collected : (\d+)", ran.stderr)[1]), int(re.search(rb"answer (\d+)", ran.stdout)[1])
