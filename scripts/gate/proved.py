"""The proved program of this checkout."""
import pathlib
import subprocess
import sys

TOP = pathlib.Path(__file__).resolve().parent.parent.parent


def program(words):
    """The program that is named, or else the proved one, if it was made of the sources as they are."""
    if words:
        return pathlib.Path(words[0]).resolve()
    proved = TOP / "crates/rbacd/out/rbacd"
    if subprocess.run([TOP / "scripts/gate/made_of", "--is", proved]).returncode:
        sys.exit(f"{pathlib.Path(sys.argv[0]).name}: {proved} is missing, or not made of the sources as they are; bin/rbacd build builds it")
    return proved
