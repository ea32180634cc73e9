"""What a release says of its proof: what the gate's log says of each crate, and the file proof.txt."""
import hashlib
import re
import subprocess

# what `.ci/run` prints, below scripts/measure/gate_times --stamp or by itself
STAMP = r"(?:[\d.]+ )?"
PROVED = re.compile(rf"(?m)^{STAMP}rt: (\w+) proved$")
TIME = re.compile(rf"(?m)^{STAMP}time: proof (\w+) ([\d.]+) s ")
MADE = re.compile(rf"(?m)^{STAMP}gate: made of (sources \S+), (kit .+?)(?: \(\d+ min\))?$")
VERDICT = re.compile(rf"(?m)^{STAMP}(gate: THE VERDICT: every part passed.*)$")
COUNTS = re.compile(rf"(?m)^{STAMP}(\d+ passed, 0 failed)$")
CHECK = """How to check that a program is the one that was proved

1. The program: `sha256sum /usr/bin/rbacd` prints the sum in the line `program` above.
2. The sources: in a checkout of the commit above, `scripts/gate/made_of` prints the lines `sources` and `kit` above. It needs the kit
   on the PATH for the second one. Each .rt and .antt file of the program's crates counts, by name and bytes.
3. The proof: `.ci/run` in that checkout, with that kit, proves these sources, and builds the program from what it proved.
   `scripts/gate/made_of --is crates/rbacd/out/rbacd` then says with status 0 that the program is the one that was built so.
"""
UNPROVED = """This release is NOT PROVED: nothing of it was checked by the prover. Its program and its library have run-time checks instead,
and are slower. Their versions say `not proved`.
"""


class NoProof(Exception):
    """Why a log is not that of a gate that passed on this checkout."""


def sum_of(file):
    return hashlib.sha256(file.read_bytes()).hexdigest()


def made_of(top, kind=()):
    """What scripts/gate/made_of prints: the lines `sources SUM` and `kit NAME`."""
    return subprocess.run([top / "scripts/gate/made_of", *kind], check=True, capture_output=True, text=True).stdout.splitlines()


class Gate:
    """The log of a gate."""

    def __init__(self, text, made):
        verdict, counts, told = VERDICT.search(text), COUNTS.findall(text), MADE.search(text)
        if not verdict or not counts:
            raise NoProof("its last lines do not say that every part passed")
        if not told or [told[1], told[2]] != made:
            raise NoProof(f"it is of {f'{told[1]}, {told[2]}' if told else 'unknown sources'}, and not of {', '.join(made)}")
        self.last = [verdict[1], counts[-1]]
        self.seconds = dict(TIME.findall(text))
        self.crates = list(dict.fromkeys(PROVED.findall(text)))

    def rows(self):
        """A line for each crate."""
        for name in self.crates:
            yield f"  {name:16} proved" + (f", {self.seconds[name]} s of a processor" if name in self.seconds else "")


def text_of(version, commit, made, sums, gate):
    """The text of proof.txt; `gate` is None for a release without a proof."""
    lines = [f"Vupresal {version}", f"commit {commit}", *made, *(f"{name} {total}" for name, total in sums), ""]
    if gate is None:
        return "\n".join([*lines, UNPROVED])
    lines += ["Crates, as the gate proved them from nothing:", *gate.rows(), "", "The gate's last lines:"]
    return "\n".join([*lines, *(f"  {line}" for line in gate.last), "", CHECK])
