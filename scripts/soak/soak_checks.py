"""What scripts/soak/soak checks beside the answers: the server's memory and descriptors, its own counts, and what it recorded."""
import concurrent.futures
import contextlib
import json
import os
import pathlib
import re
import subprocess
import threading
import time
import urllib.request

GROWTH = 1.10
LEAST_GROWTH = 4 << 20
PATIENCE = 20
# the seconds at the end whose least memory is compared
LAST = 5
# every so many seconds the counts are asked for
SCRAPE = 5
# so many seconds a file that was removed may stay open
KEPT_OPEN = 10


class Watch:
    """The resident memory of a process each second, without the pages of files, and its descriptors before the load. Files that were
    removed and stay open. Now and then the server is asked for its counts, as a monitor would."""

    def __init__(self, pid, port, warm):
        self.pid, self.port, self.warm = pid, port, warm
        self.sizes, self.wrong = [], []
        # for how many looks in a row a file that was removed is open, by its descriptor and name
        self.removed = {}
        self.descriptors = self.count()
        self.ends = threading.Event()
        self.thread = threading.Thread(target=self.run, daemon=True)

    def start(self):
        self.thread.start()

    def stop(self):
        self.ends.set()
        self.thread.join()

    def run(self):
        begun = time.monotonic()
        while not self.ends.wait(1):
            status = pathlib.Path(f"/proc/{self.pid}/status")
            try:
                found = re.search(r"RssAnon:\s+(\d+) kB", status.read_text())
                if len(self.sizes) % SCRAPE == 0:
                    counts(self.port)
            except OSError as cause:
                self.wrong.append(f"the server's process or its counts could not be read under load: {cause}")
                return
            if found:
                self.sizes.append((time.monotonic() - begun, int(found[1]) * 1024))
            self.look_for_removed()

    def look_for_removed(self):
        """Notes the files that were removed and stay open: their room on the disk is not free."""
        found = {}
        for it in pathlib.Path(f"/proc/{self.pid}/fd").iterdir():
            with contextlib.suppress(FileNotFoundError):  # it was closed meanwhile
                name = os.readlink(it)
                if name.endswith(" (deleted)"):
                    found[it.name, name] = self.removed.get((it.name, name), 0) + 1
        self.removed = found
        self.wrong += [f"{name}: open for {KEPT_OPEN} s after it was removed" for (_, name), looks in found.items() if looks == KEPT_OPEN]

    def count(self):
        return len(os.listdir(f"/proc/{self.pid}/fd"))

    def memory(self):
        """The most memory until the load was warm, the least of the last seconds and the most of all, and what is wrong."""
        before = [size for at, size in self.sizes if at <= self.warm] or [0]
        last = [size for _, size in self.sizes[-LAST:]] or [0]
        most = max(size for _, size in self.sizes) if self.sizes else 0
        allowed = max(int(max(before) * GROWTH), max(before) + LEAST_GROWTH)
        wrong = list(self.wrong)
        if not self.sizes or min(last) > allowed:
            wrong.append(f"resident memory grew from {max(before)} bytes after {self.warm:.0f} s to {min(last)} at the end, and "
                         f"{allowed} are allowed; each tenth second: {[size for _, size in self.sizes[::10]]}")
        return max(before), min(last), most, wrong

    def leaked(self):
        """What is wrong with the descriptors, once all connections were closed."""
        until = time.monotonic() + PATIENCE
        while self.count() != self.descriptors and time.monotonic() < until:
            time.sleep(0.1)
        if self.count() == self.descriptors:
            return []
        links = [os.readlink(it) for it in pathlib.Path(f"/proc/{self.pid}/fd").iterdir()]
        return [f"{self.count()} descriptors are open at the end, and {self.descriptors} were before the load: {sorted(links)}"]


def counts(port):
    """The server's own counts: the value of each line of /metrics by its name and labels."""
    opener = urllib.request.build_opener(urllib.request.ProxyHandler({}))
    with opener.open(f"http://127.0.0.1:{port}/metrics", timeout=PATIENCE) as answer:
        lines = answer.read().decode().splitlines()
    return {name: float(value) for name, _, value in (line.rpartition(" ") for line in lines if line and line[0] != "#")}


def compared(found, wanted):
    """What is wrong with the server's counts: for each name, the least and the most that it can be."""
    wrong = []
    for name, (least, most) in wanted.items():
        if not least <= found.get(name, -1) <= most:
            wrong.append(f"/metrics: {name} is {found.get(name)}, where {least} to {most} can be")
    if wrong:
        wrong.append("/metrics in all: " + ", ".join(f"{name} {value:g}" for name, value in sorted(found.items()) if value))
    return wrong


def compare_decisions(file, found, sample):
    """What is wrong with the log of decisions: it has each request that was not let through, and one of so many that were."""
    lines = {verdict: 0 for verdict in ("allow", "deny", "none")}
    with file.open("rb") as content:
        for line in content:
            verdict = json.loads(line)["verdict"]
            lines[verdict] = lines.get(verdict, 0) + 1
    judged = {verdict: found.get(f'rbacd_requests_total{{verdict="{verdict}"}}', 0) for verdict in ("allow", "deny", "fault")}
    wrong = []
    for verdict, least, most in (("deny", judged["deny"], judged["deny"]), ("none", judged["fault"], judged["fault"]),
                                 ("allow", judged["allow"] // sample, judged["allow"] // sample + 1)):
        if not least <= lines[verdict] <= most:
            wrong.append(f"the log of decisions has {lines[verdict]} lines of {verdict}, where {least:.0f} to {most:.0f} can be; "
                         f"it has {lines}")
    return wrong


def take_record(folder):
    """The files of the record so far, the oldest first, under names that the server does not change. It writes what it has within a
    second."""
    time.sleep(1)
    while True:
        files = [it for it in folder.iterdir() if re.fullmatch(r"record(\.\d+)?", it.name)]
        files.sort(key=lambda it: -int(it.suffix[1:] or 0))
        links = [folder / f"kept-{number:03d}" for number in range(len(files))]
        try:
            for file, link in zip(files, links):
                os.link(file, link)
            if files[-1].name == "record" and all(file.samefile(link) for file, link in zip(files, links)):
                return links
        except (FileNotFoundError, IndexError):
            time.sleep(0.01)
        for link in folder.glob("kept-*"):
            link.unlink()


def whole_lines(file):
    """The lines of a file that the server may still write."""
    content = file.read_bytes()
    return content[:content.rfind(b"\n") + 1]


def numbers_of(files):
    """The server's number of each connection whose requests name it."""
    heads, names = {}, {}
    for file in files:
        for line in whole_lines(file).splitlines():
            event = json.loads(line)
            if event["event"] != "http_bytes" or event["k"] in names:
                continue
            heads[event["k"]] = heads.get(event["k"], b"")[-8192:] + bytes.fromhex(event["hex"])
            if found := re.search(rb"\r\nX-Kept: (\S+)\r\n", heads[event["k"]]):
                names[event["k"]] = found[1].decode()
                heads[event["k"]] = b""
    return {name: k for k, name in names.items()}


def replayed(program, config, content, k):
    """The bytes that a replay of a file answers on a connection, and what is wrong with it."""
    run = subprocess.run([program, "replay", "--config", config, "--connection", str(k)], input=content, capture_output=True)
    rows = [line.split(" ") for line in run.stdout.decode().splitlines()]
    if run.returncode or any(len(row) != 4 for row in rows):
        return b"", f"status {run.returncode}: {run.stderr.decode()!r}, last line {rows[-1:]}"
    return b"".join(bytes.fromhex(row[2]) for row in rows if row[2] != "-"), None


def difference(got, kept):
    """Where two texts differ, and what they have there."""
    at = next((at for at, pair in enumerate(zip(got, kept)) if pair[0] != pair[1]), min(len(got), len(kept)))
    start = max(0, at - 100)
    return f"byte {at} of {len(got)} and {len(kept)}:\n  replay {got[start:at + 100]!r}\n  client {kept[start:at + 100]!r}"


def compare_replays(program, config, files, kept):
    """What is wrong with the replays of these connections, how many bytes are the same, and how many connections are in several
    files. A connection's bytes are those of its replays in all files, the oldest first."""
    contents = [whole_lines(file) for file in files]
    numbers = numbers_of(files)
    wrong = [f"the record has no connection {name}" for name in kept if name not in numbers]
    same = several = 0

    def replay_of(name):
        k = numbers[name]
        has_it = re.compile(rb'"k": ?%d[,}]' % k)
        return [replayed(program, config, content, k) for content in contents if has_it.search(content)]

    names = [name for name in kept if name in numbers]
    with concurrent.futures.ThreadPoolExecutor(os.cpu_count()) as pool:
        for name, parts in zip(names, pool.map(replay_of, names)):
            got = b"".join(part for part, _ in parts)
            several += len(parts) > 1
            if faults := [fault for _, fault in parts if fault]:
                wrong.append(f"the replay of connection {numbers[name]} ({name}): {faults}")
            elif got != kept[name]:
                wrong.append(f"the replay of connection {numbers[name]} ({name}) differs at {difference(got, kept[name])}")
            else:
                same += len(got)
    return wrong, same, several
