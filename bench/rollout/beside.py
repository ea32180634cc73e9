"""Real proxies of the program beside the model: a control plane of limited bandwidth, and some tens of processes on loopback."""
import concurrent.futures
import contextlib
import math
import pathlib
import tempfile
import time

from .costs import response_frame
from .measure import Proxy, read_frame
from .model import Fleet, Rollout, nth

# a link so slow that a response takes this long, so that the machine's own work hardly counts
PROXIES, SECONDS, PIECES = 24, 0.1, 20
SHARES = (0.5, 0.99, 1.0)


class Paced:
    """Sends bytes at a bandwidth, over whichever stream."""

    def __init__(self, bandwidth):
        self.bandwidth, self.due = bandwidth, time.monotonic()

    def send(self, stream, sent):
        size = len(sent) // PIECES + 1
        for at in range(0, len(sent), size):
            piece = sent[at:at + size]
            self.due += len(piece) / self.bandwidth
            time.sleep(max(0.0, self.due - time.monotonic()))
            stream.sendall(piece)


def answered(stream):
    """When a proxy has answered."""
    read_frame(stream)
    return time.monotonic()


def real(program, filters, sent, bandwidth):
    """When each real proxy had answered the update, ascending, in seconds from the beginning."""
    with contextlib.ExitStack() as ends:
        folders = [pathlib.Path(ends.enter_context(tempfile.TemporaryDirectory())) for _ in range(PROXIES)]
        fleet = [Proxy(program, filters, folder, ends) for folder in folders]
        for proxy in fleet:
            proxy.judge(response_frame(filters, 1))
        with concurrent.futures.ThreadPoolExecutor(PROXIES) as pool:
            waiting = [pool.submit(answered, proxy.stream) for proxy in fleet]
            begun, link = time.monotonic(), Paced(bandwidth)
            for proxy in fleet:
                link.send(proxy.stream, sent)
            times = [each.result() - begun for each in waiting]
        if any(proxy.is_refused() for proxy in fleet):
            raise RuntimeError("a proxy refused the update")
    return sorted(times)


def compare(program, costs, filters, policies):
    """Prints both. Status 0."""
    sent = response_frame(filters, policies, "2")
    bandwidth = len(sent) / SECONDS
    times = real(program, filters, sent, bandwidth)
    fleet = Fleet(PROXIES, bandwidth, len(sent), costs.ack_bytes, costs.nack_bytes, costs.first_request_bytes,
                  costs.admit_seconds(filters, policies))
    model = Rollout(fleet).run()
    print(f"{PROXIES} proxies, a response of {len(sent):,} bytes, {bandwidth:,.0f} bytes a second")
    for share in SHARES:
        seen, said = nth(times, math.ceil(share * PROXIES)), model.reached(share)
        print(f"  {share * 100:g} of 100 have it: {seen:.3f} s, by the model {said:.3f} s")
    return 0
