"""A model of a rollout over many proxies: one control plane, a stream to each proxy, and a queue of events.

The control plane sends the response to one proxy after another, by a link of its own. Each proxy is a machine of its own. It judges a
response once it has the whole of it, and answers. What the model leaves out: losses of packets, the overhead of TCP, IP and TLS (some 3
to 5 of 100 bytes), and slow links of single proxies.
"""
import dataclasses
import heapq
import itertools
import math
import random
from typing import List, Optional


@dataclasses.dataclass(frozen=True)
class Fleet:
    """What a rollout depends on. Times are in seconds, sizes in bytes, shares from 0 to 1.

    proxies             how many proxies there are
    bandwidth           bytes a second that the control plane sends, and as many that it receives
    send_seconds        the control plane's own time for each response that it sends, at least
    round_trip          from the control plane to a proxy and back
    response_bytes      the frame of the response
    ack_bytes, nack_bytes, first_request_bytes
                        the frames that a proxy sends
    admit_seconds       how long a proxy judges the response
    refusing            the share of proxies that refuse it
    losing              the share of proxies that lose their stream while it is on its way
    outage              how long such a proxy does not reach the control plane, from the loss
    first_backoff, greatest_backoff
                        how long a proxy waits before it connects again: the first after a loss, doubled each time up to the greatest
    nack_pause          how long a proxy reads nothing after it refused
    sends_again         until when the control plane answers each refusal by the same response, at once; 0 if it does not
    seed                which proxies refuse or lose, and when
    """

    proxies: int
    bandwidth: float
    response_bytes: int
    ack_bytes: int
    nack_bytes: int
    first_request_bytes: int
    admit_seconds: float
    round_trip: float = 0.0
    send_seconds: float = 0.0
    refusing: float = 0.0
    losing: float = 0.0
    outage: float = 0.0
    first_backoff: float = 0.25
    greatest_backoff: float = 30.0
    nack_pause: float = 1.0
    sends_again: float = 0.0
    seed: int = 1

    def faults(self) -> List[str]:
        """What is wrong with the values."""
        found = [f"{name} is below zero" for name, value in dataclasses.asdict(self).items() if name != "seed" and value < 0]
        found += [f"{name} is above 1" for name in ("refusing", "losing") if getattr(self, name) > 1]
        found += [f"{name} is zero" for name in ("proxies", "bandwidth", "first_backoff") if getattr(self, name) == 0]
        if self.first_backoff > self.greatest_backoff:
            found.append("first_backoff is above greatest_backoff")
        return found


@dataclasses.dataclass
class Outcome:
    """What a rollout gave: when each proxy had the update, and when it first refused it, both ascending; and bytes."""

    proxies: int
    taken: List[float]
    refused: List[float]
    refusals: int
    bytes_sent: int
    bytes_received: int
    ended: float

    def reached(self, share: float) -> Optional[float]:
        """When so large a share of all proxies had the update; None if that never was."""
        return nth(self.taken, math.ceil(share * self.proxies))


def nth(times: List[float], count: int) -> Optional[float]:
    """When so many of the ascending times have passed; None if there are fewer."""
    if count == 0:
        return 0.0
    return times[count - 1] if count <= len(times) else None


class Link:
    """A direction of the control plane's link: what it carries is carried in order."""

    def __init__(self, bandwidth: float, least_seconds: float = 0.0):
        self.bandwidth, self.least_seconds = bandwidth, least_seconds
        self.free_at, self.bytes = 0.0, 0

    def carry(self, now: float, size: int) -> float:
        """When so many bytes have been sent."""
        self.free_at = max(now, self.free_at) + max(size / self.bandwidth, self.least_seconds)
        self.bytes += size
        return self.free_at


class Rollout:
    """One update of a fleet, as a queue of events. Each event is a time, a method and a proxy's number."""

    def __init__(self, fleet: Fleet):
        if faults := fleet.faults():
            raise ValueError("; ".join(faults))
        self.fleet = fleet
        self.random = random.Random(fleet.seed)
        everyone = range(fleet.proxies)
        self.refusing = set(self.random.sample(everyone, round(fleet.refusing * fleet.proxies)))
        self.losing = set(self.random.sample(everyone, round(fleet.losing * fleet.proxies)))
        self.down, self.up = Link(fleet.bandwidth, fleet.send_seconds), Link(fleet.bandwidth)
        self.queue, self.numbers = [], itertools.count()
        self.taken, self.refused, self.refusals = [], {}, 0
        self.reads_after = {}

    def run(self) -> Outcome:
        """Runs the rollout until nothing more happens."""
        for proxy in range(self.fleet.proxies):
            self.at(0.0, self.send, proxy)
        now = 0.0
        while self.queue:
            now, _, event, words = heapq.heappop(self.queue)
            event(now, *words)
        return Outcome(self.fleet.proxies, sorted(self.taken), sorted(self.refused.values()), self.refusals,
                       self.down.bytes, self.up.bytes, now)

    def at(self, time: float, event, *words):
        heapq.heappush(self.queue, (time, next(self.numbers), event, words))

    def send(self, now: float, proxy: int):
        """The control plane sends the response; the stream of some is lost at a part of it."""
        size = self.fleet.response_bytes
        if proxy in self.losing:
            self.losing.remove(proxy)
            lost = self.down.carry(now, self.random.randrange(size))
            self.at(lost + self.fleet.first_backoff, self.connect, proxy, lost + self.fleet.outage, self.fleet.first_backoff)
        else:
            self.at(self.down.carry(now, size) + self.fleet.round_trip / 2, self.receive, proxy)

    def connect(self, now: float, proxy: int, back: float, wait: float):
        """A proxy connects again; the control plane is back at a time. It then sends its first request."""
        if now < back:
            longer = min(2 * wait, self.fleet.greatest_backoff)
            self.at(now + longer, self.connect, proxy, back, longer)
        else:
            asked = self.up.carry(now + 1.5 * self.fleet.round_trip, self.fleet.first_request_bytes)
            self.at(asked, self.send, proxy)

    def receive(self, now: float, proxy: int):
        """A proxy has the whole response. It may still be in the pause after a refusal."""
        begun = max(now, self.reads_after.get(proxy, 0.0))
        self.at(begun + self.fleet.admit_seconds, self.judged, proxy)

    def judged(self, now: float, proxy: int):
        """A proxy has judged the response, and answers."""
        arrives = now + self.fleet.round_trip / 2
        if proxy not in self.refusing:
            self.taken.append(now)
            self.at(arrives, self.answered, self.fleet.ack_bytes)
            return
        self.refusals += 1
        self.refused.setdefault(proxy, now)
        self.reads_after[proxy] = now + self.fleet.nack_pause
        self.at(arrives, self.answered, self.fleet.nack_bytes, proxy)

    def answered(self, now: float, size: int, refused_by: Optional[int] = None):
        """The control plane gets an answer. It may send the same again where that is a refusal."""
        done = self.up.carry(now, size)
        if refused_by is not None and done < self.fleet.sends_again:
            self.at(done, self.send, refused_by)
