"""What a rollout costs one proxy, in bytes and seconds, as it was measured of the program."""
import dataclasses
import itertools
import json
import pathlib

import expressions
from messages import entry, extension, filter_of, frame, response, text
from serving_peers import condition
from tenants import tenant_policy

# the greatest message of a control plane that the program reads, in bytes
GREATEST_RESPONSE = 1 << 20


@dataclasses.dataclass(frozen=True)
class Costs:
    """What was measured of one program on one machine.

    first_request_bytes     the frame that a proxy sends when its stream comes up
    ack_bytes, nack_bytes   the frames by which it takes or refuses a response
    response_seconds, filter_seconds, policy_seconds
                            judging a response takes the first once, the second for each filter, the third for each policy
    decide_seconds          answering one request, of 11 fields, by a filter of 256 policies with conditions
    program, machine        what was measured, and where
    """

    first_request_bytes: int
    ack_bytes: int
    nack_bytes: int
    response_seconds: float
    filter_seconds: float
    policy_seconds: float
    decide_seconds: float
    program: str = ""
    machine: str = ""

    def admit_seconds(self, filters, policies):
        """How long a proxy judges a response of so many filters, each of so many policies."""
        return self.response_seconds + filters * (self.filter_seconds + policies * self.policy_seconds)

    @classmethod
    def read(cls, file):
        return cls(**json.loads(pathlib.Path(file).read_text()))

    def write(self, file):
        pathlib.Path(file).write_text(json.dumps(dataclasses.asdict(self), indent=2) + "\n")


def filter_bytes(policies):
    """A filter whose policies each have a path prefix, a method, a user and a condition of two comparisons, as in bench/serving."""
    return filter_of(entry(b"r%03d" % number, tenant_policy("path", number) + text(4, own_condition(number)))
                     for number in range(policies))


def own_condition(number):
    """The condition of a policy; its nodes are numbered from 1, as a parser does."""
    expressions.IDS = itertools.count(1)
    return condition(number)


def filter_name(number):
    return f"f{number}"


def response_frame(filters, policies, version="1"):
    """The frame of a response with so many filters, each of so many policies."""
    one = filter_bytes(policies)
    resources = [extension(filter_name(number).encode(), one) for number in range(filters)]
    return frame(response(version.encode(), resources, version.encode()))


def response_bytes(filters, policies):
    """The bytes of that frame; a message that the program would not read is an error."""
    size = len(response_frame(filters, policies))
    if size - 5 > GREATEST_RESPONSE:
        raise ValueError(f"a response of {filters} filters of {policies} policies has {size:,} bytes; "
                         f"a proxy reads at most {GREATEST_RESPONSE:,}")
    return size
