"""A rollout of policies over many proxies: a model, what it rests on, and its picture. bench/fleet is its program."""
import pathlib
import sys

BENCH = pathlib.Path(__file__).resolve().parent.parent
# messages and policies of the benchmark, and what runs over sockets needs
sys.path[1:1] = [str(BENCH), str(BENCH.parent / "scripts/serve")]
