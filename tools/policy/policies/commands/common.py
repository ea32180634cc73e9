"""What several commands share: statuses, numbers on the command line, and how findings are printed."""
import argparse
import os
from typing import Callable, Iterable, List

from .. import engine, output
from ..bounds import BUDGET, GREATEST_BUDGET, GREATEST_VISITS, VISITS, Budget
from ..findings import Finding
from ..places import Mistake, Source

DONE, MISTAKEN, UNUSABLE, NOT_DECIDED = 0, 1, 2, 3
SECONDS = 20
MOST_TOLD = 50


def number_up_to(most: int, what: str = "a number") -> Callable[[str], int]:
    """The reader of a number from 1 to another on the command line."""

    def number(text: str) -> int:
        if not text.isascii() or not text.isdigit() or not 1 <= int(text) <= most:
            raise argparse.ArgumentTypeError(f"{what} from 1 to {most} is expected, not {text}")
        return int(text)

    return number


def add_steps(parser: argparse.ArgumentParser) -> None:
    """Gives a command the option for the steps alone, if it asks no engine."""
    words = f"what the conditions of a filter may cost together, in steps (default {BUDGET})"
    parser.add_argument("--budget", type=number_up_to(GREATEST_BUDGET), default=BUDGET, metavar="N", help=words)


def add_visits(parser: argparse.ArgumentParser) -> None:
    """Gives a command the option for the visits."""
    words = f"how many visits the engine's measuring of the conditions may take (default {VISITS})"
    parser.add_argument("--visits", type=number_up_to(GREATEST_VISITS), default=VISITS, metavar="N", help=words)


def add_budget(parser: argparse.ArgumentParser) -> None:
    """Gives a command the options for the budget of steps and visits."""
    add_steps(parser)
    add_visits(parser)


def budget_of(words: argparse.Namespace) -> Budget:
    """The budget of a command's words."""
    return Budget(words.budget, words.visits)


def add_seconds(parser: argparse.ArgumentParser) -> None:
    """Gives a command the option for how long it may search."""
    words = f"how long each way to decide texts may take, of which there are up to three (default {SECONDS})"
    parser.add_argument("--seconds", type=number_up_to(3600, "a number of seconds"), default=SECONDS, metavar="N", help=words)


def add_engine(parser: argparse.ArgumentParser) -> None:
    """Gives a command the option for the engine's program."""
    words = "the engine's program (default: RBACD, the built rbacd of this checkout, or rbacd on the path)"
    parser.add_argument("--engine", metavar="PROGRAM", help=words)


def engine_of(words: argparse.Namespace) -> engine.Engine:
    """The engine to ask; a note says if it is not proved. Raises NoEngine."""
    named = words.engine or os.environ.get("RBACD")
    program = engine.find(named)
    if program == engine.UNPROVED and not named:
        output.tell(f"policy: note: {program} is not proved; bin/rbacd build proves and builds the program")
    return engine.Engine(program)


def add_output(parser: argparse.ArgumentParser) -> None:
    """Gives a command the option for the file it writes."""
    words = "write this file, whole or not at all, instead of standard output"
    parser.add_argument("-o", "--output", default="-", metavar="FILE", help=words)


def in_order(mistakes: Iterable[Mistake], findings: Iterable[Finding], text: Callable[[Finding], str]) -> List[str]:
    """Mistakes and findings as texts in the order of their file, each once."""
    told = [(mistake.place or (0, 0), str(mistake)) for mistake in mistakes]
    told += [(finding.place or (0, 0), text(finding)) for finding in findings]
    return list(dict.fromkeys(line for _, line in sorted(told, key=lambda one: one[0])))


def tell_findings(source: Source, findings: Iterable[Finding], mistakes: Iterable[Mistake] = ()) -> None:
    """Tells findings and mistakes at their places, the first fifty of them."""
    texts = in_order(mistakes, findings, lambda finding: source.tell(finding.place or (0, 0), finding.told()))
    for text in texts[:MOST_TOLD]:
        output.tell(text)
    if len(texts) > MOST_TOLD:
        output.tell(f"{source.name}: {len(texts) - MOST_TOLD} more of these are not shown")


def tell_mistake(mistake: Mistake) -> None:
    """Tells a mistake and the others of its file, the first fifty of them."""
    mistakes = [mistake, *mistake.rest]
    for one in mistakes[:MOST_TOLD]:
        output.tell(str(one))
    if len(mistakes) > MOST_TOLD:
        output.tell(f"{len(mistakes) - MOST_TOLD} more mistakes are not shown")
