"""Notes that a solver finds: their names, their places, and when a solver is asked."""
import unittest
from unittest import mock

from policies import checking, lint, requirements
from policies.places import Source
from policies.reading import contents
from solved_notes import ANY, SOLVED_NOTES, filter_of, path, when
from support import NO_SOLVER, has_solver
from test_outputs import Room

SHADOWED = filter_of("ALLOW", (path("prefix: /a/"), ANY), (path("prefix: /a/b/"), ANY))


def patient(case):
    """Gives questions time, also on a busy machine."""
    from policies.lint import of_meaning

    given = mock.patch.multiple(of_meaning, SECONDS=120.0, SECONDS_A_QUESTION=60.0)
    given.start()
    case.addCleanup(given.stop)


def solved(text):
    """The notes of a solver on a filter's YAML, in the order of places."""
    [held] = contents(Source("f.yaml", text.encode())).filters
    found = lint.notes(held.message, held.encoding)
    return sorted(lint.solved_notes(held.message, held.encoding, found), key=lambda one: one.place)


@unittest.skipUnless(has_solver(), NO_SOLVER)
class Solved(unittest.TestCase):
    """Each note by its name and its place."""

    def setUp(self):
        patient(self)

    def test_names(self):
        for text, names in SOLVED_NOTES:
            with self.subTest(text):
                self.assertEqual([one.lint for one in solved(text)], names)

    def test_places(self):
        """The place is that of the policy, of the rule or of the part of the condition."""
        for text, place in [
            (SHADOWED, (7, 6)),
            (filter_of("ALLOW", (f"{path('prefix: /a/')}, {path('exact: /a/b')}", ANY)), (4, 55)),
            (when("source.port == 80 && size(request.path) >= 1"), (6, 73)),
            (filter_of("DENY", ("{header: {name: x-env, exact_match: prod}}", ANY)), (4, 29)),
        ]:
            with self.subTest(text):
                [one] = solved(text)
                self.assertEqual(one.place, place, text.splitlines()[one.place[0]][one.place[1] :])


@unittest.skipUnless(has_solver(), NO_SOLVER)
class Asked(Room):
    """When a solver is asked."""

    def setUp(self):
        super().setUp()
        patient(self)

    def notes(self, *words):
        """The names of the notes that `check` prints."""
        _, out, errors = self.run_here("check", "--without-engine", *words)
        self.assertEqual(errors, "")
        return [line.rpartition("[")[2].rstrip("]") for line in out.decode().splitlines() if " note: " in line]

    def test_when(self):
        self.file("f.yaml", SHADOWED)
        self.assertEqual(self.notes("f.yaml"), ["never-first"])
        self.assertEqual(self.notes("--solver", "never", "f.yaml"), [])
        with mock.patch.object(requirements, "missing_solver", lambda: ["python3-z3"]):
            self.assertEqual(self.notes("--solver", "always", "f.yaml"), [])
        with mock.patch.object(checking, "MOST_SOLVED", 1):
            self.assertEqual(self.notes("f.yaml", "f.yaml"), [])
            self.assertEqual(self.notes("--solver", "always", "f.yaml", "f.yaml"), ["never-first"] * 2)

    def test_silenced(self):
        """A comment silences such a note, and is unused only if a solver was asked."""
        silent = SHADOWED.replace("    p1:", "    p1:  # policy: ignore never-first")
        self.file("f.yaml", silent)
        self.file("g.yaml", silent.replace("/a/b/", "/b/"))
        self.assertEqual(self.notes("f.yaml"), [])
        self.assertEqual(self.notes("g.yaml"), ["unused-ignore"])
        self.assertEqual(self.notes("--solver", "never", "g.yaml"), [])

    def test_refused(self):
        """A filter that the engine would refuse is not asked about."""
        self.file("f.yaml", SHADOWED.replace("/a/b/", "''"))
        self.assertEqual(self.notes("f.yaml"), [])
