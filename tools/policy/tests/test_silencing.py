"""Comments that silence notes, checks of folders, and the lines of logs of requests."""
import unittest

from policies.places import Source
from policies.requests import request_log
from support import POLICY
from test_lint import RULE
from test_outputs import Room

SILENT = """rules:
  action: DENY
  policies:
    a:   # policy: ignore other-paths, missing-in-deny
      permissions:
      - url_path: {path: {prefix: /admin}}
      principals: [{any: true}]
      checked_condition:
        text: |-
          source.port == 80 // # policy: ignore host-bits
    # policy: ignore host-bits
    b:
      permissions:
      - destination_ip: {address_prefix: 10.0.0.1, prefix_len: 8}
      # policy: ignore no-prefix-len

      # and a comment
      - destination_ip: {address_prefix: 10.0.0.1}
      principals: [{remote_ip: {address_prefix: 10.0.0.1}}]  # policy: ignore no-prefix-len
    c:
      permissions: [{any: true}]
      principals:
      - remote_ip: {address_prefix: 10.0.0.1}
      - remote_ip: {address_prefix: 10.0.0.2}  # policy: ignore no-prefix-len,host-bits
"""


class Silenced(Room):
    """Comments that silence notes."""

    def notes(self, text):
        """The notes that `check` prints of a file."""
        status, out, errors = self.run_here("check", "--without-engine", "--solver", "never", self.file("f.yaml", text))
        return [line.partition("note: ")[::2] for line in out.decode().splitlines() if " note: " in line]

    def test_comments(self):
        found = self.notes(SILENT)
        self.assertEqual([place for place, _ in found], ["f.yaml:23:20: ", "f.yaml:24:48: "])
        self.assertTrue(found[0][1].endswith("[no-prefix-len]"))
        self.assertEqual(found[1][1], "there is no note host-bits here to silence [unused-ignore]")
        found = self.notes(POLICY.replace("any: true", "destination_port: 1", 1) + "# policy: ignore nothing-like-that\n")
        self.assertEqual([place for place, _ in found], ["f.yaml:8:1: "])
        self.assertTrue(found[0][1].startswith("there is no note of the name nothing-like-that: they are no-prefix-len, "))

    def test_unused(self):
        """Comments that silence nothing are silenced as other notes are, also by themselves."""
        plain = POLICY.replace("any: true", "destination_port: 1", 1)
        own = plain + "# policy: ignore any-any, unused-ignore\n"
        self.assertEqual(self.notes(own), [])
        line = next(line for line in plain.splitlines() if "destination_port" in line)
        indent = " " * (len(line) - len(line.lstrip()))
        before = f"{indent}# policy: ignore unused-ignore\n"
        text = plain.replace(line, f"{before}{line} # policy: ignore host-bits")
        self.assertEqual(self.notes(text), [])
        text = plain.replace(line, f"{line} # policy: ignore host-bits")
        self.assertEqual([words for _, words in self.notes(text)], ["there is no note host-bits here to silence [unused-ignore]"])

    def test_texts(self):
        """A text of YAML is no comment."""
        text = RULE.replace("%s", "ALLOW", 1) % "{destination_ip: {address_prefix: 10.0.0.1}}"
        silent = text + "\n# policy: ignore no-prefix-len"
        self.assertEqual(len(self.notes(silent.replace("\n", " "))), 0)
        quoted = text.replace("{p:", '{"p # policy: ignore no-prefix-len":')
        self.assertEqual(len(self.notes(quoted)), 1)

    def test_same(self):
        """The spellings of paths are noted once for a filter."""
        rules = ", ".join("{url_path: {path: {exact: /a%d}}}" % number for number in range(5))
        [(place, words)] = self.notes(RULE % ("DENY", rules))
        self.assertEqual(place, "f.yaml:1:78: ")
        self.assertTrue(words.endswith("(4 more of these are in this filter) [other-paths]"), words)

    def test_folders(self):
        """Files of a folder that hold no policy are left out, and are named."""
        for name, text in [
            ("d/a.yaml", POLICY),
            ("d/b/c.json", '{"rules": {}}'),
            ("d/b/values.yaml", "replicas: 3\n"),
            ("d/b/f.tests.yaml", "policy: ../a.yaml\ntests: [{request: {}, expect: allow}]\n"),
            ("d/wrong.yaml", "rules: {action: 7}\n"),
            ("d/notes.txt", "rules"),
            ("d/.git/x.yaml", "rules: ["),
        ]:
            (self.room / name).parent.mkdir(parents=True, exist_ok=True)
            self.file(name, text)
        self.file("d/f.bin", bytes.fromhex("0a 00"))
        status, out, errors = self.run_here("check", "--without-engine", "d")
        self.assertEqual(status, 1)
        self.assertEqual(errors, "policy: left out, since no policy is in them: d/b/f.tests.yaml, d/b/values.yaml\n")
        told = [line.split(": ")[0] for line in out.decode().splitlines() if ": would be " in line]
        self.assertEqual(told, ["d/a.yaml", "d/f.bin", "d/wrong.yaml", "d/b/c.json"])
        status, out, errors = self.run_here("check", "--without-engine", "d/.git")
        self.assertEqual(status, 1)
        (self.room / "empty").mkdir()
        told = (2, b"", "policy: there is no policy to check\n")
        self.assertEqual(self.run_here("check", "--without-engine", "empty"), told)


class Logs(unittest.TestCase):
    """Lines of a log of requests, each where it is."""

    def test_lines(self):
        log = '{"path": "/a"}\n\n{"request": {"path": "/b"}, "facts": {"source.port": 1}}\n' * 2
        found = request_log(Source("log", log.encode()))
        self.assertEqual([line for line, _, _ in found], [1, 3, 4, 6])
        self.assertEqual(found[3][1].facts, {"source.port": 1})

    def test_mistakes(self):
        for bad, place in [('{"pth": "/a"}', "log:3:2: "), ('{"path": "/a"]}', "log:3:14: ")]:
            with self.subTest(bad), self.assertRaises(Exception) as caught:
                request_log(Source("log", ('{"path": "/a"}\n{"path": "/b"}\n' + bad + "\n").encode()))
            self.assertTrue(str(caught.exception).startswith(place), str(caught.exception))
