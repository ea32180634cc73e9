"""What is written where an output fails, and what is told of files that are not what is expected."""
import base64
import contextlib
import gzip
import io
import os
import pathlib
import subprocess
import sys
import tempfile
import time
import unittest

from policies import program
from policies.wire import LENGTH, tag, varint
from policies.wrap import frame, response
from support import POLICY, TOP, condition, encoded, field

PROGRAM = TOP / "tools" / "policy" / "policy"
CONDITION = TOP / "examples" / "condition.bin"


class Room(unittest.TestCase):
    """A folder of its own to run the tool in."""

    def setUp(self):
        room = tempfile.TemporaryDirectory()
        self.addCleanup(room.cleanup)
        self.room = pathlib.Path(room.name)

    def file(self, name, data):
        """A file in the room."""
        (self.room / name).write_bytes(data if isinstance(data, bytes) else data.encode())
        return name

    def run_it(self, *words):
        """One run: its status, output and errors."""
        ran = subprocess.run([PROGRAM, *words], capture_output=True, cwd=self.room)
        return ran.returncode, ran.stdout, ran.stderr.decode()

    def run_here(self, *words, given=b""):
        """The same in this process, which saves its start."""
        out, errors = (io.TextIOWrapper(io.BytesIO(), write_through=True) for _ in range(2))
        before, sys.stdin = (os.getcwd(), sys.stdin), io.TextIOWrapper(io.BytesIO(given))
        os.chdir(self.room)
        try:
            with contextlib.redirect_stdout(out), contextlib.redirect_stderr(errors):
                status = program.main(list(map(str, words)))
        finally:
            os.chdir(before[0])
            sys.stdin = before[1]
        return status, out.buffer.getvalue(), errors.buffer.getvalue().decode()

    def shell(self, text):
        """The status and the errors of a line of bash; `$P` is the tool."""
        ran = subprocess.run(["bash", "-c", f"P={PROGRAM}; {text}"], capture_output=True, cwd=self.room)
        return ran.returncode, ran.stderr.decode()


class Outputs(Room):
    """Outputs that fail."""

    def test_failing(self):
        for text, status, words in [
            ("$P decode %s | true; exit ${PIPESTATUS[0]}", None, ""),
            ("$P decode %s >&-", 2, "policy: cannot write: standard output is closed\n"),
            ("$P decode %s > /dev/full", 2, "policy: cannot write: No space left on device\n"),
            ("$P decode %s --output /none/x", 2, "policy: cannot write /none/x: No such file or directory\n"),
            ("$P --help > /dev/full", 2, "policy: cannot write: No space left on device\n"),
            ("$P --help | true; exit ${PIPESTATUS[0]}", None, ""),
            ("$P decode nothing 2>&-", 2, ""),
        ]:
            with self.subTest(text):
                found, errors = self.shell(text.replace("%s", str(CONDITION)))
                self.assertEqual(errors, words)
                self.assertIn(found, (0, 2) if status is None else (status,))

    def test_to_a_file(self):
        self.file("x.bin", b"old")
        self.assertEqual(self.run_it("encode", self.file("bad.yaml", "rules: {x: 1}"), "-o", "x.bin")[:2], (1, b""))
        self.assertEqual((self.room / "x.bin").read_bytes(), b"old")
        self.assertEqual(self.run_it("encode", self.file("good.yaml", POLICY), "-o", "x.bin"), (0, b"", ""))
        self.assertEqual((self.room / "x.bin").read_bytes(), encoded(POLICY))
        self.assertEqual(sorted(path.name for path in self.room.iterdir()), ["bad.yaml", "good.yaml", "x.bin"])


class Inputs(Room):
    """Files that are something else."""

    def test_something_else(self):
        data = encoded(condition("true"))
        self.file("f.bin", data)
        for name, content, decoded, encoded_words in [
            ("empty", b"", "this file is empty", "this file is empty"),
            (
                "f.yaml",
                POLICY,
                "this is YAML, and a filter's bytes are expected; `policy encode f.yaml` makes them",
                None,
            ),
            ("f.json", '{"rules": {}}', "this is JSON, and a filter's bytes are expected", None),
            ("f.gz", gzip.compress(b"rules: {}"), "compressed by gzip", "compressed by gzip"),
            ("f.64", base64.b64encode(data), "`base64 -d f.64`", "base64"),
            ("f.hex", data.hex(" "), "`xxd -r -p f.hex`", "hexadecimal digits"),
            ("f.16", POLICY.encode("utf-16"), "text in UTF-16", "text in UTF-16"),
            ("g.bin", data, None, "`policy decode g.bin` shows them as YAML"),
        ]:
            self.file(name, content)
            for command, words in (("decode", decoded), ("encode", encoded_words)):
                if words is not None:
                    with self.subTest(name, command=command):
                        status, out, errors = self.run_it(command, name)
                        self.assertEqual((status, out), (1, b""))
                        self.assertIn(f"{name}: ", errors)
                        self.assertIn(words, errors)

    def test_response(self):
        """A discovery response is shown as its bytes, with the names of the filters in it."""
        data = encoded(POLICY)
        framed = frame(response([("a", data), ("b", data)], "1", "n"))
        status, out, _ = self.run_it("decode", self.file("w.bin", framed))
        self.assertEqual(status, 0)
        told = "# these bytes are no filter, but hold filters: a, b; --name shows one of them"
        self.assertTrue(out.decode().startswith(told), out)
        self.assertEqual(self.run_it("encode", "--even-if-refused", self.file("again.yaml", out))[1], framed)
        status, out, _ = self.run_it("decode", "--name", "b", "w.bin")
        self.assertEqual((status, out.decode()), (0, POLICY))
        status, out, errors = self.run_it("decode", "--name", "c", "w.bin")
        self.assertEqual((status, out, errors), (1, b"", "w.bin: no filter of the name c is here: a, b\n"))

    def test_json_escapes(self):
        text = '{"rules": {"policies": {"a\\/\\ud83d\\ude00\\\\ud83d": {"permissions": [{"any": true}], "principals": [{"any": true}]}}}}'
        status, out, errors = self.run_it("encode", self.file("f.json", text.replace(" ", "\t")))
        self.assertEqual((status, errors), (0, ""))
        self.assertIn("a/\U0001f600\\ud83d".encode(), out)

    def test_greatest(self):
        self.file("great.yaml", b"#" + b"x" * (16 * 1024 * 1024))
        for command in ("encode", "decode"):
            status, _, errors = self.run_it(command, "great.yaml")
            self.assertEqual((status, "at most 16 MiB" in errors), (1, True))

    def test_wrap(self):
        data = encoded(POLICY)
        self.file("f.bin", data)
        self.file("f.yaml", POLICY)
        self.file("noise", b"\xff\xfe\x00\x01" * 20)
        self.file("refused.bin", encoded("rules: {action: 7}"))
        self.file("empty", b"")
        for words, status, told in [
            (["--name", "f", "f.bin"], 0, ""),
            (["--name", "f", "f.yaml"], 1, "this is YAML"),
            (["--name", "f", "noise"], 1, "noise: byte"),
            (["--name", "f", "empty"], 1, "this file is empty"),
            (["--name", "f", "refused.bin"], 1, "there is no such action: it is ALLOW, DENY or LOG (5 OutOfRange)"),
            (["--even-if-refused", "--name", "f", "refused.bin"], 0, ""),
            (["--name", "f", "--name", "f", "f.bin", "f.bin"], 2, "the name f is given twice"),
            (["--name", "", "f.bin"], 2, "a filter's name is empty"),
            (["--name", "x" * 257, "f.bin"], 2, "longer than 256 bytes"),
            (["--name", b"x\xff", "f.bin"], 2, "a filter's name is not UTF-8"),
            (["--version", b"x\xff", "--name", "f", "f.bin"], 2, "the version is not UTF-8"),
            (["--nonce", b"x\xff", "--name", "f", "f.bin"], 2, "the nonce is not UTF-8"),
            ([word for number in range(9) for word in ("--name", str(number))] + ["f.bin"] * 9, 2, "at most 8"),
        ]:
            with self.subTest(words):
                found, out, errors = self.run_it("wrap", "--version", "1", *words)
                self.assertEqual((found, bool(out)), (status, status == 0), errors)
                self.assertIn(told, errors)

    def test_names_of_files(self):
        """What a name of a file holds cannot control a terminal."""
        status, out, errors = self.run_it("encode", self.file("a\x1b[31m\u202e\x9b.yaml", "rules: ["))
        self.assertEqual((status, out), (1, b""))
        self.assertTrue(errors.startswith("a\\x1b[31m\\u202e\\x9b.yaml:1:8: this bracket is not closed"), errors)

    def test_wrap_pairs(self):
        self.file("a.bin", encoded(POLICY))
        self.file("b.bin", encoded("rules: {}"))
        _, before, _ = self.run_it("wrap", "--version", "1", "--name", "a", "--name", "b", "a.bin", "b.bin")
        status, pairs, errors = self.run_it("wrap", "--name", "a", "a.bin", "--name", "b", "b.bin", "--version", "1")
        self.assertEqual((status, pairs), (0, before), errors)
        status, _, errors = self.run_it("wrap", "--name", "a", "a.bin", "--nam", "b", "--wrong", "b.bin", "--version", "1")
        self.assertEqual((status, "unrecognized arguments: --wrong\n" in errors), (2, True), errors)

    def test_alias_bomb(self):
        lines = ["a: &a [x, x, x, x, x, x, x, x, x, x]"]
        for before, name in zip("abcdefgh", "bcdefghi"):
            lines.append(f"{name}: &{name} [" + ", ".join([f"*{before}"] * 10) + "]")
        started = time.process_time()
        status, out, errors = self.run_it("encode", self.file("bomb.yaml", "\n".join(lines)))
        self.assertEqual((status, out), (1, b""))
        self.assertIn("bomb.yaml:1:1: the aliases here expand to more than 100000 parts", errors)
        self.assertLess(time.process_time() - started, 10)

    def test_large_texts(self):
        """A long text that many aliases name is bounded too."""
        rules = ", ".join(["{url_path: {path: {exact: *a}}}"] * 1000)
        text = "rules: {policies: {p: {permissions: [{url_path: {path: {exact: &a %s}}}, %s], principals: [{any: true}]}}}"
        status, out, errors = self.run_it("encode", self.file("f.yaml", text % ("a" * 10_000, rules)))
        self.assertEqual((status, out), (1, b""))
        self.assertIn("f.yaml:1:1: the aliases here expand to more than 100000 parts", errors)

    def test_deep_bytes(self):
        """Bytes that are nested deep are not copied for each level."""
        parts, size = [bytes.fromhex("18 01")], 2
        for _ in range(100_000):
            parts.append(tag(8, LENGTH) + varint(size))
            size += len(parts[-1])
        data = field(1, field(2, field(1, b"p") + field(2, field(1, b"".join(reversed(parts))))))
        self.file("f.bin", data)
        script = 'ulimit -v 400000; exec "$0" check --without-engine f.bin'
        ran = subprocess.run(["bash", "-c", script, PROGRAM], capture_output=True, text=True, cwd=self.room)
        self.assertEqual((ran.returncode, ran.stderr), (1, ""))
        self.assertIn("rules are nested more than 32 deep (8 TooLarge)", ran.stdout)

    def test_endless_aliases(self):
        """An alias of what is around it has no end, and is told before anything walks it."""
        for number, (text, place) in enumerate(
            [
                ("rules: {policies: {p: {permissions: [&a {and_rules: {rules: [*a, *a]}}]}}}", "1:38"),
                ("- &a [*a, *a, *a]", "1:3"),
                ("static_resources: &a {listeners: [*a, *a], b: [*a, *a], c: {d: *a, e: *a}}", "1:19"),
                ("rules: {}\n---\n&a {a: *a}", "3:1"),
            ]
        ):
            with self.subTest(text):
                name = self.file(f"{number}.yaml", text)
                status, out, errors = self.run_it("check", "--without-engine", name)
                self.assertEqual((status, errors), (1, ""))
                self.assertTrue(out.decode().startswith(f"{name}:{place}: an alias inside of this names the whole"), out)

    def test_aliases(self):
        text = "rules: {policies: {a: &a {permissions: [{any: true}], principals: [{any: true}]}, b: *a}}"
        self.assertEqual(self.run_it("encode", self.file("f.yaml", text))[0], 0)
