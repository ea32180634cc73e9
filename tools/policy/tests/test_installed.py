"""What `policy generate` writes, and the tool installed into a prefix."""
import json
import os
import re
import shutil
import subprocess
import unittest

import yaml

from policies import manual
from policies.program import parser_of_words
from policies.schema import schema
from support import ENGINE, HERE, TOP, condition, encoded
from test_outputs import Room

TOOL = TOP / "tools" / "policy"
# Filters that the schema takes, and those that it does not.
TAKEN = [TOP / "examples" / "condition.yaml", TOOL / "examples" / "service.yaml", HERE / "kinds" / "regex.yaml"]
TAKEN += [HERE / "kinds" / f"{name}.yaml" for name in ("envoy_rules", "per_route", "filter_entry", "filter_list", "bootstrap")]
TAKEN += [HERE / "kinds" / f"{name}.yaml" for name in ("istio_allow", "istio_deny", "istio_whens", "extension", "response")]
TAKEN += [HERE / "kinds" / "grpc.json", HERE / "kinds" / "config_dump.json"]
NOT_TAKEN = [
    "rulez: {}",
    "rules: {policies: {p: {permissions: [{any: true}]}}}",
    "rules: {policies: {p: {permissions: [{any: false}], principals: [{any: true}]}}}",
    "rules: {policies: {p: {permissions: [{destination_port: 65536}], principals: [{any: true}]}}}",
    "rules: {policies: {p: {permissions: [{any: true, destination_port: 1}], principals: [{any: true}]}}}",
    "rules: {policies: {p: {permissions: [{metadata: {}}], principals: [{any: true}]}}}",
    "rules: {policies: {p: {permissions: [{header: {exact_match: a}}], principals: [{any: true}]}}}",
    "rules: {policies: {p: {permissions: [{url_path: {path: {prefix: ''}}}], principals: [{any: true}]}}}",
    "rules: {action: MAYBE}",
    "policies: {p: {}}",
    "rbac: {rulez: {}}",
    "name: x\ntyped_config: {'@type': type.googleapis.com/envoy.extensions.filters.http.rbac.v3.RBAC, rulez: {}}",
    "http_filters: [{typed_config: {'@type': t/envoy.extensions.filters.http.rbac.v3.RBAC, rules: {action: MAYBE}}}]",
    "kind: AuthorizationPolicy\nspec: {action: MAYBE}",
    "kind: AuthorizationPolicy\nspec: {rules: [{from: [{source: {ipBlock: [a]}}]}]}",
    "name: a\nallow_rules: []",
    "name: a\nallow_rules: [{name: b, source: {principal: [a]}}]",
]


class Schema:
    """The part of JSON Schema that ours uses."""

    def __init__(self, whole):
        self.whole = whole

    def fits(self, value, part):
        """Whether a value fits a part of the schema."""
        if "$ref" in part:
            return self.fits(value, self.whole["definitions"][part["$ref"].rsplit("/", 1)[1]])
        tests = [self.has_type(value, part), "const" not in part or value is part["const"] or value == part["const"] != 1]
        tests.append("enum" not in part or value in part["enum"])
        tests.append("not" not in part or not self.fits(value, part["not"]))
        if "if" in part:
            tests.append(self.fits(value, part.get("then" if self.fits(value, part["if"]) else "else", {})))
        tests += [self.fits(value, one) for one in part.get("allOf", [])]
        tests.append("anyOf" not in part or any(self.fits(value, one) for one in part["anyOf"]))
        tests.append("oneOf" not in part or sum(self.fits(value, one) for one in part["oneOf"]) == 1)
        if isinstance(value, dict):
            tests += self.of_mapping(value, part)
        if isinstance(value, list):
            tests += [len(value) >= part.get("minItems", 0)] + [self.fits(one, part.get("items", {})) for one in value]
        if isinstance(value, str):
            tests += [len(value) >= part.get("minLength", 0), re.search(part.get("pattern", ""), value) is not None]
        if isinstance(value, int):
            tests.append(part.get("minimum", value) <= value <= part.get("maximum", value))
        return all(tests)

    def has_type(self, value, part):
        """Whether a value is of the type that a part names."""
        kinds = {"object": dict, "array": list, "string": str, "boolean": bool, "integer": int}
        return "type" not in part or isinstance(value, kinds[part["type"]])

    def of_mapping(self, value, part):
        """The tests of a mapping's members."""
        known, more = part.get("properties", {}), part.get("additionalProperties", True)
        yield all(name in value for name in part.get("required", []))
        yield len(value) <= part.get("maxProperties", len(value))
        for name, inner in value.items():
            if name in known:
                yield self.fits(inner, known[name])
            else:
                yield more if isinstance(more, bool) else self.fits(inner, more)


class Generated(Room):
    """The schema, the manual page and the completions."""

    def test_schema(self):
        whole = json.loads(self.run_it("generate", "schema")[1])
        self.assertEqual(whole, schema())
        for path in TAKEN:
            with self.subTest(path.name):
                self.assertTrue(Schema(whole).fits(yaml.safe_load(path.read_text()), whole))
        for text in NOT_TAKEN:
            with self.subTest(text):
                self.assertFalse(Schema(whole).fits(yaml.safe_load(text), whole))
        self.assertTrue(Schema(whole).fits(yaml.safe_load(condition("true", "type_map: {2: list(int)}")), whole))

    def test_manual(self):
        status, page, _ = self.run_it("generate", "man")
        self.assertEqual(status, 0)
        parser = parser_of_words()
        for name, command in manual.commands_of(parser).items():
            self.assertIn(f".SS policy {name}", page.decode())
            for action in manual.options_of(command):
                for option in action.option_strings:
                    self.assertIn("\\fB" + option.replace("-", "\\-") + "\\fR", page.decode())
        if shutil.which("man"):
            ran = subprocess.run(["man", "--warnings", "-l", "-"], input=page, capture_output=True)
            self.assertEqual((ran.returncode, ran.stderr), (0, b""))

    def test_bash(self):
        (self.room / "c").write_bytes(self.run_it("generate", "bash")[1])
        self.file("x.yaml", "")
        for words, wanted in [
            (["ch"], "check"),
            (["check", "--bud"], "--budget"),
            (["check", "x."], "x.yaml"),
            (["te"], "test"),
        ]:
            line = " ".join(f'"{word}"' for word in ["policy", *words])
            script = f'source ./c; COMP_WORDS=({line}); COMP_CWORD={len(words)}; _policy; echo "${{COMPREPLY[*]}}"'
            ran = subprocess.run(["bash", "-c", script], capture_output=True, text=True, cwd=self.room)
            self.assertEqual(ran.stdout.strip(), wanted, ran.stderr)

    @unittest.skipUnless(shutil.which("zsh"), "zsh is not here")
    def test_zsh(self):
        (self.room / "_policy").write_bytes(self.run_it("generate", "zsh")[1])
        self.assertEqual(subprocess.run(["zsh", "-n", "_policy"], cwd=self.room).returncode, 0)
        script = "autoload -Uz compinit && compinit -D -u && source ./_policy && whence -w _policy && echo $_comps[policy]"
        ran = subprocess.run(["zsh", "-fc", script], capture_output=True, text=True, cwd=self.room)
        self.assertEqual((ran.stdout, ran.stderr), ("_policy: function\n_policy\n", ""))

    def test_installed_engine(self):
        """The engine's manual page and completions are those of its own help."""
        helps = TOP / "crates" / "rbacd" / "cases" / "help"
        self.file("rbacd", f'#!/bin/sh\ncase "$1" in --help) cat {helps}/rbacd ;; *) cat "{helps}/$1" ;; esac\n')
        (self.room / "rbacd").chmod(0o755)
        prefix = self.room / "usr"
        ran = subprocess.run([TOOL / "install", prefix, self.room / "rbacd"], capture_output=True, text=True)
        self.assertEqual((ran.returncode, ran.stderr), (0, ""))
        page = (prefix / "share/man/man1/rbacd.1").read_text()
        for name in ("check", "judge", "check-config", "replay", "control", "proxy", "serve"):
            self.assertIn(f".SH rbacd {name}\n", page)
        self.assertIn("\\-\\-batch", page)
        if shutil.which("man"):
            ran = subprocess.run(["man", "--warnings", "-l", "-"], input=page, capture_output=True, text=True)
            self.assertEqual((ran.returncode, ran.stderr), (0, ""))
        completion = prefix / "share/bash-completion/completions/rbacd"
        for words, wanted in (("rbacd ju", "judge"), ("rbacd judge --ba", "--batch"), ("rbacd --v", "--version")):
            script = f'source {completion}; COMP_WORDS=({words}); COMP_CWORD={words.count(" ")}; _rbacd; echo "${{COMPREPLY[*]}}"'
            ran = subprocess.run(["bash", "-c", script], capture_output=True, text=True, cwd=self.room)
            self.assertEqual(ran.stdout.strip(), wanted, ran.stderr)
        if shutil.which("zsh"):
            zsh = prefix / "share/zsh/site-functions/_rbacd"
            self.assertEqual(subprocess.run(["zsh", "-n", zsh]).returncode, 0)
        ran = subprocess.run([TOOL / "install", "--remove", prefix], capture_output=True, text=True)
        self.assertEqual((ran.returncode, [path for path in prefix.rglob("*") if not path.is_dir()]), (0, []))

    def test_name_of_an_engine(self):
        """The manual page has the name rbacd, whatever the program's file is called."""
        self.file("unproved", '#!/bin/sh\necho "An engine"; echo; echo "Usage: ${0##*/} <COMMAND>"\n')
        (self.room / "unproved").chmod(0o755)
        ran = subprocess.run([TOOL / "install", self.room / "usr", self.room / "unproved"], capture_output=True, text=True)
        self.assertEqual((ran.returncode, ran.stderr), (0, ""))
        page = (self.room / "usr/share/man/man1/rbacd.1").read_text()
        self.assertIn("Usage: rbacd <COMMAND>", page)
        self.assertNotIn("unproved", page)

    def test_without_an_engine(self):
        """If no program is built, the command that builds it is named; --unproved takes the other program."""
        copy = self.room / "copy"
        (copy / "crates/rbacd/out").mkdir(parents=True)
        shutil.copytree(TOOL, copy / "tools/policy", ignore=shutil.ignore_patterns("tests", "__pycache__"))
        shutil.copy(TOP / "VERSION", copy)
        install, prefix = copy / "tools/policy/install", self.room / "usr"
        for words, told in (([], "run bin/rbacd build, and"), (["--unproved"], "run bin/rbacd build --unproved, and")):
            ran = subprocess.run([install, *words, prefix], capture_output=True, text=True)
            self.assertEqual((ran.returncode, ran.stderr), (0, ""))
            self.assertIn(told, ran.stdout)
        self.file("copy/crates/rbacd/out/unproved", "#!/bin/sh\necho unproved\n")
        (copy / "crates/rbacd/out/unproved").chmod(0o755)
        ran = subprocess.run([install, "--unproved", prefix], capture_output=True, text=True)
        self.assertIn("installed policy and rbacd", ran.stdout)
        self.assertIn("echo unproved", (prefix / "bin/rbacd").read_text())

    def test_installed(self):
        words = [str(ENGINE)] if ENGINE.exists() else []
        ran = subprocess.run([TOOL / "install", self.room / "usr", *words], capture_output=True, text=True)
        self.assertEqual(ran.returncode, 0, ran.stderr)
        program, settings = self.room / "usr" / "bin" / "policy", {
            key: value for key, value in os.environ.items() if key != "RBACD"
        }
        wanted = (TOP / "VERSION").read_text().split("\n")[0]
        for one in (program, TOOL / "policy"):
            self.assertEqual(subprocess.run([one, "--version"], capture_output=True, text=True).stdout, f"policy {wanted}\n")
        self.file("f.yaml", condition('request.method == "GET"'))
        ran = subprocess.run([program, "encode", "f.yaml"], capture_output=True, cwd=self.room, env=settings)
        self.assertEqual(ran.stdout, encoded(condition('request.method == "GET"')))
        if words:
            ran = subprocess.run(
                [program, "check", "f.yaml"], capture_output=True, text=True, cwd=self.room, env=settings
            )
            self.assertEqual(ran.stdout.splitlines()[0], "f.yaml: admitted: policies 1 bound 40 of 1000000")
        self.assertTrue((self.room / "usr/share/man/man1/policy.1").exists())
        ran = subprocess.run([TOOL / "install", "--remove", self.room / "usr"], capture_output=True, text=True)
        left = [path for path in (self.room / "usr").rglob("*") if not path.is_dir()]
        self.assertEqual((ran.returncode, left), (0, []))
        self.assertEqual(subprocess.run([TOOL / "install"], capture_output=True).returncode, 2)
