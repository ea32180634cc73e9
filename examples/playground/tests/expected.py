#!/usr/bin/env -S /usr/bin/python3 -E -s -B
"""What tools/policy makes of its own examples and tests, for those who make the same: lines of JSON with a text of YAML, and its bytes or
its first fault. They are the filters of the repository, those of the tool's tests, the rows of docs/PROFILE.md, the conditions that cel-go's
trees are stored for, wrong texts, and random filters of the profile.

Usage: tests/expected.py [--random N]    so many random filters, 400 if it is not given
"""
import json
import os
import pathlib
import sys

TOP = pathlib.Path(__file__).resolve().parents[3]
POLICY = TOP / "tools" / "policy"
sys.path[:0] = [str(POLICY), str(POLICY / "tests")]
# compiled modules are kept beside the user's other caches, as the tool keeps them
sys.pycache_prefix = os.path.join(os.environ.get("XDG_CACHE_HOME") or os.path.expanduser("~/.cache"), "vupresal-policy")
from policies import requirements  # noqa: E402

RANDOM, SEED = 400, 4_711


def files():
    """The files of the repository that hold a policy, or look like one."""
    folders = [TOP / "examples", TOP / "examples" / "fronts", TOP / "examples" / "oauth2", TOP / "examples" / "kubernetes",
               TOP / "examples" / "policies", POLICY / "examples", POLICY / "tests" / "kinds"]
    for folder in folders:
        for file in sorted(folder.glob("*.yaml")) + sorted((POLICY / "tests" / "kinds").glob("*.json") if folder.name == "kinds" else []):
            yield str(file.relative_to(TOP)), file.read_text()


def rows():
    """The filters of the tables of docs/PROFILE.md, with the engine's answers there."""
    import test_profile_page
    for kind, around in test_profile_page.EXAMPLES.items():
        for row in test_profile_page.rows(kind, "Engine"):
            yield f"PROFILE: {row[kind]}", around(row[kind].strip("`")), row["Engine"]
    for row in test_profile_page.rows("Number", "Filter"):
        if row["Filter"]:
            yield f"PROFILE: {row['Filter']}", row["Filter"].strip("`"), f"refused {row['Number']} {row['Name']}"


def conditions():
    """Conditions: those with stored trees of cel-go, and wrong ones."""
    import test_cel_mistakes
    import test_cel_trees
    from support import condition
    for line in [*test_cel_trees.stored("tree"), *test_cel_trees.stored("fault")]:
        yield f"condition: {line['text']}", condition(line["text"])
    for row in test_cel_mistakes.WRONG:
        yield f"wrong condition: {row[0]}", condition(row[0])


def texts():
    """All texts, each with a name, and perhaps with the engine's answer."""
    import cases
    import test_yaml_mistakes
    yield from files()
    yield from (("case: " + name, text) for name, text in cases.all_cases().items())
    yield from rows()
    with open(POLICY / "tests" / "envoy.jsonl", encoding="utf-8") as lines:
        yield from ((f"Envoy: {line.strip()}", json.dumps(json.loads(line)["filter"])) for line in lines)
    yield from conditions()
    yield from ((f"wrong: {row[0][:80]}", row[0]) for row in test_yaml_mistakes.WRONG)


def random_texts(count):
    """Random filters of the profile, as the tool writes them."""
    from policies.decode import decode
    from random_filters import Maker
    maker = Maker(SEED, profile=True)
    for number in range(count):
        yield f"random {number}", decode(maker.filter_bytes())


def answer(text):
    """The bytes of a filter, or where its first fault is."""
    from policies.encode import encode
    from policies.places import Mistake, Source
    from policies.reading import contents
    try:
        source = Source("filter.yaml", text.encode())
        try:
            return {"bytes": encode(source)[0].hex()}
        except Mistake as mistake:
            held = contents(source, None)
            told = [found.words for found in held.findings]
            if told == ["these are the rules of a filter, read as its `rules`"] and not held.mistakes:
                return {"bytes": held.filters[0].data.hex()}
            raise mistake
    except Mistake as mistake:
        line, column = mistake.place or (0, 0)
        return {"line": line + 1, "column": column + 1, "words": mistake.words}


def main(words):
    missing = requirements.missing()
    if missing:
        print("expected: " + requirements.advice(missing), file=sys.stderr)
        return 3
    sys.setrecursionlimit(20_000)
    count = int(words[1]) if words[:1] == ["--random"] else RANDOM
    for name, text, *more in [*texts(), *random_texts(count)]:
        print(json.dumps({"name": name, "text": text, **answer(text), **({"answer": more[0]} if more else {})}))
    return 0


if __name__ == "__main__":
    sys.exit(main(sys.argv[1:]))
