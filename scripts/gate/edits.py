"""Edits: wrong code that the prover has to refuse, in crates/NAME/must-fail, crates/NAME/edits and tests/NAME/edits."""
import concurrent.futures
import functools
import hashlib
import os
import pathlib
import re
import shutil
import subprocess
import tempfile

TOP = pathlib.Path(__file__).resolve().parent.parent.parent
HEAD = r" *(?:pub(?:\([a-z]+\))? )?(?:const )?(?:extern \"C\" )?fn (\w+)"
DECLARES = r"(?m)^(?:pub(?:\([a-z]+\))? )?(?:struct|enum|type|trait) {}\b"
UNREAD = re.compile(r"is not in scope|has no field|is no name|operand is missing|expected the end|cannot continue")
NAMED = re.compile(r"(?:\./)?proofs/.*(has no field|is not in scope|has no `|was not admitted)")
ONLY_A_NAME = " (only by a proof file that names what the edit took away)"
# a path's first word, in code and in a clause or a definition; what follows `use` or `mod`; names that no file declares
HEAD_OF_PATH = re.compile(r"(?<![\w:.])(?:::)?([a-z_]\w*)::")
LIBRARY = re.compile(r"\bRattle\.(\w+)\.")
DECLARED = re.compile(r"(?m)^ *(?:pub(?:\([a-z]+\))? )?(?:use (?:\w+::)?|mod )([^;]*);")
BUILT_IN = set("crate self super std core bool char str u8 u16 u32 u64 usize i8 i16 i32 i64 isize".split())


@functools.cache
def libraries():
    """Each crate of the repository and the crates that it uses, those of the kit too."""
    lines = [line.split("#")[0] for line in (TOP / "crates.txt").read_text().splitlines()]
    return {line.split(":")[0].split()[0]: line.split(":")[1].split() for line in lines if ":" in line}


def crates():
    """Each crate of the repository and those of the repository that it uses."""
    return {name: [it for it in below if it in libraries()] for name, below in libraries().items()}


def closure(name, below):
    """The crate and those that it stands on, directly or not."""
    found = [name]
    for it in found:
        found += [other for other in below[it] if other not in found]
    return found


class Edit:
    """An edit's pairs of texts by file, and the function whose body it changes, where it changes one alone. The files of an edit
    of tests/ are named from crates/."""

    def __init__(self, path):
        self.path, self.name, self.crate, self.pairs = path, path.stem, path.parent.parent, []
        if path.is_relative_to(TOP / "tests"):
            self.crate = TOP / "crates"
        self.fails, self.unread, self.only = None, None, []
        file = old = ""
        for line in path.read_text().split("\n"):
            if line.startswith("file: "):
                file = line[len("file: "):].strip()
            elif line.startswith("old: "):
                old = line[len("old: "):]
            elif line.startswith("new:"):
                self.pairs.append((file, old, line[len("new:"):].removeprefix(" ")))
            elif line.startswith("fails: "):
                self.fails = line[len("fails: "):].strip()
            elif line.startswith("only: "):
                self.only.append(line[len("only: "):].strip())
            elif line.strip():
                self.unread = self.unread or line
        self.unfit = self.apply({}) if self.pairs else "it has no 'old:' and 'new:' pair"
        bodies = set() if self.unfit else {function_around(self.crate / file, old) for file, old, _ in self.pairs}
        self.function = bodies.pop() if len(bodies) == 1 else None

    def fault(self):
        """Why the edit cannot be tried, if it cannot."""
        if self.unread:
            return f"a line begins with none of 'file: ', 'old: ', 'new:' and 'only: ': {self.unread[:60]}"
        return self.unfit or self.lacks_crate() or (self.lacks_test() if self.crate == TOP / "crates" else None)

    def lacks_crate(self):
        """Which crate the edit uses though its own does not, if there is one: such code is refused for a name."""
        texts = {}
        self.apply(texts)
        for file, old, new in self.pairs:
            own = self.crate.name if self.crate != TOP / "crates" else file.split("/")[0]
            known = {own, *libraries().get(own, ())}
            declared = {word for it in DECLARED.findall(texts[file]) for word in re.findall(r"\w+", it)}
            heads = set(HEAD_OF_PATH.findall(new)) - set(HEAD_OF_PATH.findall(old)) - BUILT_IN - declared
            wrong = sorted((heads | set(LIBRARY.findall(new)) - {"std"}) - known)
            if wrong:
                return f"it uses {wrong[0]}, which the line of {own} in crates.txt does not name"
        return None

    def lacks_test(self):
        """Whether the test that an edit of tests/ has to fail is not there."""
        is_there = self.fails and has_test(self.path.parent.parent, self.fails)
        return None if is_there else f"there is no test {self.fails}"

    def apply(self, texts):
        """Changes the texts by file, each pair after those before it, or says why the edit does not apply."""
        for file, old, new in self.pairs:
            if not (self.crate / file).is_file():
                return f"there is no file {file}"
            text = texts.get(file, (self.crate / file).read_text())
            if text.count(old) != 1:
                return f"a text is in {file} {text.count(old)} times, and not once"
            texts[file] = text.replace(old, new)
        return None


def has_test(folder, path):
    """Whether a folder of tests/ has the test of this path, such as `cases::any_any`."""
    *modules, test = path.split("::")
    file = folder / f"{'/'.join(modules) or 'lib'}.rt.text"
    return file.is_file() and bool(re.search(rf"#\[test\]\s+(?:pub )?fn {test}\b", file.read_text()))


COMMENT = re.compile(rb"^[ \t]*(//|--).*\n", re.M)


def sum_of(crate):
    """A sum of what a crate's proofs are made of: its src/, specs/ and proofs/ without their comments. The crates below are not in it."""
    files = sorted(it for kind in ("src", "specs", "proofs") for it in (crate / kind).rglob("*") if it.is_file())
    made = hashlib.sha256()
    for it in files:
        bare = COMMENT.sub(b"", it.read_bytes())
        made.update(f"{it.relative_to(crate)} {len(bare)}\n".encode() + bare)
    return made.hexdigest()


def function_around(path, old):
    """The file, the name and the type of the function in whose body the text is, as rt fmt lays functions out."""
    lines = path.read_text().split("\n")
    span = lines_around(path, old)
    return span and (path, re.match(HEAD, lines[span[0]])[1], type_around(lines, span[0]))


def lines_around(path, old):
    """The first and the last line, from 0, of the function in whose body the text is."""
    text = path.read_text()
    lines = text.split("\n")
    first = text[: text.find(old)].count("\n") if old in text else 0
    start = next((at for at in range(first, -1, -1) if re.match(HEAD, lines[at])), None)
    if path.suffix != ".rt" or start is None:
        return None
    indent = re.match(" *", lines[start])[0]
    opened = next((at for at in range(start, len(lines)) if lines[at] == indent + "{" or
                   lines[at].endswith(" {") and not re.match(r" *(ensures|requires)", lines[at])), len(lines))
    closed = next((at for at in range(opened, len(lines)) if lines[at] == indent + "}"), 0)
    return (start, closed) if opened < first < closed else None


def type_around(lines, start):
    """The type and the trait, if there is one, of the `impl` that the function is in, or none. A trait is named with the types that it
    is of, as `ServiceConn`, but without the parameters of the `impl`."""
    at = next((at for at in range(start, -1, -1) if lines[at] and not lines[at].startswith((" ", "}", ">", "//"))), 0)
    if not lines[start].startswith(" ") or not lines[at].startswith("impl"):
        return None
    head = " ".join(lines[at:start]).partition(" {")[0].removeprefix("impl")
    bound = head[: end_of_brackets(head)]
    trait, _, named = head[len(bound) :].partition(" where ")[0].rpartition(" for ")
    found = re.fullmatch(r"\W*(?:\w+::)*(\w+)\W*", named.partition("<")[0])
    own = set(re.findall(r"(?:[<,]|const) ?([A-Z]\w*)", bound))
    path, _, types = trait.partition("<")
    words = [it for it in re.findall(r"(?<!['\w])[A-Za-z_]\w*", types) if it not in own]
    return found and (found[1], path.strip().rpartition("::")[2] + "".join(it[0].upper() + it[1:] for it in words))


def end_of_brackets(text):
    """Where the angle brackets that the text begins with end, or 0."""
    depth = 0
    for at, it in enumerate(text):
        depth += (it == "<") - (it == ">" and text[at - 1] != "-")
        if depth == 0:
            return at + (it == ">")
    return 0


def apart(edits, most):
    """As many of the edits as go into one check: of different functions."""
    group = {}
    for edit in edits:
        group.setdefault(edit.function[1], edit)
    return list(group.values())[:most]


def copied(name, room, below):
    """A copy of the crate with those that it stands on, as a checkout of its own."""
    to = pathlib.Path(tempfile.mkdtemp(dir=room))
    subprocess.run(["git", "init", "-q", to], check=True)
    shutil.copy2(TOP / "HANDLES", to)
    needed = closure(name, below)
    lines = (TOP / "crates.txt").read_text().splitlines(keepends=True)
    (to / "crates.txt").write_text("".join(line for line in lines if re.split("[ :]", line)[0] in needed))
    for it in needed:
        shutil.copytree(TOP / "crates" / it, to / "crates" / it, copy_function=linked)
    return to / "crates" / name


def linked(file, to):
    """What earlier checks kept is linked where that can be; a source is copied, since edits are written into it."""
    if pathlib.Path(file).relative_to(TOP / "crates").parts[1] == "out":
        try:
            return os.link(file, to)
        except OSError:
            pass  # another file system
    return shutil.copy2(file, to)


def is_unread(line):
    """Whether a text of src/ or specs/ could not be read."""
    at = re.match(r"(?:\./)?(?:src|specs)/\S+:\d+:\d+: error(?:\[[\w-]+\])?: (?:(`[^`]*`): )?(.*)", line)
    return bool(at) and (not at[1] or bool(UNREAD.search(re.sub(r"`[^`]*`", "", at[2]))))


def how(errors):
    """Whether nothing refuses the edit but a name that a proof lacks."""
    return ONLY_A_NAME if errors and all(NAMED.match(line) for line in errors) else ""


def module_of(path):
    """The module of a file, as `a::b::`."""
    parts = path.with_suffix("").parts
    module = "::".join(parts[parts.index("src") + 1:])
    return "" if module in ("lib", "main") else module + "::"


def names_of(edit):
    """The names that the check may give to the edit's function, as patterns. A method is named by the module of its type, an impl of a
    trait by both names: `request::Request::line_count` wherever the impl is, `address::CidrDebug::fmt`."""
    path, name, around = edit.function
    of_type, trait = around or ("", "")
    sources = (edit.crate / "src").rglob("*.rt") if of_type else ()
    declared = [it for it in sources if re.search(DECLARES.format(of_type), it.read_text())]
    more = rf"{trait}\w*" if trait else ""
    named = [rf"{module_of(it)}(fn::)?{of_type}{more}::{name}" for it in {path, *declared} if declared]
    return named or [rf"{module_of(path)}(\w+::)*{name}"]


def paths_of(edit):
    """The functions that have to be looked at, by the ends of their names: those that the edit names, else the one whose body it
    changes. A method is named by its type, and by its trait, if it is of one: `CidrDebug::fmt`."""
    if edit.only or not edit.function:
        return edit.only
    path, name, around = edit.function
    return [f"{''.join(around)}::{name}" if around else f"{module_of(path)}{name}"]


def verdicts(edit, said):
    """The lines on the edit's function and what is within it."""
    named = "|".join(names_of(edit))
    it = re.compile(rf"fn {edit.crate.name}::({named})(::\S+)?: (not proved\b.*|no proof\b.*|proved)$")
    return [line for line in said if it.match(line)]


def is_refused(verdict):
    """Whether a function's goals were tried and one was not proved, be it by what its proof says, by the search alone, or by a proof of
    the whole function by hand."""
    return bool(re.search(r": (not proved(; the borrow checker does not cover this function yet: .*)?|no proof: expected .*)$", verdict))


def waits(verdict):
    """Whether a function was not looked at, since one that it calls is not proved."""
    return not verdict.endswith(": proved") and not is_refused(verdict)


def height(name, below):
    """How many crates stand above one another on this one."""
    return 1 + max((height(it, below) for it in below if name in below[it]), default=0)


def in_turn(tasks, side):
    """Runs tasks side by side, each once those that it waits for are done, the first of those that are ready first."""
    left, running, done, found = list(tasks), {}, set(), []
    with concurrent.futures.ThreadPoolExecutor(side) as pool:
        while left or running:
            for task in [it for it in left if tasks[it][0] <= done][: side - len(running)]:
                left.remove(task)
                running[pool.submit(tasks[task][1])] = task
            ended = concurrent.futures.wait(running, return_when=concurrent.futures.FIRST_COMPLETED).done
            for it in ended:
                done.add(running.pop(it))
                found += it.result()
    return found
