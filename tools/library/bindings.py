"""Whether the packages of examples/embed do what they are for: Go, Python, Rust and nginx."""
import os
import pathlib
import shutil
import subprocess
import sys

TOP = pathlib.Path(__file__).resolve().parent.parent.parent
EXAMPLES = TOP / "examples" / "embed"
VERSION = (TOP / "VERSION").read_text().split()[0]
PATIENCE = 900
# where the module of Go is, for its path: the host of a clone, which git is asked for without `.git`, and the folder in it
GO_REPOSITORY, GO_FOLDER = "vupresal.example/vupresal.git", "examples/embed/go"
GO_PROGRAM = """package main

import (
	"fmt"
	"os"

	vupresal "vupresal.example/vupresal.git/examples/embed/go"
)

func main() {
	message, err := os.ReadFile(os.Args[1])
	if err != nil {
		panic(err)
	}
	filter, err := vupresal.Admit(message, vupresal.Options{})
	if err != nil {
		panic(err)
	}
	defer filter.Close()
	request := &vupresal.Request{Method: "GET", Target: "/about", Lines: []vupresal.Line{{Name: "host", Value: "h"}}}
	fmt.Println(filter.Decide(request, &vupresal.Facts{Scheme: "http"}))
}
"""


def go_environment(trials):
    lib = trials.library / "lib"
    return {**os.environ, "PKG_CONFIG_PATH": str(lib / "pkgconfig"), "GOPROXY": "off", "GOFLAGS": "", "GO111MODULE": "on", "GOWORK": "off",
            "CGO_LDFLAGS": f"-Wl,-rpath,{lib}", "VUPRESAL_EXAMPLES": str(TOP / "examples")}


def in_go(trials):
    """The package in Go, and what `go get` takes of a repository's folder."""
    if trials.misses("Go", "go", "pkg-config"):
        return
    folder, env = trials.folder / "go", go_environment(trials)
    shutil.copytree(EXAMPLES / "go", folder)
    how = {"cwd": folder, "env": env, "timeout": PATIENCE}
    if trials.run("Go", "go", "vet", ".", **how) and trials.run("Go", "go", "test", ".", **how):
        trials.passed("Go")
        if trials.run("Go, sanitized", "go", "test", "-asan", ".", **how):
            trials.passed("Go, sanitized")
        got_by_go(trials, env)
    in_grpc(trials, env)


def got_by_go(trials, env):
    """A program in a module of its own gets the package by `go get` from a clone, which git finds on this machine, and decides."""
    if trials.misses("go get", "git"):
        return
    repository, program = trials.folder / "repository", trials.folder / "program"
    shutil.copytree(EXAMPLES / "go", repository / GO_FOLDER)
    program.mkdir()
    (program / "main.go").write_text(GO_PROGRAM)
    (program / "go.mod").write_text("module program.example/program\n\ngo 1.19\n")
    by = ["-c", "user.name=test", "-c", "user.email=test@vupresal.example"]
    for words in (["init", "-q", "."], ["add", "."], [*by, "commit", "-q", "-m", "all"], [*by, "tag", "-a", "-m", "it", f"{GO_FOLDER}/v{VERSION}"]):
        if not trials.run("go get", "git", *words, cwd=repository):
            return
    env = {**env, "GOPROXY": "direct", "GOFLAGS": "-mod=mod -modcacherw", "GONOSUMDB": "*", "GONOSUMCHECK": "1", "GOPRIVATE": "*", "GIT_CONFIG_COUNT": "1",
           "GIT_CONFIG_KEY_0": f"url.file://{repository}.insteadOf", "GIT_CONFIG_VALUE_0": f"https://{GO_REPOSITORY[:-4]}", "GOPATH": str(trials.folder / "gopath")}
    env.pop("GIT_ALLOW_PROTOCOL", None)
    how = {"cwd": program, "env": env, "timeout": PATIENCE}
    if not trials.run("go get", "go", "get", f"{GO_REPOSITORY}/{GO_FOLDER}@v{VERSION}", **how) or not trials.run("go get", "go", "build", "-o", "program", ".", **how):
        return
    done = subprocess.run([program / "program", TOP / "examples" / "condition.bin"], capture_output=True, text=True)
    if done.stdout != "{true true readers} <nil>\n":
        trials.note("go get", done.stdout + done.stderr)
    else:
        trials.passed("go get")


def in_grpc(trials, env):
    """The interceptors for grpc-go, with Debian's golang-google-grpc-dev."""
    if not pathlib.Path("/usr/share/gocode/src/google.golang.org/grpc").exists():
        trials.skip("Go, grpc", "missing: golang-google-grpc-dev")
        return
    source = trials.folder / "grpc" / "src" / GO_REPOSITORY / GO_FOLDER
    shutil.copytree(EXAMPLES / "go", source)
    env = {**env, "GO111MODULE": "off", "GOPATH": f"{trials.folder / 'grpc'}:/usr/share/gocode"}
    if trials.run("Go, grpc", "go", "test", f"{GO_REPOSITORY}/{GO_FOLDER}/vupresalgrpc", cwd=source, env=env, timeout=PATIENCE):
        trials.passed("Go, grpc")


def python_environment(trials):
    return {**os.environ, "VUPRESAL_LIBRARY": str(trials.library / "lib" / "libvupresal.so"), "PYTHONDONTWRITEBYTECODE": "1",
            "VUPRESAL_EXAMPLES": str(TOP / "examples")}


def in_python(trials):
    """The package in Python, and its wheel."""
    env = python_environment(trials)
    if trials.run("Python", sys.executable, "-m", "unittest", "-q", cwd=EXAMPLES / "python", env=env):
        trials.passed("Python")
    in_wheel(trials, env)


def has_builders(python):
    """Whether this Python can make a wheel without a network."""
    return subprocess.run([python, "-c", "import setuptools, wheel, pip"], capture_output=True).returncode == 0


def in_wheel(trials, env):
    """The wheel, installed elsewhere, passes the tests; its version is that of the file VERSION."""
    found = next((it for it in (sys.executable, "/usr/bin/python3") if os.path.exists(it) and has_builders(it)), None)
    if not found:
        trials.skip("wheel", "missing: python3-pip python3-setuptools python3-wheel")
        return
    source, made, place = (trials.folder / name for name in ("python", "wheels", "site"))
    shutil.copytree(EXAMPLES / "python", source)
    pip = [found, "-m", "pip", "--disable-pip-version-check", "--no-cache-dir"]
    if not trials.run("wheel", *pip, "wheel", "-q", "--no-index", "--no-deps", "--no-build-isolation", "-w", made, source, env=env):
        return
    wheels = list(made.glob("*.whl"))
    if [it.name for it in wheels] != [f"vupresal-{VERSION}-py3-none-any.whl"]:
        trials.note("wheel", f"{wheels}")
        return
    (trials.folder / "tests").mkdir()
    shutil.copy(EXAMPLES / "python" / "test_vupresal.py", trials.folder / "tests")
    if trials.run("wheel", *pip, "install", "-q", "--no-index", "--no-deps", "--target", place, wheels[0], env=env) and trials.run(
            "wheel", found, "-m", "unittest", "-q", "test_vupresal", cwd=trials.folder / "tests", env={**env, "PYTHONPATH": str(place)}):
        trials.passed("wheel")


def in_rust(trials):
    """The crates in Rust, linked with the shared and with the static library; no registry is asked."""
    if trials.misses("Rust", "cargo", "rustc", "pkg-config"):
        return
    source = trials.folder / "rust"
    shutil.copytree(EXAMPLES / "rust", source, ignore=shutil.ignore_patterns("target"))
    env = {**os.environ, "PKG_CONFIG_PATH": str(trials.library / "lib" / "pkgconfig"), "VUPRESAL_EXAMPLES": str(TOP / "examples"), "CARGO_NET_OFFLINE": "true",
           "RUSTFLAGS": "-D warnings"}
    for name, more in (("shared", {}), ("static", {"VUPRESAL_STATIC": "1"})):
        if trials.run(f"Rust, {name}", "cargo", "test", "-q", "--offline", cwd=source, env={**env, **more}, timeout=PATIENCE):
            trials.passed(f"Rust, {name}")


def in_nginx(trials):
    """The module of nginx, in one that answers on loopback."""
    for name, more in (("nginx", []), ("nginx, sanitized", ["--sanitized"])):
        done = subprocess.run([EXAMPLES / "nginx" / "try", *more, trials.library], capture_output=True, text=True, timeout=PATIENCE)
        lines = done.stdout.splitlines()
        if done.returncode == 3:
            trials.skip(name, lines[-1].partition("NOT RUN: ")[2])
        elif done.returncode:
            wrong = [line for line in lines if "WRONG" in line]
            trials.note(name, f"status {done.returncode}\n" + "\n".join(wrong or lines[-20:]) + done.stderr[-2000:])
        else:
            trials.passed(name, f": {len(lines) - 1} comparisons")
