"""Links the library as a module of WebAssembly, which imports nothing."""
import os
import pathlib
import subprocess
import tempfile

HERE = pathlib.Path(__file__).resolve().parent
# the heap and the three functions of memory that a compiler may call
SOURCES = (HERE / "wasm_memory.c",)
# the stack comes first, so that a call without stack traps, and changes no other memory
STACK, MOST = 8 << 20, 4 << 30


def link_module(place, kit, parts, shown):
    """Writes lib/vupresal.wasm: the exports, malloc and free, and the memory."""
    place.lib.mkdir(parents=True, exist_ok=True)
    clang = kit / "toolchain" / "bin" / "clang"
    with tempfile.TemporaryDirectory(prefix="vupresal-") as folder:
        made = []
        for source in SOURCES:
            made.append(pathlib.Path(folder) / f"{source.stem}.o")
            words = [clang, "--no-default-config", "--target=wasm64-unknown-unknown", "-mbulk-memory", "-O2", "-ffreestanding", "-fno-builtin", "-Wall", "-Wextra",
                     "-Werror", "-c", source, "-o", made[-1]]
            subprocess.run(words, check=True)
        exported = [f"--export={name}" for name in (*shown, "malloc", "free")]
        words = ["wasm-ld", "-mwasm64", "--no-entry", "--gc-sections", "--stack-first", "-z", f"stack-size={STACK}", f"--max-memory={MOST}", "--strip-debug",
                 *exported, *map(str, parts), *map(str, made), "-o", str(place.lib / "vupresal.wasm")]
        # one program has all tools of the kit, and is called by their names
        subprocess.run(words, executable=os.path.realpath(clang), check=True)
