"""The module for browsers, of the LLVM module of the proved library. For `build.py`."""
import pathlib
import re

from kit import Failed, run

SOURCES = pathlib.Path(__file__).resolve().parent / "module"
EXPORTS = [*(f"puzzles_{call}" for call in ("solve", "solve_each", "check", "grade", "generate", "version", "clear")), "malloc"]
STACK = 1 << 17  # bytes
MOST_MEMORY = 1 << 31  # bytes

TARGET = "wasm64-unknown-unknown"
LAYOUT = "e-m:e-p:64:64-p10:8:8-p20:8:8-i64:64-i128:128-n32:64-S128-ni:1:10:20"
COMPILE = [f"--target={TARGET}", "-mcpu=lime1", "-mllvm", "-expand-div-rem-bits=64", "-mllvm", "-expand-fp-convert-bits=64",
           "-ffunction-sections", "-fdata-sections", "-c"]
OF_LIBRARY = ["-mllvm", "-trap-unreachable", "-O3", "-x", "ir"]
OF_SOURCES = ["-O2", "-fwrapv", "-ffreestanding", "-nostdinc", "-fno-builtin", "-Wall", "-Wextra", "-Werror"]

# What the module may use, and then: addresses of 32 bits, which every browser has.
LOWER = ["--enable-memory64", "--enable-bulk-memory", "--enable-mutable-globals", "--enable-sign-ext",
         "--enable-nontrapping-float-to-int", "--enable-multivalue", "--memory64-lowering", "-O2"]


def for_wasm(text):
    """The LLVM module in words, for the other target: it differs in its head and in attributes of x86-64."""
    for word, value in ("datalayout", LAYOUT), ("triple", TARGET):
        text, found = re.subn(rf'(?m)^target {word} = .*', f'target {word} = "{value}"', text)
        if found != 1:
            raise Failed(f"the module of the library has {found} lines of its target's {word}, and not one")
    text = re.sub(r' "(?:probe-stack|stack-probe-size|target-cpu)"="[^"]*"', "", text)
    if left := re.search(r'"(?:target|tune)-[^"]*"="|\bx86|\basm\b', text):
        raise Failed(f"the module of the library has something of another machine: {text[left.start():][:60]}")
    return text


def build_module(kit, room):
    """puzzles.wasm, of module.bc in the room."""
    words, wide, made = room / "module.ll", room / "puzzles64.wasm", room / "puzzles.wasm"
    run([kit.clang, "-S", "-emit-llvm", "-O0", "-Xclang", "-disable-llvm-passes", "-x", "ir", room / "module.bc", "-o", words])
    words.write_text(for_wasm(words.read_text()))
    objects = [room / "module.o"]
    run([kit.clang, *COMPILE, *OF_LIBRARY, words, "-o", objects[0]])
    for source in sorted(SOURCES.glob("*.c")):
        objects.append(room / f"{source.stem}.o")
        run([kit.clang, *COMPILE, *OF_SOURCES, source, "-o", objects[-1]])
    run([kit.linker, "-flavor", "wasm", "-mwasm64", "--no-entry", "--stack-first", "-z", f"stack-size={STACK}", "--gc-sections",
         "--strip-all", f"--max-memory={MOST_MEMORY}", *(f"--export={name}" for name in EXPORTS), "-o", wide, *objects])
    run(["wasm-opt", *LOWER, wide, "-o", made])
    return made
