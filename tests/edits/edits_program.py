"""A crate's tests as a program that LLVM builds without a proof or a sanitizer, but with all checks. For `edits.py`.

What `rt try --test` hands to its compiler is kept and compiled here. Each edit that the tree holds is chosen as the program runs.
"""
import os
import re
import shutil
import subprocess

from edits_tree import CHOOSERS_CRATE, TOP, Fault, NotBuilt
from kit import Failed, run

TARGET = ["--target=x86_64-unknown-linux-gnu", "-march=x86-64-v2"]
CHOOSER = re.compile(rf'^define internal ([^@\n]*@"{CHOOSERS_CRATE}::is_edit"\([^)]*\)) .*?^}}$', re.M | re.S)
ARGUMENT = re.compile(r" %\w+(?=[,)])")
# The word by which the module of all tests is known, before a small one of no account.
SANITIZES = "-fsanitize=address"
# How often longer than its own time a test may wait for a processor.
PATIENCE = 60


class TestProgram:
    """The tests of a crate in a copy of the tree, and the edits that each one meets that passes without an edit."""

    def __init__(self, kit, copy, crate, room, asked):
        self.crate, self.seconds, self.program = crate, asked.test_seconds, room / "tests"
        shutil.rmtree(room, ignore_errors=True)
        room.mkdir()
        self.build(kit, copy.folder / "crates" / crate, room, asked.seconds)
        listed = self.run("--list").stdout.splitlines()
        self.tests = [line.removesuffix(": test") for line in listed if line.endswith(": test")]
        if not self.tests or listed[-1] != f"tests: {len(self.tests)}":
            raise Fault(f"the tests of {crate} don't name themselves as they should")
        found = {test: self.met_by(test) for test in self.tests}
        self.met = {test: met for test, met in found.items() if met is not None}

    def build(self, kit, crate, room, seconds):
        """Has `rt` make the module for LLVM, and compiles it with a chooser that asks the environment."""
        module, text, chooser = room / "module.bc", room / "module.ll", room / "chosen.o"
        copied = kit.linked(room, SANITIZES)
        (copied / "bin/rattle").unlink()  # it would give a hint, for as much time as the module takes
        (copied / "bin/rattle").symlink_to("/bin/false")
        words = ["nice", copied / "bin/rt", "try", "--test", "--steps", "1"]
        said = subprocess.run(words, cwd=crate, stdin=subprocess.DEVNULL, stdout=subprocess.PIPE, stderr=subprocess.STDOUT,
                              text=True, errors="replace", check=False, timeout=seconds).stdout
        if not module.exists():
            raise NotBuilt(crate.name, said)
        try:
            run([kit.clang, *TARGET, "-x", "ir", module, "-S", "-emit-llvm", "-O0", "-Xclang", "-disable-llvm-passes", "-o", text],
                seconds)
            found = text.read_text(encoding="utf-8")
            text.write_text(CHOOSER.sub(lambda it: f"declare {ARGUMENT.sub('', it[1])}", found), encoding="utf-8")
            run(["nice", kit.clang, *TARGET, "-O1", "-fPIE", "-c", "-x", "ir", text, "-o", room / "tests.o"], seconds)
            run(["cc", "-O1", "-Wall", "-c", TOP / "tests/edits/chosen.c", "-o", chooser], seconds)
            run(["cc", "-pie", room / "tests.o", chooser, kit.part("c/libos_c.a"), kit.heap, "-o", self.program], seconds)
        except Failed as fault:
            raise Fault(f"the tests of {crate.name} aren't compiled: {fault}") from None

    def run(self, word, edit=0, met=None):
        asks = {**os.environ, "EDIT": str(edit), "SECONDS": str(self.seconds), **({"MET": str(met)} if met else {})}
        try:
            return subprocess.run(["nice", self.program, word], env=asks, cwd=self.program.parent, stdin=subprocess.DEVNULL,
                                  stdout=subprocess.PIPE, stderr=subprocess.DEVNULL, text=True, errors="replace", check=False,
                                  timeout=PATIENCE * self.seconds)
        except subprocess.TimeoutExpired:
            raise Fault(f"{word} waits for a processor, or for something else") from None

    def passes(self, test, edit=0, met=None):
        return self.run(test, edit, met).returncode == 0

    def met_by(self, test):
        """The numbers of the edits that the test meets, if it passes without an edit."""
        met = self.program.parent / "met"
        return {int(number) for number in met.read_text().split()} if self.passes(test, met=met) else None

    def telling(self, edit):
        """The first of the passing tests that fails with the edit of this number, or else nothing; and how many meet it."""
        meeting = [test for test, met in self.met.items() if edit in met]
        return next((test for test in meeting if not self.passes(test, edit)), None), len(meeting)
