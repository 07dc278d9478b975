#!/usr/bin/env python3
"""Finds proofs that one call of a tactic makes, and leaves the crate with these calls in their place, proved.

    python/run tests/tree/shorter.py CRATE          in a clone of its own: the proofs of the crate are edited there

A clause is what stands behind one `name patterns =`. Each of --lines lines or more is tried as one call, `grind (arith,
common_steps, NAMES)`, and with --parts each part of its term, so that the step that no call finds is left. NAMES are what the
old term cites: lemmas that are imported or declared above, facts of its arguments' records, and its own calls at smaller
arguments. What `common_steps` holds is left out. If more than --most are left, facts of records at hand are left out too.

The steps, of which --step runs one alone:

    try     puts the trials in: behind a declaration of an Answers.antt, or as modules Trial1 .. of proofs/, a copy of it with one
            clause as such a call. out/ is set aside, since trials of answers stand in the place of what it holds
    check   `rt check`: a copy that fails is an error at its line. Each call has --steps steps, so failing is cheap
    read    tells which copies no error names
    shrink  tries lists of more than --above names once more, without one name more
    write   puts out/ and the files back, and those calls that save --save lines; imports that this makes idle go
    prove   `rt fmt` and `rt check`. Clauses that it refuses go back, three times at most: `grind` at its own count of steps can
            fail where it passed at a smaller one. Then it writes the patch; `rt must-fail CRATE` comes after

The crates below must be proved here, with their out/, and CRATE without changes. Notes, logs and the patch go to --folder.
Nothing but proofs is touched: no statement, contract, definition, test or wrong body.
Statuses: 0; 1 not proved; 2 words refused; 7 rt or git fails, or takes longer than --seconds.
"""
import argparse
import collections
import json
import os
import pathlib
import re
import resource
import shutil
import signal
import subprocess
import sys
import tempfile
import threading
import time

from tree.clauses import LISTS, PLAIN, TOP, WIDTH, clauses, imported, named, needs, one_call, rule_sets, tables, without_idle
from tree.trials import Trials

NO_TRIALS = ("Lib.antt", "Common.antt", "LawSets.antt", "Invariants.antt")
ROUNDS, WIDER = 3, 20  # checks of the whole, columns past WIDTH
FAILED = 7


class Failed(Exception):
    """One sentence, for status 7."""


def called(*words, seconds=60, **more):
    """What a program writes to its standard output."""
    try:
        return subprocess.run(words, cwd=TOP, capture_output=True, text=True, timeout=seconds, check=True, **more).stdout
    except FileNotFoundError:
        raise Failed(f"no program {words[0]}") from None
    except subprocess.SubprocessError as fault:
        raise Failed(f"{' '.join(map(str, words[:3]))}: {(getattr(fault, 'stderr', '') or str(fault)).strip()}") from None


def common():
    """The lemmas that `common_steps` holds, by the kit's own file: no list need name them."""
    page = called("rt", "doc").split()
    path = pathlib.Path(page[0]).parent / "std/proofs/lemmas/Grind.antt" if page else pathlib.Path("none")
    return rule_sets(path.read_text(encoding="utf-8")).get("common_steps", set()) if path.exists() else set()


class Run:
    """The steps for one crate, with notes between them in a folder."""

    def __init__(self, words):
        self.words, self.crate, self.home, self.began = words, words.crate, TOP / "crates" / words.crate, time.time()
        self.of, self.folder = tables(common()), words.folder or pathlib.Path(tempfile.gettempdir()) / f"shorter-{words.crate}"
        self.folder.mkdir(parents=True, exist_ok=True)
        self.kept_out = self.folder / "out"

    def say(self, *words):
        print(f"[{time.time() - self.began:5.0f} s]", *words, flush=True)

    def note(self, name, value=None):
        path = self.folder / f"{name}.json"
        if value is None:
            if not path.exists():
                raise Failed(f"no {path}, which an earlier step leaves")
            return json.loads(path.read_text(encoding="utf-8"))
        path.write_text(json.dumps(value, ensure_ascii=False), encoding="utf-8")
        return value

    def clean(self):
        called("git", "checkout", "--", f"crates/{self.crate}")
        for path in self.home.glob("proofs/Trial*.antt"):
            path.unlink()

    def keep_out(self):
        if (self.home / "out").is_dir():
            shutil.rmtree(self.kept_out, ignore_errors=True)
            shutil.copytree(self.home / "out", self.kept_out, symlinks=True)

    def put_out_back(self):
        if self.kept_out.is_dir():
            shutil.rmtree(self.home / "out", ignore_errors=True)
            shutil.move(self.kept_out, self.home / "out")

    def put_trials(self, lists=None):
        """Puts the trials in: of every clause, or of those in `lists`, by file and first line. Whether there are any."""
        self.clean()
        notes, modules = {}, (self.home / "proofs/Lib.antt").read_text(encoding="utf-8")
        for path in sorted(self.home.glob("proofs/**/*.antt")):
            is_answer, file = path.name == "Answers.antt", str(path.relative_to(self.home))
            kind = "answers" if is_answer else "lemmas"
            if path.name in NO_TRIALS or kind not in self.words.kinds.split(",") or lists is not None and file not in lists:
                continue
            if self.words.but and re.search(self.words.but, file):
                continue
            module = None if is_answer or self.words.whole else f"Rattle.{self.crate}.proofs.{path.stem}"
            trials = Trials(path, self.of, None if lists is None else lists[file], self.words, module)
            if not trials.marks:
                continue
            target = path
            if not is_answer:
                number = 1 + sum("Trial" in place for place in notes)
                target, modules = self.home / f"proofs/Trial{number}.antt", f"{modules}pub mod Trial{number}\n"
            target.write_text(trials.text, encoding="utf-8")
            notes[str(target.relative_to(self.home))] = {"file": file, "marks": trials.marks}
        (self.home / "proofs/Lib.antt").write_text(modules, encoding="utf-8")
        self.note("trials", notes)
        marks = {(note["file"], mark["start"], mark["end"]) for note in notes.values() for mark in note["marks"]}
        self.say(f"trials of {len(marks)} clauses, {sum(end - start for _, start, end in marks)} lines, in {len(notes)} files")
        return bool(marks)

    def check(self, name="check", command="check"):
        """`rt check` to its end, and its log, telling how far it is."""
        log, before = self.folder / f"{name}.log", resource.getrusage(resource.RUSAGE_CHILDREN)
        jobs = ["--jobs", str(self.words.jobs)] if self.words.jobs else []
        with subprocess.Popen(["rt", command, *jobs], cwd=self.home, stdout=subprocess.PIPE, stderr=subprocess.STDOUT, text=True,
                              errors="replace", start_new_session=True) as child, log.open("w", encoding="utf-8") as kept:
            clock = threading.Timer(self.words.seconds, os.killpg, (child.pid, signal.SIGKILL))
            clock.start()
            try:
                for line in child.stdout:
                    kept.write(line)
                    if line.startswith("so far: ") and "checked" in line:
                        self.say(line.strip()[:100])
            finally:
                clock.cancel()
        if child.returncode < 0:
            raise Failed(f"rt {command} was ended; {log} has what it wrote")
        after, text = resource.getrusage(resource.RUSAGE_CHILDREN), log.read_text(encoding="utf-8")
        took = after.ru_utime + after.ru_stime - before.ru_utime - before.ru_stime
        self.say(f"rt {command}: {took:.0f} processor seconds, {len(re.findall(': error: ', text))} errors, "
                 + ("proved" if "logic=proved" in text else "not proved"))
        return text

    def errors(self, text):
        """The lines with errors, by file."""
        found = collections.defaultdict(set)
        for line in text.split("\n"):
            if one := re.match(r"(?:so far: )?\./(proofs/[^:]+\.antt):(\d+):\d+: error: ", line):
                found[one[1]].add(int(one[2]))
        return found

    def good(self, text):
        """For each clause, by file and first line, the copies that no error names."""
        errors, good = self.errors(text), collections.defaultdict(lambda: collections.defaultdict(list))
        if not errors and "logic=proved" not in text:
            raise Failed(f"the check came to no end: see {self.folder / 'check.log'}")
        unread = set(re.findall(r"(?m)^\./(proofs/[^:]+\.antt):\d+:\d+: error: (?!`)", text))
        for target, note in self.note("trials").items():
            if target in unread:
                self.say("not read, as it has an error of another kind:", target, note["file"])
                continue
            marked = {line for mark in note["marks"] for line in range(mark["from"], mark["to"] + 1)}
            if errors[target] - marked:
                self.say("an error besides, so --whole may find more:", target, note["file"], sorted(errors[target] - marked)[:3])
            for mark in note["marks"]:
                if not any(mark["from"] <= line <= mark["to"] for line in errors[target]):
                    good[note["file"]][str(mark["start"])].append(mark)
        return good

    def read(self):
        best = {}
        for file, of in self.good((self.folder / "check.log").read_text(encoding="utf-8")).items():
            best[file] = {start: min(marks, key=lambda mark: len(mark["names"])) for start, marks in of.items()}
        found = [mark for marks in self.note("best", best).values() for mark in marks.values()]
        self.say(len(found), "clauses of", sum(mark["end"] - mark["start"] for mark in found), "lines are one call each")

    def shorter_lists(self, mark):
        """Without facts at hand, without plain steps, and, of a list that has one name too many, without each in turn."""
        facts = [name for name in named(mark["names"]) if name not in self.of.common]
        bare = [name for name in facts if "." not in name.split(" ")[0]]
        tried = [facts, bare, [name for name in bare if name not in PLAIN], [name for name in facts if name not in PLAIN]]
        for one in (facts, bare):
            tried += [[*one[:at], *one[at + 1:]] for at in range(len(one))] if len(one) == self.words.most + 1 else []
        return [[*LISTS[0], *names] for names in tried if len(names) <= self.words.most]

    def shrink(self):
        best, lists = self.note("best"), {}
        for file, marks in best.items():
            for start, mark in marks.items():
                if mark["end"] - mark["start"] > self.words.save and len(named(mark["names"])) > self.words.above:
                    lists.setdefault(file, {})[start] = self.shorter_lists(mark)
        if lists and self.put_trials(lists):
            for file, of in self.good(self.check("shrink")).items():
                for start, marks in of.items():
                    best[file][start] = min(marks, key=lambda mark: len(", ".join(mark["names"])))
            self.note("best", best)
        self.clean()

    def is_kept(self, mark, made):
        saved = mark["end"] - mark["start"] - len(made)
        return saved >= self.words.save and len(named(mark["names"])) <= self.words.most and len(made[-1]) <= WIDTH + WIDER

    def write(self):
        self.clean()
        kept, left = {}, 0
        for file, marks in self.note("best").items():
            path = self.home / file
            text = path.read_text(encoding="utf-8")
            lines, here = text.split("\n"), {}
            kept_here = []
            for start, mark in sorted(marks.items(), key=lambda one: one[1]["start"] - one[1]["end"]):
                made = one_call(mark["head"], mark["names"], mark["tail"])
                is_within = any(other["start"] < mark["end"] and mark["start"] < other["end"] for other, _ in kept_here)
                if self.is_kept(mark, made) and not is_within:
                    kept_here.append((mark, made))
                    here[start] = mark
                else:
                    left += 1
            for mark, made in sorted(kept_here, key=lambda one: -one[0]["start"]):
                end = mark["end"]
                while not lines[end - 1].strip():
                    end -= 1
                lines[mark["start"]:end] = made
            if here:
                where, words = next(at for at, line in enumerate(lines) if line.startswith("use ")), "\n".join(lines)
                lines[where:where] = [line for line in needs(imported(text)) if re.search(rf"\b{imported(line).pop()}\b", words)]
                path.write_text(without_idle(text, "\n".join(lines)), encoding="utf-8")
                kept[file] = here
        self.note("kept", kept)
        self.say(sum(map(len, kept.values())), "clauses written,", left, "left: too little saved, or a list too long")

    def put_back(self, text):
        """Takes out the clauses that a check of the whole refuses; of a file whose errors are elsewhere all."""
        kept, errors, found = self.note("kept"), self.errors(text), []
        for file, wrong in errors.items():
            lines = (self.home / file).read_text(encoding="utf-8").split("\n")
            heads = {clause.head for clause in clauses(lines) for line in wrong if clause.start < line <= clause.end}
            found += [(file, start) for start, mark in kept.get(file, {}).items() if mark["clause"] in heads]
        for file, start in found or [(file, start) for file in errors for start in kept.get(file, {})]:
            self.say("goes back:", file, kept[file].pop(start)["clause"].strip())
        self.note("best", kept)
        self.write()

    def prove(self):
        """Whether the crate is proved with what is left; the patch of it."""
        for _ in range(ROUNDS):
            subprocess.run(["rt", "fmt"], cwd=self.home, check=True, capture_output=True, timeout=self.words.seconds)
            text = self.check("whole")
            if "logic=proved" in text:
                break
            self.put_back(text)
        is_proved, patch = "logic=proved" in text, called("git", "diff", "--", f"crates/{self.crate}/proofs")
        (self.folder / f"{self.crate}.patch").write_text(patch, encoding="utf-8")
        added, gone = (len(re.findall(rf"(?m)^{re.escape(sign)}(?!{re.escape(sign * 2)})", patch)) for sign in "+-")
        count = sum(map(len, self.note("kept").values()))
        self.say(f"{self.folder / self.crate}.patch: {count} clauses, {gone} lines out, {added} in: {added - gone};",
                 "proved" if is_proved else "NOT PROVED")
        return is_proved

    def all(self, step):
        """Runs a step, or all of them; the status."""
        def is_asked(name):
            return step in ("all", name)
        if step == "all" and called("git", "status", "--porcelain", "--", f"crates/{self.crate}"):
            raise Failed(f"crates/{self.crate} has changes: take a clone without any")
        if is_asked("try"):
            self.keep_out()
            self.put_trials()
        if is_asked("check"):
            self.check()
        if is_asked("read"):
            self.read()
        if is_asked("shrink"):
            self.shrink()
        if is_asked("write"):
            self.put_out_back()
            self.write()
        return 0 if not is_asked("prove") or self.prove() else 1


def main():
    form = argparse.ArgumentParser(description=__doc__, formatter_class=argparse.RawDescriptionHelpFormatter)
    names = sorted(path.name for path in (TOP / "crates").iterdir())
    form.add_argument("crate", choices=names, metavar="CRATE", help="as grid_core")
    form.add_argument("--step", choices=("all", "try", "check", "read", "shrink", "write", "prove"), default="all", help="(all)")
    form.add_argument("--kinds", default="lemmas,answers", help="lemmas, answers, or both (lemmas,answers)")
    form.add_argument("--but", default="", metavar="PATTERN", help="leave files alone whose path has it")
    form.add_argument("--lines", type=int, default=4, metavar="N", help="try clauses of N lines or more (4)")
    form.add_argument("--save", type=int, default=3, metavar="N", help="keep what saves N lines or more (3)")
    form.add_argument("--most", type=int, default=7, metavar="N", help="keep lists of N names or fewer, but for the kit's (7)")
    form.add_argument("--above", type=int, default=7, metavar="N", help="shrink lists of more than N names (7)")
    form.add_argument("--parts", action="store_true", help="try cases, fields of records and a `where`'s own too")
    form.add_argument("--both", action="store_true", help="try each list without common_steps too: twice the time, a few more")
    form.add_argument("--whole", action="store_true", help="a trial module proves its file's public lemmas again")
    form.add_argument("--steps", type=int, default=800_000, metavar="N", help="steps of a trial (800000, a fifth of usual)")
    form.add_argument("--jobs", type=int, default=0, metavar="N", help="jobs of each rt check (rt decides)")
    form.add_argument("--seconds", type=float, default=14_400, metavar="S", help="how long each rt may take (14400)")
    form.add_argument("--folder", type=pathlib.Path, help="for notes, logs and the patch (one of the system's for such files)")
    words = form.parse_args()
    try:
        return Run(words).all(words.step)
    except Failed as fault:
        print(f"shorter.py: {fault}", file=sys.stderr)
    except (OSError, subprocess.SubprocessError) as fault:
        print(f"shorter.py: {fault}", file=sys.stderr)
    return FAILED


if __name__ == "__main__":
    sys.exit(main())
