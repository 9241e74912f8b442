#!/usr/bin/env python3
"""Holds each case of the must-fail edits to the facts at which it is refused.

usage: tests/edits.py --check [CRATE[/FILE]]...     after `rt ci` or `rt check`: every case of every edit is refused at the facts that it names
       tests/edits.py --places [CRATE[/FILE]]...    the facts at which each edit is refused

A file crates/NAME/must-fail/*.edit has one case or several, which share one check of the crate:

    # case: NAME
    # refused: FILE FACT      a file of the crate, and the theorem, the goal or the function in it that is refused
    file: …, old: …, new: …

rt reads the last three. `rt ci` sees that the file is refused as a whole, and says where first; --check sees to each case. It tries each file as
`rt must-fail` does, by the functions of the rt that is installed, over what a check of the unchanged crate left, and reads all that the check said.
A case whose facts are not all there, because another case of the file keeps the prover from coming to them, or also named by another case, is
tried alone. A place where the prover only finds that a name is gone, or that it rests on what was refused elsewhere, is no fact.

What a try came to is kept in target/edits, by a sum of all that it read: only what changed is tried again. RT_JOBS sets how many run side by side.
"""
import collections
import concurrent.futures
import contextlib
import hashlib
import importlib.machinery
import importlib.util
import json
import os
import pathlib
import re
import shutil
import signal
import sys
import tempfile
import threading
import time

sys.dont_write_bytecode = True
ROOT = pathlib.Path(__file__).resolve().parent.parent
KEPT = ROOT / "target" / "edits"

REFUSED, PROVED, BAD, UNSURE = "refused", "NOT REFUSED", "BAD EDIT", "NOT TRIED"
Case = collections.namedtuple("Case", "name facts text")
Try = collections.namedtuple("Try", "kind places why seconds")

# Of an error's text: a name that the edit took away, and what only rests on a thing that was refused.
FOLLOWS = re.compile(
    r"(?:`[^`]*`: )?(?:record|module) `[^`]*`(?: \([^)]*\))? has no (?:field )?`"
    r"|`[^`]*` (?:is not in scope|is no name)"
    r"|\d+ declarations? that depends? on "
)


# ---- the files of edits

def cases(edit):
    """The cases of an edit's file, each with the facts that it names; a file without `case:` is one case of the file's name."""
    found = [(edit.stem, [], [])]
    for line in edit.read_text(encoding="utf-8").split("\n"):
        if line.startswith("# case: "):
            found.append((line[8:].strip(), [], []))
        elif line.startswith("# refused: "):
            found[-1][1].append(line[11:].strip())
        else:
            found[-1][2].append(line)
    return [Case(name, facts, "\n".join(lines)) for name, facts, lines in found if any(line.startswith("new:") for line in lines)]


def edits(wanted=()):
    """The files of edits, by crate; all, or those of some crates, or some files."""
    found = {}
    for edit in sorted(ROOT.glob("crates/*/must-fail/*.edit")):
        crate = edit.parent.parent.name
        if not wanted or crate in wanted or f"{crate}/{edit.stem}" in wanted:
            found.setdefault(crate, []).append(edit)
    named = {name for crate in found for name in (crate, *(f"{crate}/{edit.stem}" for edit in found[crate]))}
    lacking = [name for name in wanted if name not in named]
    if lacking:
        sys.exit(f"edits: there is no edit {lacking[0]}")
    return found


# ---- what the prover said of one

def function_at(source, number):
    """The function of a file of Rattle that has a line, which may be one of its attributes: the last that starts at it or before it."""
    lines = source.split("\n")
    while lines[number - 1 : number] and lines[number - 1].lstrip().startswith("#["):
        number += 1
    names = [m[1] for line in lines[:number] for m in [re.search(r"\bfn (\w+)", line)] if m]
    return names[-1] if names else ""


def errors(said):
    """What a check said of errors and of what is not proved, a line each: the prover's go on in lines that are set in."""
    found, is_open = [], False
    for line in said.split("\n"):
        if line.startswith("  ") and is_open:
            found[-1] += " " + line.strip()
        else:
            is_open = bool(re.match(r"\S+:\d+:\d+: error|note: \S+:\d+:\d+: it is not proved", line))
            found += [line] * is_open
    return "\n".join(line[:500] for line in found)


def places(said, text_of):
    """The facts at which a check refused something, of its errors. `text_of` gives the text of a file as it was checked."""
    found = []
    for line in said.split("\n"):
        place = None
        m = re.match(r"(?:\./)?((?:src|specs|proofs)/\S+?):\d+:\d+: error: `([^`]+)`: (.*)", line)
        if m and not FOLLOWS.match(m[3]):
            place = f"{m[1]} {m[2]}"
        m = re.match(r"note: (?:\./)?(src/\S+?):(\d+):\d+: it is not proved", line)
        if m:
            place = f"{m[1]} {function_at(text_of(m[1]), int(m[2]))}"
        if place and place not in found:
            found.append(place)
    return found


# ---- the tries

def load_rt():
    """The rt that is installed, as a module: its tries are those of `rt must-fail`."""
    path = os.path.realpath(shutil.which("rt") or sys.exit("edits: there is no rt"))
    loader = importlib.machinery.SourceFileLoader("rt", path)
    made = importlib.util.module_from_spec(importlib.util.spec_from_loader("rt", loader))
    sys.modules["rt"] = made
    loader.exec_module(made)
    os.environ.pop(made.rtlib.ALLOW_C, None)
    # (it sets a signal's handler, which only the main thread may)
    made.rtlib.guarded()
    return made


class Tries:
    """Tries texts of edits side by side, those of a crate over one check of the unchanged crate, which begins with what the crate's last check kept."""

    def __init__(self):
        self.rt = load_rt()
        self.crates = {crate.name: crate for crate in self.rt.rtlib.crates_below(str(ROOT))}
        jobs = int(os.environ.get("RT_JOBS") or 0)
        # (a check takes 1 to 2 GB)
        self.jobs = jobs or max(1, min(self.rt.processors(), int(self.rt.free() / 2.2e9)))
        self.seeds, self.stamps, self.number, self.alone = {}, {}, 0, threading.Lock()
        self.building = threading.Lock()

    def key(self, crate, text):
        """A sum of all that a try stands on: the kit, the crate and those below, and the lines of the edit that are read."""
        with self.alone:
            if crate not in self.stamps:
                self.stamps[crate] = self.rt.stamp_of(self.crates[crate], {})
        lines = [line for line in text.split("\n") if line.startswith(("file: ", "old: ", "new:"))]
        return hashlib.sha256(repr((self.stamps[crate], lines)).encode()).hexdigest()

    def kept(self, crate, text):
        with contextlib.suppress(OSError, ValueError, TypeError):
            kind, said, why, seconds = json.loads((KEPT / self.key(crate, text)).read_text(encoding="utf-8"))
            texts, _ = self.rt.edited(text, self.crates[crate].folder)
            return Try(kind, self.places(crate, said, texts or {}), why, seconds), said

    def keep(self, crate, text, tried, said):
        if tried.kind != UNSURE:
            with contextlib.suppress(OSError):
                KEPT.mkdir(parents=True, exist_ok=True)
                new = KEPT / f"new-{os.getpid()}-{threading.get_ident()}"
                new.write_text(json.dumps([tried.kind, said, tried.why, tried.seconds], ensure_ascii=False), encoding="utf-8")
                new.replace(KEPT / self.key(crate, text))

    def places(self, crate, said, texts):
        return places(said, lambda file: texts.get(file) or self.rt.rtlib.text_of(f"{self.crates[crate].folder}/{file}") or "")

    def seed(self, name, number):
        """Checks the unchanged crate, which must be proved, and leaves what a number of tries start from, or None. A single one for a crate of
        which no work is kept starts from nothing: that is ""."""
        crate = self.crates[name]
        start = f"{crate.folder}/out/incremental"
        start = start if os.path.isdir(start) else None
        if number == 1 and not start and all(map(self.is_there, crate.below())):
            return ""
        # The libraries that `rt ci` left serve as they are, and those of `rt check` if they are of today's text; else they are built.
        room = all(map(self.is_there, crate.below())) and self.rt.seeded(crate, ["--jobs", "1"], start)
        if not room:
            with self.building, tempfile.TemporaryFile("w+", errors="replace") as said:
                for below in crate.below():
                    below.out = said
                    if below.build_rlib(["--jobs", str(self.jobs)], anew=False):
                        said.seek(0)
                        print(f"{said.read()}edits: {below.name}, below {name}, is not proved", flush=True)
                        return None
            room = self.rt.seeded(crate, ["--jobs", "1"], start)
        return room or None

    def is_there(self, below):
        """Whether a library was built of the text that it has now: `rt check` says so in a stamp, and `rt ci` leaves what it built with none."""
        if below.is_built():
            return True
        made = f"{below.rlib}/format"
        if os.path.isfile(f"{below.folder}/out/rlib/stamp") or not os.path.isfile(made):
            return False
        # (the folder is as old as the build, a file in it can be older)
        built = os.stat(below.rlib).st_mtime
        return all(os.stat(file).st_mtime <= built for it in [below, *below.below()] for file in self.rt.rtlib.files_of(it.folder))

    def once(self, name, text, over):
        """What the try of an edit comes to."""
        rt, crate, began = self.rt, self.crates[name], time.monotonic()
        texts, why = rt.edited(text, crate.folder)
        if why:
            return Try(BAD, [], why, 0), ""
        ran = rt.checked(crate, texts, ["--jobs", "1"], over)
        if ran.returncode == -signal.SIGKILL:
            # (most likely for memory)
            ran = rt.checked(crate, texts, ["--jobs", "1"], over)
        seconds = time.monotonic() - began
        lines = ran.stdout.rstrip("\n").split("\n")
        said = errors(ran.stdout)
        bad = next((line for line in lines if rt.unread(line, texts)), None)
        if bad:
            return Try(BAD, [], f"it cannot be read: {bad[:300]}", seconds), said
        if ran.returncode == 0:
            return Try(PROVED, [], "the crate is still proved with it", seconds), said
        if ran.returncode == 1 and lines[-1].startswith("logic=not-proved"):
            return Try(REFUSED, self.places(name, said, texts), "", seconds), said
        return Try(UNSURE, [], f"its check ended with status {ran.returncode}: {' '.join(lines[-3:])[:300]}", seconds), said

    def over_seed(self, name, text):
        room = self.seeds[name]
        if room is None:
            return Try(UNSURE, [], "the crate is not proved without it", 0), ""
        if not room:
            return self.once(name, text, None)
        with self.alone:
            self.number += 1
            over = f"{room}/{self.number}"
        try:
            self.rt.linked(f"{room}/seed", over)
            tried = self.once(name, text, over)
        finally:
            shutil.rmtree(over, ignore_errors=True)
        # (as `rt must-fail`: what is still proved over a check's work is tried from nothing)
        return tried if tried[0].kind in (REFUSED, BAD) else self.once(name, text, None)

    def run(self, wanted, say=lambda label, tried: None):
        """Tries (label, crate, text) each, and returns what each came to by its label. The largest crates come first."""
        found, left = {}, {}
        for label, crate, text in wanted:
            tried = self.kept(crate, text)
            if tried:
                found[label] = tried[0]
                say(label, tried[0])
            else:
                left.setdefault(crate, []).append((label, text))
        order = sorted(left, key=lambda crate: -self.crates[crate].count(rb"\n") * (2 + len(left[crate])))
        lowest = sorted(left, key=lambda crate: len(self.crates[crate].below()))

        def one(crate, label, text):
            tried, said = self.over_seed(crate, text)
            self.keep(crate, text, tried, said)
            return label, tried

        def begin(crate):
            if not self.seeds.get(crate):
                self.seeds[crate] = self.seed(crate, len(left[crate]))
            return [pool.submit(one, crate, label, text) for label, text in left[crate]]

        # (libraries that have to be built are built from the lowest up)
        is_built = all(self.is_there(below) for crate in left for below in self.crates[crate].below())
        with concurrent.futures.ThreadPoolExecutor(self.jobs) as pool:
            for done in concurrent.futures.as_completed([pool.submit(begin, crate) for crate in (order if is_built else lowest)]):
                for it in concurrent.futures.as_completed(done.result()):
                    label, tried = it.result()
                    found[label] = tried
                    say(label, tried)
        return found

    def __enter__(self):
        self.ending = self.rt.ending()
        self.ending.__enter__()
        return self

    def __exit__(self, *given):
        return self.ending.__exit__(*given)


# ---- the commands

def elsewhere(case, tried):
    return [fact for fact in case.facts if fact not in tried.places]


def check(wanted):
    found = edits(wanted)
    all_cases = {(crate, edit.stem): cases(edit) for crate in found for edit in found[crate]}
    whole = [((crate, edit.stem), crate, edit.read_text(encoding="utf-8")) for crate in found for edit in found[crate]]
    wrong, count = [], 0
    with Tries() as tries:
        # (a case alone in its file is the file)
        tried = tries.run(whole)
        alone = []
        for (crate, file), of_file in all_cases.items():
            named = collections.Counter(fact for case in of_file for fact in {*case.facts})
            for case in of_file:
                together = tried[crate, file]
                is_plain = together.kind == REFUSED and not elsewhere(case, together) and any(named[fact] == 1 for fact in case.facts)
                if case.facts and len(of_file) > 1 and not is_plain and together.kind != BAD:
                    alone.append(((crate, file, case.name), crate, case.text))
        single = tries.run(alone)
    for (crate, file), of_file in all_cases.items():
        together = tried[crate, file]
        if together.kind != REFUSED:
            wrong.append(f"{crate}/{file}: {together.kind}: {together.why}")
        for case in of_file:
            count += 1
            mine = single.get((crate, file, case.name), together)
            if not case.facts:
                wrong.append(f"{crate}/{file}: {case.name} names no fact")
            elif mine.kind != REFUSED:
                if mine is not together:
                    wrong.append(f"{crate}/{file}: {case.name}: {mine.kind}: {mine.why}")
            else:
                wrong += [f"{crate}/{file}: {case.name} is not refused at {fact}" for fact in elsewhere(case, mine)]
    for line in wrong:
        print(line)
    if not count:
        wrong.append("")
        print("there is no edit")
    print(f"{count} wrong programs and definitions in {len(all_cases)} edits, {len(wrong)} not refused where they say")
    return 1 if wrong else 0


def show(wanted):
    found = edits(wanted)
    with Tries() as tries:
        tried = tries.run([(f"{crate}/{edit.stem}", crate, edit.read_text(encoding="utf-8")) for crate in found for edit in found[crate]])
    for label in sorted(tried):
        print(label if tried[label].kind == REFUSED else f"{label}: {tried[label].kind}: {tried[label].why}")
        for place in tried[label].places:
            print(f"    {place}")
    return 0


if __name__ == "__main__":
    if sys.argv[1:2] == ["--check"]:
        sys.exit(check(sys.argv[2:]))
    if sys.argv[1:2] == ["--places"]:
        sys.exit(show(sys.argv[2:]))
    sys.exit(__doc__)
