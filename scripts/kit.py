#!/usr/bin/env python3
"""Check and build a crate over the libraries that the last `rt ci` left; for scripts/archives and tests/public_calls.py.

usage: scripts/kit.py        notes that `rt ci` has just passed every crate as it stands (scripts/test)

`rt ci` leaves each library built in its crate's out/, but other commands of rt take only libraries that they built themselves, and would prove all
of them once more. What it left serves as well while no file has changed since: so a crate whose libraries are all of a noted run is checked
and built over them as they are, by the functions of the rt that is installed. Otherwise rt builds them, as ever.
"""
import hashlib
import importlib.machinery
import importlib.util
import os
import pathlib
import shutil
import subprocess
import sys

sys.dont_write_bytecode = True
ROOT = pathlib.Path(__file__).resolve().parent.parent
NOTED = ROOT / "target" / "passed"


def version():
    return subprocess.run(["rt", "version"], stdout=subprocess.PIPE, text=True, check=True).stdout


def sum_of(names):
    """A sum of all that these crates are made from: the kit, crates.txt, and their sources, definitions and proofs."""
    made_from = hashlib.sha256(version().encode() + (ROOT / "crates.txt").read_bytes())
    for name in sorted(names):
        for part in ("src", "specs", "proofs"):
            for file in sorted(path for path in (ROOT / "crates" / name / part).rglob("*") if path.is_file()):
                made_from.update(f"{file.relative_to(ROOT)} {hashlib.sha256(file.read_bytes()).hexdigest()}\n".encode())
    return made_from.hexdigest()


def load_rt():
    path = os.path.realpath(shutil.which("rt") or sys.exit("there is no rt"))
    loader = importlib.machinery.SourceFileLoader("rt", path)
    made = importlib.util.module_from_spec(importlib.util.spec_from_loader("rt", loader))
    sys.modules["rt"] = made
    loader.exec_module(made)
    made.rtlib.guarded()
    return made


def crates():
    """The crates of crates.txt, by name, as rt has them."""
    return {crate.name: crate for crate in load_rt().rtlib.crates_below(str(ROOT))}


class Work:
    """The crates, and what of them is there already."""

    def __init__(self):
        self.crates = crates()
        self.is_noted = NOTED.exists() and NOTED.read_text() == sum_of(self.crates)

    def is_left(self, library):
        """Whether it is what `rt ci` left, of the text that it has now: other commands of rt write a stamp beside what they build."""
        return self.is_noted and os.path.isdir(library.rlib) and not os.path.exists(f"{os.path.dirname(library.rlib)}/stamp")

    def run(self, name, verb, *flags):
        """Runs `rt check` or `rt lib` of a crate, and returns its status and what it said."""
        crate = self.crates[name]
        if not all(map(self.is_left, crate.below())):
            words = ["rt", verb, *flags]
            ran = subprocess.run(words, cwd=crate.folder, stdout=subprocess.PIPE, stderr=subprocess.STDOUT, encoding="utf-8", errors="replace")
            return ran.returncode, ran.stdout
        os.makedirs(f"{crate.folder}/out", exist_ok=True)
        log = ROOT / "target" / f"said.{name}"
        with open(log, "w+", encoding="utf-8", errors="replace") as crate.out:
            status = crate.check([*flags]) if verb == "check" else crate.build_static([*flags])
            crate.out.seek(0)
            return status, crate.out.read()


if __name__ == "__main__":
    if len(sys.argv) > 1:
        sys.exit(__doc__)
    NOTED.parent.mkdir(exist_ok=True)
    NOTED.write_text(sum_of(crates()))
