#!/usr/bin/env python3
"""Moves the files of specs/ that hold theorems, and that no contract and no definition under one needs, to proofs/.

usage: tools/port_theorems.py [--check]     at the top of the repository, once, after port_names.py

An edit of a definition is tried only if nothing in specs/ rests on a theorem that it makes false: so theorems stand in proofs/ and definitions in
specs/. Each file goes as it is, but for the paths of what moves; a line of specs/Lib.antt goes with it. What is moved is printed.
"""
import pathlib
import re
import sys

ROOT = pathlib.Path.cwd()
WORD = r"[^\s(){}.;,@\"«»]+"
OPAQUE = re.compile(r"^\s*(?:pub )?(?!abbrev|unfoldable|use|data|record|module|open|infix|pub data|pub record)" + WORD + r" : ", re.M)
# Definitions alone, though no contract needs them.
STAY = {"crates/items/specs/Beside.antt", "crates/cut_lines/specs/CutLines.antt"}


def module(f):
    return f"Rattle.{f.parts[1]}.specs.{f.stem}"


def main():
    files = {module(f): f for f in sorted(p.relative_to(ROOT) for p in ROOT.glob("crates/*/specs/*.antt")) if f.stem != "Lib"}
    uses = {m: set(re.findall(r"^(?:pub )?use (Rattle\.\w+\.specs\.\w+)", f.read_text(encoding="utf-8"), re.M)) for m, f in files.items()}
    todo = [m for f in ROOT.glob("crates/*/src/*.rt") for m in re.findall(r"ghost use (Rattle\.\w+\.specs\.\w+)", f.read_text(encoding="utf-8"))]
    todo += [m for m, f in files.items() if str(f) in STAY]
    needed = set()
    while todo:
        m = todo.pop()
        if m in files and m not in needed:
            needed.add(m)
            todo += uses[m]
    moved = {m for m, f in files.items() if m not in needed and str(f) not in STAY}
    new = {m: m.replace(".specs.", ".proofs.", 1) for m in moved}
    pattern = re.compile(r"\b(" + "|".join(sorted((re.escape(m) for m in moved), key=len, reverse=True)) + r")\b(?=[.\s;]|$)")
    for m in sorted(moved):
        print(files[m])
    if "--check" in sys.argv:
        return
    for f in sorted([*ROOT.glob("crates/*/specs/**/*.antt"), *ROOT.glob("crates/*/proofs/**/*.antt"), *ROOT.glob("crates/*/src/*.rt"), *ROOT.glob("crates/*/must-fail/*.edit")]):
        text = f.read_text(encoding="utf-8")
        turned = pattern.sub(lambda m: new[m[1]], text)
        if f.suffix == ".edit":
            for m in moved:
                if m.split(".")[1] == f.parts[-3]:
                    turned = turned.replace(f"specs/{files[m].name}", f"proofs/{files[m].name}")
        if turned != text:
            f.write_text(turned, encoding="utf-8")
    for m in sorted(moved):
        crate = ROOT / "crates" / m.split(".")[1]
        name = files[m].stem
        lib = crate / "specs" / "Lib.antt"
        lines = lib.read_text(encoding="utf-8").splitlines()
        kept = [line for line in lines if not re.fullmatch(rf"(?:pub )?mod {name}", line.strip())]
        lib.write_text("\n".join(kept) + "\n", encoding="utf-8")
        proofs = crate / "proofs" / "Lib.antt"
        proofs.parent.mkdir(exist_ok=True)
        have = proofs.read_text(encoding="utf-8") if proofs.exists() else ""
        proofs.write_text(have + f"pub mod {name}\n", encoding="utf-8")
        files[m].rename(crate / "proofs" / f"{name}.antt")


main()
