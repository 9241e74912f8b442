#!/usr/bin/env python3
"""Brings the repository's own definitions and lemmas to the spelling of today's Rattle, after port.py and before any edit by hand.

usage: tools/port_names.py [--check]        at the top of the repository, once; --check writes nothing

Definitions and lemmas go to snake case (`fileOffset` to `file_offset`, `near-answer` to `near_answer`); types, modules, functions of src/,
exported names and strings keep theirs. `Rattle.core` becomes `Rattle.std`. It goes by whole words in specs/, proofs/, the clauses and `ghost use`
lines of src/, and the lines of must-fail edits. In a file that has a name from a library of the kit, that name stays.
What falls together is printed.
"""
import collections
import glob
import pathlib
import re
import sys

ROOT = pathlib.Path.cwd()
WORD = r"[^\s(){}\[\].;,@\"«»]+"
DECLARED = re.compile(r"^\s*(?:unfoldable\s+|abbrev\s+)?(?:pub\s+)?(?:abbrev\s+)?(" + WORD + r"(?:\s+" + WORD + r")*)\s+:(?:\s|$)")
ENTERED = re.compile(r"^\s*(?:pub\s+)?(?:data|record)\s+(" + WORD + r")")
USE = re.compile(r"^(?:pub )?(?:ghost )?use ([^\s{;]+?)(?:\.\{([^}]*)\})?;?\s*$", re.M)
CLAUSE = re.compile(r"(?:requires|ensures)\*?\s*(?:\w+\s*)?\{")
# What a proof file gets from Rattle, and what its own answers are called.
MADE = {"invariant-loop", "decreases-loop", "loop-holds", "loop-again"}


def snake(name):
    new = name.replace("-", "_")
    new = re.sub(r"(?<=[a-z0-9])([A-Z])", lambda m: "_" + m[1].lower(), new)
    return new


def own(path):
    return path.startswith("Rattle.") and (ROOT / "crates" / path.split(".")[1]).is_dir()


def declared():
    found = collections.defaultdict(set)
    for f in sorted([*ROOT.glob("crates/*/specs/**/*.antt"), *ROOT.glob("crates/*/proofs/*.antt")]):
        for line in f.read_text(encoding="utf-8").splitlines():
            m = DECLARED.match(line)
            if m:
                for name in m[1].split():
                    found[name].add(str(f))
    return found


# Definitions whose new name a library of the kit has in the same file.
OTHERWISE = {"takeAt": "taken_at"}


def table():
    """From each old name to its new one. A lemma that would have a definition's name gets `_lem`."""
    names, found = {}, {n for n in declared() if re.fullmatch(r"[a-z][A-Za-z0-9'_₀-₉-]*", n)} - MADE
    for name in found:
        if "-" not in name and snake(name) != name:
            names[name] = OTHERWISE.get(name, snake(name))
    taken = set(names.values())
    for name in sorted(n for n in found if n == snake(n) and n in taken):
        names[name] = name + "_lem"
    taken |= {n for n in found if n == snake(n)}
    for f in sorted(ROOT.glob("crates/*/specs/**/*.antt")):
        text = f.read_text(encoding="utf-8")
        near = kept(text)
        for name in found & set(re.findall(WORD, text)):
            if "-" in name and name not in near and snake(name) in near:
                taken.add(snake(name))
    for name in sorted(n for n in found if "-" in n):
        names[name] = snake(name) + ("_lem" if snake(name) in taken else "")
    return names


def kept(text):
    """The names that a file has from a library of the kit."""
    found = set()
    for path, items in USE.findall(text):
        if not own(path):
            for item in items.split(","):
                for word in re.split(r"\s+as\s+", item.strip()):
                    found.add(word)
    return found


def turned(text, names, keep):
    def word(m):
        w = m[0]
        if w in keep or w == snake(w) and text[m.start() - 1 : m.start()] == ".":
            return w
        return names.get(w, w)

    return re.sub(WORD, word, text)


def blocks(text):
    """The spans of clauses and of `ghost` items in a file of src/."""
    spans = [m.span() for m in re.finditer(r"^ghost use [^;]*;", text, re.M)]
    for m in CLAUSE.finditer(text):
        depth, at = 1, m.end()
        while depth and at < len(text):
            depth += {"{": 1, "}": -1}.get(text[at], 0)
            at += 1
        spans.append((m.end(), at - 1))
    return sorted(spans)


def in_source(text, names, keep):
    out, last = [], 0
    for start, end in blocks(text):
        out += [text[last:start], turned(text[start:end], names, keep)]
        last = end
    return "".join(out) + text[last:]


def together(names):
    """Names that fall together: two of the repository's that a file has both, or one with a name of the kit in a file."""
    back = collections.defaultdict(set)
    for old, new in names.items():
        back[new].add(old)
    for f in sorted([*ROOT.glob("crates/*/specs/**/*.antt"), *ROOT.glob("crates/*/proofs/**/*.antt"), *ROOT.glob("crates/*/src/*.rt")]):
        text = f.read_text(encoding="utf-8")
        words = set(re.findall(WORD, text))
        keep = kept(text)
        for old in sorted(words & set(names) - keep):
            new = names[old]
            for other in sorted(((back[new] | {new}) & words) - {old}):
                print(f"falls together: {f.relative_to(ROOT)}: {old} and {other}")


def hidden(names):
    """Parameters that a definition in their function's clauses would have the name of."""
    for f in sorted(ROOT.glob("crates/*/src/*.rt")):
        text = f.read_text(encoding="utf-8")
        for m in re.finditer(r"\bfn (\w+)(?:<[^>]*>)?\(([^)]*)\)", text):
            end = re.search(r"^(?:\}|\s*\{)$", text[m.end():], re.M)
            clauses = text[m.end(): m.end() + (end.start() if end else 0)]
            params = set(re.findall(r"(\w+):", m[2]))
            for old in set(re.findall(WORD, clauses)) & set(names):
                if names[old] in params:
                    print(f"hidden: {f.relative_to(ROOT)}: {m[1]}: {old}")


def main():
    check = "--check" in sys.argv
    names = table()
    together(names)
    hidden(names)
    changed = 0
    for f in sorted(p for part in ("specs", "proofs", "src", "must-fail") for p in ROOT.glob(f"crates/*/{part}/**/*") if p.is_file()):
        text = old = f.read_text(encoding="utf-8")
        text = text.replace("Rattle.core.", "Rattle.std.")
        keep = kept(text)
        if f.suffix == ".antt":
            text = turned(text, names, keep)
        elif f.suffix == ".rt":
            text = in_source(text, names, keep)
        elif f.suffix == ".edit":
            text = turned(text, names, set())
        if text != old:
            changed += 1
            if not check:
                f.write_text(text, encoding="utf-8")
    print(f"{len(names)} names, {changed} files")


main()
