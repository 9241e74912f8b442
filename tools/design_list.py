#!/usr/bin/env python3
"""Prints what docs/DESIGN-PASS.md has side by side: types, signatures, clauses, definitions and theorems that changed. usage: tools/design_list.py COMMIT [--all] [--write]

COMMIT is the commit of the page's first line. Signatures, clauses and definitions are those that the kit's port/contracts.py lists; types and
theorems (what specs/ and proofs/ state) are compared here. What differs only in the name of std's Option (`none` and `None`, `map` and `option_map`) is
counted and not printed; --write puts it into the page in place of what stood there. Of lemmas those are printed in full that README or docs/ name, of the others the names, and with --all their statements.
tools/design_list.txt has a line `crate name..: where its promise stands now` for definitions, lemmas, types and functions that are gone. What is
gone and has no such line is reported.
"""
import contextlib
import io
import json
import os
import pathlib
import re
import subprocess
import sys
import tempfile
from collections import Counter, OrderedDict

# The kit's folder: `rt doc` prints the path of a page in it.
KIT = pathlib.Path(subprocess.run(["rt", "doc"], check=True, capture_output=True, text=True).stdout.strip()).parent
WORD = r"[^\s(){}.;,@\"«»]+"
HEAD = re.compile(r"^( *)(pub )?(" + WORD + r") :(?:\s|$)")
SPELLED = {"Some": "some", "None": "none", "option_map": "map", "unwrap_or": "get_or", "slice_get": "get_elem?"}
HERE = pathlib.Path(__file__).resolve().parent


def plain(text):
    """A text without line breaks, and with one spelling of Option."""
    text = re.sub(r"\bOption\.map\b", "map", " ".join(text.split()))
    return re.sub(WORD, lambda m: SPELLED.get(m[0], m[0]), text)


def code(text):
    return re.sub(r"^\s*--.*$", "", text, flags=re.M)


def statements(text):
    """What a file of specs/ or proofs/ states: name, and the statement with the modules around it."""
    out, lines, i, around = [], code(text).split("\n"), 0, []
    while i < len(lines):
        line = lines[i]
        indent = len(line) - len(line.lstrip())
        if line.strip():
            around = [(n, t) for n, t in around if n < indent]
        m = re.match(r"^( *)(?:pub )?module \S+", line)
        if m:
            block = [line]
            while not re.search(r"\bwhere\s*$", block[-1]) and i + 1 < len(lines):
                i += 1
                block.append(lines[i])
            around.append((len(m[1]), " ".join(" ".join(block).split())))
            i += 1
            continue
        if re.match(r"^ *(?:pub )?(?:record|data) (?:pub )?", line):
            i += 1
            while i < len(lines) and (not lines[i].strip() or len(lines[i]) - len(lines[i].lstrip()) > indent):
                i += 1
            continue
        m = HEAD.match(line)
        if m and m[2]:
            block = [line]
            i += 1
            while i < len(lines) and lines[i].strip() and len(lines[i]) - len(lines[i].lstrip()) > indent:
                block.append(lines[i])
                i += 1
            said = " ".join(" ".join(block).split())
            if " : goal." not in said:
                out.append((m[3], [t for _, t in around], said))
            continue
        i += 1
    return out


def types(text):
    """The enums and structs of a source, without comments."""
    lines, i = [re.sub(r"\s*//.*", "", x) for x in text.split("\n")], 0
    while i < len(lines):
        m = re.match(r"(?:pub(?:\([a-z]+\))? )?(?:enum|struct) (\w+)", lines[i])
        if not m:
            i += 1
            continue
        j = i
        while not (lines[j] == "}" or (j == i and re.search(r"[;}]$", lines[j]))):
            j += 1
        a = i
        while a > 0 and lines[a - 1].startswith("#["):
            a -= 1
        yield m[1], re.sub(r",? \}", " }", " ".join(" ".join(lines[a:j + 1]).split()))
        i = j + 1


def read(root, pattern):
    for f in sorted(root.glob(pattern)):
        if "/out/" not in str(f):
            yield f.relative_to(root), f.read_text(encoding="utf-8")


def pairs(old, new, same):
    """Names of both sides that are not the same, gone ones and new ones: by crate and name, the texts of a name in order."""
    changed, gone, fresh, spelled = [], [], [], []
    for key in list(old) + [k for k in new if k not in old]:
        a, b = list(old.get(key, [])), list(new.get(key, []))
        for x in list(a):
            for y in b:
                if x == y:
                    a.remove(x)
                    b.remove(y)
                    break
        for x in list(a):
            for y in b:
                if same(x, y):
                    spelled.append(key)
                    a.remove(x)
                    b.remove(y)
                    break
        for x, y in zip(a, b):
            changed.append((key, x, y))
        gone += [(key, x) for x in a[len(b):]]
        fresh += [(key, y) for y in b[len(a):]]
    for (crate, name), x in list(gone):
        for (other, again), y in list(fresh):
            if name == again and same(x, y):
                moved.append((crate, other, name))
                gone.remove(((crate, name), x))
                fresh.remove(((other, again), y))
                break
    return changed, gone, fresh, spelled


moved = []


def collect(root, which):
    out = OrderedDict()
    if which == "types":
        for f, text in read(root, "crates/*/src/**/*.rt"):
            for name, said in types(text):
                out.setdefault((f.parts[1], name), []).append(said)
    else:
        for pattern in ("crates/*/specs/**/*.antt", "crates/*/proofs/**/*.antt"):
            for f, text in read(root, pattern):
                for name, around, said in statements(text):
                    out.setdefault((f.parts[1], name), []).append(" ".join(around + [said]))
    return out


def named(root):
    """The names that README and docs/ say, apart from the pages of the port and of this pass."""
    out = set()
    for f in [root / "README.md", *sorted((root / "docs").glob("*.md"))]:
        if f.exists() and f.name not in ("PORT.md", "PORT-EDITS.md", "DESIGN-PASS.md"):
            for m in re.finditer(r"`([^`\n]*)`", f.read_text(encoding="utf-8")):
                out.update(re.findall(WORD, m[1]))
    return out


def both(key, a, b):
    print(f"`{key[0]}` `{key[1]}`\n")
    print("    " + (a or "(none)"))
    print("    " + (b or "(none)") + "\n")


def clause(requires, ensures):
    return " ".join([f"requires {n + ' ' if n else ''}{{ {t} }}" for n, t in requires] + [f"ensures {n + ' ' if n else ''}{{ {t} }}" for n, t in ensures])


def where_now():
    out = {}
    f = HERE / "design_list.txt"
    if f.exists():
        for line in f.read_text(encoding="utf-8").splitlines():
            m = re.match(r"(\S+) (.+?): (.*)", line)
            if m:
                for name in m[2].split():
                    out[(m[1], name)] = m[3]
    return out


GONE = set()


def say_gone(title, keys, now):
    GONE.update(keys)
    left = [k for k in keys if k not in now]
    if keys:
        print(f"\n### {title}\n")
        by = OrderedDict()
        for k in keys:
            if k in now:
                by.setdefault((k[0], now[k]), []).append(k[1])
        for (crate, text), names in by.items():
            print(f"- `{crate}` " + ", ".join(f"`{n}`" for n in names) + f": {text}")
        for k in left:
            print(f"- `{k[0]}` `{k[1]}`: ?")
    for k in left:
        print(f"no line in design_list.txt: {k[0]} {k[1]}", file=sys.stderr)


def by_crate(keys):
    crates = OrderedDict()
    for c, n in keys:
        crates.setdefault(c, []).append(n)
    return "; ".join(f"**{c}** " + ", ".join(f"`{n}`" for n in OrderedDict.fromkeys(ns)) for c, ns in crates.items())


def main():
    commit, whole, new = sys.argv[1], "--all" in sys.argv, pathlib.Path(".")
    now = where_now()
    with tempfile.TemporaryDirectory() as d:
        tar = subprocess.run(["git", "archive", commit], check=True, capture_output=True).stdout
        subprocess.run(["tar", "-x", "-C", d], input=tar, check=True)
        old = pathlib.Path(d)
        got = subprocess.run([sys.executable, f"{KIT}/port/contracts.py", d, str(new), "--json"], check=True, capture_output=True, text=True).stdout
        j = json.loads(got)
        t_old, t_new = collect(old, "types"), collect(new, "types")
        s_old, s_new = collect(old, "said"), collect(new, "said")
        names = named(old) | named(new)
    changed, gone, fresh, _ = pairs(t_old, t_new, lambda a, b: False)
    print("### Types\n")
    for key, a, b in changed:
        both(key, a, b)
    if fresh:
        print("New:\n")
        for key, b in fresh:
            print(f"    {key[0]}: {b}")
    say_gone("Types that are gone", [k for k, _ in gone], now)
    print("\n### Signatures\n")
    for key, a, b in j["signatures changed"]:
        both((key.split()[0], " ".join(key.split()[2:])), a, b)
    print("### Clauses\n")
    spelled = []
    for key, ra, ea, rb, eb in j["contracts changed"]:
        a, b = clause(ra, ea), clause(rb, eb)
        if plain(a) == plain(b):
            spelled.append((key.split()[0], key.split()[-1]))
        else:
            both((key.split()[0], " ".join(key.split()[2:])), a, b)
    if spelled:
        print(f"{len(spelled)} clauses differ only in the name of std's Option: {by_crate(spelled)}.")
    named_so = [((k.split()[0], "::".join(k.split(" (")[0].split()[2:])), k) for k in j["functions not found again"]]
    say_gone("Functions that are gone", [k for k, said in named_so if not said.endswith("(requires 0, ensures 0)")], now)
    silent = [k for k, said in named_so if said.endswith("(requires 0, ensures 0)")]
    if silent:
        print(f"\nAnd, without a clause: {by_crate(silent)}.")
    print("\n### Definitions\n")
    spelled = []
    for crate, name, a, b in j["definitions"]["changed"]:
        a, b = " ".join(a), " ".join(b)
        if plain(a) == plain(b):
            spelled.append((crate, name))
        else:
            both((crate, name), " ".join(a.split()), " ".join(b.split()))
    if spelled:
        print(f"{len(spelled)} definitions differ only in the name of std's Option: {by_crate(spelled)}.")
    say_gone("Definitions that are gone", [tuple(k.split() if isinstance(k, str) else k)[:2] for k in j["definitions"]["gone"]], now)
    print("\n### Theorems\n")
    changed, gone, fresh, spelled = pairs(s_old, s_new, lambda a, b: plain(a) == plain(b))
    main_ones = [c for c in changed if c[0][1] in names]
    rest = [c for c in changed if c[0][1] not in names]
    for key, a, b in main_ones + (rest if whole else []):
        both(key, a, b)
    if rest and not whole:
        print(f"{len(rest)} lemmas that no page names changed with the types they speak of: {by_crate([c[0] for c in rest])}.\n")
    print(f"{len(spelled)} statements differ only in the name of std's Option.")
    if moved:
        print("\nMoved: " + ", ".join(f"`{n}` from `{a}` to `{b}`" for a, b, n in moved) + ".")
    say_gone("Theorems and lemmas that are gone", [k for k, _ in gone], now)
    for k, _ in gone:
        if k[1] in names:
            print(f"look: a page names the lemma that is gone: {k[0]} {k[1]}", file=sys.stderr)
    if fresh:
        print(f"\nNew: {by_crate([k for k, _ in fresh])}.")
    for k in ("crates gone", "ensures all gone", "fewer ensures", "more requires", "no longer pub", "a new Wait or Threads"):
        if j.get(k):
            print(f"look: {k}: {j[k]}", file=sys.stderr)
    for key in now:
        if key not in GONE:
            print(f"not gone, in design_list.txt: {key[0]} {key[1]}", file=sys.stderr)
    print(f"{len(j['signatures changed'])} signatures, {len(j['contracts changed'])} contracts, {len(j['definitions']['changed'])} definitions, "
          f"{len(changed)} statements changed; gone: {len(j['definitions']['gone'])} definitions, {len(gone)} statements", file=sys.stderr)


HEADING = "## Signatures, clauses, definitions and theorems, old and new\n"

if "--write" in sys.argv:
    said = io.StringIO()
    with contextlib.redirect_stdout(said):
        main()
    page = HERE.parent / "docs" / "DESIGN-PASS.md"
    text = page.read_text(encoding="utf-8")
    start = text.index(HEADING) + len(HEADING)
    page.write_text(text[:start] + f"\n`python3 tools/design_list.py {sys.argv[1]}` prints this section.\n\n{said.getvalue().strip()}\n\n"
                    + text[text.index("\n## ", start) + 1:], encoding="utf-8")
else:
    main()
