#!/usr/bin/env python3
"""Prints the statements of the theorems that port_theorems.py and port_laws.py moved from specs/ to proofs/. usage: tools/port_list.py LANDED

LANDED is a checkout of the older repository that port.py and port_names.py turned: what stood in its specs/ and stands in proofs/ here is listed.
It fails where a statement differs from that checkout's.
"""
import pathlib
import re
import sys

WORD = r"[^\s(){}.;,@\"«»]+"
HEAD = re.compile(r"^( *)(?:pub )?(" + WORD + r") :(?:\s|$)")
DEFINED = re.compile(r"^( *)(?:unfoldable|abbrev|data|record|pub data|pub record|infix)")


def statements(text):
    """The signatures of what is public, with the modules around them."""
    out, lines, i, pending = [], text.split("\n"), 0, []
    while i < len(lines):
        line = lines[i]
        m = re.match(r"^( *)module _ ", line)
        if m:
            pending = [(n, t) for n, t in pending if n < len(m[1])]
            block = [line]
            while not block[-1].rstrip().endswith("where") and i + 1 < len(lines):
                i += 1
                block.append(lines[i])
            pending.append((len(m[1]), "\n".join(block)))
            i += 1
            continue
        m = HEAD.match(line)
        if m and line.lstrip().startswith("pub ") and not DEFINED.match(line):
            indent = len(m[1])
            pending = [(n, t) for n, t in pending if n < indent]
            for it in pending:
                if it[1] is not None:
                    out.append(it[1])
            pending = [(n, None) for n, t in pending]
            block = [line]
            i += 1
            while i < len(lines) and lines[i].strip() and len(lines[i]) - len(lines[i].lstrip()) > indent:
                block.append(lines[i])
                i += 1
            out.append("\n".join(block))
            continue
        i += 1
    return out


def bare(it):
    return re.sub(r"\s+", " ", re.sub(r"Rattle\.(\w+)\.(?:specs|proofs)\.", r"Rattle.\1.", it)).strip()


def main():
    landed = pathlib.Path(sys.argv[1])
    count, wrong = 0, 0
    for f in sorted(landed.glob("crates/*/specs/*.antt")):
        here = pathlib.Path(*f.relative_to(landed).parts)
        now = pathlib.Path(str(here).replace("/specs/", "/proofs/"))
        if here.exists() or not now.exists():
            continue
        was = [bare(s) for s in statements(f.read_text(encoding="utf-8"))]
        are = statements(now.read_text(encoding="utf-8"))
        have = {bare(s) for s in are}
        for s in was:
            if s not in have:
                print(f"not the same: {here}: {s[:200]}", file=sys.stderr)
                wrong += 1
        if are:
            print(f"\n`{now}`:\n")
            for s in are:
                print("\n".join("    " + line for line in s.split("\n")))
            count += sum(1 for s in are if "module _" not in s.split("\n")[0])
    print(f"{count} statements, {wrong} not the same", file=sys.stderr)


main()
