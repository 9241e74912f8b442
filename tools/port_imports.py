#!/usr/bin/env python3
"""Drops what a proof's files import and do not name. usage: tools/port_imports.py CRATE.."""
import pathlib
import re
import sys

USE = re.compile(r"^use ([^\s{;]+)\.\{([^}]*)\}[ \t]*$", re.M)
for crate in sys.argv[1:]:
    for f in sorted(pathlib.Path(crate).glob("proofs/**/*.antt")):
        if f.name not in ("Answers.antt", "Invariants.antt"):
            continue
        text = f.read_text(encoding="utf-8")
        body = re.sub(r"(?<![^\s])--[^\n]*", "", USE.sub("", text))
        words = set(re.findall(r"\[\]|[^\s(){}\[\].;,@\"«»]+", body))

        def keep(item):
            name = re.split(r"\s+as\s+", item.strip())[-1]
            if "◌" in name:
                return all(part in words for part in name.split("◌") if part)
            return name in words

        def use(m):
            items = [it.strip() for it in m[2].split(",") if it.strip()]
            kept = [it for it in items if keep(it)]
            return f"use {m[1]}.{{{', '.join(kept)}}}" if kept else "\0"

        new = USE.sub(use, text).replace("\0\n", "")
        new = re.sub(r"^use (\S+) as (\S+)\n", lambda m: m[0] if re.search(rf"(?<![\w.]){re.escape(m[2])}\.", body) else "", new, flags=re.M)
        if new != text:
            f.write_text(new, encoding="utf-8")
