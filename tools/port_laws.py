#!/usr/bin/env python3
"""Parts the definitions that must-fail edits change from the theorems in whose files they were left, after port_theorems.py.

usage: tools/port_laws.py     at the top of the repository, once

A must-fail edit is not tried, but called bad, where a theorem that it makes false is cited further on in a file of specs/, or in the file that it
changes: what the prover says of the citing theorem has no name that rt could tell from a text that cannot be read. So theorems stand in proofs/,
and a definition that an edit changes in a file without any.

- `run`, `bytes_place` and the other definitions of runtime's Reads: CallsLaws stayed in specs/ because a contract of test_replay_full names
  `stepped_rows`, a definition that stood in typedescriptor's SlotsLaws, over RowLaws and CallsLaws. `stepped_rows` and `stepped_rows_to` get
  a file of their own, typedescriptor/specs/Steps.antt, and the three files of theorems go to proofs/.
- `listed_entries`, of vtable's ListLaws: vtable/specs/Listed.antt.
- `Claim`, of items' CutLaws: items/specs/Claim.antt.
"""
import pathlib
import re

CRATES = pathlib.Path.cwd() / "crates"
MOVED = {("runtime", "CallsLaws"), ("typedescriptor", "RowLaws"), ("typedescriptor", "SlotsLaws")}
# The definitions, by the file in which they stand: their new file, and its head.
PARTED = {
    ("typedescriptor", "specs", "SlotsLaws"): (("stepped_rows", "stepped_rows_to"), "Steps", """\
-- The rows that some steps of a walk over the slots give, and where the walk then stands.
use Rattle.std.specs.Prelude.{ℕ, zero, suc, List, [], ◌∷◌}
use Rattle.std.proofs.Math.Option.{none, some}
use Rattle.typedescriptor.specs.Slots.{Found, next_row}
"""),
    ("vtable", "proofs", "ListLaws"): (("listed_entries",), "Listed", """\
-- The list of a caller who steps over a table.
use Rattle.std.specs.Prelude.{ℕ, zero, suc, List, [], ◌∷◌}
use Rattle.std.proofs.Math.Option.{none, some}
use Rattle.vtable.specs.declared.iter.EntryIter.{EntryIter}
use Rattle.vtable.specs.Entries.{Layout, Entry, entry_step}
"""),
    ("items", "proofs", "CutLaws"): (("Claim",), "Claim", """\
-- What the cut theorem claims of an item (docs/CUT.md).
use Rattle.std.specs.Prelude.{◌≡◌, ℕ, List, cond, take}
use Rattle.std.proofs.Math.Option.{none}
use Rattle.runtime.specs.Reads.{run, path, every, ends_by}
use Rattle.items.specs.Keys.{Sections, Key}
use Rattle.items.specs.Items.{item}
"""),
}
# The parameters of the module in which a definition stood.
WITHIN = {"listed_entries": ("module _ (image segments : List ℕ) (layout : Layout) where", "image segments layout")}


def part(crate, folder, name):
    names, new, head = PARTED[crate, folder, name]
    f = CRATES / crate / folder / f"{name}.antt"
    text, taken = f.read_text(encoding="utf-8"), []
    for it in names:
        m = re.search(rf"(?:^ *-- [^\n]*\n)?^( *)(?:unfoldable|abbrev) pub {it} :[^\n]*\n(?:\1(?:{it}\b|[ \t])[^\n]*\n)+\n?", text, re.M)
        taken.append(m[0].strip("\n"))
        text = text.replace(m[0], "")
        if it in WITHIN:
            module, given = WITHIN[it]
            taken[-1] = f"{module}\n{taken[-1]}"
            text = re.sub(rf"\b{it} (?=[\w(])", f"{it} {given} ", text)
    (CRATES / crate / "specs" / f"{new}.antt").write_text(head + "\n" + "\n\n".join(taken) + "\n", encoding="utf-8")
    last = [m for m in re.finditer(r"^use [^\n]*\n", text, re.M)][-1].end()
    f.write_text(text[:last] + f"use Rattle.{crate}.specs.{new}.{{{', '.join(names)}}}\n" + text[last:], encoding="utf-8")
    listed(CRATES / crate / "specs" / "Lib.antt", new, True)


def listed(lib, name, is_there):
    lines = [line for line in (lib.read_text(encoding="utf-8").splitlines() if lib.exists() else []) if line != f"pub mod {name}"]
    lib.write_text("\n".join(sorted(lines + [f"pub mod {name}"] * is_there)) + "\n", encoding="utf-8")


def cited(text):
    """The imports of what was parted, from where it stands now."""
    for (crate, folder, name), (names, new, _) in PARTED.items():

        def split(m):
            items = [it.strip() for it in m[2].split(",")]
            ours, rest = [it for it in items if it.split(" ")[0] in names], [it for it in items if it.split(" ")[0] not in names]
            lines = [f"{m[1]}Rattle.{crate}.specs.{new}.{{{', '.join(ours)}}}"] if ours else []
            return "\n".join(lines + ([f"{m[1]}Rattle.{crate}.{folder}.{name}.{{{', '.join(rest)}}}"] if rest else []))

        text = re.sub(rf"^((?:pub |ghost )?use )Rattle\.{crate}\.{folder}\.{name}\.\{{([^}}]*)\}}", split, text, flags=re.M)
    return text


def edit(text, crate):
    for (of, folder, name), (_, new, _) in PARTED.items():
        if of == crate:
            text = text.replace(f"file: {folder}/{name}.antt", f"file: specs/{new}.antt")
    return text


def main():
    for key in PARTED:
        part(*key)
    for f in sorted(p for p in [*CRATES.glob("*/specs/**/*.antt"), *CRATES.glob("*/proofs/**/*.antt"), *CRATES.glob("*/src/*.rt"), *CRATES.glob("*/must-fail/*.edit")]):
        text = old = f.read_text(encoding="utf-8")
        text = edit(text, f.parts[-3]) if f.suffix == ".edit" else cited(text)
        for crate, name in sorted(MOVED):
            text = re.sub(rf"\bRattle\.{crate}\.specs\.{name}\b", f"Rattle.{crate}.proofs.{name}", text)
            if f.suffix == ".edit" and f.parts[-3] == crate:
                text = re.sub(rf"^((?:file|# refused): )specs/{name}\.antt", rf"\1proofs/{name}.antt", text, flags=re.M)
        if text != old:
            f.write_text(text, encoding="utf-8")
    for crate, name in sorted(MOVED):
        (CRATES / crate / "specs" / f"{name}.antt").rename(CRATES / crate / "proofs" / f"{name}.antt")
        listed(CRATES / crate / "specs" / "Lib.antt", name, False)
        listed(CRATES / crate / "proofs" / "Lib.antt", name, True)


main()
