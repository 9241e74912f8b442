#!/usr/bin/env python3
"""Build tests/exports.c over the archives in target/staticlib, which scripts/archives makes, and run it.

usage: tests/exports.py

It must call every function that a crate exports, and each must answer as it should.
"""
import pathlib
import re
import shutil
import subprocess
import sys

ROOT = pathlib.Path(__file__).resolve().parent.parent
EXPORT = re.compile(r'#\[unsafe\(no_mangle\)\]\s*pub extern "C" fn (\w+)')


def main():
    if not shutil.which("cc"):
        return subprocess.run([ROOT / "scripts/not-run", "the exported calls from C", "there is no cc"]).returncode
    crates, exports = set(), set()
    for path in ROOT.glob("crates/*/src/**/*.rt"):
        if names := EXPORT.findall(path.read_text(encoding="utf-8")):
            crates.add(path.relative_to(ROOT / "crates").parts[0])
            exports.update(names)
    program, archives = ROOT / "target/exports", [ROOT / f"target/staticlib/lib{crate.removesuffix('_c')}.a" for crate in sorted(crates)]
    words = ["cc", "-std=c11", "-O1", "-Wall", "-Wextra", "-Werror", "-o", program, ROOT / "tests/exports.c", *archives]
    if subprocess.run(words).returncode:
        print("tests/exports.py: tests/exports.c is not built over the archives (scripts/archives makes them)")
        return 1
    ran = subprocess.run([program], stdout=subprocess.PIPE, text=True, timeout=60)
    called = {line[7:] for line in ran.stdout.splitlines() if line.startswith("called ")}
    wrong = [line for line in ran.stdout.splitlines() if not line.startswith("called ")]
    wrong += [f"{name} is exported, and tests/exports.c does not call it, or not rightly" for name in sorted(exports - called)]
    wrong += [f"{name} is called, and no crate exports it" for name in sorted(called - exports)]
    print("".join(f"tests/exports.py: {line}\n" for line in wrong), end="")
    if wrong or ran.returncode or not called:
        print(f"tests/exports.py: {len(wrong)} wrong, exit status {ran.returncode}")
        return 1
    print(f"exports: {len(called)} calls from C")
    return 0


if __name__ == "__main__":
    sys.exit(main())
