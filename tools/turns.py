#!/usr/bin/env python3
"""Compares two builds of the calls that read a type's blocks and names: answers, stack, instructions, and times in turns. Used by docs/LOOK-BACK.md.

usage: tools/turns.py OLD NEW answers SEED ROUNDS [stack]  every status, number and list; how deep the calls write the stack
       tools/turns.py OLD NEW count JOB...                 instructions of a pass over 512 rows, by valgrind
       tools/turns.py OLD NEW time SECONDS TURNS JOB...    nanoseconds of a call, row or slot: medians, lowest and highest, ratio; at four places of the program

OLD and NEW are checkouts whose target/staticlib has the archives that scripts/archives builds. tools/turns.c says what a JOB is. Where a call stands
in the program, its time may change by half and more: so each build is linked four times, 16 bytes further on each time.
"""
import pathlib
import statistics
import subprocess
import sys
import tempfile

TOOLS = pathlib.Path(__file__).resolve().parent
ARCHIVES = ("full_rows", "block_of_kind", "blocks", "bodies", "fields", "rows")
PLACES = 4


def link(folder, checkout, name, place):
    """The program over a checkout's archives, with their calls so many times 16 bytes further on."""
    made, pad = folder / f"{name}{place}", folder / f"pad{place}.s"
    pad.write_text(f'.section .note.GNU-stack,"",@progbits\n.text\n.p2align 6\n.skip {16 * place + 1}, 0x90\n')
    archives = [pathlib.Path(checkout) / "target" / "staticlib" / f"libc_{archive}.a" for archive in ARCHIVES]
    words = ["cc", "-O2", "-fno-defer-pop", "-Wl,-z,now", str(TOOLS / "turns.c"), str(pad), "-Wl,--whole-archive", *map(str, archives)]
    subprocess.run([*words, "-Wl,--no-whole-archive", "-o", str(made)], check=True)
    return made


def said(*words):
    return subprocess.run(list(map(str, words)), stdout=subprocess.PIPE, text=True, check=True, timeout=600).stdout


def answers(programs, seed, rounds, stack=""):
    how = "answers-and-stacks" if stack else "answers"
    old, new = ([line.split() for line in said(program[0], how, seed, rounds).splitlines()] for program in programs)
    for (name, calls, there, sum_old, deep_old), (_, _, _, sum_new, deep_new) in zip(old, new, strict=True):
        print(f"{name}: {calls} calls, {there} with an answer, {'the same' if sum_old == sum_new else 'DIFFERENT'}" + f"; stack {deep_old} and {deep_new}" * bool(stack))
    return [line[:4] for line in old] != [line[:4] for line in new]


def instructions(program, job, passes):
    valgrind = ["valgrind", "--tool=cachegrind", "--cache-sim=no", "--cachegrind-out-file=/dev/null"]
    words = [*valgrind, str(program), job, f"-{passes}"]
    found = subprocess.run(words, stdout=subprocess.DEVNULL, stderr=subprocess.PIPE, text=True, check=True, timeout=600).stderr
    return int(found.split("refs:")[1].split()[0].replace(",", ""))


def count(programs, *jobs):
    for job in jobs:
        old, new = ((instructions(program[0], job, 40) - instructions(program[0], job, 20)) / 20 for program in programs)
        print(f"{job}: {old:.0f} and {new:.0f} instructions a pass, {new / old:.2f}")


def time(programs, seconds, turns, *jobs):
    for job in jobs:
        for place in range(PLACES):
            old, new = [], []
            for turn in range(int(turns)):
                for k in (0, 1) if turn % 2 == 0 else (1, 0):
                    (old, new)[k].append(float(said(programs[k][place], job, seconds)))
            a, b = statistics.median(old), statistics.median(new)
            print(f"{job} at {place}: {a:.1f} ({min(old):.1f} to {max(old):.1f}) and {b:.1f} ({min(new):.1f} to {max(new):.1f}), {b / a:.2f}", flush=True)


def main():
    if len(sys.argv) < 4 or sys.argv[3] not in ("answers", "count", "time"):
        sys.exit(__doc__)
    with tempfile.TemporaryDirectory() as folder:
        places = range(PLACES if sys.argv[3] == "time" else 1)
        programs = [[link(pathlib.Path(folder), checkout, name, place) for place in places] for checkout, name in zip(sys.argv[1:3], ("old", "new"))]
        return {"answers": answers, "count": count, "time": time}[sys.argv[3]](programs, *sys.argv[4:])


if __name__ == "__main__":
    sys.exit(main())
