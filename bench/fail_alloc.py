#!/usr/bin/env python3
"""Makes each allocation of boot_top's tests fail in turn, and tells where a test ended otherwise than by want of memory.

Usage: bench/fail_alloc.py [--first N] [--most N] [--step N] [--seconds N]

Runs `rt try --test --fail-alloc N` in crates/boot_top for N = 1, 2, .. (from `--first`, to `--most`, 1,000 by default, each
`--step`th of them), until no allocation fails any more. In each of these runs the Nth allocation of each test fails. A test ends by want of memory where it
passes (the failing allocation wasn't one of its own, or what it asked of the call still held), or where it tells that memory
ran out: by the error of an allocation, or by the status 6 where another was wanted. Anything else is told with its N: a fault, no
answer, another status or another output. `--seconds` is the time of one test.

It takes long and stands outside the gate. The status is 1 where a test ended otherwise. Needs Python's standard library alone.
"""
import argparse
import pathlib
import re
import subprocess
import sys

CRATE = pathlib.Path(__file__).resolve().parent.parent / "crates" / "boot_top"
TEST = re.compile(r"^test (\S+) \.\.\. (\S+)")
PASSED = "ok"


def output_of(number, seconds):
    """What one run prints."""
    words = ["rt", "try", "--test", "--fail-alloc", str(number)]
    if seconds:
        words += ["--seconds", str(seconds)]
    done = subprocess.run(words, cwd=CRATE, capture_output=True, text=True)
    return done.stdout + done.stderr


def ends_of(text):
    """The tests of a run: name, whether it passed, and the lines that it printed."""
    ends = []
    for line in text.splitlines():
        found = TEST.match(line)
        if found:
            ends.append((found[1], found[2] == PASSED, []))
        elif ends and line.startswith(" "):
            ends[-1][2].append(line.strip())
    return ends


# What a test prints that the failing allocation ended, as it should.
WANT = re.compile(r"AllocError|AllocFailed|OutOfResources|NoMemory|out of memory|left: 6\b", re.I)

# Behind these no test can be judged.
STOPPED = re.compile(r"\brun=none\b")


def judge(number, text):
    """What is told of a run, and whether any test of it didn't pass."""
    told, failed = [], False
    for name, passed, lines in ends_of(text):
        if passed:
            continue
        failed = True
        if not WANT.search(" ".join(lines)):
            told.append(f"{number}: {name}: {' | '.join(lines) or 'failed'}")
    return told, failed


def main():
    parser = argparse.ArgumentParser(description=__doc__.split("\n")[0])
    parser.add_argument("--first", type=int, default=1)
    parser.add_argument("--most", type=int, default=1000)
    parser.add_argument("--step", type=int, default=1)
    parser.add_argument("--seconds", type=int, default=0)
    args = parser.parse_args()
    wrong, tried = 0, 0
    for number in range(args.first, args.most + 1, args.step):
        text = output_of(number, args.seconds)
        if STOPPED.search(text) or not ends_of(text):
            sys.exit(f"{number}: nothing ran:\n{text}")
        told, failed = judge(number, text)
        wrong += len(told)
        tried += 1
        for line in told:
            print(line, flush=True)
        if not failed:
            print(f"{number}: no test missed an allocation")
            break
    print(f"{tried} numbers tried, {wrong} ends otherwise than by want of memory")
    sys.exit(1 if wrong else 0)


if __name__ == "__main__":
    main()
