#!/usr/bin/env python3
"""Times a book: a token is accepted, ends and is taken, a million times.

Usage: bench/book.py [PROGRAM]

PROGRAM is book_bench as it was built (crates/book_bench/out/book_bench by default; `rt run` in crates/book_bench builds
it). It is run with one round and with a million; the difference of both times, the least of five each, is the time of
the million. Then with fewer rounds while 64 tokens are pending on each of 1, 16 and 255 other children, and the time of a
million is reckoned from them. Needs Python's standard library alone.
"""
import pathlib
import subprocess
import sys
import time

TOP = pathlib.Path(__file__).resolve().parent.parent
MILLION = 1_000_000
LOADED = 10_000
TRIES = 5


def seconds(program, rounds, others):
    best = None
    for _ in range(TRIES):
        start = time.perf_counter()
        subprocess.run([program, str(rounds), str(others)], check=True, stdout=subprocess.DEVNULL)
        spent = time.perf_counter() - start
        best = spent if best is None else min(best, spent)
    return best


def of_a_million(program, rounds, others):
    return (seconds(program, rounds + 1, others) - seconds(program, 1, others)) * MILLION / rounds


def main():
    program = sys.argv[1] if len(sys.argv) > 1 else str(TOP / "crates/book_bench/out/book_bench")
    print(f"a million tokens through a book: {of_a_million(program, MILLION, 0):.3f} s")
    for others in (1, 16, 255):
        print(f"the same beside {others} children with 64 pending tokens each: {of_a_million(program, LOADED, others):.1f} s")


if __name__ == "__main__":
    main()
