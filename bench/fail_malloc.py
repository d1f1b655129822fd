#!/usr/bin/env python3
"""Makes each allocation of the built program fail in turn, over small captures, and tells where it ends otherwise than by want of
memory.

Usage: bench/fail_malloc.py [--program PROGRAM] [--most N]

For each capture, and for N = 1, 2, .. until no allocation fails any more, PROGRAM (crates/efiboot/out/efiboot by default)
extracts the capture once with the Nth call of `malloc` or `realloc` failing, and once with that one and all later ones. It
ends as it should where its status is 6 and what it wrote is a front of what it writes with ample memory, or where status and
output are those with ample memory. Anything else is told: another status, a signal, other octets.

The failing allocator is made with `cc` in a temporary folder and is loaded in front of the C library. The captures are
samples/first.pcap, those of bench/extract.py with few octets, one that is cut off, and one behind 5 MB of fragments of long
datagrams. The status is 1 where the program ended otherwise. Needs `cc` and Python's standard library.
"""
import argparse
import os
import pathlib
import subprocess
import sys
import tempfile

import extract

ALLOCATOR = r"""
#define _GNU_SOURCE
#include <dlfcn.h>
#include <stdlib.h>
#include <unistd.h>
#include <string.h>

static long calls, first;
static int later;

static int fails(void) {
    if (!first) {
        const char *text = getenv("FAIL_FIRST");
        first = text ? atol(text) : -1;
        later = getenv("FAIL_LATER") != 0;
    }
    calls += 1;
    return first > 0 && (calls == first || (later && calls > first));
}

void *malloc(size_t size) {
    static void *(*next)(size_t);
    if (!next) next = (void *(*)(size_t))dlsym(RTLD_NEXT, "malloc");
    return fails() ? 0 : next(size);
}

void *realloc(void *old, size_t size) {
    static void *(*next)(void *, size_t);
    if (!next) next = (void *(*)(void *, size_t))dlsym(RTLD_NEXT, "realloc");
    return fails() ? 0 : next(old, size);
}

__attribute__((destructor)) static void tell(void) {
    const char *path = getenv("FAIL_COUNT");
    if (!path) return;
    char text[32];
    long count = calls;
    int at = sizeof text;
    do { text[--at] = '0' + count % 10; count /= 10; } while (count);
    (void)!write(2, text + at, sizeof text - at);
}
"""
NO_MEMORY = 6
SMALL, FEW = 60_000, 6_000
HEADER = 24
LONG = 80


def allocator(folder):
    """The failing allocator, built."""
    source, library = os.path.join(folder, "fail.c"), os.path.join(folder, "fail.so")
    pathlib.Path(source).write_text(ALLOCATOR)
    subprocess.run(["cc", "-shared", "-fPIC", "-O1", "-o", library, source, "-ldl"], check=True)
    return library


def captures(folder):
    """Small captures: a name and the octets of each."""
    first = (extract.TOP / "samples/first.pcap").read_bytes()
    yield "first", first
    yield "cut off", first[:-7]
    path = os.path.join(folder, "capture")
    for kind in extract.KINDS:
        # the pools of each sender in turn take some forty allocations
        extract.write_capture(path, FEW if kind == "turns" else SMALL, kind)
        yield kind, pathlib.Path(path).read_bytes()
    extract.write_capture(path, SMALL, "order")
    small = pathlib.Path(path).read_bytes()
    yield "long fragments", small[:HEADER] + b"".join(long_fragments()) + small[HEADER:]


def long_fragments():
    """Datagrams between others, in two fragments each, nearly as long as a pool."""
    (src_mac, src, _), (dest_mac, dest, _) = extract.OTHERS
    for number in range(LONG):
        for flags, length in ((0x2000, 60_000), (60_000 // 8, 5_000)):
            yield extract.packet_record(0, src_mac + dest_mac, (src, dest), 17, number, flags, bytes(length))


def run(program, library, words, octets, number=0, later=False):
    """The status, the output, and how many allocations there were."""
    env = {"LD_PRELOAD": library, "FAIL_COUNT": "1"}
    if number:
        env["FAIL_FIRST"] = str(number)
    if later:
        env["FAIL_LATER"] = "1"
    done = subprocess.run([program, "extract", *words], input=octets, capture_output=True, env=env)
    count = int(done.stderr) if done.stderr.isdigit() else 0
    return done.returncode, done.stdout, count


def wrong_ends(program, library, words, octets, most):
    """How many numbers were tried, and those at which the program ended otherwise."""
    status, output, count = run(program, library, words, octets)
    if not count:
        sys.exit("fail_malloc.py: no allocation was counted")
    numbers, wrong = range(1, min(count, most) + 1), []
    for number in numbers:
        for later in (False, True):
            ended, wrote, _ = run(program, library, words, octets, number, later)
            same = (ended, wrote) == (status, output)
            if not same and not (ended == NO_MEMORY and output.startswith(wrote)):
                wrong.append((number, later, ended, len(wrote)))
    return len(numbers), wrong


def main():
    parser = argparse.ArgumentParser(description="Makes each allocation of the built program fail in turn.")
    parser.add_argument("--program")
    parser.add_argument("--most", type=int, default=100_000)
    args = parser.parse_args()
    program, failed = extract.built(args.program), 0
    with tempfile.TemporaryDirectory() as folder:
        library = allocator(folder)
        for name, octets in captures(folder):
            for words in ([], ["--emit", "report"]):
                tried, wrong = wrong_ends(program, library, words, octets, args.most)
                failed += len(wrong)
                print(f"{name} {' '.join(words)}: {tried} allocations, {len(wrong)} ends otherwise", flush=True)
                for number, later, ended, length in wrong:
                    print(f"  {number}{' and later' if later else ''}: status {ended}, {length} octets written")
    sys.exit(1 if failed else 0)


if __name__ == "__main__":
    main()
