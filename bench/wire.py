#!/usr/bin/env python3
"""Times `checksum` and the reading of TCP segments against copying the same octets.

Usage: bench/wire.py [PROGRAM]

PROGRAM is wire_bench as it was built (crates/wire_bench/out/wire_bench by default; `rt run` in crates/wire_bench builds
it). Each kind of work is done on 4,096 segments of 1,460 octets of data, once with few rounds and once with many; the
difference of both times, the least of five each, is the time of the rounds between. Needs Python's standard library alone.
"""
import pathlib
import struct
import subprocess
import sys
import time

TOP = pathlib.Path(__file__).resolve().parent.parent
SRC, DEST = 0x0A000001, 0x0A000002
SEGMENTS, DATA = 4096, 1460
FEW, MANY = 1, 201
TRIES = 5


def ones_sum(octets):
    total = sum(struct.unpack(f"!{len(octets) // 2}H", octets))
    while total >> 16:
        total = (total & 0xFFFF) + (total >> 16)
    return 0xFFFF - total


def segment(number):
    data = bytes((number * 31 + i * 7) & 0xFF for i in range(DATA))
    head = struct.pack("!HHIIBBHHH", 80, 49152, number * DATA, 1, 0x50, 0x10, 65535, 0, 0)
    pseudo = struct.pack("!IIBBH", SRC, DEST, 0, 6, len(head) + DATA)
    check = ones_sum(pseudo + head + data)
    return head[:16] + struct.pack("!H", check) + head[18:] + data


def seconds(program, work, rounds, octets):
    best = None
    for _ in range(TRIES):
        start = time.perf_counter()
        done = subprocess.run([program, work, str(rounds)], input=octets, capture_output=True, check=True)
        took = time.perf_counter() - start
        best = took if best is None else min(best, took)
    return best, done.stdout


def main():
    program = sys.argv[1] if len(sys.argv) > 1 else str(TOP / "crates/wire_bench/out/wire_bench")
    octets = b"".join(segment(n) for n in range(SEGMENTS))
    rates = {}
    for work in ("copy", "sum", "read"):
        few, _ = seconds(program, work, FEW, octets)
        many, answer = seconds(program, work, MANY, octets)
        if work == "read" and int(answer) != SEGMENTS * DATA * MANY:
            sys.exit("wire.py: the program did not read all segments")
        if work == "sum" and int(answer) == 0:
            sys.exit("wire.py: the program summed nothing")
        rates[work] = len(octets) * (MANY - FEW) / (many - few)
    for work, name in (("copy", "memcpy"), ("sum", "checksum"), ("read", "read_tcp")):
        print(f"{name:9} {rates[work] / 1e9:6.2f} GB/s  {rates[work] / rates['copy']:5.2f} of memcpy")


if __name__ == "__main__":
    main()
