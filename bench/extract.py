#!/usr/bin/env python3
"""Times `efiboot extract` against `cat`, `hold`, `tcpflow` and `tcpick` on the same captures of one download.

Usage: bench/extract.py [--megabytes N] [--tries N] [--program PROGRAM] [KIND ..]

Makes a capture of N megabytes (200 by default) for each kind of download, or for the kinds that are named:

  order     segments of 1,460 octets in order
  late      one segment in 20 comes behind the next three
  lost      one segment in 100 is lost, and sent again behind the next 40
  chunked   in order, the body in chunks of 4,096 octets
  small     segments of 536 octets in order
  front     in order, behind as many octets of a connection between others, whose beginning isn't there
  fragments in order, behind as many octets of datagrams between two others in fragments, of which each hundredth isn't whole
  senders   the same, where the fragments come from 97 others
  copies    in order, behind as many octets of copies of one fragment between two others
  missed    as fragments, behind 60 datagrams whose last fragments come each from another sender, which alone misses them
  turns     in order, behind as many octets of short datagrams in two fragments from 10,000 others in turn, while 15 stay open

and lets each program read it, `cat` to a file, and the others (`tcpflow` and `tcpick` where they are installed) with the
stream or image to a file. `hold` is Python reading its whole input into memory and then writing it, and nothing else: what
any program spends that may write nothing before its input's end. Times are the least of three (`--tries`), of which each comes in
turn with the other programs'. What `extract` writes is compared with the image. The memory is the most that was resident at once,
and is never told as less than this script's own, some 20 MB.

PROGRAM is efiboot as it was built (crates/efiboot/out/efiboot by default, which `./efiboot` builds first where it has to).
Files stand in a temporary folder and are deleted. Needs Python's standard library alone.
"""
import argparse
import os
import pathlib
import random
import shutil
import struct
import subprocess
import sys
import tempfile
import time

TOP = pathlib.Path(__file__).resolve().parent.parent
CLIENT, SERVER = (bytes.fromhex("020000000001"), 0x0A000002, 49153), (bytes.fromhex("020000000002"), 0x0A000001, 80)
OTHERS = (bytes.fromhex("020000000003"), 0x0A000003, 50000), (bytes.fromhex("020000000004"), 0x0A000004, 80)
FIN, SYN, PSH, ACK = 1, 2, 8, 16
ISS, IRS = 65536, 2**32 - 1_000_000
REQUEST = b"GET /image HTTP/1.1\r\nHost: 10.0.0.1\r\nConnection: close\r\n\r\n"
HEADERS = 16 + 14 + 20 + 20
PIECE = 2**20
CHUNK = 4096
BUFFER = 2**30
HOLD = "import sys; sys.stdout.buffer.write(sys.stdin.buffer.read())"
KINDS = {
    # segment size, one in so many comes later, by so many segments, chunked, behind which other traffic: fragments of so many
    "order": (1460, 0, 0, False, None),
    "late": (1460, 20, 3, False, None),
    "lost": (1460, 100, 40, False, None),
    "chunked": (1460, 0, 0, True, None),
    "small": (536, 0, 0, False, None),
    "front": (1460, 0, 0, False, "segments"),
    "fragments": (1460, 0, 0, False, 2),
    "senders": (1460, 0, 0, False, 97),
    "copies": (1460, 0, 0, False, "copies"),
    "missed": (1460, 0, 0, False, "missed"),
    "turns": (1460, 0, 0, False, "turns"),
}
FRAGMENT, FRAGMENTS, SHORT, OPEN = 1480, 5, 64, 15


def image_pieces(length):
    """An image of random octets, always the same one, in pieces, so that it is never in memory whole."""
    numbers = random.Random(length)
    for place in range(0, length, PIECE):
        yield numbers.randbytes(min(PIECE, length - place))


def stream_pieces(length, chunked):
    """The response with that image."""
    framing = b"Transfer-Encoding: chunked" if chunked else b"Content-Length: %d" % length
    yield b"HTTP/1.1 200 OK\r\n" + framing + b"\r\nConnection: close\r\n\r\n"
    for piece in image_pieces(length):
        if not chunked:
            yield piece
            continue
        for place in range(0, len(piece), CHUNK):
            chunk = piece[place:place + CHUNK]
            yield b"%x\r\n%b\r\n" % (len(chunk), chunk)
    if chunked:
        yield b"0\r\n\r\n"


def segments(pieces, size):
    """The octets of the pieces, cut anew, each with its place and whether it is the last."""
    place, held = 0, bytearray()
    for piece in pieces:
        held += piece
        start = 0
        while len(held) - start > size:
            yield place, bytes(held[start:start + size]), False
            start += size
            place += size
        del held[:start]
    yield place, bytes(held), True


def with_later(cuts, every, by):
    """The same, where one in so many comes behind the next ones."""
    waiting = []
    for number, cut in enumerate(cuts):
        if every and number % every == every // 2:
            waiting.append((number + by, cut))
            continue
        yield cut
        while waiting and waiting[0][0] <= number:
            yield waiting.pop(0)[1]
    for _, cut in waiting:
        yield cut


def folded(octets):
    """The one's complement sum of the octets' words; as a number modulo 65,535 it is their value as one number."""
    if len(octets) % 2:
        octets += b"\0"
    return int.from_bytes(octets, "big") % 0xFFFF


def record(moment, sender, receiver, seq, ack, flags, payload=b""):
    """A record of a capture: a frame with its checksums, at a time in microseconds."""
    (src_mac, src, sport), (dest_mac, dest, dport) = sender, receiver
    tcp = struct.pack(">HHIIBBHHH", sport, dport, seq % 2**32, ack % 2**32, 0x50, flags, 65535, 0, 0)
    pseudo = struct.pack(">IIBBH", src, dest, 0, 6, 20 + len(payload))
    total = (folded(pseudo + tcp) + folded(payload)) % 0xFFFF
    tcp = tcp[:16] + struct.pack(">H", 0xFFFF - total) + tcp[18:]
    return packet_record(moment, src_mac + dest_mac, (src, dest), 6, 0, 0x4000, tcp + payload)


def packet_record(moment, macs, addresses, proto, identification, flags, payload):
    """A record of a packet, whose flags have its place in its datagram."""
    ip = struct.pack(">BBHHHBBHII", 0x45, 0, 20 + len(payload), identification, flags, 64, proto, 0, *addresses)
    ip = ip[:10] + struct.pack(">H", 0xFFFF - folded(ip)) + ip[12:]
    frame = macs[6:] + macs[:6] + b"\x08\x00" + ip + payload
    return struct.pack("<IIII", moment // 10**6, moment % 10**6, len(frame), len(frame)) + frame


def other_segments(length, size):
    """Segments between others of so many octets."""
    for place, octets, _ in segments(image_pieces(length), size):
        yield record(0, *OTHERS, place, 1, ACK, octets)


def fragment(number, senders, identification, place, more, octets, sender=None):
    """A record of a fragment from one of so many others to the next of them, whose frame may come from another sender."""
    ends = [number % senders, (number + 1) % senders]
    macs = b"".join(b"\2\0\0\1" + struct.pack(">H", end) for end in ends)
    if sender is not None:
        macs = b"\2\0\0\2" + struct.pack(">H", sender) + macs[6:]
    addresses = [0x0A000100 + end for end in ends]
    return packet_record(60 * number, macs, addresses, 17, identification % 2**16, more * 0x2000 + place // 8, octets)


def other_fragments(length, senders):
    """Datagrams between so many others, in fragments, of so many octets; the last fragment of each hundredth isn't there."""
    for number, (_, octets, _) in enumerate(segments(image_pieces(length), FRAGMENT * FRAGMENTS)):
        for place in range(0, len(octets), FRAGMENT):
            more = place + FRAGMENT < len(octets)
            if more or number % 100:
                yield fragment(number, senders, number, place, more, octets[place:place + FRAGMENT])


def copies(length):
    """Copies of the first fragment of a datagram, of so many octets, at rising times."""
    octets = next(iter(image_pieces(length)))[:FRAGMENT]
    for number in range(length // FRAGMENT):
        yield fragment(2 * number, 2, 0, 0, True, octets)


def missed(length):
    """Datagrams between two others of so many octets in fragments; 60 in front come with their last fragments from other senders."""
    for sender in range(60):
        yield fragment(0, 2, 2**15 + sender, 0, True, bytes(SHORT))
        yield fragment(0, 2, 2**15 + sender, SHORT, False, bytes(SHORT), sender)
    yield from other_fragments(length, 2)


def turns(length):
    """Datagrams of two short fragments, so many octets in all, each from the next of many others, while some stay open."""
    for number in range(OPEN):
        yield fragment(0, 2, 2**15 + number, 0, True, bytes(SHORT))
    for number in range(length // (2 * SHORT)):
        yield fragment(2 * (number // 60), 2, number, 0, True, bytes(SHORT), number % 10_000)
        yield fragment(2 * (number // 60), 2, number, SHORT, False, bytes(SHORT), number % 10_000)


class Receiver:
    """What the client acknowledges: the octets that came without a gap."""

    def __init__(self):
        self.accepted, self.ahead = 0, {}

    def hear(self, place, length):
        self.ahead[place] = length
        while self.accepted in self.ahead:
            self.accepted += self.ahead.pop(self.accepted)


FRONTS = {"copies": copies, "missed": missed, "turns": turns}


def write_capture(path, length, kind):
    """A capture of the download; the client acknowledges every second segment."""
    size, every, by, chunked, behind = KINDS[kind]
    here, receiver = ISS + 1 + len(REQUEST), Receiver()
    with open(path, "wb", buffering=PIECE) as out:
        out.write(struct.pack("<IHHIIII", 0xA1B2C3D4, 2, 4, 0, 0, 262144, 1))
        if behind == "segments":
            out.writelines(other_segments(length, size))
        if behind in FRONTS:
            out.writelines(FRONTS[behind](length))
        if isinstance(behind, int):
            out.writelines(other_fragments(length, behind))
        out.write(record(0, CLIENT, SERVER, ISS, 0, SYN))
        out.write(record(100, SERVER, CLIENT, IRS, ISS + 1, SYN | ACK))
        out.write(record(200, CLIENT, SERVER, ISS + 1, IRS + 1, PSH | ACK, REQUEST))
        cuts = with_later(segments(stream_pieces(length, chunked), size), every, by)
        for number, (place, octets, last) in enumerate(cuts):
            moment = 300 + 12 * number
            flags = PSH | FIN | ACK if last else ACK
            out.write(record(moment, SERVER, CLIENT, IRS + 1 + place, here, flags, octets))
            receiver.hear(place, len(octets))
            if number % 2 or last:
                out.write(record(moment + 5, CLIENT, SERVER, here, IRS + 1 + receiver.accepted, ACK))


def is_image(path, length):
    if os.path.getsize(path) != length:
        return False
    with open(path, "rb") as there:
        return all(there.read(len(piece)) == piece for piece in image_pieces(length))


def run(words, folder, capture=None, output=None):
    """The status, the time in seconds and the most resident memory in octets of a program."""
    with open(capture or os.devnull, "rb") as stdin, open(output or os.devnull, "wb") as stdout:
        start = time.perf_counter()
        child = subprocess.Popen(words, cwd=folder, stdin=stdin, stdout=stdout, stderr=subprocess.DEVNULL)
        _, status, usage = os.wait4(child.pid, 0)
        took = time.perf_counter() - start
    child.returncode = os.waitstatus_to_exitcode(status)
    return child.returncode, took, usage.ru_maxrss * 1024


def readers(program, capture, output):
    """The programs that read the capture: their words, and what stands at standard input and output."""
    found = {
        "cat": (["cat"], capture, output),
        "hold": ([sys.executable, "-c", HOLD], capture, output),
        "efiboot": ([program, "extract", "--buffer", str(BUFFER)], capture, output),
    }
    if shutil.which("tcpflow"):
        found["tcpflow"] = (["tcpflow", "-r", capture], None, None)
    if shutil.which("tcpick"):
        found["tcpick"] = (["tcpick", "-r", capture, "-wR"], None, None)
    return found


def measure(folder, program, kind, length, tries):
    """The least time and the most memory of each program, and the capture's length."""
    capture, output = os.path.join(folder, "capture"), os.path.join(folder, "output")
    write_capture(capture, length, kind)
    found = {}
    for _ in range(tries):
        for name, (words, stdin, stdout) in readers(program, capture, output).items():
            with tempfile.TemporaryDirectory(dir=folder) as own:
                status, took, memory = run(words, own, stdin, stdout)
            if name == "efiboot" and (status != 0 or not is_image(output, length)):
                sys.exit(f"extract.py: {kind}: status {status}, or another image")
            best, most = found.get(name, (took, memory))
            found[name] = (min(best, took), max(most, memory))
            if os.path.exists(output):
                os.remove(output)
    octets = os.path.getsize(capture)
    os.remove(capture)
    return found, octets


def show(kind, found, octets, length, first):
    """A line for each program. `first` is what was found of the first kind."""
    print(f"{kind}: a capture of {octets / 1e6:.1f} MB, an image of {length / 1e6:.1f} MB")
    cat, _ = found["cat"]
    for name, (took, memory) in found.items():
        print(
            f"  {name:8} {took:7.3f} s  {octets / took / 1e6:8.1f} MB/s  {took / cat:6.2f} of cat's time"
            f"  {memory / 2**20:7.1f} MiB, {(memory - length) / 2**20:+7.1f} beside the image"
        )
    took, _ = found["efiboot"]
    if "tcpflow" in found:
        print(f"  efiboot is {found['tcpflow'][0] / took:.2f} times as fast as tcpflow")
    print(f"  efiboot takes {took / found['hold'][0]:.2f} of hold's time")
    if found is not first:
        print(f"  efiboot takes {took / first['efiboot'][0]:.2f} of its time on the first capture")
    sys.stdout.flush()


def built(program):
    """The program, which is built first where none is named."""
    if program:
        return os.path.abspath(program)
    subprocess.run([TOP / "efiboot", "extract"], stdin=subprocess.DEVNULL, stdout=subprocess.DEVNULL)
    return str(TOP / "crates/efiboot/out/efiboot")


def main():
    parser = argparse.ArgumentParser(description="Times efiboot extract against other programs.")
    parser.add_argument("kinds", nargs="*", metavar="KIND", help=", ".join(KINDS))
    parser.add_argument("--megabytes", type=int, default=200)
    parser.add_argument("--tries", type=int, default=3)
    parser.add_argument("--program")
    words = parser.parse_args()
    kinds = words.kinds or list(KINDS)
    if any(kind not in KINDS for kind in kinds):
        parser.error("the kinds are " + ", ".join(KINDS))
    program, first = built(words.program), None
    for kind in kinds:
        size, behind = KINDS[kind][0], KINDS[kind][4]
        # a frame's headers stand before each segment, and an acknowledgment behind every second one
        length = int(words.megabytes * 1e6 * size / (size + HEADERS * 3 / 2)) // (1 + bool(behind))
        with tempfile.TemporaryDirectory() as folder:
            found, octets = measure(folder, program, kind, length, words.tries)
        first = first or found
        show(kind, found, octets, length, first)


if __name__ == "__main__":
    main()
