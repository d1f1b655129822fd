#!/usr/bin/env python3
"""Makes the sample captures beside this script, which needs nothing but Python's standard library.

Each is a classic pcap capture (little-endian, microseconds, Ethernet) of one HTTP download. The checksums are
right. README.md says what each shows.
"""
import os
import struct

CLIENT, SERVER = (bytes.fromhex("020000000001"), 0x0A000002, 49153), (bytes.fromhex("020000000002"), 0x0A000001, 80)
FIN, SYN, RST, PSH, ACK = 1, 2, 4, 8, 16


def checksum(octets):
    if len(octets) % 2:
        octets += b"\0"
    total = sum(struct.unpack(f">{len(octets) // 2}H", octets))
    while total >> 16:
        total = (total & 0xFFFF) + (total >> 16)
    return 0xFFFF - total


def frame(sender, receiver, ident, seq, ack, flags, payload=b"", options=b""):
    (src_mac, src, sport), (dest_mac, dest, dport) = sender, receiver
    offset = 20 + len(options)

    def tcp(total):
        return struct.pack(">HHIIBBHHH", sport, dport, seq % 2**32, ack % 2**32, offset // 4 << 4, flags, 65535, total, 0) + options + payload

    pseudo = struct.pack(">IIBBH", src, dest, 0, 6, offset + len(payload))
    segment = tcp(checksum(pseudo + tcp(0)))

    def ip(total):
        return struct.pack(">BBHHHBBHII", 0x45, 0, 20 + len(segment), ident, 0, 64, 6, total, src, dest)

    return dest_mac + src_mac + b"\x08\x00" + ip(checksum(ip(0))) + segment


def capture(frames):
    octets = struct.pack("<IHHIIII", 0xA1B2C3D4, 2, 4, 0, 0, 262144, 1)
    for number, one in enumerate(frames):
        time = 2000 * number
        octets += struct.pack("<IIII", time // 1000000, time % 1000000, len(one), len(one)) + one
    return octets


def image(length, first):
    return bytes((first + 7 * i + i // 251) % 256 for i in range(length))


def download(response, iss=65536, irs=1000, size=1460, options=b"", reorder=False):
    """The frames of a connection on which the server sends this response."""
    frames = [frame(CLIENT, SERVER, 1, iss, 0, SYN), frame(SERVER, CLIENT, 1, irs, iss + 1, SYN | ACK, options=options)]
    request = b"GET /image HTTP/1.1\r\nHost: 10.0.0.1\r\nConnection: close\r\n\r\n"
    frames.append(frame(CLIENT, SERVER, 2, iss + 1, irs + 1, PSH | ACK, request))
    here = iss + 1 + len(request)
    frames.append(frame(SERVER, CLIENT, 2, irs + 1, here, ACK))
    cuts = []
    for number, place in enumerate(range(0, len(response), size)):
        piece = response[place:place + size]
        last = place + size >= len(response)
        cuts.append((place, frame(SERVER, CLIENT, 3 + number, irs + 1 + place, here, ACK | (PSH | FIN if last else 0), piece), len(piece)))
    if reorder:
        cuts[1], cuts[2] = cuts[2], cuts[1]
    for number, (place, one, length) in enumerate(cuts):
        frames.append(one)
        frames.append(frame(CLIENT, SERVER, 3 + number, here, irs + 1 + place + length, ACK))
    return frames


def response(body, status="200 OK"):
    return f"HTTP/1.1 {status}\r\nContent-Length: {len(body)}\r\nConnection: close\r\n\r\n".encode() + body


def first():
    """Three frames and an image of one octet."""
    answer = b"HTTP/1.1 200 OK\r\nContent-Length: 1\r\n\r\nA"
    return [
        frame(CLIENT, SERVER, 1, 65536, 0, SYN),
        frame(SERVER, CLIENT, 1, 1000, 65537, SYN | ACK),
        frame(SERVER, CLIENT, 2, 1001, 65537, PSH | ACK, answer),
    ]


def main():
    options = bytes([2, 4, 5, 180, 1, 3, 3, 7])
    samples = {
        "first.pcap": first(),
        "download.pcap": download(response(image(100000, 5)), options=options),
        "wrap.pcap": download(response(image(20000, 9)), irs=2**32 - 8000, size=1000),
        "not-found.pcap": download(response(b"no such file\n", status="404 Not Found")),
        "reordered.pcap": download(response(image(5000, 1)), size=1000, reorder=True),
    }
    here = os.path.dirname(os.path.abspath(__file__))
    for name, frames in samples.items():
        with open(os.path.join(here, name), "wb") as out:
            out.write(capture(frames))


if __name__ == "__main__":
    main()
