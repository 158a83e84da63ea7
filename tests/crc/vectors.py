#!/usr/bin/env python3
"""vectors.py INPUT OUTPUT: writes the input of the program crc_runs, and what it must print, by zlib alone.

Run as tests/crc/vectors.py crates/crc_runs/stdin crates/crc_runs/stdout: both files must stay as they are stored.

A line is: length, remainder (shifted left, not complemented), the frame check sequence, hash. The sequence is the published CRC-32, which zlib
gives; the remainder is its complement with the bits in the other order, and the hash the top six bits of that."""
import sys
import zlib


def remainder(data):
    return int(f"{zlib.crc32(data) ^ 0xFFFFFFFF:032b}"[::-1], 2)


def line(data):
    r = remainder(data)
    h = r >> 26
    return f"{len(data)} {r:08x} {zlib.crc32(data):08x} {h >> 3:03b} {h & 7:03b}\n"


def frame(length, seed):
    """A frame of that length, its FCS with it: bytes of a small formula, then the published CRC, low byte first."""
    data = bytes((seed + 7 * i + i * i // 5) % 256 for i in range(length - 4))
    return data + zlib.crc32(data).to_bytes(4, "little")


def vectors():
    # the check value of the published standard: CBF43926
    yield b"123456789"
    # data sheet 003's hash examples: 000 000, 010 000, 100 111, 111 111
    for first in (0xED, 0x0D, 0x01, 0x2F):
        yield bytes([first, 0, 0, 0, 0, 0])
    # nothing, and each bit of a byte by itself
    yield b""
    for k in range(8):
        yield bytes([1 << k])
    # the broadcast address, and an IPv6 group
    yield b"\xff" * 6
    yield bytes([0x33, 0x33, 0xFF, 0x12, 0x34, 0x56])
    # frames with their FCS: every one leaves the remainder c704dd7b
    for length, seed in ((18, 1), (64, 2), (65, 3), (1518, 4), (1532, 5)):
        yield frame(length, seed)
    # the same with one bit wrong
    wrong = bytearray(frame(64, 2))
    wrong[20] ^= 0x10
    yield bytes(wrong)
    # four bytes go in at a time: each count of bytes behind the last four, behind none, one and two of them
    for length in range(2, 12):
        yield bytes((0x35 + 83 * i) % 256 for i in range(length))
    # a byte of two like nibbles at each place of four: every entry of the eight tables
    yield from (bytes(place) + bytes([value]) + bytes(3 - place) for place in range(4) for value in range(0, 256, 17))
    # long ones, of each count behind the last four
    for length in (2048, 4097, 6146, 8191):
        yield bytes((length + 11 * i + i * i // 3) % 256 for i in range(length))


def main():
    with open(sys.argv[1], "wb") as given, open(sys.argv[2], "w") as wanted:
        for data in vectors():
            given.write(len(data).to_bytes(2, "little") + data)
            wanted.write(line(data))


main()
