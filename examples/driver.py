#!/usr/bin/env python3
"""Drives the bench over a pipe: reset, allocate, load, send, receive, remove and release; then a byte count that is refused and
mended, and an allocation that waits.

usage: driver.py BENCH        (what tools/build bench prints)
"""
import subprocess
import sys
import zlib

OF_COUNT = (13, 18, 19)  # refusals of a send whose value is the byte count in its packet; others have value 0


class Bench:
    """The chip behind a pipe: a record of 8 bytes goes in, a line comes out."""

    def __init__(self, path):
        try:
            self.program = subprocess.Popen([path], stdin=subprocess.PIPE, stdout=subprocess.PIPE)
        except OSError as error:
            raise SystemExit(f"driver.py: cannot run {path}: {error.strerror}")
        self.bank = 0

    def record(self, *values):
        try:
            self.program.stdin.write(bytes(values).ljust(8, b"\0"))
            self.program.stdin.flush()
            _number, answer, value, *self.watched = self.program.stdout.readline().split()  # by `watch` there is more
            return int(answer), int(value, 16)
        except (BrokenPipeError, ValueError):
            raise SystemExit("driver.py: no line for a record: is the program given the bench?")

    def done(self, *values):
        """A record that must be answered with 0; gives its value."""
        answer, value = self.record(*values)
        if answer != 0:
            count = f", byte count {value}," if answer in OF_COUNT else ""
            raise SystemExit(f"refusal {answer}{count} of record {bytes(values).hex(' ')}")
        return value

    def select(self, bank):
        if bank != self.bank:
            self.done(3, 0x0E, bank)
            self.bank = bank

    def read(self, bank, offset):
        self.select(bank)
        return self.done(1, offset)

    def read_word(self, bank, offset):
        self.select(bank)
        return self.done(2, offset)

    def write(self, bank, offset, value):
        self.select(bank)
        self.done(3, offset, value)

    def write_word(self, bank, offset, value):
        self.select(bank)
        self.done(4, offset, value & 0xFF, value >> 8)

    def frame(self, wire, alignment=False):
        """A frame with its FCS arrives; gives what became of it, 0 where it is stored. The chip finds a bad CRC itself."""
        for at in range(0, len(wire), 6):
            part = wire[at : at + 6]
            self.done(5, len(part), *part)
        return self.done(6, 2 * alignment)

    def send_finishes(self, outcome=0, collisions=0, deferral=0):
        """The head of TX is sent; gives how many bytes were put out, FCS included."""
        return self.done(7, outcome, collisions, deferral)

    def close(self):
        self.program.stdin.close()
        self.program.wait()


TCR, RCR, MIR = (0, 0), (0, 4), (0, 8)
COMMAND, PACKET, RESULT, HEADS, POINTER, DATA, STATUS = (2, 0), (2, 2), (2, 3), (2, 4), (2, 6), (2, 8), (2, 12)
ALLOC_INT = 0x08
STATION = bytes([0x02, 0x00, 0x00, 0x12, 0x34, 0x56])
HEADER = bytes([0xFF] * 6) + STATION + bytes([0x08, 0x00])  # to everybody


def with_fcs(frame):
    """A frame as it is on the wire, its FCS behind it."""
    return frame + zlib.crc32(frame).to_bytes(4, "little")


def load(chip, number, data):
    """Loads a frame, without FCS, into a packet, and puts that at the end of TX. Count and control byte are those of an even length."""
    chip.write(*PACKET, number)
    chip.write_word(*POINTER, 0x4000)  # AUTO INCR, write
    packet = bytes([0, 0]) + (len(data) + 6).to_bytes(2, "little") + data + bytes(2 - len(data) % 2)
    for at in range(0, len(packet), 2):
        chip.write_word(*DATA, packet[at] + 256 * packet[at + 1])
    chip.write(*COMMAND, 0xC0)
    print(f"enqueued         packet {number}, free pages {chip.read_word(*MIR) >> 8}")


def finish(chip):
    """The send finishes and is told in the completion queue; then its packet is released."""
    length = chip.send_finishes()
    done = chip.read_word(*HEADS) & 0xFF
    print(f"sent             {length} bytes put out, completion head {done}, status {chip.read(*STATUS):02x}h")
    chip.write(*COMMAND, 0xA0)
    chip.write(*STATUS, 0x02)  # acknowledge: the completion head goes


def slip(chip):
    """What a slip looks like: RX is empty, and its head is removed once more."""
    chip.select(2)
    answer, value = chip.record(3, 0x00, 0x80)
    print(f"remove again     refusal {answer}, value {value:04x}h")


def send_mended(chip, data):
    """Another: a frame of odd length, with length + 6 as its count. The send is refused, and the value is that count. Nothing has
    changed, so the packet is mended at the head of TX: length + 5, and a control byte that says that the length is odd."""
    chip.write(*COMMAND, 0x20)
    load(chip, chip.read(*RESULT), data)
    answer, value = chip.record(7)  # good
    print(f"odd count        refusal {answer}, value {value:04x}h")
    count = len(data) + 5
    chip.write_word(*POINTER, 0x4002)  # the count
    chip.write_word(*DATA, count)
    chip.write_word(*POINTER, 0x4000 + count - 1)  # the control byte
    chip.write(*DATA, 0x20)
    print(f"mended           count {count}, control byte 20h")
    finish(chip)


def send_when_granted(chip, data):
    """Where too few pages are free, the allocation waits. The release that gives enough back grants it, and ALLOC INT is up."""
    chip.write(*COMMAND, 0x20 + (len(data) + 5) // 256)
    print(f"asked            result {chip.read(*RESULT):02x}h, status {chip.read(*STATUS):02x}h")
    while not chip.read(*STATUS) & ALLOC_INT:
        chip.write(*COMMAND, 0x80)  # the head of RX, which was read by now
        print(f"removed          free pages {chip.read_word(*MIR) >> 8}, status {chip.read(*STATUS):02x}h")
    load(chip, chip.read(*RESULT), data)
    finish(chip)


def main(path):
    chip = Bench(path)

    # reset, then the station address, transmitter and receiver on
    chip.write_word(*RCR, 0x8000)
    chip.bank = 0  # a soft reset selects bank 0
    chip.write_word(*RCR, 0x0000)
    for place, byte in enumerate(STATION):
        chip.write(1, 4 + place, byte)
    chip.write_word(*TCR, 0x0081)  # TXENA, PAD_EN
    chip.write_word(*RCR, 0x0100)  # RXEN
    print(f"after reset      free pages {chip.read_word(*MIR) >> 8}")

    # allocate one page, load a packet of 20 bytes, enqueue it; it is put out padded to 60, with its FCS
    chip.write(*COMMAND, 0x20)
    load(chip, chip.read(*RESULT), HEADER + b"hello!")
    finish(chip)

    # a frame arrives for this station
    wire = with_fcs(STATION + bytes([2, 0, 0, 0, 0, 1, 0x08, 0x00]) + bytes(range(46)))
    print(f"frame arrives    value {chip.frame(wire)}, status {chip.read(*STATUS):02x}h")
    print(f"received         packet {chip.read_word(*HEADS) >> 8}, free pages {chip.read_word(*MIR) >> 8}")
    chip.write_word(*POINTER, 0xE000)  # RCV, AUTO INCR, READ
    status, count = chip.read_word(*DATA), chip.read_word(*DATA)
    words = [chip.read_word(*DATA) for _ in range((count - 4) // 2)]
    body = b"".join(word.to_bytes(2, "little") for word in words)
    print(f"read             status {status:04x}h, count {count}, same bytes {body[:-2] == wire}")
    chip.write(*COMMAND, 0x80)
    print(f"removed          free pages {chip.read_word(*MIR) >> 8}, RX head {chip.read_word(*HEADS) >> 8:02x}h")

    slip(chip)
    send_mended(chip, HEADER + b"abc")

    # six frames of 1,000 bytes take all pages, and one of 1,514 is to be sent: it needs those of two of them
    for _ in range(6):
        chip.frame(with_fcs(STATION + bytes(990)))
    print(f"six frames       free pages {chip.read_word(*MIR) >> 8}, status {chip.read(*STATUS):02x}h")
    send_when_granted(chip, HEADER + bytes(1500))
    chip.close()


if __name__ == "__main__":
    if len(sys.argv) != 2:
        raise SystemExit(__doc__.strip())
    main(sys.argv[1])
