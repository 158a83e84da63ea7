#!/usr/bin/env python3
"""Feeds captured frames to the chip as they are, and what a send puts out back to the chip that put it out.

usage: capture.py WATCH        (what tools/build watch prints)
"""
import sys

sys.dont_write_bytecode = True
from driver import COMMAND, DATA, HEADER, MIR, POINTER, RCR, RESULT, TCR, Bench, load, with_fcs  # noqa: E402

# a UDP frame of 64 bytes in the form of a capture with FCS: the last four bytes
CAPTURED = bytes.fromhex(
    "0010a47bea80 001234567890 0800 4500002eb3fe000080110540c0a8002cc0a80004 04000400001a2de8 000102030405060708090a0b0c0d0e0f1011 b331881b"
)
CONTROL = (1, 12)
ARRIVALS = {0: "stored", 4: "not stored, damaged"}


def told(chip, what, wire):
    """A frame arrives; what is stored is read, removed and released."""
    value = chip.frame(wire)
    words = f"value {value}, {ARRIVALS[value]}"
    if value == 0:
        chip.write_word(*POINTER, 0xE000)  # RCV, AUTO INCR, READ
        words += f" with status {chip.read_word(*DATA):04x}h"
        chip.write(*COMMAND, 0x80)
    print(f"{what:<27}{len(wire)} bytes, {words}")


def put_out(chip, tcr, data):
    """The bytes that a good send puts out, under those bits of TCR."""
    chip.write_word(*TCR, 0x0001 | tcr)  # TXENA
    chip.write(*COMMAND, 0x20)
    load(chip, chip.read(*RESULT), data)
    chip.send_finishes()
    wire = chip.watched[1].decode()
    chip.write(*COMMAND, 0xA0)
    print(f"put out                    ..{wire[-20:]}")
    return bytes.fromhex(wire)


def main(path):
    chip = Bench(path)
    chip.write_word(*RCR, 0x0102)  # RXEN, PRMS

    # captures: with FCS as they are; without FCS it is put behind them
    told(chip, "a capture, as it is", CAPTURED)
    told(chip, "without its FCS", CAPTURED[:-4])
    told(chip, "and with it again", with_fcs(CAPTURED[:-4]))
    damaged = bytearray(CAPTURED)
    damaged[20] ^= 0x01
    told(chip, "one bit changed", damaged)
    chip.write_word(*CONTROL, 0x4000)  # RCV_BAD: damaged frames are stored, and their status tells
    told(chip, "the same, with RCV_BAD", damaged)
    chip.write_word(*CONTROL, 0x0000)

    # what is sent comes back: with PAD_EN and an FCS it is a whole frame; with NOCRC too it is 64 bytes without one
    told(chip, "what was sent, fed back", put_out(chip, 0x0080, HEADER + b"hello!"))
    told(chip, "sent with NOCRC, fed back", put_out(chip, 0x0180, HEADER + b"hello!"))
    print(f"at the end                 free pages {chip.read_word(*MIR) >> 8}")
    chip.close()


if __name__ == "__main__":
    if len(sys.argv) != 2:
        raise SystemExit(__doc__.strip())
    main(sys.argv[1])
