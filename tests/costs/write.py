#!/usr/bin/env python3
"""Writes crates/access_costs/stdin and stdout: one record of each kind, each with the value that document 01 gives its answer, and the sum of these over 100 rounds.

usage: tests/costs/write.py      (in the repository's top folder)
"""
ROUNDS = 100
records, values = [], []


def says(value, *record):
    """A record, and the value of its answer."""
    records.append(bytes(record).ljust(8, b"\0"))
    values.append(value)


def write_byte(offset, value):
    says(0, 3, offset, value)


def write_word(offset, value):
    says(0, 4, offset, value % 256, value // 256)


# a packet of six pages: two words written and read back
write_byte(0x0E, 2)
write_byte(0x00, 0x25)  # allocate six pages
says(0x00, 1, 0x03)  # packet 0
says(0x04 + 0x08, 1, 0x0C)  # TX EMPTY, and an allocation result
write_byte(0x02, 0)
write_word(0x06, 0x4000)  # AUTO INCR, write, address 0
write_word(0x08, 0x1234)
write_word(0x08, 0x5678)
write_word(0x06, 0x6000)  # AUTO INCR, READ
says(0x1234, 2, 0x08)
says(0x5678, 2, 0x08)
says(0x6004, 2, 0x06)

# a frame of 1,518 bytes, counting up from 0, with its FCS: n is even, so the count is 1,524, in six pages
write_byte(0x0E, 0)
says(0x1218, 2, 0x08)  # 18 pages free
write_word(0x04, 0x0102)  # RXEN, all addresses
says(0x02, 1, 0x04)
says(0, 6)
says(0x0C18, 2, 0x08)  # 12 pages free
write_byte(0x0E, 2)
says(0x0180, 2, 0x04)  # completion empty, packet 1 heads RX
write_word(0x06, 0xE000)  # RCV, AUTO INCR, READ
says(0x0000, 2, 0x08)  # the status
says(1524, 2, 0x08)
says(0x0100, 2, 0x08)  # the frame's first two bytes

# a refusal of an access has value 0, and what is no record at all is passed over
says(0, 2, 0x09)
says(0, 0)
says(0, 9)

# both released: the next round starts with 24 pages free, as this one did
write_byte(0x00, 0x80)
write_byte(0x00, 0xA0)

# at the end a record that is cut short
open("crates/access_costs/stdin", "wb").write(b"".join(records) + bytes([1, 0x0C, 0]))
open("crates/access_costs/stdout", "w").write(f"{ROUNDS * sum(values)}\n")
