#!/usr/bin/env python3
"""Writes crates/bench_runs/stdin and stdout: the cases that document 01 marks "Run", how W1 of document 02 lets the last of them go on, the byte counts that W2 tells apart,
the frame check sequences of W4 (zlib's), the link of W8, and the parts of W9, asked for when the first record has come, each record with the answer that the papers give it.

usage: tests/runs/write.py      (in the repository's top folder)
"""
import zlib

records, lines = [], []


def says(answer, value, *record):
    """A record, and the answer and value that the papers give it."""
    records.append(bytes(record).ljust(8, b"\0"))
    lines.append(f"{len(lines) + 1} {answer} {value:04x}\n")


def write_byte(offset, value, answer=0):
    says(answer, 0, 3, offset, value)


def write_word(offset, value, answer=0):
    says(answer, 0, 4, offset, value % 256, value // 256)


def checked(data):
    """The bytes and their FCS."""
    return data + zlib.crc32(data).to_bytes(4, "little")


def arrives(wire, value, flags=0):
    """These bytes are gathered, and the frame ends."""
    for at in range(0, len(wire), 6):
        part = wire[at : at + 6]
        says(0, 0, 5, len(part), *part)
    says(0, value, 6, flags)


def frame(length, value):
    """A broadcast frame of so many bytes arrives, with its FCS."""
    arrives(checked(bytes([0xFF] * (length - 4))), value)


def allocate(pages):
    write_byte(0x00, 0x20 + pages - 1)


def release(packet):
    write_byte(0x02, packet)
    write_byte(0x00, 0xA0)


def enter(bank, offset, value):
    """A word into a register of another bank, from bank 2 and back."""
    write_byte(0x0E, bank)
    write_word(offset, value)
    write_byte(0x0E, 2)


def sees(result, status, free):
    """What a driver sees of a request, from bank 2: the allocation result, the interrupt status and MIR."""
    says(0, result, 1, 0x03)
    says(0, status, 1, 0x0C)
    write_byte(0x0E, 0)
    says(0, 0x18 + 256 * free, 2, 0x08)
    write_byte(0x0E, 2)


def sends(count, answer, value):
    """The packet in the packet number register, which heads TX, gets a byte count and is sent."""
    write_word(0x06, 0x4002)
    write_word(0x08, count)
    says(answer, value, 7)


# "a word at 2,047 of an eight-page packet, AUTO INCR set, gives 10"; the byte there is the last one
write_byte(0x0E, 2)
write_byte(0x00, 0x27)  # allocate eight pages
says(0, 0x00, 1, 0x03)  # packet 0
write_word(0x06, 0x47FF)  # AUTO INCR, write, address 2,047
write_word(0x08, 0x1234, answer=10)
says(0, 0x47FF, 2, 0x06)  # a refusal moves nothing
write_byte(0x08, 0x55)
says(0, 0x4000, 2, 0x06)  # the address wraps, the other bits stay
write_word(0x06, 0x67FF)  # AUTO INCR, READ
says(0, 0x55, 1, 0x08)
write_byte(0x00, 0xA0)  # released

# "length 1,533 gives value 3"; 1,532 is stored, in seven pages
write_byte(0x0E, 0)
write_word(0x04, 0x0100)  # RXEN
frame(1532, 0)
says(0, 0x1118, 2, 0x08)  # 17 pages free
frame(1533, 3)
says(0, 0x0101, 2, 0x04)  # RX_ABORT
write_byte(0x0E, 2)
says(0, 0x01 + 0x04 + 0x08, 1, 0x0C)  # RX, TX EMPTY, and the result still reads 0; no RX_OVRN
write_byte(0x00, 0x40)  # all freed

FCS = 4  # W4: "The send's value counts the FCS"

# "25 sends of packet 0, each enqueued again and none acknowledged, end in 14"
write_byte(0x00, 0x20)
says(0, 0x00, 1, 0x03)
write_word(0x06, 0x4002)  # the byte count's address
write_word(0x08, 12)
write_word(0x06, 0x400A)  # the control byte at 11: six bytes of data
write_word(0x08, 0)
write_byte(0x0E, 0)
write_word(0x00, 0x0001)  # TXENA
write_byte(0x0E, 2)
for send in range(25):
    write_byte(0x00, 0xC0)
    says(0 if send < 24 else 14, 6 + FCS if send < 24 else 0, 7)
write_byte(0x0C, 0x02)  # one acknowledged
says(0, 6 + FCS, 7)
write_byte(0x00, 0x40)

# "24 pages taken, another allocation reads 80h"
for number in range(3):
    write_byte(0x00, 0x27)
    says(0, number, 1, 0x03)
write_byte(0x00, 0x20)
says(0, 0x80, 1, 0x03)
write_byte(0x0E, 0)
says(0, 0x0018, 2, 0x08)

# W1: "01's last run case goes on: after a release of enough pages the result reads the granted number"; one page waits, packets 0 to 2 have eight each
RX, COMPLETION, TX_EMPTY, ALLOCATION = 0x01, 0x02, 0x04, 0x08
write_byte(0x0E, 2)
sees(0x80, TX_EMPTY, 0)
release(1)
sees(1, TX_EMPTY + ALLOCATION, 7)  # number 1 and page 8, both just freed
release(1)
sees(1, TX_EMPTY + ALLOCATION, 8)  # nothing waits any more, and a release leaves the result
allocate(1)

# a release of too few pages leaves it waiting, a later one grants
allocate(7)
says(0, 3, 1, 0x03)  # pages 9 to 15
allocate(4)
sees(0x80, TX_EMPTY, 0)
release(1)
sees(0x80, TX_EMPTY, 1)
release(3)
sees(1, TX_EMPTY + ALLOCATION, 4)  # the lowest number, and pages 8 to 11

# "A new allocate command replaces a waiting one": with five granted three pages would be left, not two
allocate(5)
sees(0x80, TX_EMPTY, 4)
allocate(6)
sees(0x80, TX_EMPTY, 4)
release(1)
sees(1, TX_EMPTY + ALLOCATION, 2)  # pages 8 to 13
# and one that is granted at once ends it: the release after it grants nothing
allocate(5)
sees(0x80, TX_EMPTY, 2)
allocate(2)
sees(3, TX_EMPTY + ALLOCATION, 0)  # pages 14 and 15
release(1)
sees(3, TX_EMPTY + ALLOCATION, 6)

# "E0h leaves it"; reserved pages hold no grant back
allocate(7)
sees(0x80, TX_EMPTY, 6)
write_byte(0x00, 0xE0)
sees(0x80, TX_EMPTY, 6)
enter(0, 0x0A, 24)
release(3)
sees(1, TX_EMPTY + ALLOCATION, 1)  # pages 8 to 14
enter(0, 0x0A, 0)

# "Frames still take free pages under their old rule": one overtakes the request, and gives back too few
allocate(2)
sees(0x80, TX_EMPTY, 1)
frame(64, 0)
sees(0x80, RX + TX_EMPTY, 0)
write_byte(0x00, 0x80)
sees(0x80, TX_EMPTY, 1)
release(1)
sees(1, TX_EMPTY + ALLOCATION, 6)  # pages 8 and 9

# remove-and-release grants, whatever packet the packet number register names; removing alone does not
allocate(4)
says(0, 3, 1, 0x03)  # pages 10 to 13
frame(64, 0)
frame(64, 0)
allocate(1)
sees(0x80, RX + TX_EMPTY, 0)
write_byte(0x02, 0)
write_byte(0x00, 0x60)  # packet 4
sees(0x80, RX + TX_EMPTY, 0)
write_byte(0x00, 0x80)
sees(5, TX_EMPTY + ALLOCATION, 0)  # page 15

# a failed send does not grant, a good one with auto release does
write_byte(0x02, 5)
write_word(0x06, 0x4002)
write_word(0x08, 12)  # six bytes of data
write_word(0x06, 0x400A)
write_word(0x08, 0)
enter(1, 0x0C, 0x0800)  # auto release
allocate(1)
write_byte(0x00, 0xC0)
sees(0x80, TX_EMPTY, 0)
says(0, 6 + FCS, 7, 5)  # underrun
sees(0x80, COMPLETION + TX_EMPTY, 0)
enter(0, 0x00, 0x0001)  # TXENA
write_byte(0x00, 0xC0)
says(0, 6 + FCS, 7, 0)
sees(5, COMPLETION + TX_EMPTY + ALLOCATION, 0)  # page 15 again; completion holds the failed send
write_word(0x06, 0x6000)  # AUTO INCR, READ
says(0, 0x0041, 2, 0x08)  # EPHSR, written before the release: good, to the broadcast address that the frame left there
says(0, 12, 2, 0x08)

# "40h and a soft reset drop it": a frame's packet, given back then, grants nothing
allocate(8)
sees(0x80, COMPLETION + TX_EMPTY, 0)
write_byte(0x00, 0x40)
sees(0x80, TX_EMPTY, 24)
frame(64, 0)
write_byte(0x00, 0x80)
sees(0x80, TX_EMPTY, 24)
for number in range(3):
    allocate(8)
    says(0, number, 1, 0x03)
allocate(8)
sees(0x80, TX_EMPTY, 0)
write_byte(0x0E, 0)
write_word(0x04, 0x8000)
write_word(0x04, 0x0100)  # RXEN
frame(64, 0)
write_byte(0x0E, 2)
sees(0x80, RX + TX_EMPTY, 23)
write_byte(0x00, 0x80)
sees(0x80, TX_EMPTY, 24)

# W2: "13 odd, 18 under 12, 19 past the pages; in that order", with "the offending count as the answer's value"
enter(0, 0x00, 0x0001)  # TXENA
allocate(8)
allocate(1)
says(0, 1, 1, 0x03)  # packet 1: page 8, in which nothing was ever written
write_byte(0x02, 1)
write_byte(0x00, 0xC0)
says(18, 0, 7)
sends(10, 18, 10)
sends(11, 13, 11)
sends(13, 13, 13)
sends(258, 19, 258)
sends(257, 13, 257)
sends(0x8001, 13, 0x8001)
sends(0xFFFE, 19, 0xFFFE)
write_byte(0x02, 0)
says(19, 0xFFFE, 7)  # the head's count, whatever packet the packet number register names
write_byte(0x02, 1)
# they have changed nothing: completion and RX are empty, no status is in the packet or in EPHSR, and the send is done with the count that stands there now
says(0, 0x8080, 2, 0x04)
write_word(0x06, 0x6000)  # AUTO INCR, READ
says(0, 0x0000, 2, 0x08)
says(0, 0xFFFE, 2, 0x08)
write_byte(0x0E, 0)
says(0, 0x0000, 2, 0x02)
write_byte(0x0E, 2)
sends(12, 0, 6 + FCS)

# "where 13 stood": behind 11 and 12, before 14
for _ in range(23):
    write_byte(0x00, 0xC0)
    says(0, 6 + FCS, 7)
write_byte(0x00, 0xC0)
sends(12, 14, 0)
sends(13, 13, 13)
sends(10, 18, 10)
sends(258, 19, 258)
says(11, 0, 7, 6)  # no such outcome
enter(0, 0x00, 0x0000)
says(12, 0, 7)  # TXENA clear
enter(0, 0x00, 0x0001)
sends(256, 14, 0)
write_byte(0x0C, 0x02)  # one acknowledged
says(0, 250 + FCS, 7)

# W4: "A send appends four FCS bytes unless TCR bit 8 (NOCRC) is set and bit 4 of the packet's control byte is clear; padding goes to 60 before an FCS, or to 64
# without one". Counts 12 and 70 are 6 and 64 bytes of data, and one more where the control byte says so.
TXENA, PAD, NOCRC = 0x0001, 0x0080, 0x0100  # of TCR
CRC, ODD = 0x10, 0x20  # of the control byte
write_byte(0x00, 0x40)
allocate(8)
write_byte(0x02, 0)


def appends(tcr, count, control, value):
    """Packet 0 with that count and that control byte is sent."""
    enter(0, 0x00, TXENA + tcr)
    write_word(0x06, 0x4002)
    write_word(0x08, count)
    write_word(0x06, 0x4000 + count - 2)
    write_word(0x08, 256 * control)
    write_byte(0x00, 0xC0)
    says(0, value, 7)
    write_byte(0x0C, 0x02)  # acknowledged


for crc in (0, CRC):
    appends(0, 12, crc, 6 + FCS)
    appends(PAD, 12, crc, 60 + FCS)
    appends(PAD, 70, crc + ODD, 65 + FCS)
appends(NOCRC, 12, 0, 6)
appends(NOCRC, 12, ODD, 7)
appends(NOCRC, 12, CRC, 6 + FCS)
appends(NOCRC + PAD, 12, 0, 64)
appends(NOCRC + PAD, 68, ODD, 64)  # 63 bytes of data
appends(NOCRC + PAD, 70, ODD, 65)
appends(NOCRC + PAD, 12, CRC, 60 + FCS)
appends(0, 2048, ODD, 2047)  # the largest value
appends(NOCRC, 2048, ODD, 2043)

# "On arrival the bad CRC flag is no longer given but found from the frame"; "bit 0 of record kind 6 ignored"; RXEN is set
ALL_STATIONS = bytes([0xFF] * 6)
CHECK_VALUE = bytes.fromhex("2639f4cb")  # the standard's, of "123456789"
assert checked(b"123456789")[-4:] == CHECK_VALUE
right = checked(ALL_STATIONS + bytes(range(54)))
wrong = [
    right[:-1] + bytes([right[-1] ^ 0x80]),  # the last bit on the wire
    right[:20] + bytes([right[20] ^ 0x01]) + right[21:],
    right[:-4] + right[:-5:-1],  # the other order
    right[:-4] + bytes(byte ^ 0xFF for byte in right[-4:]),  # not complemented
    checked(right)[:-1],  # cut: 67 of 68 bytes
]


def stored(wire, status, flags=0):
    """A frame that is stored has that status word."""
    arrives(wire, 0, flags)
    write_word(0x06, 0xE000)
    says(0, status, 2, 0x08)
    write_byte(0x00, 0x80)


stored(right, 0x4000)
stored(right, 0x4000, flags=1)
arrives(right, 4, flags=2)
arrives(right[:-4], 4)  # without its FCS: under 64 bytes, too
for wire in wrong:
    arrives(wire, 4)
    arrives(wire, 4, flags=1)
enter(1, 0x0C, 0x4000)  # damaged frames are stored: bit 13 bad CRC, 15 alignment, 10 under 64 bytes, 12 odd length
stored(right, 0xC000, flags=2)
stored(wrong[0], 0x6000)
stored(wrong[1], 0xE000, flags=3)
stored(wrong[4], 0x7000)
stored(checked(ALL_STATIONS + b"123456789"), 0x5400)
stored(ALL_STATIONS + b"123456789" + CHECK_VALUE, 0x7400)  # that is the FCS of another frame

# W8: "A new event sets the link up or down. EPHSR bit 14 shows it", and a change of it raises EPH "while control bit 7 is set"
LINK_OK, LE_ENABLE, EPH = 0x4000, 0x0080, 0x20


def link(state, answer=0):
    says(answer, 0, 8, state)


def shows(ephsr, status):
    """What a driver sees of the link, from bank 2: EPHSR, as a word and its high byte, and the interrupt status."""
    write_byte(0x0E, 0)
    says(0, ephsr, 2, 0x02)
    says(0, ephsr // 256, 1, 0x03)
    write_byte(0x0E, 2)
    says(0, status, 1, 0x0C)


# "At power-up the link is down with no change seen", and no cable was moved since; "11 for any other byte 1"
enter(0, 0x04, 0x8000)
enter(0, 0x04, 0x0000)
enter(1, 0x0C, LE_ENABLE)
shows(0, TX_EMPTY)
link(0)  # the same state is no change
link(2, answer=11)
link(255, answer=11)
shows(0, TX_EMPTY)
link(1)
shows(LINK_OK, TX_EMPTY + EPH)

# remembered "until a write to either control byte": an acknowledge, a mask, 40h, the same state again and one that is refused leave the change; there and back again is one
write_word(0x0C, 256 * EPH + EPH)
write_byte(0x0D, 0)
write_byte(0x00, 0x40)
link(1)
link(2, answer=11)
shows(LINK_OK, TX_EMPTY + EPH)
link(0)
shows(0, TX_EMPTY + EPH)
for state, offset, value in ((1, 0x0C, LE_ENABLE), (0, 0x0D, 0)):
    write_byte(0x0E, 1)
    write_byte(offset, value)  # of the two bytes either
    write_byte(0x0E, 2)
    shows(LINK_OK * (1 - state), TX_EMPTY)
    link(state)
    shows(LINK_OK * state, TX_EMPTY + EPH)
enter(1, 0x0C, 0x0060)  # as a word: bits 5 and 6 do not raise EPH, and the write that sets bit 7 forgets, too
shows(0, TX_EMPTY)
link(1)
shows(LINK_OK, TX_EMPTY)
enter(1, 0x0C, LE_ENABLE)
shows(LINK_OK, TX_EMPTY)

# "sends leave it", and their status word shows it: to a station, so that bits 6 and 3 are clear
enter(0, 0x00, TXENA)
allocate(1)
write_word(0x06, 0x4002)
for word in (12, 0x0002, 0, 0, 0):
    write_word(0x08, word)


def leaves(status_word, outcome=0):
    """Packet 0 is sent, and its status word read."""
    write_byte(0x00, 0xC0)
    says(0, 6 + FCS, 7, outcome)
    says_status(status_word)


def says_status(status_word):
    write_word(0x06, 0x6000)
    says(0, status_word, 2, 0x08)


SEEN = COMPLETION + TX_EMPTY + ALLOCATION
leaves(LINK_OK + 0x0001)
shows(LINK_OK + 0x0001, SEEN)
link(0)
shows(0x0001, SEEN + EPH)
says_status(LINK_OK + 0x0001)  # the word in memory is that of the send
leaves(0x8000, outcome=5)
shows(0x8000, SEEN + EPH)
link(1)
shows(LINK_OK + 0x8000, SEEN + EPH)

# so do a write to TCR, which clears other bits of EPHSR, and a read of ECR
enter(0, 0x00, TXENA)
shows(LINK_OK, SEEN + EPH)
write_byte(0x0E, 0)
says(0, 0x0000, 2, 0x06)
shows(LINK_OK, SEEN + EPH)

# "a soft reset keeps the link and forgets the change"
enter(0, 0x04, 0x8000)
shows(LINK_OK, TX_EMPTY)
enter(1, 0x0C, LE_ENABLE)
shows(LINK_OK, TX_EMPTY)

# "Frames arrive .. as before, whatever the link": one between whose bytes cables are moved, too
enter(0, 0x04, 0x0100)  # RXEN
for at in range(0, len(right), 6):
    part = right[at : at + 6]
    says(0, 0, 5, len(part), *part)
    link(at // 6 % 3, answer=11 if at // 6 % 3 == 2 else 0)
says(0, 0, 6)
shows(LINK_OK, RX + TX_EMPTY + EPH)
link(0)
frame(64, 0)
shows(0, RX + TX_EMPTY + EPH)

# W9: "kind 9 later on .. gets 11", whatever its byte 1: no first record of this run asks for a part, so it is the LAN91C96's, and none of these makes it another
PARTS_AND_OTHERS = (0x94, 0x96, 0x95, 0x12, 0x18, 0x00, 0xFF)


def asks(byte):
    says(11, 0, 9, byte)


for byte in PARTS_AND_OTHERS:
    asks(byte)
shows(0, RX + TX_EMPTY + EPH)
write_byte(0x00, 0x40)
asks(0x94)
sees(0x80, TX_EMPTY + EPH, 24)

# 24 packets of a page: the numbers from 18 on are packets, and 24 is none
for number in range(24):
    allocate(1)
    says(0, number, 1, 0x03)
    if number == 17:
        asks(0x94)
allocate(1)
asks(0x94)
sees(0x80, TX_EMPTY + EPH, 0)
release(23)
sees(23, TX_EMPTY + ALLOCATION + EPH, 0)
write_byte(0x02, 24)
write_byte(0x00, 0xA0, answer=5)
write_byte(0x00, 0xC0, answer=5)

# a soft reset is no power-up, and bytes that gather stay
enter(0, 0x04, 0x8000)
asks(0x94)
sees(0x80, TX_EMPTY, 24)
enter(0, 0x04, 0x0100)  # RXEN
for at in range(0, len(right), 6):
    part = right[at : at + 6]
    says(0, 0, 5, len(part), *part)
    asks(PARTS_AND_OTHERS[at // 6 % len(PARTS_AND_OTHERS)])
says(0, 0, 6)
sees(0x80, RX + TX_EMPTY, 23)

open("crates/bench_runs/stdin", "wb").write(b"".join(records))
open("crates/bench_runs/stdout", "w").write("".join(lines))
