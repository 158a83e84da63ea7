"""The words that tools/rec has for registers, bits, commands, refusals, arrivals, sends, the link and the parts: tables in the words and the order of documents 01 and 02; the bits have the data sheet's names."""
from collections import namedtuple

REFUSALS = {
    1: "offset above 15 or a word at an odd offset",
    2: "register not modelled",
    3: "every byte written is read-only",
    4: "reserved MMU command value",
    5: "packet not allocated",
    6: "packet still in RX or TX FIFO",
    7: "RX FIFO empty",
    8: "data access against the pointer's READ bit",
    9: "odd pointer with AUTO INCR clear",
    10: "data access past the packet's pages",
    11: "event outside its limits",
    12: "TXENA clear or TX FIFO empty",
    13: "byte count odd",
    14: "completion FIFO full",
    15: "output buffer under 2,052 bytes",
    16: "memory not of the part's size or state not well formed",
    17: "record cut short or of unknown kind",
    18: "byte count under 12",
    19: "byte count past the packet's pages",
}
# those whose value is the byte count that stands in the packet; any other refusal has value 0
OF_COUNT = (13, 18, 19)

# which bytes of a word an access reaches
LOW, HIGH, WORD = 0x00FF, 0xFF00, 0xFFFF
# Bits of a register. A single one is named where it is set; more are a number, and `told` has words for some numbers.
# A label stands before the words where the access is of the whole word.
Field = namedtuple("Field", "low width words told label", defaults=({}, ""))
# The names of a word, of its low byte and of its high byte; its fields; the lanes that no write reaches.
Register = namedtuple("Register", "word low high fields read_only", defaults=((), 0))


def bits(names, first=0, label=""):
    return tuple(Field(first + place, 1, name, {}, label) for place, name in names.items())


def whole(name, fields=(), read_only=0):
    return Register(name, f"{name} low", f"{name} high", fields, read_only)


def pair(name, at):
    return Register(f"{name} bytes {at} and {at + 1}", f"{name} byte {at}", f"{name} byte {at + 1}")


def numbers(unanswered):
    """Packet number and allocation result, with the words for a result of 80h."""
    fields = (Field(0, 6, "packet {}"), Field(6, 2, ""), Field(8, 8, "packet {}", {0x80: unanswered}, "result "))
    return Register("packet number, allocation result", "packet number", "allocation result", fields, HIGH)


TCR = bits({0: "TXENA", 7: "PAD_EN", 8: "NOCRC", 10: "MON_CSN", 12: "STP_SQET", 15: "FDSE"})
EPHSR = bits({0: "TX_SUC", 1: "SNGLCOL", 2: "MULCOL", 3: "LTX_MULT", 4: "16COL", 5: "SQET", 6: "LTX_BRD"})
EPHSR += bits({9: "LATCOL", 10: "LOST_CARR", 12: "CTR_ROL", 14: "LINK_OK", 15: "TXUNRN"})
RCR = bits({0: "RX_ABORT", 1: "PRMS", 2: "ALMUL", 8: "RXEN", 9: "STRIP_CRC", 15: "SOFT_RST"})
ECR = (Field(0, 4, "single collision {}", {0: ""}), Field(4, 4, "multiple collision {}", {0: ""}))
ECR += (Field(8, 4, "deferred {}", {0: ""}), Field(12, 4, "excessively deferred {}", {0: ""}))
MIR = (Field(0, 8, "{} pages"), Field(8, 8, "{} free"))
RESERVED = (Field(0, 8, "{} pages"), Field(8, 8, ""))
CONTROL = bits({5: "TE ENABLE", 6: "CR ENABLE", 7: "LE ENABLE", 11: "AUTO RELEASE", 14: "RCV_BAD"})
HEADS = (Field(0, 8, "packet {}", {0x80: "empty"}, "completion "), Field(8, 8, "packet {}", {0x80: "empty"}, "RX "))
POINTER = (Field(0, 11, "address {}"), *bits({13: "READ", 14: "AUTO INCR", 15: "RCV"}))
INTERRUPTS = {0: "RCV", 1: "TX", 2: "TX EMPTY", 3: "ALLOC", 4: "RX_OVRN", 5: "EPH"}
STATUS, MASK = bits(INTERRUPTS), bits({**INTERRUPTS, 6: "bit 6", 7: "bit 7"}, 8, "mask ")
ACKNOWLEDGE = bits({1: "TX", 2: "TX EMPTY", 4: "RX_OVRN"})
BANK = (Field(0, 3, "bank {}"), Field(3, 5, ""), Field(8, 8, ""))

# by bank and even offset
REGISTERS = {
    (0, 0x0): whole("TCR", TCR),
    (0, 0x2): whole("EPHSR", EPHSR, WORD),
    (0, 0x4): whole("RCR", RCR),
    (0, 0x6): whole("ECR", ECR, WORD),
    (0, 0x8): whole("MIR", MIR, WORD),
    (0, 0xA): Register("reserved for transmit", "reserved for transmit", "read-only 33h", RESERVED, HIGH),
    **{(1, 0x4 + at): pair("station address", at) for at in (0, 2, 4)},
    (1, 0xC): whole("control", CONTROL),
    (2, 0x0): Register("MMU command", "MMU command", "read-only 0", (), HIGH),
    (2, 0x2): numbers("none"),
    (2, 0x4): Register("heads: completion, RX", "completion head", "RX head", HEADS, WORD),
    (2, 0x6): whole("pointer", POINTER),
    **{(2, offset): Register("data", "data", "data") for offset in (0x8, 0xA)},
    (2, 0xC): Register("interrupt status and mask", "interrupt status", "interrupt mask", STATUS + MASK),
    **{(3, at): pair("multicast table", at) for at in (0, 2, 4, 6)},
    **{(bank, offset): Register(*["no register in this bank"] * 3) for bank in (5, 6, 7) for offset in range(0x0, 0xE, 2)},
    **{(bank, 0xE): Register("", "", "read-only 33h", BANK, HIGH) for bank in range(8)},
}
# what a write means where a read means something else
WRITTEN = {(2, 0xC): Register("acknowledge and mask", "acknowledge", "interrupt mask", ACKNOWLEDGE + MASK)}
# the registers that are followed, and their bits
RCR_AT, CONTROL_AT, COMMAND_AT, NUMBERS_AT, HEADS_AT, POINTER_AT = (0, 0x4), (1, 0xC), (2, 0x0), (2, 0x2), (2, 0x4), (2, 0x6)
DATA_AT, BANK_OFFSET = ((2, 0x8), (2, 0xA)), 0xE
SOFT_RST, RCV, AUTO_INCR, ADDRESSES = 1 << 15, 1 << 15, 1 << 14, 2048

# first and last value, and what the command does
COMMANDS = (
    (0x00, 0x00, "nothing"),
    (0x20, 0x27, "allocate {pages}"),
    (0x40, 0x40, "free all pages, empty all FIFOs"),
    (0x60, 0x60, "remove {rx_head}"),
    (0x80, 0x80, "remove and release {rx_head}"),
    (0xA0, 0xA0, "release {packet}"),
    (0xC0, 0xC0, "append {packet} to TX"),
    (0xE0, 0xE0, "empty TX and completion"),
)
ALLOCATE, RESET_MMU, RELEASES, TAKE_RX_HEAD = range(0x20, 0x28), 0x40, (0x80, 0xA0), (0x40, 0x60, 0x80)

# the first words of a packet, by address: what its status means is known of the head of RX
IN_PACKET = {0: whole("status"), 2: whole("byte count", (Field(0, 16, "{}"),))}
RECEIVED = (Field(0, 1, "MULTCAST"), Field(1, 6, "hash {}", {0: ""}))
RECEIVED += bits({10: "TOOSHORT", 11: "TOOLNG", 12: "ODDFRM", 13: "BADCRC", 14: "BROADCAST", 15: "ALGNERR"})
IN_RX_HEAD = {**IN_PACKET, 0: whole("status", RECEIVED)}
NO_NAME = Register("", "", "")

# a frame arrives: its flag, and the answer's value
FLAGS = {"alignment": 2}
ARRIVALS = {
    0: "stored",
    1: "RXEN clear",
    2: "address not accepted",
    3: "over 1,532 bytes, RX_ABORT set",
    4: "bad CRC, alignment error or under 64 bytes with RCV_BAD clear",
    5: "too few pages free, RX_ABORT and RX_OVRN set",
}

# a send finishes: the outcomes with the collisions that go without saying, and the deferrals
OUTCOMES = {"good": 0, "sixteen-collisions": 16, "late-collision": 0, "lost-carrier": 0, "sqe-missing": 0, "underrun": 0}
DEFERRALS = ("", "deferred", "excessive")

# a cable is moved: the states of the link
LINKS = ("down", "up")

# the parts, by the byte that asks for one in a first record: name, and how many pages it has, which is also how many packets
PARTS = {0x94: ("LAN91C94", 18), 0x96: ("LAN91C96", 24)}
