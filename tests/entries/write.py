#!/usr/bin/env python3
"""Writes crates/entry_runs/stdin and stdout: records in order and damaged ones, each with an access, a frame, a send or a link event, the answer that the papers give it, and
the record after it. The memory and the wire are those that the cases before left: a send puts out to the wire, with its FCS, and a frame comes from it. FCSs are zlib's.

usage: tests/entries/write.py      (in the repository's top folder)
"""
import zlib

from records import CONTROL, ECR, EPHSR, INTERRUPT, LATCHES, LINK, POINTER, RCR, RESERVED, STATION, Record, frame, lent, line, plug, request, send

MIR, MIR_HIGH, HEADS, COMMAND, DATA = 0x08, 0x09, 0x04, 0x00, 0x08
RXEN, ALL, STRIP, RX_ABORT = 0x0100, 0x0002, 0x0200, 0x0001  # of RCR
KEEP_BAD, AUTO_RELEASE, LE_ENABLE = 0x4000, 0x0800, 0x0080  # of control
TXENA, PAD, NOCRC, STOP_ON_CARRIER = 0x0001, 0x0080, 0x0100, 0x0400  # of TCR
ODD_DATA, WITH_CRC = 0x2000, 0x1000  # of a packet's control byte, in its word
FCS = 4  # bytes
SENT, BROADCAST, LINK_OK = 0x0001, 0x0040, 0x4000  # of EPHSR
RX, TX_EMPTY, OVERRUN, EPH = 1, 4, 16, 32  # of the interrupt status; two are latches
UP, CHANGED = 1, 2  # of the link's word
MIR_PLACE = 4  # its word
cases, lines = [], []


def says(name, answer, record, asked, after=None):
    """A record and what happens to it, the answer's number and value, and the record after it: the same if none is given. The name is for the reader."""
    cases.append(record.case(asked))
    lines.append(line(*answer, after or record))


def done(name, value, record, asked, after=None):
    says(name, (0, value), record, asked, after)


def refused(name, number, record, asked, value=0):
    """Value 0, or the byte count that is at fault (W2), and nothing changes."""
    says(name, (number, value), record, asked)


def damaged(name, record, asked=request(2, MIR)):
    """A record with one thing wrong: 16 comes before all else."""
    refused(name, 16, record, asked)


SIX = [(0, range(0, 6)), (1, range(6, 12)), (2, range(12, 18))]


def three(**registers):
    """Packets 0 and 1 in RX and packet 2 in TX, of six pages each: six are free, and MIR is 24 + 256 * 6."""
    return Record(SIX, rx=[0, 1], tx=[2], **registers)


def high(**registers):
    """Packet 16 in RX, 17 in TX and 18 in neither: their bits are in the higher word."""
    return Record([(16, [0]), (17, [1]), (18, [2, 3])], rx=[16], tx=[17], **registers)


def full(**registers):
    """24 packets of one page, all in TX."""
    return Record([(k, [k]) for k in range(24)], tx=range(24), **registers)


def command(value):
    return request(3, COMMAND, value)


def in_order():
    done("power-up", 6168, Record(), request(2, MIR))
    done("MIR, six free", 1560, three(), request(2, MIR))
    done("six free, the byte", 6, three(), request(1, MIR_HIGH))
    refused("a word at an odd offset", 1, three(), request(2, MIR_HIGH))
    done("the heads: completion empty, packet 0 heads RX", 128, three(bank=2), request(2, HEADS))
    done("a register written", 0, three(), request(4, 0x00, 0x0081), three(tcr=0x0081))
    refused("release one in RX", 6, three(bank=2, packet=1), command(0xA0))
    refused("enqueue one in RX", 6, three(bank=2, packet=1), command(0xC0))
    refused("release one in TX", 6, three(bank=2, packet=2), command(0xA0))
    refused("release one that is not allocated", 5, three(bank=2, packet=5), command(0xA0))
    after = Record(SIX[1:], rx=[1], tx=[2], bank=2, packet=1)
    done("remove and release the head of RX", 0, three(bank=2, packet=1), command(0x80), after)
    refused("release one in RX, higher word", 6, high(bank=2, packet=16), command(0xA0))
    refused("release one in TX, higher word", 6, high(bank=2, packet=17), command(0xA0))
    after = Record([(16, [0]), (17, [1])], rx=[16], tx=[17], bank=2, packet=18)
    done("release one in neither", 0, high(bank=2, packet=18), command(0xA0), after)
    done("completion may name a freed packet", 1560, three().word(9, 1).slot(48, 20), request(2, MIR))
    for kind in (0, 5, 9, 10, 255):
        refused("no record of an entry", 17, three(), request(kind, MIR))


def wrong_figures():
    damaged("free count one less", three().word(4, 24 + 256 * 5))
    damaged("free count one more", three().word(4, 24 + 256 * 7))
    damaged("23 pages in all", three().word(4, 23 + 256 * 6))
    damaged("free count one less, none allocated", Record().word(4, 24 + 256 * 23))
    damaged("before 1 comes 16", three().word(4, 24 + 256 * 5), request(2, MIR_HIGH))
    damaged("RX bit of packet 1 clear", three(bank=2, packet=1).word(28, 1), command(0xA0))
    damaged("RX bit of packet 3 set", three().word(28, 1 + 2 + 8))
    damaged("RX bit of packet 2 set, which is in TX", three().word(28, 1 + 2 + 4))
    damaged("TX bit of packet 2 clear", three(bank=2, packet=2).word(30, 0), command(0xA0))
    damaged("TX bit of packet 3 set", three().word(30, 4 + 8))
    damaged("RX bits and TX bits swapped", three().word(28, 4).word(30, 1 + 2))
    damaged("RX bit of packet 16 clear", high(bank=2, packet=16).word(29, 0), command(0xA0))
    damaged("RX bit of packet 18 set", high().word(29, 1 + 4))
    damaged("TX bit of packet 17 clear", high(bank=2, packet=17).word(31, 0), command(0xA0))
    damaged("TX bit of packet 18 set", high(bank=2, packet=18).word(31, 2 + 4), command(0xA0))
    damaged("TX bit of packet 1 in place of 17", high().word(30, 2).word(31, 0))
    damaged("RX bit of packet 30 set", three().word(29, 1 << 14))
    damaged("TX bit of packet 30 set", high().word(31, 2 + (1 << 14)))


def wrong_before():
    """What was damage before W7."""
    damaged("page 6 in two packets", three().set(0, 0b1111111))
    damaged("a packet of page 24", three().set(3, 1 << 24))
    damaged("a packet of nine pages", Record([(0, range(9))]))
    damaged("RX names a packet with no pages", Record(rx=[5]))
    damaged("RX names a packet twice", Record([(0, [0])], rx=[0, 0]))
    damaged("a packet in RX and in TX", Record([(0, [0])], rx=[0], tx=[0]))
    damaged("completion names packet 24", three().word(9, 1).slot(48, 24))
    damaged("25 in RX", three().word(6, 25))
    damaged("25 in completion", Record().word(9, 25))
    damaged("a byte behind the end of RX", three().slot(2, 1))
    damaged("no 33h above the bank", three().word(7, 0))
    damaged("no 33h above the reserved pages", three().word(5, 0))
    damaged("packet number 64", three().word(17, 0x8040))
    damaged("allocation result 24", three().word(17, 0x1800))
    damaged("a word that holds nothing", three().word(20, 1))


def written(address, value):
    """A word of packet 2, whose pages are 12 to 17, with and without AUTO INCR by turns."""
    pointer = address + 0x4000 * (address // 2 % 2)
    after = three(bank=2, packet=2).word(POINTER, pointer + 2 if pointer >= 0x4000 else pointer)
    done(f"word {address} of packet 2", 0, three(bank=2, packet=2).word(POINTER, pointer), request(4, DATA, value), after)


def sending(tcr=TXENA):
    """Packet 2 is to be sent."""
    return three(tcr=tcr)


def crowded():
    """Packet 2 is to be sent, and completion is full."""
    return Record(SIX, rx=[0, 1], tx=[2], completion=24 * [20], tcr=TXENA)


def sent(completion=(2,), tcr=TXENA, pages=SIX):
    """Packets 0 and 1 in RX, after packet 2 has been sent."""
    return Record(pages, rx=[0, 1], completion=completion, tcr=tcr)


def on_wire(length):
    """So many bytes of packet 2, FCS included, are put out to the wire: zeros, to the station address zeros, but what the cases before wrote."""
    count = length - FCS + 5 + (length + 1) % 2
    written(2, count)
    written(count - 2, ODD_DATA if length % 2 else 0)
    done(f"{length} bytes onto the wire", length, sending(), send(), sent().word(EPHSR, SENT))


def check_words(data):
    """The two words of the FCS."""
    fcs = zlib.crc32(data)
    return fcs % 65536, fcs // 65536


def waiting():
    """Six pages are free, and an allocation waits for more (W1)."""
    ask = dict(bank=2, waiting=8)
    done("MIR while one waits", 1560, three(waiting=7), request(2, MIR))
    after = Record([(0, [*range(6), 18, 19]), *SIX[1:]], rx=[1], tx=[2], bank=2, result=0)
    done("granted by 80h: the number and the pages just freed, and the lowest others", 0, three(**ask), command(0x80), after)
    idle = Record(SIX, rx=[0], packet=1, tx=[2], **ask)
    after = Record([SIX[0], (1, [*range(6, 12), 18, 19]), SIX[2]], rx=[0], packet=1, tx=[2], bank=2, result=1)
    done("granted by A0h", 0, idle, command(0xA0), after)
    few = [(0, range(0, 8)), (1, range(8, 16)), (2, range(16, 18)), (3, range(18, 22))]
    after = Record([few[0], few[1], few[3]], rx=[0, 1], packet=2, **ask)
    done("A0h of too few: it waits on", 0, Record(few, rx=[0, 1], packet=2, **ask), command(0xA0), after)
    refused("A0h refused", 6, three(packet=1, **ask), command(0xA0))
    done("another that waits in its place", 0, three(**ask), command(0x26), three(bank=2, waiting=7))
    after = Record([*SIX, (3, [18])], rx=[0, 1], tx=[2], bank=2, result=3)
    done("one that is granted in its place", 0, three(**ask), command(0x20), after)
    done("E0h leaves it", 0, three(**ask), command(0xE0), Record(SIX, rx=[0, 1], **ask))
    done("40h drops it", 0, three(**ask), command(0x40), Record(bank=2))
    after = Record([*SIX, (3, [18])], rx=[0, 1, 3], tx=[2], waiting=8).word(RCR, RXEN)
    on_wire(64)
    done("a frame overtakes it", 0, three(waiting=8).word(RCR, RXEN), frame(64), after)
    damaged("for as many as are free", three(waiting=6))
    damaged("for nine", three(waiting=9))
    damaged("for eight, and a bit above", three(waiting=0x0108))
    damaged("while the result reads 2", three(waiting=8, result=2))
    damaged("for as many as are free, before 6", three(bank=2, packet=1, waiting=6), command(0xA0))
    damaged("for one, none allocated", Record(waiting=1))


def stored(name, record, asked, after, *words):
    """A frame that is stored, then words of its packet, which is the last of RX: each an address and what is read there."""
    done(name, 0, record, asked, after())
    packet = after().slots[after().words[6] - 1]
    for address, value in words:
        reading = after().word(7, 0x3302).word(17, 0x8000 + packet).word(POINTER, 0x2000 + address)
        done(f"  its word {address}", value, reading, request(2, DATA))


def receiving(control=0, bits=0):
    """RXEN set, nothing allocated."""
    return Record().word(RCR, RXEN + bits).word(CONTROL, control)


def held(pages, control=0, bits=0):
    """The same with packet 0 in RX."""
    return Record([(0, pages)], rx=[0]).word(RCR, RXEN + bits).word(CONTROL, control)


def frames_stored():
    """The wire has zeros and their FCS: the frame is to the station address, which is zeros too."""
    low, high = check_words(bytes(60))
    on_wire(64)
    stored("64 bytes", receiving(), frame(64), lambda: held([0]), (0, 0), (2, 70), (62, 0), (64, low), (66, high), (68, 0x4000))
    stored("bit 0 is ignored", receiving(), frame(64, 1), lambda: held([0]), (0, 0))
    stored("whatever the link", receiving().word(LINK, CHANGED), frame(64), lambda: held([0]).word(LINK, CHANGED), (2, 70))
    stored("alignment, kept", receiving(KEEP_BAD), frame(64, 2), lambda: held([0], KEEP_BAD), (0, 0x8000))
    stored("64 bytes less the FCS", receiving(bits=STRIP), frame(64), lambda: held([0], bits=STRIP), (0, 0), (2, 66), (62, 0))
    stored("to another station, all accepted", receiving(bits=ALL).word(STATION, 2), frame(64), lambda: held([0], bits=ALL).word(STATION, 2), (2, 70))
    stored("as many pages left as are reserved", three().word(RCR, RXEN).word(RESERVED, 0x3305), frame(64),
           lambda: Record(SIX + [(3, [18])], rx=[0, 1, 3], tx=[2]).word(RCR, RXEN).word(RESERVED, 0x3305), (2, 70))
    stored("63 bytes, cut, with alignment, kept", receiving(KEEP_BAD), frame(63, 3), lambda: held([0], KEEP_BAD), (0, 0xB400), (2, 68))
    stored("65 bytes, too many, kept", receiving(KEEP_BAD), frame(65), lambda: held([0], KEEP_BAD), (0, 0x3000), (2, 70))
    on_wire(65)
    stored("65 bytes", receiving(), frame(65), lambda: held([0]), (0, 0x1000), (2, 70))
    on_wire(1518)
    stored("1,518 bytes, in the last six pages", three().word(RCR, RXEN), frame(1518),
           lambda: Record(SIX + [(3, range(18, 24))], rx=[0, 1, 3], tx=[2]).word(RCR, RXEN), (0, 0), (2, 1524), (1522, 0x4000))
    on_wire(1532)
    stored("1,532 bytes, in seven pages", receiving(), frame(1532), lambda: held(range(7)), (0, 0x0800), (2, 1538))
    on_wire(64)


def frames_not_stored():
    refused("17 bytes", 11, three(), frame(17))
    done("RXEN clear", 1, three(), frame(18))
    done("to another station", 2, three().word(RCR, RXEN).word(STATION, 2), frame(1533))
    done("1,533 bytes", 3, three().word(RCR, RXEN), frame(1533), three().word(RCR, RXEN + RX_ABORT))
    done("all of the wire", 3, three().word(RCR, RXEN), frame(65535), three().word(RCR, RXEN + RX_ABORT))
    done("a bad CRC", 4, three().word(RCR, RXEN), frame(65))
    done("a bad CRC, with a bit that is ignored", 4, three().word(RCR, RXEN), frame(65, 1))
    done("a bad CRC and alignment", 4, three().word(RCR, RXEN), frame(65, 2))
    done("alignment", 4, three().word(RCR, RXEN), frame(64, 2))
    done("63 bytes", 4, three().word(RCR, RXEN), frame(63))
    done("no page free", 5, full().word(RCR, RXEN), frame(64), full().word(RCR, RXEN + RX_ABORT).word(LATCHES, TX_EMPTY + OVERRUN))
    on_wire(1532)
    done("seven pages needed, six free", 5, three().word(RCR, RXEN), frame(1532), three().word(RCR, RXEN + RX_ABORT).word(LATCHES, TX_EMPTY + OVERRUN))
    on_wire(64)
    reserved = three().word(RCR, RXEN).word(RESERVED, 0x3306)
    after = three().word(RCR, RXEN + RX_ABORT).word(RESERVED, 0x3306).word(LATCHES, TX_EMPTY + OVERRUN)
    done("fewer pages left than are reserved", 5, reserved, frame(64), after)
    damaged("free count one less", three().word(4, 24 + 256 * 5), frame(17))
    damaged("RX bit of packet 3 set", three().word(RCR, RXEN).word(28, 1 + 2 + 8), frame(64))
    damaged("page 6 in two packets", three().word(RCR, RXEN).set(0, 0b1111111), frame(64))
    damaged("a byte behind the end of completion", three().word(RCR, RXEN).slot(71, 1), frame(1518))


def sends_refused():
    """Packet 2's byte count is that of the last frame on the wire, until it is written."""
    refused("2,051 bytes for the output", 15, sending(), send(0, 0, 0, 1))
    refused("the same, before 11 and 12", 15, three(), send(6, 0, 0, 255))
    for asked in (send(6), send(0, 16), send(1, 15), send(0, 0, 3)):
        refused("outside the limits", 11, three(), asked)
    refused("TXENA clear", 12, three(), send())
    refused("TX empty", 12, Record(tcr=TXENA), send())
    for count, number in ((0, 18), (10, 18), (11, 13), (67, 13), (1537, 13), (0xFFFE, 19), (1538, 19)):
        written(2, count)
        refused(f"byte count {count}", number, sending(), send(), count)
    refused("TXENA clear, before 19", 12, three(), send())
    refused("completion full, behind 19", 19, crowded(), send(), 1538)
    written(2, 66)
    refused("completion full", 14, crowded(), send())
    damaged("free count one less", sending().word(4, 24 + 256 * 5), send(6, 0, 0, 1))
    damaged("TX bit of packet 2 clear", sending().word(30, 0), send())
    damaged("page 6 in two packets", sending().set(0, 0b1111111), send())
    damaged("a byte behind the end of completion", sending().slot(71, 1), send())


def sends_done():
    """Packet 2 has 60 bytes, to all stations; they go out with their FCS, "failed sends put out the same bytes", and so they come in."""
    low, high = check_words(6 * b"\xff" + bytes(54))
    for address in (4, 6, 8):
        written(address, 0xFFFF)
    done("good, and TX is empty now", 60 + FCS, sending().word(LATCHES, 0), send(), sent().word(EPHSR, SENT + BROADCAST))
    stored("what was put out comes in", Record().word(RCR, RXEN).word(STATION, 2), frame(64),
           lambda: Record([(0, [0])], rx=[0]).word(RCR, RXEN).word(STATION, 2), (0, 0x4000), (2, 70), (8, 0xFFFF), (10, 0), (64, low), (66, high))
    done("good after one collision", 60 + FCS, sending(), send(0, 1), sent().word(EPHSR, SENT + BROADCAST).word(ECR, 0x0001))
    done("deferred", 60 + FCS, sending(), send(0, 0, 1), sent().word(EPHSR, SENT + BROADCAST).word(ECR, 0x0100))
    done("lost carrier, which is good", 60 + FCS, sending(), send(3), sent().word(EPHSR, SENT + BROADCAST))
    done("lost carrier", 60 + FCS, sending(TXENA + STOP_ON_CARRIER), send(3), sent(tcr=STOP_ON_CARRIER).word(EPHSR, 0x0400 + BROADCAST))
    done("sixteen collisions", 60 + FCS, sending(), send(1, 16), sent(tcr=0).word(EPHSR, 0x0010 + 0x0004 + BROADCAST).word(ECR, 0x0010))
    done("a nibble comes to 15", 60 + FCS, sending().word(ECR, 0x00E0), send(0, 2), sent().word(EPHSR, 0x1000 + SENT + BROADCAST).word(ECR, 0x00F0))
    released = sent(completion=(), pages=SIX[:2])
    done("released", 60 + FCS, sending().word(CONTROL, AUTO_RELEASE), send(), released.word(CONTROL, AUTO_RELEASE).word(EPHSR, SENT + BROADCAST))
    granted = Record([*SIX[:2], (2, [*range(12, 18), 18])], rx=[0, 1], tcr=TXENA, result=2)
    done("released, and granted to one that waits for seven pages", 60 + FCS, three(tcr=TXENA, waiting=7).word(CONTROL, AUTO_RELEASE), send(),
         granted.word(CONTROL, AUTO_RELEASE).word(EPHSR, SENT + BROADCAST))
    done("failed: it waits on", 60 + FCS, three(tcr=TXENA, waiting=7).word(CONTROL, AUTO_RELEASE), send(1, 16),
         Record(SIX, rx=[0, 1], completion=[2], waiting=7).word(CONTROL, AUTO_RELEASE).word(EPHSR, 0x0010 + 0x0004 + BROADCAST).word(ECR, 0x0010))
    written(2, 12)
    for control, tcr, value in (
        (0, 0, 6 + FCS), (0, PAD, 60 + FCS), (0, NOCRC, 6), (0, NOCRC + PAD, 64),
        (WITH_CRC, 0, 6 + FCS), (WITH_CRC, PAD, 60 + FCS), (WITH_CRC, NOCRC, 6 + FCS), (WITH_CRC, NOCRC + PAD, 60 + FCS),
    ):
        written(10, control)
        done(f"six bytes, TCR {tcr:04x}, control byte {control >> 8:02x}", value, sending(TXENA + tcr), send(), sent(tcr=TXENA + tcr).word(EPHSR, SENT + BROADCAST))
    written(10, 0)
    done("64 bytes without an FCS onto the wire", 64, sending(TXENA + NOCRC + PAD), send(), sent(tcr=TXENA + NOCRC + PAD).word(EPHSR, SENT + BROADCAST))
    done("  which is a bad CRC", 4, receiving(), frame(64))
    done("the first of 24, its page being that of the frame", 64 + FCS, full(tcr=TXENA), send(),
         Record([(k, [k]) for k in range(24)], tx=range(1, 24), completion=[0], tcr=TXENA).word(EPHSR, SENT + BROADCAST))


def link_shown():
    """The link is bit 0 of its word and its change bit 1; EPHSR shows it at bit 14, "whatever a lent record has stored there" (W8)."""
    for link in (0, UP, CHANGED, UP + CHANGED):
        for stored in (0x0000, LINK_OK + 0x1008):
            shown = stored % LINK_OK + LINK_OK * (link % 2)
            done(f"EPHSR {stored:04x}, link {link}", shown, three().word(EPHSR, stored).word(LINK, link), request(2, 0x02))
    done("the high byte, up", 0x40, three().word(LINK, UP), request(1, 0x03))
    done("the high byte, down", 0x90, three().word(EPHSR, LINK_OK + 0x9001), request(1, 0x03))
    done("the low byte", 0x01, three().word(EPHSR, LINK_OK + 0x9001).word(LINK, UP), request(1, 0x02))
    for link, control, eph in (
        (UP, LE_ENABLE, 0), (CHANGED, LE_ENABLE, EPH), (UP + CHANGED, LE_ENABLE, EPH), (UP + CHANGED, 0xFFFF - LE_ENABLE, 0), (UP, 0xFFFF, 0),
    ):
        done(f"status, control {control:04x}, link {link}", RX + TX_EMPTY + eph, three(bank=2).word(CONTROL, control).word(LINK, link), request(1, 0x0C))


def link_left():
    """What forgets a change of the link, and what leaves it."""
    for link in (UP, 0):
        changed = lambda bank: three(bank=bank).word(CONTROL, 0x1080).word(LINK, link + CHANGED)
        forgotten = lambda control: three(bank=1).word(CONTROL, control).word(LINK, link)
        done("control, low byte", 0, changed(1), request(3, 0x0C, 0x00), forgotten(0x1000))
        done("control, high byte", 0, changed(1), request(3, 0x0D, 0x20), forgotten(0x2080))
        done("control, as it was", 0, changed(1), request(4, 0x0C, 0x1080), forgotten(0x1080))
        done("soft reset", 0, changed(0), request(4, 0x04, 0x8000), Record().word(RCR, 0x8000).word(LINK, link))
    both = UP + CHANGED
    done("acknowledge of EPH", 0, three(bank=2).word(LINK, both), request(3, 0x0C, EPH))
    done("mask", 0, three(bank=2).word(LINK, both), request(3, 0x0D, EPH), three(bank=2).word(LINK, both).word(INTERRUPT, 256 * EPH))
    done("40h", 0, three(bank=2).word(LINK, both), command(0x40), Record(bank=2).word(LINK, both))
    done("TCR, EPHSR stored with bit 14", 0, three().word(EPHSR, 0xFFFF).word(LINK, CHANGED), request(3, 0x00, TXENA),
         three(tcr=TXENA).word(EPHSR, 0x79CE).word(LINK, CHANGED))
    done("ECR", 0x00F0, three().word(EPHSR, 0x5000).word(ECR, 0x00F0).word(LINK, CHANGED), request(2, 0x06), three().word(EPHSR, 0x4000).word(LINK, CHANGED))


def link_sent():
    """Packet 2 has six bytes, to all stations. The status word of a send shows the link, and EPHSR is stored without it."""
    for link, stored in ((UP + CHANGED, 0), (CHANGED, LINK_OK)):
        after = sent().word(EPHSR, SENT + BROADCAST).word(LINK, link)
        done(f"a send, link {link}", 6 + FCS, sending().word(EPHSR, stored).word(LINK, link), send(), after)
        reading = three(bank=2, packet=2).word(POINTER, 0x2000)
        done("  its status word", SENT + BROADCAST + LINK_OK * (link % 2), reading, request(2, DATA))


def link_set():
    """"The same state again is no change", and leaves one that was seen; "11 for any other byte 1", behind 16."""
    for link in (0, UP, CHANGED, UP + CHANGED):
        for state in (0, 1):
            changed = CHANGED if state != link % 2 else link - link % 2
            done(f"link {link}, set to {state}", 0, three().word(LINK, link), plug(state), three().word(LINK, state + changed))
    done("EPHSR as it was stored", 0, three().word(EPHSR, LINK_OK).word(LINK, UP), plug(0), three().word(EPHSR, LINK_OK).word(LINK, CHANGED))
    for state in (2, 255):
        refused("outside the limits", 11, three().word(LINK, UP), plug(state))
    damaged("a bit above, before 11", three().word(LINK, 4), plug(2))
    damaged("free count one less", three().word(4, 24 + 256 * 5), plug(1))


def link_damaged():
    for word in (4, 5, 0x0100, 0x8003):
        damaged("a bit above the link and its change", three().word(LINK, word))
    damaged("the same, where a write would forget it", three(bank=1).word(LINK, 7), request(3, 0x0C, LE_ENABLE))
    damaged("the same, before 11", three().word(LINK, 4), frame(17))
    damaged("the same, of a send", sending().word(LINK, 4), send())


def on_94(asked):
    """Beside the 4,608 bytes of the LAN91C94 (W9)."""
    return lent(asked, 18)


def other(**registers):
    """The LAN91C94: packets 0 and 1 of six pages in RX and packet 17 of two in TX: four are free."""
    return Record([(0, range(0, 6)), (1, range(6, 12)), (17, [16, 17])], rx=[0, 1], tx=[17], part=18, **registers)


def other_part():
    """The record names its part by MIR's low byte. "18 pages, packets 0 to 17, 4,608 bytes, MIR 1212h after reset"."""
    done("MIR, all free", 0x1212, Record(part=18), on_94(request(2, MIR)))
    done("MIR, four free", 0x0412, other(), on_94(request(2, MIR)))
    done("allocate four, the last", 0, other(bank=2), on_94(command(0x23)),
         Record([(0, range(0, 6)), (1, range(6, 12)), (2, range(12, 16)), (17, [16, 17])], rx=[0, 1], tx=[17], bank=2, result=2, part=18))
    done("allocate five, which waits", 0, other(bank=2), on_94(command(0x24)), other(bank=2, waiting=5))
    refused("release 18, which no packet is", 5, other(bank=2, packet=18), on_94(command(0xA0)))
    refused("release 17, in TX", 6, other(bank=2, packet=17), on_94(command(0xA0)))
    done("40h keeps the part", 0, other(bank=2), on_94(command(0x40)), Record(bank=2, part=18))
    done("a soft reset keeps it", 0, other(), on_94(request(4, 0x04, 0x8000)), Record(part=18).word(RCR, 0x8000))
    done("the link", 0, other(), on_94(plug(1)), other().word(LINK, UP + CHANGED))
    done("result 17", 0x1100, other(bank=2, result=17), on_94(request(2, 0x02)))
    full = {"completion": [k % 18 for k in range(18)], "tcr": TXENA}
    refused("completion holds 18, and an odd count is 13 before", 12, Record(part=18, **full), on_94(send()))
    damaged("a 19th completion entry", Record(part=18, completion=[0] * 19), on_94(request(2, MIR)))
    damaged("completion names 18", Record(part=18, completion=[18]), on_94(request(2, MIR)))
    damaged("result 18", other(result=18), on_94(request(2, MIR)))
    damaged("page 18", Record([(0, [18])], part=18), on_94(request(2, MIR)))
    damaged("packet 18", Record([(18, [0])], part=18), on_94(request(2, MIR)))
    damaged("packet 18 in TX", Record([(18, [0])], tx=[18], part=18), on_94(request(2, MIR)))
    damaged("the other part's memory", other(), request(2, MIR))
    damaged("and for the LAN91C96", three(), on_94(request(2, MIR)))
    damaged("a page of memory less", other(), lent(request(2, MIR), 17))
    for size in (0, 17, 19, 20, 23, 25, 255):
        for pages in (0, 18):
            damaged(f"of no part, {size}", Record().word(MIR_PLACE, size + 256 * size), lent(request(2, MIR), pages))
    damaged("free count one more", other().word(MIR_PLACE, 0x0512), on_94(request(2, MIR)))


def main():
    in_order()
    wrong_figures()
    wrong_before()
    waiting()
    frames_stored()
    frames_not_stored()
    sends_refused()
    sends_done()
    link_set()
    link_shown()
    link_left()
    link_sent()
    link_damaged()
    other_part()
    # at the end a case that is cut short
    open("crates/entry_runs/stdin", "wb").write(b"".join(cases) + three().case(request(2, MIR))[:-1])
    open("crates/entry_runs/stdout", "w").write("".join(lines))


main()
