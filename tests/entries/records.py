"""A chip as the public entries take it, by document 01's rules and the places of crates/state/src/places.rt; and a case of crates/entry_runs with it."""

# places of words
TCR, EPHSR, RCR, ECR, MIR, RESERVED, BANK, STATION, LATCHES, CONTROL, LINK, POINTER, INTERRUPT = 0, 1, 2, 3, 4, 5, 7, 10, 13, 14, 15, 19, 22


class Record:
    """The 32 words, the 24 page sets and the 72 bytes of queues of a chip, with every figure that W7 keeps. All registers not given are as after reset."""

    def __init__(self, pages=(), rx=(), tx=(), completion=(), bank=0, packet=0, tcr=0, result=0x80, waiting=0, part=24):
        """Of packets with these pages, given as (number, pages), and these queues; an allocation waits for so many pages; the part has so many packets and pages."""
        self.sets = [0] * 24
        for number, own in pages:
            self.sets[number] = bits(own)
        free = part - len(set().union(*(own for _, own in pages)))
        self.slots = [*rx, *[0] * (24 - len(rx)), *tx, *[0] * (24 - len(tx)), *completion, *[0] * (24 - len(completion))]
        self.words = [0] * 32
        self.words[TCR] = tcr
        self.words[MIR] = part + 256 * free
        self.words[RESERVED] = 0x3300  # none reserved for transmit
        self.words[6], self.words[8], self.words[9] = len(rx), len(tx), len(completion)
        self.words[BANK] = 0x3300 + bank
        self.words[LATCHES] = 4  # TX EMPTY
        self.words[17] = 256 * result + packet
        self.words[23] = waiting
        self.words[28], self.words[29] = bits(rx) % 65536, bits(rx) // 65536
        self.words[30], self.words[31] = bits(tx) % 65536, bits(tx) // 65536

    def word(self, place, value):
        """The same with another word there."""
        self.words[place] = value
        return self

    def set(self, packet, value):
        """The same with another page set."""
        self.sets[packet] = value
        return self

    def slot(self, place, value):
        """The same with another byte in the queues."""
        self.slots[place] = value
        return self

    def case(self, request):
        """The 240 bytes."""
        words = b"".join(value.to_bytes(2, "little") for value in self.words)
        sets = b"".join(value.to_bytes(4, "little") for value in self.sets)
        return words + sets + bytes(self.slots) + request

    def sum(self):
        """Of all numbers, each added to three times the sum before it."""
        total = 0
        for value in self.words + self.sets + self.slots:
            total = (3 * total + value) % 2**32
        return total


def bits(numbers):
    """Bit k for each k."""
    return sum(1 << k for k in set(numbers))


def request(kind, offset, value=0):
    """Of kind 1 read byte, 2 read word, 3 write byte, 4 write word."""
    return bytes([kind, offset, value % 256, value // 256, 0, 0, 0, 0])


def frame(length, flags=0):
    """The wire's first bytes arrive; flag 2 is alignment, and flag 1, which was bad CRC before W4, is ignored."""
    return request(6, flags, length)


def send(outcome=0, collisions=0, deferral=0, lacking=0):
    """The head of TX has been sent; the output buffer has 2,052 bytes less those lacking."""
    return bytes([7, outcome, collisions, deferral, lacking, 0, 0, 0])


def plug(state):
    """The link is set."""
    return request(8, state)


def lent(asked, pages):
    """The same beside a memory of so many pages."""
    return asked[:7] + bytes([pages])


def line(number, value, back):
    """What is printed where an entry answers that and gives that record back."""
    return f"{number:02} {value:05} {back.sum():010}\n"
