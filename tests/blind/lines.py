"""A stream beside a blinded one: which lines of the programs may differ, and in what.

`covered` notes of each record what it shows of packets' bytes. A data read that is done and of which a byte is private may have another value; a send that is
done and of which a byte is private may put out others, as many of them and the first six the same. Nothing else may differ.
"""
import os
import subprocess
import tempfile
from collections import Counter, namedtuple

from records import PATIENCE, TOP, failed

PROGRAMS = f"{TOP}/tests/independent/target/release"
FIRST_SIX = 12  # digits
MOST_SHOWN = 200
# what a run shows, beside the records it is of
READS, SENDS, SENT_ON, LEFT_OUT = "data reads differ", "sends put out other bytes", "of these received packets sent on as they are", "sends left out"

# a record's number, and the lines of it: of the stream, of the blinded one
Difference = namedtuple("Difference", "number one other")
# what a data read or a send shows: how many bytes are private, of how many
Note = namedtuple("Note", "what private length", defaults=("0", "0"))
# the stream without the sends that it may not have, a note for each record, and how many sends are left out
Covered = namedtuple("Covered", "stream notes left_out")


def ran(program, stream):
    done = subprocess.run(program, input=stream, stdout=subprocess.PIPE, timeout=10 * PATIENCE)
    if done.returncode:
        failed(f"{program} ends with status {done.returncode}")
    return done.stdout


def lines_of(program, stream):
    return ran([program], stream).decode("ascii").splitlines()


def covered(stream, *options):
    with tempfile.TemporaryDirectory() as folder:
        path = os.path.join(folder, "notes")
        kept = ran([f"{PROGRAMS}/covered", *options, "--notes", path], stream)
        with open(path, encoding="ascii") as file:
            notes = [Note(*line.split()) for line in file]
    return Covered(kept, notes, (len(stream) - len(kept)) // 8)


def shows_private(note):
    return int(note.private) > 0


def is_sent_on(note):
    """All of a packet behind the destination is private: a received one, as it is."""
    return note.what == "send" and shows_private(note) and int(note.private) == int(note.length) - 6


def may_differ(one, other, note):
    """May these lines of a record, number, answer, value, interrupt line and bytes put out, stand beside each other."""
    one, other = one.split(), other.split()
    if len(one) != len(other) or not shows_private(note):
        return False
    if note.what == "read":
        return one[:2] == other[:2] and one[3:] == other[3:]
    same_length = len(one) == 5 and len(one[4]) == len(other[4])
    return same_length and one[:4] == other[:4] and one[4][:FIRST_SIX] == other[4][:FIRST_SIX]


def compared(ones, others, notes):
    """The first difference that may not be, or None; and how many there are that may."""
    shown = Counter()
    for number, (one, other, note) in enumerate(zip(ones, others, notes), 1):
        if one == other:
            continue
        if not may_differ(one, other, note):
            return Difference(number, one, other), shown
        shown[READS if note.what == "read" else SENDS] += 1
        shown[SENT_ON] += is_sent_on(note)
    if not len(ones) == len(others) == len(notes):
        number = min(len(ones), len(others), len(notes)) + 1
        return Difference(number, *(lines[number - 1] if number <= len(lines) else "(no line)" for lines in (ones, others))), shown
    return None, shown


def start(line):
    return line if len(line) <= MOST_SHOWN else f"{line[:MOST_SHOWN]}.. ({len(line)} characters)"


def told(difference, stream):
    at = 8 * (difference.number - 1)
    return f"record {difference.number} differs: {stream[at : at + 8].hex(' ')}\n  the stream:  {start(difference.one)}\n  blinded:     {start(difference.other)}"
