"""Blinders that do too much, and sends that go by private bytes: the comparison notices each."""
import subprocess

from lines import PROGRAMS, Note, compared, covered, lines_of
from records import TOP, blinded, bytes_of, checked, failed, frames, is_right, same

SEEDS = range(1, 17)


# ---- each changes a blinded stream where a frame stands, and keeps all else of it
def put(stream, a_frame, data):
    for place, byte in zip(a_frame.places, data):
        stream[place] = byte


def byte_5(stream, a_frame):
    """With the verdict that the frame has."""
    data = bytearray(bytes_of(stream, a_frame))
    if len(data) > 10:
        right = is_right(data)
        data[5] ^= 1
        put(stream, a_frame, checked(data[:-4]) if right else data)


def made_wrong(stream, a_frame):
    data = bytearray(bytes_of(stream, a_frame))
    if len(data) > 10 and is_right(data):
        data[-1] ^= 1
        put(stream, a_frame, data)


def made_right(stream, a_frame):
    data = bytes_of(stream, a_frame)
    if len(data) > 10 and not is_right(data):
        put(stream, a_frame, checked(data[:-4]))


def one_byte_less(stream, a_frame):
    """Where the last record of wire bytes has more than one: no record of them is refused for it."""
    data = bytes_of(stream, a_frame)
    count = a_frame.places[-1] // 8 * 8 + 1 if data else 0
    if len(data) > 11 and stream[count] > 1:
        put(stream, a_frame, checked(data[:-5]) if is_right(data) else data[:-1])
        stream[count] -= 1


def alignment_set(stream, a_frame):
    stream[a_frame.end + 1] |= 2


def alignment_cleared(stream, a_frame):
    stream[a_frame.end + 1] &= ~2


BLINDERS = {
    "changes byte 5": byte_5,
    "makes a right FCS wrong": made_wrong,
    "makes a wrong FCS right": made_right,
    "takes a byte away": one_byte_less,
    "sets the alignment flag": alignment_set,
    "clears the alignment flag": alignment_cleared,
}


def first_difference(bench, stream, notes, seed=1):
    """In the lines of the bench, between a stream and the blinded one."""
    return compared(lines_of(bench, stream), lines_of(bench, blinded(stream, seed)[0]), notes)[0]


def noticed(bench, name, kept):
    stream = bytearray(blinded(kept.stream)[0])
    for a_frame in frames(stream):
        BLINDERS[name](stream, a_frame)
    difference, _ = compared(lines_of(bench, kept.stream), lines_of(bench, bytes(stream)), kept.notes)
    if not difference:
        failed(f"a blinder that {name} is not noticed")
    return difference.number


def blinders(bench, stream):
    kept = covered(stream)
    same("the stream blinded as it should be", first_difference(bench, kept.stream, kept.notes), None)
    for name in BLINDERS:
        print(f"blind: a blinder that {name} is noticed at record {noticed(bench, name, kept)}")


# ---- sends that go by private bytes
def typed(name):
    return subprocess.run([f"{TOP}/tools/rec", "type", f"{TOP}/tests/blind/{name}.lines"], stdout=subprocess.PIPE, check=True).stdout


def reported(stream):
    """Status and lines."""
    ran = subprocess.run([f"{PROGRAMS}/covered", "--report"], input=stream, stdout=subprocess.PIPE)
    return ran.returncode, ran.stdout.decode().splitlines()


def uncovered(bench, name, number, shown, places):
    """A send with this record, and a line of the bench, its own or a later one, which is another where the frame has other contents."""
    stream = typed(name)
    ones, before, behind = lines_of(bench, stream), stream[: 8 * (number - 1)], stream[8 * number :]
    shown_at = int(shown.split()[0])
    same(f"{name}: the line", ones[shown_at - 1], shown)
    same(f"{name}: the report", reported(stream), (1, [f"record {number}: the send of packet {places}"]))
    kept = covered(stream)
    same(f"{name}: without the send", kept.stream, before + behind)
    same(f"{name}: the report without it", reported(kept.stream), (0, []))
    notes = covered(before).notes + [Note("other")] * (len(ones) - number + 1)
    answers = set()
    for seed in SEEDS:
        difference = first_difference(bench, stream, notes, seed)
        if difference:
            same(f"{name}, seed {seed}: where it differs first", difference.number, shown_at)
            answers.add(difference.other)
        same(f"{name}, seed {seed}: a difference without the send", first_difference(bench, kept.stream, kept.notes, seed), None)
    if not answers:
        failed(f"{name}: a send that goes by private bytes is not noticed")
    print(f"blind: a send that goes by private bytes is noticed ({name}): '{shown}' and, blinded, {', '.join(map(repr, sorted(answers)[:3]))}")


def sends(bench):
    count_and_destination = "2 (byte count), 3 (byte count), " + ", ".join(f"{at} (destination)" for at in range(4, 10))
    uncovered(bench, "second-page", 55, "55 0 000a", f"1 goes by private bytes: {count_and_destination}, 11 (control byte)")
    uncovered(bench, "count", 60, "60 0 000a", "1 goes by private bytes: 2 (byte count), 3 (byte count)")
    uncovered(bench, "destination", 62, "64 0 0041", "1 goes by private bytes: 9 (destination)")
    uncovered(bench, "control-byte", 20, "20 0 0012", "0 goes by private bytes: 19 (control byte)")
