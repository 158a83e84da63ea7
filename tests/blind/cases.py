"""Cases of tools/blind by itself: what is kept, replaced, blanked, left and told. Expectations are written here, FCSs are zlib's; none is the tool's own output."""
import os
import subprocess
import tempfile

from records import TOOL, USED, blinded, bytes_of, checked, failed, frame, frames, is_right, record, same, tool, wire

STATION = bytes.fromhex("020000123456")
BLANK = bytes(6)


def told(what, count):
    return f"blind: {what}: {count}"


def replaced(count):
    return told("frames replaced from byte 6 on", count)


def nothing_private(count):
    return told("frames left as they are, for nothing of them is private", count)


def wrong(data):
    """Bytes whose last four are no FCS."""
    return data if not is_right(data) else data[:-1] + bytes([data[-1] ^ 0x55])


def lengths_and_verdicts():
    """One frame of each length, right and wrong. Of the short ones a right FCS is determined by bytes that stay."""
    for length in [*range(21), 59, 60, 61, 64, 65, 1518, 2048]:
        body = STATION + b"private" * 300
        for data in filter(None, [length >= 4 and checked(body[: length - 4]), wrong(body[:length])]):
            stream = frame(data)
            out, words = blinded(stream)
            new = bytes_of(out, frames(out)[0])
            stays = length <= (10 if is_right(data) else 6)
            what = f"a frame of {length} bytes, FCS {'right' if is_right(data) else 'wrong'}"
            same(f"{what}: length, first six bytes, verdict", (len(new), new[:6], is_right(new)), (length, data[:6], is_right(data)))
            same(f"{what}: told", words, [replaced(0), nothing_private(1)] if stays else [replaced(1)])
            same(f"{what}: its records", (out[0::8], out[1::8]), (stream[0::8], stream[1::8]))
            if stays or length >= 16:
                same(f"{what}: is it as it was", new == data, stays)
            if length >= 64:
                same(f"{what}: a piece of it is left", data[-4:] in new or b"private" in new, False)


def alignment_flags():
    """Byte 1 of the end stays, its other bits too."""
    for flags in (0, 1, 2, 3, 0xFD, 0xFF):
        out, _ = blinded(frame(checked(STATION + bytes(8)), flags))
        same("the end of a frame", out[-8:], record(6, flags))


def wrong_by_one_byte():
    """Frames of 7 bytes of which byte 6 alone is wrong: noise makes one of 256 of them right at first, and none at last."""
    count, rest = 3000, STATION[:3]
    right = checked(rest)
    out, words = blinded(frame(wrong(right)) * count)
    last = [bytes_of(out, each)[6] for each in frames(out)]
    same("frames of 7 bytes", (len(last), words), (count, [replaced(count)]))
    same("one of them became right", right[6] in last, False)
    if len(set(last)) < 200:
        failed(f"byte 6 of {count} frames has {len(set(last))} values")


def contents_leave_no_trace():
    """Streams that differ in their contents alone are the same, blinded by the same seed."""

    def stream(byte):
        unused = bytes([byte]) * 6
        frames_of = [checked(STATION + bytes([byte]) * n) for n in (1, 54, 1490)] + [STATION + bytes([byte]) * n for n in (1, 2, 3, 5, 20, 58)]
        refused = b"".join(bytes([5, count]) + unused for count in (0, 7, 255))
        never = record(5, 6, *unused) + record(5, 1, *unused)
        return b"".join(map(frame, frames_of)) + refused + bytes([1, 0x0E]) + unused + never

    one, other = stream(0x11), stream(0x22)
    same("the streams differ", one == other, False)
    same("blinded they do not", blinded(one)[0], blinded(other)[0])


def refused_wire_bytes():
    """Refused by their count they are blanked, stay refused, and are no part of the frame around them."""
    data = checked(STATION + b"private")
    parts = [data[:6], data[6:12], data[12:]]
    for count in (0, 7, 255):
        refused = bytes([5, count]) + b"secret"
        out, words = blinded(wire(parts[0]) + refused + wire(parts[1]) + wire(parts[2]) + refused + record(6))
        same(f"wire bytes with count {count}", (out[8:16], out[32:40]), (bytes([5, count]) + BLANK,) * 2)
        new = out[2:8] + out[18:24] + out[26 : 26 + len(parts[2])]
        same("the frame around them", (new[:6], is_right(new), words), (STATION, True, [replaced(1)]))


def too_many_wire_bytes():
    """2,046 bytes and 3 are too many, and 2 more are not; then there is room for none."""
    data = checked(STATION + b"p" * 2038)
    stream = wire(data[:2046]) + bytes([5, 3]) + b"secret" + bytes([5, 2]) + data[2046:] + b"more" + bytes([5, 1]) + b"secret" + record(6)
    out, words = blinded(stream)
    at = 8 * 341
    same("three bytes too many", out[at : at + 8], bytes([5, 3]) + BLANK)
    same("the last two: behind them", (out[at + 8 : at + 10], out[at + 12 : at + 16]), (bytes([5, 2]), bytes(4)))
    same("one too many", out[at + 16 : at + 24], bytes([5, 1]) + BLANK)
    new = bytes_of(out, frames(out)[0])
    same("the frame of 2,048 bytes", (len(new), new[:6], is_right(new), words), (2048, STATION, True, [replaced(1)]))


def frames_that_never_end():
    """The first six bytes too; a read between them is none of theirs."""
    whole = frame(checked(STATION + bytes(60)))
    out, words = blinded(whole + wire(STATION + b"private") + record(1, 0x0E) + wire(b"more"))
    same("bytes that are gathered and never end", out[len(whole) :], record(5, 6) * 2 + record(5, 1) + record(1, 0x0E) + record(5, 4))
    same("they are no frame", words, [replaced(1)])


def unused_bytes():
    """Of each kind; of wire bytes with a count that is refused, and behind one."""
    for kind, count in USED.items():
        full = bytes([kind]) + b"\xee" * 7
        same(f"kind {kind}: unused bytes", blinded(full)[0], full[:count] + bytes(8 - count))
    out, _ = blinded(bytes([5, 1]) + STATION + record(6))
    same("behind a wire byte", out, record(5, 1, STATION[0]) + record(6))


def unknown_kinds():
    kinds = [0, *range(10, 256)]
    stream = b"".join(bytes([kind]) + b"private" for kind in kinds)
    same("unknown kinds", blinded(stream), (stream, [replaced(0), told("records of unknown kind left as they are", len(kinds))]))


def tails():
    """Of wire bytes, and behind them none: the frame that never ended is blanked all the same."""
    for length in range(1, 8):
        tail = (bytes([5, 6]) + STATION)[:length]
        expected = [replaced(0), told("bytes of a tail cut short left as they are", length)]
        same(f"a tail of {length}", blinded(tail), (tail, expected))
        same(f"a tail of {length} behind a record", blinded(wire(STATION) + tail), (record(5, 6) + tail, expected))
    same("no byte at all", blinded(b""), (b"", [replaced(0)]))


# the bank is followed through these; the number is how many of them are data writes
WRITES = [
    (0, record(9, 0x94)),
    (0, record(4, 0x8, 1, 2)),  # bank 0: MIR
    (0, record(3, 0xE, 2)),  # bank 2
    (4, record(3, 0x8, 1) + record(3, 0x9, 1) + record(3, 0xA, 1) + record(3, 0xB, 1)),
    (2, record(4, 0x8, 1, 2) + record(4, 0xA, 1, 2)),
    (0, record(4, 0x9, 1, 2) + record(4, 0xB, 1, 2)),  # words at odd offsets get 1
    (0, record(3, 0x18, 1) + record(4, 0x8A, 1, 2)),  # offsets above 15 too
    (0, record(3, 0x7, 1) + record(3, 0xC, 1) + record(1, 0x8) + record(2, 0x8)),
    (1, record(3, 0xF, 0) + record(3, 0x8, 1)),  # F is read-only: still bank 2
    (1, record(4, 0xF, 0, 0) + record(3, 0x8, 1)),  # a word there gets 1
    (1, record(3, 0x1E, 0) + record(3, 0x8, 1)),
    (1, record(4, 0x4, 0, 0x80) + record(3, 0x8, 1)),  # no RCR in bank 2
    (0, record(3, 0xE, 3) + record(3, 0x8, 1) + record(3, 0xE, 6) + record(3, 0x8, 1)),
    (1, record(4, 0xE, 0x0A, 0xFF) + record(3, 0x8, 1)),  # 10 modulo 8, and the high byte is skipped
    (0, record(3, 0xE, 0) + record(4, 0x4, 0, 0x80) + record(3, 0x8, 1)),  # a soft reset
    (1, record(3, 0xE, 2) + record(3, 0x8, 1)),
    (0, record(3, 0xE, 0xF8) + record(3, 0x4, 0) + record(3, 0x5, 0) + record(3, 0x8, 1)),  # reset again by the low byte
    (1, record(3, 0xE, 0xFA) + record(3, 0x8, 1)),
    (0, record(3, 0xE, 1) + record(4, 0x8, 1, 2)),
    (1, record(3, 0xE, 2) + record(9, 0x96) + record(0) + record(3, 0x8, 1)),  # refused, and none of them changes the bank
]


def data_writes():
    before, expected = b"", 0
    for count, records in WRITES:
        before += records
        expected += count
        words = [line for line in blinded(before)[1] if "data writes" in line]
        same(f"data writes up to {records.hex(' ', 8)}", words, [told("data writes of the host left as they are", expected)] if expected else [])
    out, _ = blinded(before)
    same("writes stay", out, before)


def seeds():
    stream = frame(checked(STATION + bytes(54))) + frame(STATION + bytes(58))
    outs = [blinded(stream, seed)[0] for seed in (1, 1, 2, 0, 10**19)]
    same("the same seed", outs[0], outs[1])
    same("different seeds", len(set(outs)), 4)
    free = {tool(stream=stream).stdout for _ in range(3)}
    same("runs without a seed", len(free), 3)
    again, words = blinded(outs[0], 3)
    pairs = [(bytes_of(stream, old), bytes_of(again, new)) for old, new in zip(frames(stream), frames(again))]
    same("a blinded stream, blinded again", [(len(new), new[:6], is_right(new)) for _, new in pairs], [(64, STATION, True), (64, STATION, False)])
    same("told again", words, [replaced(2)])


def says(what, ran, status, start):
    """It ends so, and the first line of what it says starts so; there is no traceback."""
    same(f"{what}: status", ran.returncode, status)
    said = ran.stderr.decode()
    same(f"{what}: what it says", said[: len(start)], start)
    same(f"{what}: a traceback", "Traceback" in said, False)


def surroundings():
    stream = frame(checked(STATION + bytes(54)))
    with tempfile.TemporaryDirectory() as folder:
        path = os.path.join(folder, "records")
        with open(path, "wb") as file:
            file.write(stream)
        for words in ((path,), ("-",), ()):
            same(f"the stream by {words}", tool("--seed", "7", *words, stream=stream).stdout, blinded(stream, 7)[0])
        says("a missing file", tool(path + "x"), 1, f"blind: {path}x: No such file or directory\n")
        says("a directory", tool(folder), 1, f"blind: {folder}: Is a directory\n")
        for to, reason in ((">&-", "Bad file descriptor"), (">/dev/full", "No space left on device")):
            ran = subprocess.run(["sh", "-c", f'exec "$0" "$1" {to}', TOOL, path], stderr=subprocess.PIPE)
            says(f"output by {to}", ran, 1, f"blind: standard output: {reason}\n")
        closed = subprocess.run(["sh", "-c", 'exec "$0" <&-', TOOL], stdout=subprocess.PIPE, stderr=subprocess.PIPE)
        says("closed input", closed, 1, "blind: standard input: Bad file descriptor\n")
        for to in ("2>&-", "2>/dev/full"):
            ran = subprocess.run(["sh", "-c", f'exec "$0" --seed 7 "$1" {to}', TOOL, path], stdout=subprocess.PIPE)
            same(f"errors by {to}: nothing of them is in the stream", (ran.returncode, ran.stdout), (1, blinded(stream, 7)[0]))
    reader, writer = os.pipe()
    os.close(reader)
    gone = subprocess.run([TOOL], input=stream, stdout=writer, stderr=subprocess.PIPE)
    os.close(writer)
    same("a reader that went away is no word", gone.stderr, b"")


def bad_commands():
    for words in (["--seed"], ["--seed", "x"], ["--seed", "-1"], ["--seed", ""], ["--seed=1"], ["a", "b"], ["-x"], ["--seed", "1", "--seed", "2"], ["x", "--seed", "1"]):
        ran = tool(*words)
        says(f"tools/blind {' '.join(words)}", ran, 2, "blind: no such command\n")
        same("the usage is told", (b"usage: tools/blind [--seed N] [FILE]" in ran.stderr, ran.stdout), (True, b""))
    shown = tool("--help")
    same("--help", (shown.returncode, b"\nusage: tools/blind [--seed N] [FILE]" in shown.stdout, shown.stderr), (0, True, b""))


CASES = [lengths_and_verdicts, alignment_flags, wrong_by_one_byte, contents_leave_no_trace, refused_wire_bytes, too_many_wire_bytes, frames_that_never_end]
CASES += [unused_bytes, unknown_kinds, tails, data_writes, seeds, surroundings, bad_commands]


def run():
    for case in CASES:
        case()
    print(f"blind: tools/blind keeps, replaces, blanks, leaves and tells what it should ({len(CASES)} cases)")
