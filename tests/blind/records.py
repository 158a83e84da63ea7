"""Records by hand, the frames in a stream, and tools/blind on a stream, for the cases and the comparison."""
import os
import subprocess
import sys
import zlib
from collections import namedtuple

TOP = os.path.dirname(os.path.dirname(os.path.dirname(os.path.abspath(__file__))))
TOOL = f"{TOP}/tools/blind"
PATIENCE = 60  # seconds after which a program hangs

# how many of its bytes a record uses, by its kind; of wire bytes, kind 5, their count is left whatever they are
USED = {1: 2, 2: 2, 3: 3, 4: 4, 5: 2, 6: 2, 7: 4, 8: 2, 9: 2}

# a frame that ends: where each of its bytes stands in the stream, and where the record of its end does
Frame = namedtuple("Frame", "places end")


def failed(what):
    sys.exit(f"blind: FAILED: {what}")


def same(what, found, expected):
    if found != expected:
        failed(f"{what}\n  expected {expected!r:.300}\n  found    {found!r:.300}")


def record(*values):
    return bytes(values).ljust(8, b"\0")


def wire(data, most=6):
    """Records of wire bytes, so many in each."""
    pieces = [data[at : at + most] for at in range(0, len(data), most)]
    return b"".join(record(5, len(piece), *piece) for piece in pieces)


def frame(data, flags=0):
    return wire(data) + record(6, flags)


def checked(rest):
    """Bytes with their FCS."""
    return rest + zlib.crc32(rest).to_bytes(4, "little")


def is_right(data):
    return len(data) >= 4 and checked(data[:-4]) == data


def frames(stream):
    """The frames that end in a stream."""
    found, places = [], []
    for at in range(0, len(stream) - len(stream) % 8, 8):
        kind, count = stream[at], stream[at + 1]
        if kind == 5 and count in range(1, 7) and len(places) + count <= 2048:
            places = places + list(range(at + 2, at + 2 + count))
        elif kind == 6:
            found.append(Frame(places, at))
            places = []
    return found


def bytes_of(stream, a_frame):
    return bytes(stream[place] for place in a_frame.places)


def tool(*words, stream=b"", **options):
    """A run of the tool to its end."""
    return subprocess.run([TOOL, *words], input=stream, stdout=subprocess.PIPE, stderr=subprocess.PIPE, timeout=PATIENCE, **options)


def blinded(stream, seed=1):
    """The stream after a run that ends well, and what was told."""
    ran = tool("--seed", str(seed), stream=stream)
    same("the tool's status", ran.returncode, 0)
    same("the length of a blinded stream", len(ran.stdout), len(stream))
    return ran.stdout, ran.stderr.decode().splitlines()
