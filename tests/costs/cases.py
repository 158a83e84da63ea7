"""What a case of crates/entry_runs costs, and the three states of a chip that its entries are measured on."""
import os
import sys

from counting import counted

sys.path.append(os.path.join(os.path.dirname(os.path.dirname(os.path.abspath(__file__))), "entries"))
from records import Record  # noqa: E402

MEASURED = 20  # the cases in the first input
STATES = [
    ("no packets", lambda **registers: Record(**registers)),
    ("three packets", lambda **registers: Record([(0, range(6)), (1, range(6, 12)), (2, range(12, 18))], rx=[0, 1], tx=[2], **registers)),
    ("24 packets", lambda **registers: Record([(k, [k]) for k in range(24)], tx=range(24), **registers)),
]


def program_of(arguments):
    """The one argument, a program."""
    if len(arguments) != 2 or not os.access(arguments[1], os.X_OK):
        sys.exit(f"usage: {os.path.basename(arguments[0])} PROGRAM")
    return os.path.realpath(arguments[1])


def instructions(program, setup, case, answer, cases):
    """Of a run, which has to print that answer for each of the cases, and one record after all of them."""
    printed, count = counted(program, b"".join(setup) + cases * case)
    lines = printed.splitlines()[len(setup):]
    if len(lines) != cases or len(set(lines)) != 1 or not lines[0].startswith(b"%02d %05d " % answer):
        sys.exit(f"printed is not {answer} for each case: {set(lines)}")
    return count


def cost(program, case, answer, setup=()):
    """Of one case: two runs, the second with twice as many; the difference, divided by how many more. The setup's cases come before them in both."""
    return (instructions(program, setup, case, answer, 2 * MEASURED) - instructions(program, setup, case, answer, MEASURED)) / MEASURED
