"""Writes an antt module with a theorem for each stream of records: what the rules tell of it is what the independent program tells.

usage: streams.py SPECS TOLD FILE..   SPECS: of the rules; TOLD: the independent program; a FILE has the records of a stream from power-up
"""
import os
import re
import subprocess
import sys

specs, program, files = sys.argv[1], sys.argv[2], sys.argv[3:]
here = os.path.dirname(os.path.abspath(__file__))


def unfoldable(path):
    """The definitions of a module that have to unfold for it to compute."""
    return re.findall(r"^unfoldable pub (\S+) :", open(path).read(), flags=re.M)


def numbers(values):
    return " ∷ ".join([*map(str, values), "[]"])


def expected(records):
    """What the program `told` prints for the records, as one list of numbers."""
    lines = subprocess.run([program], input=records, stdout=subprocess.PIPE, check=True).stdout.decode().splitlines()
    *lines, registers, pool, output, memory = map(str.split, lines)
    for _, answer, value, line, state, *sums_and_bytes in lines:
        yield from (int(answer), int(value, 16), int(line), int(state))
        yield from map(int, sums_and_bytes[:2])
        yield from bytes.fromhex("".join(sums_and_bytes[2:]))
    yield from map(int, registers[1:] + pool[1:])
    yield from bytes.fromhex(output[1] + memory[1])


# every definition that has to unfold, under a name with its module in front: the library's that the rules use, and those of the rules and of Told
modules = [("rules", name, f"{specs}/{name}.antt") for name in re.findall(r"^pub mod (\S+)", open(f"{specs}/Lib.antt").read(), flags=re.M)]
uses, unfolded = ["use Rattle.std.proofs.Math.Bool.{xor as Bool·xor}"], ["Bool·xor"]
for crate, module, path in [*modules, ("told_streams", "Told", f"{here}/Told.module")]:
    names = unfoldable(path)
    unfolded += [f"{module}·{name}" for name in names]
    if names:
        uses.append(f"use Rattle.{crate}.specs.{module}.{{{', '.join(f'{name} as {module}·{name}' for name in names)}}}")

print("use Rattle.std.specs.Prelude.{◌≡◌, refl, [], ◌∷◌}", "use Rattle.told_streams.specs.Told.{told}", *uses, sep="\n")
for path in files:
    name = os.path.basename(path)
    records = open(path, "rb").read()
    print(f"\n{name} : told {len(records) // 8} ({numbers(records)}) ≡ {numbers(expected(records))}")
    print(f"unfolding {' '.join(unfolded)}\n{name} = refl")
