#!/usr/bin/env python3
"""The table of 4,096 error patterns (rules 5.2 and 15.2): of the words with one syndrome the one with the least number of ones, and where
several have that number, the least of them as a number; and the same patterns as the program stores them (rules 5.9 and 15.8).

    tools/patterns.py patterns     prints crates/table/proofs/Table.antt
    tools/patterns.py stored       prints crates/table/proofs/Packed.antt
    tools/patterns.py source       prints crates/lookup/src/entries.rt
    tools/patterns.py --write      writes all of them
    tools/patterns.py --check      compares all of them with what it would print; exit 1 where one differs

All are printed in the layout of `rt fmt`. Nothing trusts this script: crates/table proves the rule of the lists that it prints, and
crates/lookup that the source's numbers are those of the second.
"""

import itertools
import pathlib
import sys

POSITIONS = 24
SYNDROMES = 4_096
MOST_ONES = 4

# A stored pattern is four fields of five bits, and 31 is no position.
FIELD = 5
NONE = 31

# Two numbers hold four of them: their lowest 16 bits each in one, their highest four in the other.
LOW = 16
HIGH = 4
TOGETHER = 4

# a times b for the characters 0, 1, w, v, numbered 0 to 3
PRODUCTS = ((0, 0, 0, 0), (0, 1, 2, 3), (0, 2, 3, 1), (0, 3, 1, 2))
W, V = 2, 3

ROOT = pathlib.Path(__file__).resolve().parent.parent


def columns(word):
    """The six columns of a word, each four bits from top to bottom; position 1 is worth 2^23."""
    bits = [word >> (POSITIONS - position) & 1 for position in range(1, POSITIONS + 1)]
    return [bits[start:start + 4] for start in range(0, POSITIONS, 4)]


def projection(column):
    total = 0
    for character, bit in enumerate(column):
        total ^= PRODUCTS[character][bit]
    return total


def syndrome(word):
    parities = [sum(column) % 2 for column in columns(word)]
    top_row = sum(column[0] for column in columns(word)) % 2
    a, b, c, x4, x5, x6 = [projection(column) for column in columns(word)]
    number = 0
    for parity in parities[1:] + [top_row]:
        number = number << 1 | (parity ^ parities[0])
    for character in (
        x4 ^ a ^ b ^ c,
        x5 ^ PRODUCTS[a][V] ^ PRODUCTS[b][W] ^ c,
        x6 ^ PRODUCTS[a][W] ^ PRODUCTS[b][V] ^ c,
    ):
        number = number << 2 | character
    return number


def words_of(ones):
    """All words with so many ones, in ascending order."""
    return sorted(sum(1 << place for place in places) for places in itertools.combinations(range(POSITIONS), ones))


def patterns():
    table = {}
    for ones in range(MOST_ONES + 1):
        for word in words_of(ones):
            table.setdefault(syndrome(word), word)
    return [table[s] for s in range(SYNDROMES)]


def stored(pattern):
    """A pattern as a number of 20 bits: the positions of its ones, ascending, then 31."""
    positions = [position for position in range(1, POSITIONS + 1) if pattern >> (POSITIONS - position) & 1]
    entry = 0
    for field in positions + [NONE] * (MOST_ONES - len(positions)):
        entry = entry << FIELD | field
    return entry


def packed(table):
    """The two lists of numbers that hold all entries."""
    entries = [stored(pattern) for pattern in table]
    fours = [entries[start:start + TOGETHER] for start in range(0, SYNDROMES, TOGETHER)]
    lows = [sum((entry % (1 << LOW)) << (LOW * k) for k, entry in enumerate(four)) for four in fours]
    highs = [sum((entry >> LOW) << (HIGH * k) for k, entry in enumerate(four)) for four in fours]
    return lows, highs


def low_text(low):
    return f"0x{low:016X}"


def high_text(high):
    return f"0x{high:04X}"


def filled(words):
    """As many of them in a line as `rt fmt` puts there."""
    return ["    " + " ".join(words[start:start + 12]) for start in range(0, len(words), 12)]


def source_numbers(name, kind, lines):
    """A const of the source."""
    return [f"pub(crate) const {name}: [{kind}; {SYNDROMES // TOGETHER}] = ["] + lines + ["];"]


def source(table):
    lows, highs = packed(table)
    lines = [
        "// The stored error pattern of each syndrome (rule 15.8). Number k of each holds those of the syndromes 4 k to 4 k + 3, from the lowest bits up: their",
        "// lowest 16 bits and their highest four. Printed by tools/patterns.py.",
    ]
    lines += source_numbers("LOWS", "u64", [f"    {low_text(low)}," for low in lows])
    lines += [""]
    lines += source_numbers("HIGHS", "u16", filled([f"{high_text(high)}," for high in highs]))
    return "\n".join(lines) + "\n"


def listed(comment, *lists):
    """A file of the proofs with lists of numbers, each with its name, its numbers as text and how many stand in a line."""
    lines = [comment, "-- Assumes nothing.", "use mathlib.Core.List.{List, [], ◌∷◌}", "use Prim.Native.Nat.{ℕ}"]
    for name, numbers, width in lists:
        lines += ["", f"unfoldable pub {name} : List ℕ", f"{name} ="]
        lines += ["    " + " ∷ ".join(numbers[start:start + width]) + " ∷" for start in range(0, len(numbers), width)]
        lines += ["    []"]
    return "\n".join(lines) + "\n"


def patterns_list(table):
    comment = "-- The error pattern of each syndrome, from syndrome 0 up. Printed by tools/patterns.py."
    return listed(comment, ("table", [f"0x{pattern:06X}" for pattern in table], 8))


def stored_lists(table):
    lows, highs = packed(table)
    comment = "-- The stored error pattern of each syndrome (rule 15.8), four to a number, from syndrome 0 up. Printed by tools/patterns.py."
    return listed(comment, ("lows", [low_text(low) for low in lows], 4), ("highs", [high_text(high) for high in highs], 8))


FILES = {
    "patterns": ("crates/table/proofs/Table.antt", patterns_list),
    "stored": ("crates/table/proofs/Packed.antt", stored_lists),
    "source": ("crates/lookup/src/entries.rt", source),
}


def write():
    table = patterns()
    for path, text in FILES.values():
        (ROOT / path).parent.mkdir(parents=True, exist_ok=True)
        (ROOT / path).write_text(text(table), encoding="utf-8")
    return 0


def check():
    table = patterns()
    wrong = [path for path, text in FILES.values() if (ROOT / path).read_text(encoding="utf-8") != text(table)]
    for path in wrong:
        print(f"{path} is not what tools/patterns.py prints", file=sys.stderr)
    return 1 if wrong else 0


def main(words):
    if words == ["--check"]:
        return check()
    if words == ["--write"]:
        return write()
    if len(words) == 1 and words[0] in FILES:
        sys.stdout.reconfigure(encoding="utf-8")
        sys.stdout.write(FILES[words[0]][1](patterns()))
        return 0
    print(__doc__.strip(), file=sys.stderr)
    return 2


if __name__ == "__main__":
    sys.exit(main(sys.argv[1:]))
