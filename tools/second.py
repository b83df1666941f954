#!/usr/bin/env python3
"""A second implementation of the oven-stone recorder, to compare the programs with.

It is independent in language and in method: everything is worked out by brute force over plain lists, straight from
the definitions below. It serves only to say what the programs must print; no program of the recorder uses it.

How to run it (Python 3, standard library only):

  python3 tools/second.py bench < in.txt        print what the bench program must print for an input
  python3 tools/second.py shift < in.txt        the same for the shift program
  python3 tools/second.py playback < in.txt     the same for the playback program
  python3 tools/second.py masks                 print the 1,430 rows of the mask table

Beside it, tools/firings.py makes inputs from a seed, tools/compare.py runs the built programs on them, and tools/selftest.py
checks the known values and the laws between the definitions.

Definitions:

  Colder       Of two tenths the smaller is colder. Of two probe readings (margin, probe 0 to 7) the one with the
               smaller margin is colder, and at equal margins the one with the lower probe number. A reversed kind turns
               its order round. Each reading is turned into a key, so that "colder" is "has the smaller key".
  First        The first coldest place of l to r, both included, is the lowest place in it such that no reading
  coldest      in it is colder than the one there.
  Path         The path after place j arrived holds the places p up to j such that no place after p, up to j, is colder
               than p. So a place leaves the path when the first strictly colder one arrives; a tie keeps it.
  Removals     The removals at place c are the places that leave the path when c arrives.
  Shape        Two blocks of eight have the same shape number exactly when they have the same eight removal counts.
  number       The number is the rank, from 0, of the list of counts among all 1,430 possible ones in lexicographic
               order. A shorter block counts as if warmer readings followed.
  Mask         The cell of number t and end j is the byte with bit 128 >> p set for each place p on the path after j.
  Strip        A 16-bit big-endian count n, 2n bits with the most significant first, and zero bits to the byte's end.
               The bits of no readings are none. Those of a list are the bits of what stands before its first coldest
               place, a 1, the bits of what stands behind it, and a 0. That is the Cartesian tree, and comes to the same as a 0
               for each place that leaves the path, then a 1 for the place that arrives, and at the end a 0 for each place left.
  Balanced     n ones and n zeros, and no beginning with more zeros than ones.
  Depth        The depth of a place is the ones minus the zeros up to and including its one. The coldest place of a
               strip is the last place of least depth; it is replayed as the readings 32768 * depth - place.
  Clearance    Given over the last w readings, from one to all, when none is colder than the set reading; it keeps the count.
  Bake         Loaded on a clearance, which is then used up, while the count is from the kept one to 60 more; its start is
               the count. Unloaded, it gives its start, the last place and the first coldest place between them.
"""

import re
import sys
from functools import lru_cache
from itertools import accumulate, permutations, takewhile

BLOCK = 8
CAPACITY = 2048
LONGEST_LINE = 32
LARGEST_STRIP = 32768
LONGEST_TEXT = 2 * (2 + LARGEST_STRIP // 4)
HIGHEST_PROBE = 7
LONGEST_WAIT = 60

FULL, ABOVE_COUNT, TURNED_RANGE, BEYOND_COUNT = 3, 4, 5, 6
WRONG_WINDOW, CUT_BACK, TOO_LATE, NOTHING_BAKED, TOO_COLD = 7, 8, 9, 10, 12
TOO_SHORT, TOO_MANY, OTHER_LENGTH, UNBALANCED, FILLING = 18, 19, 20, 21, 22
MALFORMED = 23


# --- the order, the first coldest place and the path, over lists of keys ---


def first_coldest(keys, low, high):
    """The lowest place of low to high, both included, that holds the least key."""
    return keys.index(min(keys[low:high + 1]), low, high + 1)


def path_after(keys, end):
    """The path just after place end arrived."""
    return [p for p in range(end + 1) if not any(keys[q] < keys[p] for q in range(p + 1, end + 1))]


# --- shape numbers and masks ---


def removal_counts(keys):
    """The eight removal counts of a block; where a block is shorter, nothing more leaves."""
    paths = [len(path_after(keys, end)) for end in range(len(keys))]
    counts = [before + 1 - after for before, after in zip([0] + paths, paths)]
    return tuple(counts + [0] * (BLOCK - len(keys)))


@lru_cache(maxsize=None)
def example_blocks():
    """One block for each shape number, in order, found among all orders of eight different readings."""
    example = {removal_counts(block): block for block in permutations(range(BLOCK))}
    return [example[counts] for counts in sorted(example)]


@lru_cache(maxsize=None)
def ranks():
    """The rank of each possible list of removal counts."""
    return {removal_counts(block): number for number, block in enumerate(example_blocks())}


def shape_number(keys):
    """The shape number of a block of at most eight."""
    return ranks()[removal_counts(keys)]


def mask(keys, end):
    """The byte that shows the path after end, place 0 as the most significant bit."""
    return sum(128 >> place for place in path_after(keys, end))


def mask_row(number):
    """A line of the mask table: the shape number and its eight cells."""
    block = example_blocks()[number]
    return " ".join([str(number)] + [f"{mask(block, end):02x}" for end in range(BLOCK)])


def mask_rows(_):
    """The lines that the masks program prints."""
    return [mask_row(number) for number in range(len(example_blocks()))]


# --- strips ---


def strip_bits(keys):
    """The bits of a log's strip, without count and filling, as a text of 0 and 1."""
    bits, to_write = [], [range(len(keys))]
    # a stack of what is still to be written: bits, and ranges of places
    while to_write:
        part = to_write.pop()
        if isinstance(part, str):
            bits.append(part)
        elif part:
            coldest = first_coldest(keys, part[0], part[-1])
            to_write += ["0", range(coldest + 1, part.stop), "1", range(part.start, coldest)]
    return "".join(bits)


def packed(bits):
    """The bits as bytes, most significant first, filled with zeros."""
    filled = bits + "0" * (-len(bits) % 8)
    return bytes(int(filled[start:start + 8], 2) for start in range(0, len(filled), 8))


def unpacked(data):
    """The bits of the bytes, most significant first."""
    return "".join(f"{byte:08b}" for byte in data)


def strip_of(keys):
    """The strip of a log."""
    return len(keys).to_bytes(2, "big") + packed(strip_bits(keys))


def count_of(strip):
    """The count that a strip of two bytes or more begins with."""
    return int.from_bytes(strip[:2], "big")


def heights(bits):
    """Ones minus zeros, up to and including each bit."""
    return list(accumulate(1 if bit == "1" else -1 for bit in bits))


def balanced(bits):
    """As many ones as zeros, and no beginning with more zeros than ones."""
    return bits.count("1") == bits.count("0") and min(heights(bits), default=0) >= 0


def opening_fault(strip):
    """The number with which opening refuses the strip, or None when it accepts."""
    if len(strip) < 2:
        return TOO_SHORT
    count = count_of(strip)
    if count > LARGEST_STRIP:
        return TOO_MANY
    if len(strip) != 2 + (count + 3) // 4:
        return OTHER_LENGTH
    bits = unpacked(strip[2:])
    if not balanced(bits[:2 * count]):
        return UNBALANCED
    if "1" in bits[2 * count:]:
        return FILLING
    return None


def depths(strip):
    """The depth of each place of an accepted strip."""
    bits = unpacked(strip[2:])[:2 * count_of(strip)]
    return [height for bit, height in zip(bits, heights(bits)) if bit == "1"]


def coldest_of_strip(strip):
    """The last place of least depth, or None in the empty strip."""
    found = depths(strip)
    least = min(found, default=None)
    return max((place for place, depth in enumerate(found) if depth == least), default=None)


def replayed(strip):
    """The readings that an accepted strip is replayed as."""
    return [32768 * depth - place for place, depth in enumerate(depths(strip))]


# --- logs, and the lines of an input ---


class Log:
    """A list of readings with their keys and texts."""

    def __init__(self, key, text):
        self.key, self.text = key, text
        self.readings, self.keys = [], []

    def append(self, reading):
        if len(self.readings) == CAPACITY:
            return f"no {FULL}"
        self.readings.append(reading)
        self.keys.append(self.key(reading))
        return f"ok {len(self.readings)}"

    def cut(self, count):
        if count > len(self.readings):
            return f"no {ABOVE_COUNT}"
        del self.readings[count:], self.keys[count:]
        return f"ok {count}"

    def coldest(self, low, high):
        if low > high:
            return f"no {TURNED_RANGE}"
        if high >= len(self.readings):
            return f"no {BEYOND_COUNT}"
        place = first_coldest(self.keys, low, high)
        return f"{place} {self.text(self.readings[place])}"


def lines_of(data):
    """The lines of an input; what follows the last byte 10 is a line if it has a byte."""
    lines = data.split(b"\n")
    return lines if lines[-1] else lines[:-1]


SIGNED, PLAIN = rb" (-?[0-9]{1,9})", rb" ([0-9]{1,9})"


def command_of(forms, line):
    """The letter and the numbers of a line that has one of the forms, or None."""
    for letter, form in forms.items():
        found = re.fullmatch(form, line)
        if found:
            return letter, [int(number) for number in found.groups()]
    return None


# --- the bench program ---


BENCH_FORMS = {
    "A": rb"A" + SIGNED,
    "C": rb"C" + PLAIN,
    "H": rb"H" + PLAIN + PLAIN,
    "P": rb"P" + SIGNED + PLAIN,
    "Q": rb"Q" + PLAIN + PLAIN,
    "S": rb"S",
    "W": rb"W" + PLAIN + PLAIN,
}


class Bench:
    """The three logs, and what each line prints."""

    def __init__(self):
        self.cold = Log(lambda tenths: tenths, str)
        self.hot = Log(lambda tenths: -tenths, str)
        self.probes = Log(lambda reading: reading, lambda reading: f"{reading[0]}/{reading[1]}")

    def answer(self, line):
        command = command_of(BENCH_FORMS, line) if len(line) <= LONGEST_LINE else None
        if command is None:
            return f"no {MALFORMED}"
        letter, numbers = command
        act = {"A": self.take, "C": self.cut, "P": self.probe, "S": self.strip,
               "Q": self.cold.coldest, "H": self.hot.coldest, "W": self.probes.coldest}[letter]
        return act(*numbers)

    def take(self, tenths):
        self.hot.append(tenths)
        return self.cold.append(tenths)

    def cut(self, count):
        self.hot.cut(count)
        return self.cold.cut(count)

    def probe(self, margin, number):
        # a probe number above 7 makes the line malformed, so this comes before the log is asked
        return f"no {MALFORMED}" if number > HIGHEST_PROBE else self.probes.append((margin, number))

    def strip(self):
        return strip_of(self.cold.keys).hex()


def bench_answers(data):
    """The lines that the bench program prints for an input."""
    bench = Bench()
    return [bench.answer(line) for line in lines_of(data)]


# --- the shift program ---


def number_in(word, form, low, high):
    """The number that a word of this form writes, if it is from low to high, or None."""
    if not re.fullmatch(form, word):
        return None
    # no number of more digits is in range
    size = int(word.lstrip(b"+-").lstrip(b"0")[:30] or b"0")
    number = -size if word.startswith(b"-") else size
    return number if low <= number <= high else None


def whole(word):
    """A window or a length: a number of 64 bits, which may have a plus."""
    return number_in(word, rb"\+?[0-9]+", 0, 2**64 - 1)


def tenths(word):
    """A reading: a number of 32 bits, which may have a sign."""
    return number_in(word, rb"[+-]?[0-9]+", -2**31, 2**31 - 1)


class Shift:
    """A log, the count that the clearance in hand keeps and the start of the bake on the stone, and what each line prints."""

    def __init__(self):
        self.log = Log(lambda reading: reading, str)
        self.kept = self.start = None

    def answer(self, line):
        acts = {b"A": (self.log.append, tenths), b"C": (self.log.cut, whole), b"K": (self.clear, whole, tenths),
                b"L": (self.load,), b"U": (self.unload,), b"X": (self.abandon,)}
        letter, *words = line.split(b" ")
        act, *readers = acts.get(letter, (None,))
        numbers = [read(word) for read, word in zip(readers, words)]
        if act is None or len(words) != len(readers) or None in numbers:
            return f"no {MALFORMED}"
        return act(*numbers)

    def clear(self, window, least):
        count = len(self.log.keys)
        if self.start is not None:
            return f"no {MALFORMED}"
        if not 1 <= window <= count:
            return f"no {WRONG_WINDOW}"
        if any(key < least for key in self.log.keys[count - window:]):
            return f"no {TOO_COLD}"
        self.kept = count
        return f"clear {count}"

    def load(self):
        count = len(self.log.keys)
        if self.kept is None:
            return f"no {MALFORMED}"
        if count < self.kept:
            return f"no {CUT_BACK}"
        if count > self.kept + LONGEST_WAIT:
            return f"no {TOO_LATE}"
        self.kept, self.start = None, count
        return f"bake {count}"

    def unload(self):
        keys, start = self.log.keys, self.start
        if start is None:
            return f"no {MALFORMED}"
        if len(keys) <= start:
            return f"no {CUT_BACK if len(keys) < start else NOTHING_BAKED}"
        self.start = None
        return f"{start} {len(keys) - 1} {first_coldest(keys, start, len(keys) - 1)}"

    def abandon(self):
        if self.start is None:
            return f"no {MALFORMED}"
        start, self.start = self.start, None
        return f"ended {start}"


def is_text(line):
    """Whether the bytes are UTF-8."""
    try:
        line.decode()
    except UnicodeDecodeError:
        return False
    return True


def shift_lines(data):
    """The lines of a shift: byte 10 ends a line, with a byte 13 before it or not; what is left is a line if it has a byte."""
    *ended, rest = data.split(b"\n")
    return [line.removesuffix(b"\r") for line in ended] + ([rest] if rest else [])


def shift_answers(data):
    """The lines that the shift program prints for an input. It ends with an error at a line that is no text."""
    shift = Shift()
    return [shift.answer(line) for line in takewhile(is_text, shift_lines(data))]


# --- the playback program ---


def bytes_spelled(line):
    """The bytes that hexadecimal digits of either case spell, or None where the line has another form or is too long."""
    fits = len(line) <= LONGEST_TEXT and re.fullmatch(rb"([0-9A-Fa-f]{2})*", line)
    return bytes.fromhex(line.decode()) if fits else None


def first_line(data):
    """The bytes of an input before the first byte 10, or all of them."""
    return data.split(b"\n", 1)[0]


def playback_answers(data):
    """The lines that the playback program prints for an input: what the log replayed from its first line answers, or who refuses."""
    strip = bytes_spelled(first_line(data))
    if strip is None:
        return ["no text"]
    fault = opening_fault(strip)
    if fault is not None:
        return [f"no strip {fault}"]
    if count_of(strip) > CAPACITY:
        return [f"no log {FULL}"]
    keys = replayed(strip)
    coldest = first_coldest(keys, 0, len(keys) - 1) if keys else "none"
    return [f"count {len(keys)}", f"coldest {coldest}", f"strip {strip_of(keys).hex()}"]


# --- the command line ---


ANSWERS = {"bench": bench_answers, "shift": shift_answers, "playback": playback_answers, "masks": mask_rows}


def expected(program, data):
    """What a program must print for an input, as bytes."""
    return "".join(line + "\n" for line in ANSWERS[program](data)).encode()


def main():
    if len(sys.argv) != 2 or sys.argv[1] not in ANSWERS:
        sys.exit(__doc__)
    program = sys.argv[1]
    sys.stdout.buffer.write(expected(program, b"" if program == "masks" else sys.stdin.buffer.read()))


if __name__ == "__main__":
    main()
