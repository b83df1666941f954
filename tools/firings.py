#!/usr/bin/env python3
"""Makes firings: inputs of the programs bench, shift and playback, each from a seed.

A seed gives a program, a kind of firing and the input's bytes, and means the same under every Python.

  python3 tools/firings.py 7 > in.txt       the firing of seed 7; program and kind are told on standard error
  python3 tools/firings.py store            puts larger fixed inputs in the place of those that the gate runs the programs on: it
                                            overwrites crates/*/stdin, and crates/*/stdout with what tools/second.py says of them

For bench and shift `store` makes one input of every kind of firing, several times over. Playback reads one line, so each of its
inputs is one strip, and what it has to leave unread may stand behind it; `store` gives it the strip of a full log.
"""

import sys
from functools import partial
from itertools import accumulate
from pathlib import Path

from second import CAPACITY, LARGEST_STRIP, LONGEST_TEXT, LONGEST_WAIT, Bench, Shift, count_of, expected, lines_of, packed, strip_of

ROOT = Path(__file__).resolve().parent.parent


class Dice:
    """A small generator of its own (xorshift), so that a seed means the same under every Python."""

    def __init__(self, seed):
        self.state = (seed * 0x9E3779B97F4A7C15 + 0x1234567) % 2**64 or 1
        for _ in range(16):
            self.roll()

    def roll(self):
        state = self.state
        state ^= state << 13 & 2**64 - 1
        state ^= state >> 7
        state ^= state << 17 & 2**64 - 1
        self.state = state
        return state >> 16

    def below(self, bound):
        return self.roll() % bound

    def between(self, low, high):
        return low + self.below(high - low + 1)

    def chance(self, one_in):
        return self.below(one_in) == 0

    def choice(self, items):
        return items[self.below(len(items))]


# --- readings ---


def random_readings(dice, level, length):
    return [dice.between(level - 500, level + 500) for _ in range(length)]


def stepped(steps, level):
    return list(accumulate(steps, initial=level))[1:]


def drifting_readings(dice, level, length):
    return stepped([dice.choice([-1, 0, 0, 0, 1]) for _ in range(length)], level)


def falling_readings(dice, level, length):
    return stepped([-dice.between(1, 9) for _ in range(length)], level)


def rising_readings(dice, level, length):
    return stepped([dice.between(1, 9) for _ in range(length)], level)


def flat_readings(dice, level, length):
    return [level] * length


def toothed_readings(dice, level, length):
    """Rises again and again from the same level, so that a tie may follow long after."""
    period = dice.between(2, 20)
    return [level + place % period for place in range(length)]


def few_readings(dice, level, length):
    return [level + dice.below(3) for _ in range(length)]


def utmost_readings(dice, level, length):
    """The largest numbers that a line of bench can hold, next to small ones."""
    return [dice.choice([-999999999, -999999998, -1, 0, 1, 999999998, 999999999]) for _ in range(length)]


STRETCHES = {
    "random": random_readings, "slow drift with ties": drifting_readings, "falling": falling_readings, "rising": rising_readings,
    "flat": flat_readings, "teeth": toothed_readings, "three values": few_readings, "utmost numbers": utmost_readings,
}


# --- inputs in the making ---


class Maker:
    """Lines of an input in the making."""

    def __init__(self, dice):
        self.dice, self.lines = dice, []
        self.stretches = list(STRETCHES.values())

    def begin(self):
        """Before each firing of an input."""
        self.stretches = list(STRETCHES.values())

    def add(self, line):
        self.lines.append(line if isinstance(line, bytes) else line.encode())

    def readings(self, length):
        level = self.dice.choice([0, -40, self.dice.between(-300, 300), self.dice.between(2000, 2400)])
        return self.dice.choice(self.stretches)(self.dice, level, length)

    def data(self):
        """The input; for half of the seeds the last line has no byte 10."""
        return b"\n".join(self.lines) + self.dice.choice([b"", b"\n"])


def changed(dice, line):
    """A line with one byte put in, taken out or replaced, other than byte 10."""
    place = dice.below(len(line) + 1)
    byte = bytes([dice.choice(list(b" -+0123456789ACHPQSWKLUXabcdefxz\r\t\0"))])
    return line[:place] + dice.choice([b"", byte, byte]) + line[place + dice.below(2):]


# --- bench ---


def malformed_lines(dice):
    """One line of each malformed kind."""
    number = str(dice.below(3000)).encode()
    letter = dice.choice([b"A", b"C", b"H", b"P", b"Q", b"W"])
    ten_digits = str(dice.between(10**9, 10**10 - 1)).encode()
    odd_byte = bytes([dice.choice([0, 1, 9, 11, 12, 13, 31, 127, 128, 160, 178, 194, 255])])
    return [
        b"", b" ", b"-", b"0", number, odd_byte, letter, letter + b" ", letter + number, b" " + letter + b" " + number,
        dice.choice([b"B", b"D", b"R", b"T", b"X", b"Z", b"@", b"[", b"0", b"\xc3\x81"]) + b" " + number,
        letter.lower() + b" 0 1", b"a " + number, b"s", b"S ", b"S 0", b"SS", b"AA 1", letter * 2 + b" 0 0",
        b"A", b"A ", b"A -", b"A --1", b"A - 1", b"A 1-", b"A 1-2", b"A -" + number + b"-", b"A +" + number,
        b"A 1 2", b"A  " + number, b"A " + number + b" ", b"A " + number + b"\r", b"A\t" + number, b"A " + ten_digits,
        b"A -" + ten_digits, b"A 0000000001", b"A 1.5", b"A 0x1", b"A 1/", b"A :1", b"A 1e3", b"A \xd9\xa3",
        b"A " + number + b"\0", b"A\0" + number, b"\0A " + number, b"A " + odd_byte + number,
        b"C", b"C -1", b"C -0", b"C +0", b"C 0 0", b"C  0", b"C 0 ", b"C " + ten_digits, b"C 0000000000", b"C 0\r",
        b"P 1", b"P 1 ", b"P 1  1", b"P 1 -1", b"P 1 -0", b"P -1 +1", b"P - 1", b"P 1 2 3", b"P 1/2", b"P 1 2 ",
        b"P " + number + b" " + ten_digits, b"P " + ten_digits + b" 1", b"P 1 1\r", b"P 1\t1",
        b"P 0 8", b"P -15 8", b"P " + number + b" 9", b"P " + number + b" 10", b"P 1 256", b"P 1 263", b"P 1 999999999",
        b"Q 0", b"Q 0 ", b"Q  0 0", b"Q 0  0", b"Q 0 0 0", b"Q -0 0", b"Q 0 -1", b"Q 0,0", b"Q 0 0 ", b"Q 0 0\r",
        b"Q 0 " + ten_digits, b"Q " + ten_digits + b" 0", b"Q 0 0000000000", b"H 0", b"H 0 +1", b"H -1 0",
        b"W 0", b"W 0 0x", b"W 0 0/0", b"W -1 0", b"q 0 0", b"h 0 0", b"w 0 0", b"p 1 1", b"c 0",
        b"A " + b"1" * 30, b"A " + b"1" * 31, b"A " + b"0" * 32, b"A 1" + b" " * 29, b"A 1" + b" " * 30,
        b"Q 0 0" + b" " * dice.between(27, 60), b"A" * 32, b"A" * 33, b" " * 32 + b"A 1", b" " * 33 + b"A 1",
        b"x" * dice.between(33, 70) + b"A " + number, b"A 1" + odd_byte * dice.between(29, 300),
        b"\xff" * dice.between(1, 40), b"\xef\xbb\xbfA 1", b"\0" * dice.between(1, 40),
    ]


class BenchMaker(Maker):
    """Lines for bench, played as they come, so that the next ones can be chosen by the logs' counts."""

    def __init__(self, dice):
        super().__init__(dice)
        self.bench = Bench()

    def begin(self):
        super().begin()
        self.cut_to(0)

    def add(self, line):
        super().add(line)
        # a question and a strip change no log
        if self.lines[-1][:1] in b"ACP":
            self.bench.answer(self.lines[-1])

    def tenths(self):
        return len(self.bench.cold.keys)

    def probes(self):
        return len(self.bench.probes.keys)

    def spelled(self, number):
        """A number, now and then with zeros before it, and nought now and then with a minus sign."""
        if not self.dice.chance(40):
            return str(number)
        if number == 0:
            return "-0"
        return f"{number:0{10 if number < 0 else 9}}"

    def append(self, readings):
        for reading in readings:
            self.add(f"A {self.spelled(reading)}")

    def some(self):
        """Some readings, of no length in particular."""
        return self.readings(self.dice.choice([1, 3, 8, 20, self.dice.between(1, 120)]))

    def take_tenths(self):
        for reading in self.some():
            self.append([reading])
            self.interrupt()

    def take_probes(self):
        for margin in self.some():
            self.add(f"P {self.spelled(margin)} {'0' * self.dice.chance(40)}{self.dice.below(8)}")
            self.interrupt()

    def interrupt(self):
        """Now and then something between two readings."""
        if self.dice.chance(3):
            self.ask()
        if self.dice.chance(25):
            self.spoil()
        if self.dice.chance(30):
            self.cut()

    def cut(self):
        count, dice = self.tenths(), self.dice
        self.cut_to(dice.choice([
            0, count // 2, dice.below(count + 1), dice.below(count + 1), max(count - dice.below(20), 0), count // 8 * 8,
            max(count - 1, 0), count, count + 1, CAPACITY, CAPACITY + 1, 999999999]))

    def cut_to(self, count):
        self.add(f"C {count}")

    def range_within(self, count):
        """A question's range: mostly within the count, of any width, and sometimes not."""
        dice, last = self.dice, max(count - 1, 0)
        low, high = sorted([dice.below(count + 1), dice.below(count + 1)])
        near = min(low + dice.below(20), last)
        return dice.choice([
            (low, high), (min(low, last), min(high, last)), (min(low, last), min(high, last)), (min(low, near), near),
            (low // 8 * 8, min(low // 8 * 8 + 7, last)), (min(low, last), min(low, last)), (0, last), (low, last),
            (last, last), (low, count), (count, count), (high + 1, low), (low + 1, low), (count + 9, count), (count, 0),
            (0, high), (low, 999999999), (999999999, low), (999999999, 999999999), (CAPACITY - 1, CAPACITY),
        ])

    def ask(self):
        letter = self.dice.choice("QHW")
        low, high = self.range_within(self.probes() if letter == "W" else self.tenths())
        self.add(f"{letter} {low} {high}")

    def spoil(self):
        """A malformed line, or an earlier one with a byte changed, which may be a command again."""
        if self.lines and self.dice.chance(2):
            self.add(changed(self.dice, self.dice.choice(self.lines)))
        else:
            self.add(self.dice.choice(malformed_lines(self.dice)))

    def write_strip(self):
        self.add("S")

    def step(self):
        # a full log gets few more readings: what it answers is always the same
        tenths = [self.take_tenths] * 8 if self.tenths() < CAPACITY else [self.take_tenths] + [self.cut] * 4
        probes = [self.take_probes] * (4 if self.probes() < CAPACITY else 1)
        self.dice.choice(tenths + probes + [self.write_strip] * 2 + [self.ask] * 24 + [self.spoil] * 4 + [self.cut] * 2)()

    def mix(self, lines=None):
        """Steps of all sorts."""
        enough = len(self.lines) + (lines or self.dice.between(20, 500))
        while len(self.lines) < enough:
            self.step()

    def of_one_stretch(self, stretch):
        """Readings of one sort only: a mixture, and one long run of them in the end."""
        self.stretches = [stretch]
        self.mix()
        self.append(self.readings(self.dice.between(1, 300)))
        for _ in range(30):
            self.ask()
        self.write_strip()

    def fill_tenths(self):
        """A log up to its brim and at it, cut back a little, and up to its brim again."""
        self.append(self.readings(CAPACITY - self.tenths()))
        self.at_the_brim("A 0")
        self.cut_to(CAPACITY + 1)
        self.cut_to(CAPACITY - self.dice.below(40))
        self.append(self.readings(CAPACITY - self.tenths()))
        self.at_the_brim("A -999999999")

    def fill_probes(self):
        for margin in self.readings(CAPACITY - self.probes()):
            self.add(f"P {margin} {self.dice.below(8)}")
        self.at_the_brim("P 0 0")
        self.add("P 0 8")

    def at_the_brim(self, one_more):
        """Readings that a full log refuses, and questions about it."""
        for _ in range(20):
            self.add(one_more)
            self.ask()
        for letter in "QHW":
            self.add(f"{letter} 0 {CAPACITY - 1}")
            self.add(f"{letter} 0 {CAPACITY}")
        self.write_strip()

    def cut_everywhere(self):
        """A cut to every place below the count, and other readings behind each, so that what was there before is written over."""
        self.append(self.readings(self.dice.between(1, 90)))
        for count in range(self.tenths(), -1, -1):
            self.cut_to(count)
            self.ask()
            self.append(self.readings(self.dice.choice([0, 1, 2, 7, 8, 9, self.dice.below(30)])))
            self.ask()
            if self.dice.chance(4):
                self.write_strip()

    def every_malformed_line(self):
        for line in malformed_lines(self.dice):
            self.add(line)
            if self.dice.chance(2):
                self.step()

    def changed_lines(self):
        """Lines of which each second one is another with a byte changed."""
        self.mix(50)
        for line in list(self.lines[-200:]):
            self.add(line)
            self.add(changed(self.dice, line))


# --- shift ---


ODD_SHIFT_LINES = [
    "", " ", "A", "A ", "A x", "A 1 2", "A  1", "A 2147483648", "A -2147483649", "A -", "A +", "A +-7", "A ++7", "A --1", "A 1-", "A 1+",
    "A 1.5", "A 0x1", "A 1_0", "A\t1", "A 1\t", " A 1", "A 1 ", "a 1", "AA 1", "A 99999999999999999999", "A \u0663", "\u00c1 1", "\u00ff",
    "L\u00c3", "C", "C ", "C +", "C -1", "C -0", "C 1 1", "C x", "C 18446744073709551616", "K", "K 1", "K 1 ", "K  1", "K 1  2", "K 1 2 3",
    "K -1 0", "K -0 0", "K 1 x", "K x 1", "K 1 -", "K + 1", "K 18446744073709551616 0", "K 1 2147483648", "K 1 -2147483649", "L 1", "L ", " L",
    "U ", "U 0", "X 0", "X ", "l", "u", "x", "LL", "Q 0 1", "S", "P 1 1", "+", "-", "\0", "A\0", "A 1\0", "\r", "\rL", "L\rL", "L\r\r",
    "A 5 \r", "z" * 300,
]

RARE_SHIFT_LINES = [
    "A -0", "A +0", "A +7", "A 2147483647", "A -2147483648", "A 000000000012", "A -000000000012", "C +0", "C 999999999",
    "C 18446744073709551615", "C 000000000003", "K 000000000001 -2147483648", "K 1 2147483647", "K 18446744073709551615 0", "K 1 -0",
    "K +1 +5", "L\r", "U\r", "A 5\r", "C 0\r", "K 1 5\r",
]


class ShiftMaker(Maker):
    """Lines for shift, played as they come, so that each next one can be chosen by what is in hand."""

    def __init__(self, dice):
        super().__init__(dice)
        self.shift = Shift()

    def begin(self):
        super().begin()
        self.add("X")
        self.add("C 0")

    def add(self, line):
        super().add(line)
        # a byte 13 before the line's end is no byte of it
        self.shift.answer(self.lines[-1].removesuffix(b"\r"))

    def count(self):
        return len(self.shift.log.keys)

    def take(self, length):
        for reading in self.readings(length):
            self.add(f"A {reading}")

    def reach(self, count):
        """Takes or cuts readings, so that there are so many."""
        if count >= self.count():
            self.take(count - self.count())
        else:
            self.add(f"C {max(0, count)}")

    def cut(self):
        count = self.count()
        near = [mark + self.dice.below(3) - 1 for mark in [self.shift.kept, self.shift.start] if mark is not None]
        self.add(f"C {max(0, self.dice.choice(near + [count, count + 1, count - 1, count - self.dice.below(9), 0]))}")

    def coldest(self, window):
        return min(self.shift.log.keys[-window:] if 0 < window <= self.count() else [0])

    def clear(self):
        dice, count = self.dice, self.count()
        window = dice.choice([0, 1, count, count + 1, dice.below(count + 1), dice.below(20)])
        coldest = self.coldest(window)
        self.add(f"K {window} {dice.choice([coldest - 1, coldest, coldest, coldest + 1, -50])}")

    def grant(self):
        """A clearance that is given, if there is a reading and no bake."""
        window = self.dice.between(1, max(1, self.count()))
        self.add(f"K {window} {self.coldest(window) - self.dice.below(2)}")

    def wait(self):
        """Readings up to the edge of the wait, or about it."""
        if self.shift.kept is not None:
            self.take(max(0, self.shift.kept + LONGEST_WAIT - self.count() + self.dice.below(3) - 1))

    def order(self):
        """Mostly the order that fits what is in hand."""
        fitting = "UUUUX" if self.shift.start is not None else "L"
        self.add(self.dice.choice(fitting * 6 + "LUX"))

    def spoil(self):
        self.add(self.dice.choice(ODD_SHIFT_LINES + RARE_SHIFT_LINES))

    def some(self):
        self.take(self.dice.choice([1, 1, 2, 3, 8, self.dice.below(40)]))

    def step(self):
        clears = [self.clear] * (6 if self.shift.start is None else 1)
        self.dice.choice(clears + [self.order] * 8 + [self.some] * 4 + [self.cut] * 2 + [self.wait, self.spoil])()

    def mix(self):
        for _ in range(self.dice.between(10, 200)):
            self.step()

    def some_of(self, marks):
        return [self.dice.choice(marks) for _ in range(self.dice.between(1, 4))]

    def bake_at_the_edges(self):
        """Loads about a clearance's edges and ends about a bake's start, from just below to just above."""
        for _ in range(self.dice.between(1, 8)):
            self.reach(self.dice.between(2, 200))
            self.grant()
            kept = self.count()
            for wait in self.some_of([-1, 0, 1, LONGEST_WAIT - 1, LONGEST_WAIT, LONGEST_WAIT + 1, LONGEST_WAIT + 2]):
                self.reach(kept + wait)
                self.add(self.dice.choice("LLLLUXK").replace("K", "K 1 0"))
            start = self.count()
            for more in self.some_of([-1, 0, 1, 2, 7, 8, 9, 70]):
                self.reach(start + more)
                self.add(self.dice.choice("UUUULX"))
            self.add("X")

    def full_shift(self):
        """Bakes at the brim of the log, where a reading is refused."""
        for _ in range(3):
            self.reach(CAPACITY - self.dice.below(LONGEST_WAIT + 3))
            self.grant()
            self.take(self.dice.below(LONGEST_WAIT + 3))
            self.add("L")
            self.take(self.dice.below(40))
            self.add("U")
            self.add("X")
            self.cut()

    def every_odd_line(self):
        for line in ODD_SHIFT_LINES + RARE_SHIFT_LINES:
            self.add(line)
            if self.dice.chance(3):
                self.step()
        # longer than what is read at a time
        self.add("A " + "0" * 9000 + "7")
        self.add("z" * 20000)


# --- playback ---


class PlaybackMaker(Maker):
    """Lines for playback, of which an input has one: strips, whole and damaged."""

    def data(self):
        """One of the lines: alone, ended by byte 10, or before more that is not read."""
        return self.dice.choice(self.lines) + self.dice.choice([b"", b"\n", b"\n0000\n", b"\n" + self.dice.choice(self.lines)])

    def add_strip(self, strip):
        text = strip.hex()
        if self.dice.chance(8):
            text = self.dice.choice([text.upper(), "".join(self.dice.choice([c, c.upper()]) for c in text)])
        self.add(text)

    def length(self):
        return self.dice.choice([0, 1, 2, 3, 4, 5, 8, 9, 16, self.dice.below(40), self.dice.below(300)])

    def strip(self, length):
        return strip_of(self.readings(length))

    def balanced_strip(self, count):
        """A strip of any balanced bits, made with no readings."""
        lean, bits, ones, height = self.dice.between(1, 9), [], 0, 0
        while len(bits) < 2 * count:
            up = height == 0 or ones < count and self.dice.below(10) < lean
            ones, height = (ones + 1, height + 1) if up else (ones, height - 1)
            bits.append("1" if up else "0")
        return count.to_bytes(2, "big") + packed("".join(bits))

    def of_firings(self):
        for _ in range(20):
            self.add_strip(self.strip(self.length()))

    def balanced(self):
        for count in [self.length(), self.length(), self.dice.below(CAPACITY + 1)]:
            self.add_strip(self.balanced_strip(count))

    def every_bit(self):
        """A short strip with each bit turned round in its turn, those of the count and the filling too."""
        strip = self.strip(self.dice.below(24))
        for place in range(8 * len(strip)):
            self.add_strip(turned(strip, place))

    def some_bits(self):
        """A longer strip with a few bits turned round; two in one line may balance each other."""
        strip = self.balanced_strip(self.dice.between(20, 400))
        for _ in range(10):
            damaged = strip
            for _ in range(self.dice.between(1, 3)):
                damaged = turned(damaged, self.dice.between(16, 8 * len(strip) - 1))
            self.add_strip(damaged)

    def other_lengths(self):
        """Strips with bytes cut off, bytes put on, and other counts."""
        strip = self.strip(self.length())
        for cut in range(1, min(len(strip), 6) + 1):
            self.add_strip(strip[:-cut])
        for more in [b"\0", b"\0\0", b"\x80", bytes([self.dice.below(256)]), strip]:
            self.add_strip(strip + more)
        count, any_other = count_of(strip), self.dice.below(65536)
        for other in [0, count + 1, max(count - 1, 0), count + 4, CAPACITY, LARGEST_STRIP, LARGEST_STRIP + 1, any_other, 65535]:
            self.add_strip(other.to_bytes(2, "big") + strip[2:])

    def full_log(self):
        self.add_strip(self.strip(CAPACITY))

    def about_the_capacity(self):
        for count in [CAPACITY - 1, CAPACITY, CAPACITY + 1]:
            strip = self.balanced_strip(count)
            self.add_strip(strip)
            self.add_strip(turned(strip, self.dice.between(16, 15 + 2 * count)))

    def long_strips(self):
        """More readings than the log has room for, up to the longest strip, whole and damaged, and beyond it."""
        for count in [self.dice.between(CAPACITY + 1, LARGEST_STRIP), LARGEST_STRIP]:
            strip = self.balanced_strip(count)
            for made in [strip, turned(strip, self.dice.between(16, 15 + 2 * count)), strip[:-1], b"\x80\1" + strip[2:]]:
                self.add_strip(made)
        for more in [-2, -1, 0, 1, 2, 2 * LONGEST_TEXT + self.dice.below(2)]:
            self.add("8000" + self.dice.choice("0aF") * (LONGEST_TEXT + more - 4))

    def spoiled_text(self):
        """Lines that spell no bytes, and strips with a character changed, which may spell other bytes."""
        text = self.strip(self.length()).hex().encode()
        for line in [b"", b" ", b"0", b"00 ", b" 0000", b"00 00", b"0x0000", b"000g", b"@000", b"000/", b"00:0", b"00`0", b"0000\r", b"\0\0",
                     b"\xff" * 4, b"00\xb2\xb2", b"+0000", b"-000", text[:-1], text + b"0", text + b"\r", text + b" ", b"\t" + text]:
            self.add(line)
        for _ in range(10):
            self.add(changed(self.dice, text))


def turned(strip, place):
    """The strip with one bit turned round."""
    return strip[:place // 8] + bytes([strip[place // 8] ^ 128 >> place % 8]) + strip[place // 8 + 1:]


# --- kinds of firing ---


MAKERS = {"bench": BenchMaker, "shift": ShiftMaker, "playback": PlaybackMaker}

KINDS = {
    "bench": {name: partial(BenchMaker.of_one_stretch, stretch=stretch) for name, stretch in STRETCHES.items()} | {
        "mixed": BenchMaker.mix, "cuts": BenchMaker.cut_everywhere, "malformed lines": BenchMaker.every_malformed_line,
        "changed lines": BenchMaker.changed_lines, "full log": BenchMaker.fill_tenths, "full log of probes": BenchMaker.fill_probes,
    },
    "shift": {
        "mixed bakes": ShiftMaker.mix, "bakes at the edges": ShiftMaker.bake_at_the_edges,
        "full shift": ShiftMaker.full_shift, "odd lines": ShiftMaker.every_odd_line,
    },
    "playback": {
        "strips of firings": PlaybackMaker.of_firings, "balanced strips": PlaybackMaker.balanced,
        "every bit damaged": PlaybackMaker.every_bit, "damaged strips": PlaybackMaker.some_bits,
        "other lengths": PlaybackMaker.other_lengths, "strips about the capacity": PlaybackMaker.about_the_capacity,
        "full log": PlaybackMaker.full_log, "long strips": PlaybackMaker.long_strips, "spoiled text": PlaybackMaker.spoiled_text,
    },
}

# in the fixed sets, rounds of all kinds; kinds whose lines are many or long come once, and playback's set is one strip
ROUNDS = {"bench": 8, "shift": 40, "playback": 0}
ONCE = {"full log", "full log of probes", "full shift", "odd lines"}
FIXED_SEED = 7


def firing(seed):
    """The program, the kind and the input of a seed."""
    dice = Dice(seed)
    program, kind = dice.choice([(program, kind) for program in KINDS for kind in KINDS[program]])
    maker = MAKERS[program](dice)
    KINDS[program][kind](maker)
    return program, kind, maker.data()


def plan(program):
    """The firings of a program's fixed set: rounds of all kinds, and in the end the kinds that come once."""
    often = [make for kind, make in KINDS[program].items() if kind not in ONCE]
    once = [make for kind, make in KINDS[program].items() if kind in ONCE]
    return often * ROUNDS[program] + once


def fixed_set(program):
    """The input that `store` makes for a program: every kind of firing for bench and shift, and one strip for playback."""
    maker = MAKERS[program](Dice(FIXED_SEED))
    for make in plan(program):
        maker.begin()
        make(maker)
    return maker.data()


def store():
    for program in MAKERS:
        place, data = ROOT / "crates" / program, fixed_set(program)
        (place / "stdin").write_bytes(data)
        (place / "stdout").write_bytes(expected(program, data))
        print(f"{program}: {len(plan(program))} firings, {len(lines_of(data))} lines")
    (ROOT / "crates" / "masks" / "stdout").write_bytes(expected("masks", b""))


def main():
    if sys.argv[1:] == ["store"]:
        store()
    elif len(sys.argv) == 2 and sys.argv[1].isdecimal():
        program, kind, data = firing(int(sys.argv[1]))
        print(f"{program}: {kind}", file=sys.stderr)
        sys.stdout.buffer.write(data)
    else:
        sys.exit(__doc__)


if __name__ == "__main__":
    main()
