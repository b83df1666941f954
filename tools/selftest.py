#!/usr/bin/env python3
"""Checks the second program and the maker of firings: the known values, and the laws between the definitions.

  python3 tools/selftest.py
"""

from itertools import permutations, product

from firings import KINDS, ODD_SHIFT_LINES, STRETCHES, Dice, PlaybackMaker, firing, fixed_set, malformed_lines
from second import (ANSWERS, BLOCK, LONGEST_TEXT, Bench, Shift, bench_answers, coldest_of_strip, example_blocks, first_coldest,
                    mask_row, opening_fault, packed, path_after, playback_answers, ranks, replayed, shape_number,
                    shift_answers, strip_bits, strip_of)

EXAMPLE_LINES = [b"A 2315", b"A 2290", b"A 2302", b"A 2290", b"Q 0 3", b"H 0 3", b"S", b"P -15 3", b"P -15 1", b"W 0 1",
                 b"C 1", b"Q 0 3", b"S", b"Q 0"]
EXAMPLE_ANSWERS = ["ok 1", "ok 2", "ok 3", "ok 4", "1 2290", "0 2315", "0004b4", "ok 1", "ok 2", "1 -15/1",
                   "ok 1", "no 6", "000180", "no 23"]


# --- the definitions ---


def test_shape_numbers():
    assert len(example_blocks()) == 1430
    assert shape_number([2300] * 8) == 0
    assert shape_number([8, 7, 6, 5, 4, 3, 2, 1]) == 1429
    assert shape_number([5, 3, 4, 1, 9, 2, 6, 8]) == 1270
    assert shape_number([2, 1]) == shape_number([2, 1, 3, 4, 5, 6, 7, 8]) == 1001
    assert shape_number([]) == 0


def test_possible_counts():
    """The counts found among the orders of eight are all that fit: at no place have more left than came before it."""
    fitting = [()]
    for place in range(BLOCK):
        fitting = [counts + (more,) for counts in fitting for more in range(place + 1 - sum(counts))]
    assert fitting == sorted(ranks())


def test_masks():
    assert mask_row(1270) == "1270 80 40 60 10 18 14 16 17"
    assert mask_row(0) == "0 80 c0 e0 f0 f8 fc fe ff"
    assert mask_row(1429) == "1429 80 40 20 10 08 04 02 01"


def test_same_number_same_path():
    """A number stands for its path, also where readings tie, and the path tells the first coldest place."""
    dice = Dice(1)
    for _ in range(3000):
        block = [dice.below(dice.between(1, 9)) for _ in range(BLOCK)]
        example = example_blocks()[shape_number(block)]
        for end in range(BLOCK):
            assert path_after(block, end) == path_after(example, end)
        low, high = sorted([dice.below(BLOCK), dice.below(BLOCK)])
        assert first_coldest(block, low, high) == next(p for p in path_after(example, high) if p >= low)


def coldest_by_definition(keys, low, high):
    places = range(low, high + 1)
    return next(p for p in places if not any(keys[q] < keys[p] for q in places))


def bits_by_the_path(keys):
    """The bits of a strip by the path: a 0 for each place that leaves, a 1 for each that arrives, a 0 for each that is left."""
    paths = [path_after(keys, end) for end in range(len(keys))]
    arrivals = ["0" * (len(before) + 1 - len(after)) + "1" for before, after in zip([[]] + paths, paths)]
    return "".join(arrivals) + "0" * len(paths[-1] if paths else [])


def test_first_coldest_and_strips_by_definition():
    """What is chosen for speed agrees with the definitions taken word for word, for every sort of readings."""
    dice = Dice(2)
    for stretch in STRETCHES.values():
        for size in [0, 1, 2, dice.between(3, 12), dice.between(13, 90)]:
            keys = stretch(dice, 2300, size)
            assert len(keys) == size
            assert strip_bits(keys) == bits_by_the_path(keys)
            if keys:
                low, high = sorted([dice.below(size), dice.below(size)])
                assert first_coldest(keys, low, high) == coldest_by_definition(keys, low, high)
    for block in example_blocks():
        assert strip_bits(block) == bits_by_the_path(block)


# --- the programs ---


def played_back(text):
    return " / ".join(playback_answers(text.encode()))


def test_playback():
    assert strip_of([2315, 2290, 2302, 2290]).hex() == "0004b4"
    assert strip_of([]).hex() == "0000"
    assert replayed(bytes.fromhex("0004b4")) == [32768, 32767, 65534, 65533]
    answers = {"\n": 18, "00": 18, "000000": 20, "8001": 19, "8000": 20, "0001": 20, "000140": 21, "0001c0": 21, "0001a0": 22,
               "0001c1": 21, "0004b400": 20, "00024b": 21}
    for text, fault in answers.items():
        assert played_back(text) == f"no strip {fault}", text
    for rest in ["", "\n", "\n0000", "\n\nx\n"]:
        # the first line is all that is read
        assert played_back("0004B4" + rest) == "count 4 / coldest 1 / strip 0004b4", rest
    assert played_back("0000") == "count 0 / coldest none / strip 0000"
    for text in ["0", "00 00", "0000\r", " 0000"]:
        assert played_back(text) == "no text", text
    assert played_back("") == "no strip 18"
    maker = PlaybackMaker(Dice(3))
    for count, answer in [(2047, "count 2047"), (2048, "count 2048"), (2049, "no log 3"), (32768, "no log 3")]:
        text = maker.balanced_strip(count).hex()
        assert played_back(text).startswith(answer), count
    assert len(text) == LONGEST_TEXT and played_back(text + "00") == played_back(text + "0") == "no text"
    assert played_back(text + "\n0") == "no log 3"


def test_replays():
    """Opening accepts exactly the strips of logs; a replayed log has the same strip and the same coldest place."""
    accepted = []
    for bits in map("".join, product("01", repeat=12)):
        strip = b"\0\6" + packed(bits)
        if opening_fault(strip) is None:
            accepted.append(strip)
    assert accepted == sorted({strip_of(block) for block in permutations(range(6))})
    for strip in accepted + [strip_of(block) for block in example_blocks()]:
        keys = replayed(strip)
        assert strip_of(keys) == strip
        assert coldest_of_strip(strip) == first_coldest(keys, 0, len(keys) - 1)


def test_bench():
    for last in [b"", b"\n"]:
        assert bench_answers(b"\n".join(EXAMPLE_LINES) + last) == EXAMPLE_ANSWERS
    assert bench_answers(b"") == []
    assert bench_answers(b"\n") == bench_answers(b" ") == ["no 23"]
    assert bench_answers(b"S\n\n") == ["0000", "no 23"]
    assert bench_answers(b"A -0\nA 000000007\nA -999999999\nQ 0 1\nQ 1 1\nQ 2 2\nH 0 2") == [
        "ok 1", "ok 2", "ok 3", "0 0", "1 7", "2 -999999999", "1 7"]
    assert bench_answers(b"A 5\n" * 16 + b"Q 3 12\nQ 4 3\nQ 99 98\nQ 0 16\nC 17\nC 0")[16:] == [
        "3 5", "no 5", "no 5", "no 6", "no 4", "ok 0"]
    assert bench_answers(b"P 0 7\n" * 2049 + b"P 0 8")[2047:] == ["ok 2048", "no 3", "no 23"]


def shift_of(text):
    """The answers to the words of a text, each a line with `_` for its spaces."""
    return " / ".join(shift_answers("".join(word.replace("_", " ") + "\n" for word in text.split()).encode()))


def test_shift():
    assert shift_of("A_5 A_4 K_2_4 L A_6 A_3 A_3 U") == "ok 1 / ok 2 / clear 2 / bake 2 / ok 3 / ok 4 / ok 5 / 2 4 3"
    assert shift_of("K_0_0 A_1 K_2_0 K_1_2 K_1_1 C_0 L") == "no 7 / ok 1 / no 7 / no 12 / clear 1 / ok 0 / no 8"
    assert shift_of("A_1 K_1_1 L L U C_0 U X X") == "ok 1 / clear 1 / bake 1 / no 23 / no 10 / ok 0 / no 8 / ended 1 / no 23"
    wait = shift_answers(b"A 1\nK 1 1\n" + b"A 1\n" * 60 + b"L\nX\nK 1 1\n" + b"A 1\n" * 61 + b"L\nC 121\nL\n")
    assert wait[62] == "bake 61" and wait[-3:] == ["no 9", "ok 121", "bake 121"]
    assert shift_answers(b"A 1\r\nX\rX\nA 1\n\nC 0") == ["ok 1", "no 23", "ok 2", "no 23", "ok 0"]
    assert shift_answers(b"A 5\r\nA 6\r") == ["ok 1", "no 23"]
    assert shift_answers(b"A 5\nA \xff\nA 6\n") == ["ok 1"]
    assert shift_of("A_-000000012 A_999999999 A_+1 A_1000000000 K_2_-12 C_+0") == "ok 1 / ok 2 / ok 3 / ok 4 / clear 4 / ok 0"
    assert shift_of("A_2147483647 A_2147483648 A_-2147483648 A_-2147483649 K_2_-2147483648") == "ok 1 / no 23 / ok 2 / no 23 / clear 2"
    assert shift_of("C_18446744073709551615 C_18446744073709551616 C_-0 K_+1_+1 A_+ A_-0") == "no 4 / no 23 / no 23 / no 7 / no 23 / ok 1"
    for line in ODD_SHIFT_LINES:
        assert shift_answers(line.encode() + b"\n") == ["no 23"], line


# --- firings ---


def test_malformed_lines():
    """Each of them is malformed, whatever the dice put into it."""
    for seed in range(50):
        for line in malformed_lines(Dice(seed)):
            assert b"\n" not in line and Bench().answer(line) == "no 23", line


def test_firings():
    """A seed means one firing, and the first few hundred have every kind."""
    made = [firing(seed) for seed in range(300)]
    assert made[:20] == [firing(seed) for seed in range(20)]
    assert len({data for _, _, data in made}) > 290
    assert {made[:2] for made in made} == {(program, kind) for program in KINDS for kind in KINDS[program]}


def test_fixed_sets():
    """What `store` makes for bench and for shift brings out every sort of answer, and for playback it is the strip of a full log."""
    refusals = {"bench": [3, 4, 5, 6, 23], "shift": [3, 4, 7, 8, 9, 10, 12, 23]}
    others = {"bench": {"ok 0", "ok 2048"}, "shift": {"ok 2048"}}
    for program in refusals:
        answers = ANSWERS[program](fixed_set(program))
        assert {f"no {number}" for number in refusals[program]} | others[program] <= set(answers), program
    first_words = {answer.split()[0] for answer in ANSWERS["shift"](fixed_set("shift"))}
    assert first_words >= {"ok", "clear", "bake", "ended"}
    assert "count 2048" in playback_answers(fixed_set("playback"))


def test_playback_lines():
    """The lines that playback's inputs are taken from bring out every sort of answer, and an input has the answers of one of them."""
    wanted = {"no text", "no log 3", "coldest none", "count 2048"} | {f"no strip {fault}" for fault in range(18, 23)}
    found = set()
    for seed in range(3):
        for kind, make in KINDS["playback"].items():
            maker = PlaybackMaker(Dice(seed))
            make(maker)
            answers = [playback_answers(line) for line in maker.lines]
            assert playback_answers(maker.data()) in answers, kind
            found |= {answer for given in answers for answer in given}
    assert wanted <= found, wanted - found


def main():
    tests = [value for name, value in globals().items() if name.startswith("test_")]
    for test in tests:
        test()
    print(f"ok: {len(tests)} tests")


if __name__ == "__main__":
    main()
