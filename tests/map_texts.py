"""Texts written by hand from 01 and request L4 (02): what each byte's partner
is under the two maps supplied. No program made any of them.

A letter by itself is a palindrome exactly where it is its own partner, and two
letters are one exactly where the second is the first one's partner. So these
lines settle both maps but for byte 10, which ends a line."""

LETTERS = b"ACGT"
PAIRS = [b"AT", b"TA", b"CG", b"GC"]
# Byte 10 can't stand in a line.
BYTES = [bytes([x]) for x in range(256) if x != 10]
TWO_LETTERS = [bytes([x, y]) for x in LETTERS for y in LETTERS]


def single(map_name, letter, length):
    return b"C 0 " + map_name + b" * 1 " + letter, "C 0 1\nE %d" % length


def double(map_name, letters, lengths):
    return (b"C 0 " + map_name + b" * 3 " + letters,
            "C 0 3\nE %d %d %d" % lengths)


MAP_READINGS = [
    ("1: of the complement only A, C, G and T have another partner", [
        single(b"C", letter, 0 if letter in LETTERS else 1)
        for letter in BYTES]),
    ("1: A with T and C with G, each way, and no other two of the four", [
        double(b"C", letters, (0, 2 if letters in PAIRS else 0, 0))
        for letters in TWO_LETTERS]),
    ("1: neither small letters nor U nor N", [
        double(b"C", b"at", (1, 0, 1)),
        double(b"C", b"cg", (1, 0, 1)),
        double(b"C", b"At", (0, 0, 1)),
        double(b"C", b"AU", (0, 0, 1)),
        double(b"C", b"UA", (1, 0, 0)),
        double(b"C", b"NN", (1, 2, 1))]),
    ("3: under the plain map each byte is its own partner", [
        single(b"I", letter, 1) for letter in BYTES] + [
        double(b"I", letters, (1, 2 if letters[0] == letters[1] else 0, 1))
        for letters in TWO_LETTERS]),
]
