"""Lines that ask for shuffled palindromes (02, L7), in few letters and in all
26, and what their replies have to show: each refusal with and without those
behind it, entries of every sort, and nothing that the laws of L7 forbid. To
judge them, each stretch is counted whole and its letters are put away in
pairs: not the way in which the second program finds its answer."""

import itertools
import re

from drawing import joined, random_word, repeated_word, room_near
from selfcheck import (
    first_fault, is_counted_as_shuffled, shuffle_tests, small_strings)

ALL_LETTERS = bytes(range(ord("A"), ord("Z") + 1))
OUTSIDE = bytes(x for x in range(256)
                if x not in ALL_LETTERS and x != ord("\n"))
# Next to A and Z and to a and z, A and Z with another highest bit, digits, and
# what may stand at the end of a line.
LIKELY_OUTSIDE = b"@[`az{\xc1\xda09 \r\0\xff"

LENGTHS = [1, 2, 3, 4, 5, 6, 7, 8, 9, 10, 13, 16, 20, 26, 27, 30]
LONG_LENGTHS = [200, 255, 256, 257, 511, 512, 513, 700, 999, 1000, 1000]
TOO_LONG_LENGTHS = [1002, 1016, 1023, 1024, 1025, 1032, 1033]

# In longer strings exact palindromes are not looked for.
PLAIN_WAY_LETTERS = 60


# Strings.

def some_letters(source):
    """Two, the four of DNA, a few others, or all."""
    few = bytes(source.sample(ALL_LETTERS, source.randrange(1, 9)))
    two = bytes(source.sample(ALL_LETTERS, 2))
    return source.choice([b"AB", b"YZ", two, b"ACGT", b"ACGT", few,
                          ALL_LETTERS, ALL_LETTERS])


def exact_palindrome(source, letters, length):
    arm = random_word(source, letters, length // 2)
    return arm + random_word(source, letters, length % 2) + arm[::-1]


def reordered_palindrome(source, letters, length):
    return bytes(source.sample(
        exact_palindrome(source, letters, length), length))


def flanked(make_word):
    """With up to eight other letters before it and behind it."""
    def make(source, letters, length):
        before, behind = (random_word(source, letters, source.randrange(9))
                          for _ in range(2))
        word_length = max(length - len(before) - len(behind), 1)
        word = make_word(source, letters, word_length)
        return (before + word + behind)[:length]
    return make


def each_letter_in_turn(source, letters, length):
    """Only far lengths pass: all letters but one have to come round again."""
    word = bytes(source.sample(letters, len(letters)))
    return (word * (length + 1))[:length]


WORDS = [random_word, repeated_word, exact_palindrome, reordered_palindrome,
         flanked(exact_palindrome), flanked(reordered_palindrome),
         each_letter_in_turn]


def any_word(source, lengths):
    make_word = source.choice(WORDS)
    return make_word(source, some_letters(source), source.choice(lengths))


def with_byte_outside(source, string, byte):
    """Once in the first place, once in the last and once in any."""
    places = [0, len(string) - 1, source.randrange(len(string))]
    return [string[:place] + bytes([byte]) + string[place + 1:]
            for place in places]


def words_to_spoil(source):
    """Each with a byte outside that is to come in."""
    for byte in LIKELY_OUTSIDE:
        yield any_word(source, LENGTHS), byte
    for lengths in (LONG_LENGTHS, [1001], TOO_LONG_LENGTHS, TOO_LONG_LENGTHS):
        yield any_word(source, lengths), source.choice(OUTSIDE)


# Lines.

def shuffle_line(entries, string):
    return joined(b"A", entries, string)


def just_enough(_source, string):
    return len(string)


def more(source, string):
    return len(string) + source.choice([1, 2, 7, 256])


def too_few(source, string):
    count = len(string)
    return source.choice([0, count - 1, count - 1, source.randrange(count)])


def short_lines(source):
    """Each sort of word at each length."""
    lines = [shuffle_line(entries, b"") for entries in (0, 1, 9999)]
    for make_word in WORDS:
        for length in LENGTHS:
            string = make_word(source, some_letters(source), length)
            lines += [shuffle_line(lent(source, string), string)
                      for lent in (just_enough, more)]
    return lines


def every_small_string_lines(source):
    """Of any two letters and of any three."""
    lines = []
    for count, most in ((2, 7), (3, 5)):
        letters = source.sample(ALL_LETTERS, count)
        lines += [shuffle_line(len(string), string)
                  for string in small_strings(letters, most)]
    return lines


def long_lines(source):
    """Each sort of word; and 1,000 letters of which all are one shuffled
    palindrome, and whose letters come round again."""
    strings = [
        make_word(source, some_letters(source), source.choice(LONG_LENGTHS))
        for make_word in WORDS]
    strings += [make_word(source, some_letters(source), 1000)
                for make_word in (reordered_palindrome, each_letter_in_turn)]
    return [shuffle_line(lent(source, string), string) for string, lent in zip(
        strings, itertools.cycle([just_enough, more]))]


def faulty_lines(source):
    """Strings too long, bytes outside and too few entries, each fault with and
    without the earlier ones, and right lines between them."""
    lines = []
    for string, byte in words_to_spoil(source):
        strings = [string] + with_byte_outside(source, string, byte)
        lines += [shuffle_line(lent(source, word), word) for word in strings
                  for lent in (just_enough, more, too_few)]
    return source.sample(lines, len(lines))


def any_shuffle_line(source, string):
    """A line among those of other sorts, most of them with capitals."""
    capitals = bytes(x for x in string if x in ALL_LETTERS)
    string = source.choice([string, capitals, capitals])
    return shuffle_line(room_near(source, len(string)), string)


# What the replies have to show.

REPLY = re.compile(rb"A (\d+)\nE((?: \d+)*)\n")


def passing_lengths(string, start):
    """Of the stretches from a place on those in which at most one letter is
    left when equal letters are put away in pairs."""
    left_over, passing = set(), []
    for place in range(start, len(string)):
        letter = string[place]
        if letter in left_over:
            left_over.remove(letter)
        else:
            left_over.add(letter)
        if len(left_over) <= 1:
            passing.append(place - start + 1)
    return passing


def longest_exact(string, start):
    """The longest palindrome from a place on: the same when read backwards."""
    return max(end - start for end in range(start + 1, len(string) + 1)
               if string[start:end] == string[start:end][::-1])


def broken_laws(string, start, length, passing):
    """What an entry says that can't be. An even length leaves no letter over,
    so that one more letter would pass."""
    laws = [
        ("a stretch of the string", 1 <= length <= len(string) - start),
        ("counted as a shuffled palindrome",
         is_counted_as_shuffled(string[start:start + length])),
        ("a length that passes", length in passing),
        ("the longest that passes", length >= passing[-1]),
        ("even only at the end",
         length % 2 == 1 or start + length == len(string)),
        ("as long as the longest exact palindrome",
         len(string) > PLAIN_WAY_LETTERS
         or length >= longest_exact(string, start))]
    return [name for name, holds in laws if not holds]


def outcomes_of_entry(string, start, length, passing):
    """What an entry is an instance of."""
    if length == 1:
        yield "one letter"
    else:
        yield "an even length" if length % 2 == 0 else "an odd length above 1"
    if start + length < len(string):
        yield "short of the last letter"
    else:
        yield "up to the last letter" if start > 0 else "the whole string"
    if passing != list(range(1, length + 1)):
        yield "beyond lengths that fail"
    stretch = string[start:start + length]
    yield "exact" if stretch == stretch[::-1] else "only when reordered"


def accepted_with(lent, string):
    if not string:
        return "no letters"
    return "just enough" if len(lent) == len(string) else "entries that stay"


class Replies:
    """Goes through lines and their replies, and keeps what is seen and the
    faults."""

    def __init__(self, lines, replies):
        self.seen = set()
        self.faults = []
        for line, reply in zip(lines, replies):
            form = REPLY.fullmatch(reply)
            if form is None:
                self.fault(line, "not two lines with numbers")
            else:
                self.take(line, int(form[1]),
                          [int(field) for field in form[2].split()])

    def fault(self, line, what):
        self.faults.append("%s: %s" % (line[:60].decode("latin-1"), what))

    def take(self, line, number, lent):
        _, entries, string = line.split(b" ", 2)
        tests = shuffle_tests(string, int(entries))
        if number != first_fault(tests):
            self.fault(line, "not the first refusal that holds")
        if len(lent) != int(entries):
            self.fault(line, "not all lent entries")
        held = [str(refusal) for refusal, holds in tests if holds]
        self.seen.add(" before ".join(held) or accepted_with(lent, string))
        count = 0 if held else len(string)
        if any(entry != 9 for entry in lent[count:]):
            self.fault(line, "not all others as lent")
        self.filled(line, string, lent[:count])

    def filled(self, line, string, lengths):
        for start, length in enumerate(lengths):
            passing = passing_lengths(string, start)
            for law in broken_laws(string, start, length, passing):
                self.fault(line, "entry %d is not %s" % (start, law))
            self.seen.update(
                outcomes_of_entry(string, start, length, passing))


SORTS_OF_ENTRIES = {
    "one letter", "an even length", "an odd length above 1",
    "the whole string", "up to the last letter", "short of the last letter",
    "beyond lengths that fail", "exact", "only when reordered"}
REFUSED = {"1 before 20 before 11", "1 before 20", "1 before 11", "1",
           "20 before 11", "20", "11"}


def fault_finder(wanted, perhaps=frozenset()):
    """Broken laws, and outcomes that are not there though they have to be, or
    that are there though they can't be."""
    def find_faults(lines, replies):
        found = Replies(lines, replies)
        faults = found.faults
        faults += ["never %s" % one for one in wanted - found.seen]
        faults += ["shows %s" % one for one in found.seen - wanted - perhaps]
        return sorted(faults)
    return find_faults


# Name, how many scripts, their lines, and what finds faults.
GROUPS = [
    ("1 to 6: every sort of word", 4, short_lines, fault_finder(
        SORTS_OF_ENTRIES
        | {"no letters", "just enough", "entries that stay"})),
    ("1, 2 and 6: every small string", 1, every_small_string_lines,
     fault_finder(SORTS_OF_ENTRIES | {"no letters", "just enough"})),
    ("1, 2 and 4: long strings", 3, long_lines, fault_finder(
        SORTS_OF_ENTRIES | {"just enough", "entries that stay"})),
    ("3 and 4: refusals", 4, faulty_lines, fault_finder(
        REFUSED | {"just enough", "entries that stay"}, SORTS_OF_ENTRIES)),
]
