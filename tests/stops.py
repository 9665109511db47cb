"""Lines that ask where a palindrome stops (02, L3), over all maps and
alphabets, and what their replies have to show: each refusal, each case, the
length that the fill gives too, and nothing that the laws of a stop forbid."""

import palindromes
import second
from alphabets import (
    LENGTHS, LETTERS_FOR, PAIRS, spelt_string, usable_map,
    with_letter_outside)
from drawing import joined, random_word, repeated_word
from selfcheck import CLOSED, WITH_OWN_PARTNER, broken_laws

# A spelling is a map and an alphabet; pairs are of places here. The right ones
# are those that an opening accepts, but for the alphabet without letters.
SPELLINGS = PAIRS
RIGHT_SPELLINGS = [
    (map_name, alphabet) for map_name, alphabet in SPELLINGS
    if alphabet in CLOSED.get(map_name, []) and alphabet != b"E"]

TOO_LARGE_D = [16, 17, 31, 32, 255, 256, 257, 271, 272, 1000, 9999]
LONG_LENGTHS = [200, 255, 256, 257, 511, 512, 513, 700, 999, 1000, 1000]


# Strings. A fold is a palindrome of the map but for some of its pairs.

def fold(source, spelling, letters, arm_length, wrong_pairs):
    """Two arms and no middle letter; so many pairs are no partners."""
    arm = random_word(source, letters, arm_length)
    other_arm = bytearray(arm[::-1].translate(usable_map(spelling[0])))
    for place in source.sample(range(arm_length), wrong_pairs):
        other_arm[place] = source.choice(
            [x for x in letters if x != other_arm[place]])
    return arm + bytes(other_arm)


def blocked_fold(source, spelling, d, letters):
    """Its middle centre has more wrong pairs than d lets pass."""
    arm_length = d + 1 + source.randrange(5)
    wrong_pairs = source.randrange(d + 1, arm_length + 1)
    return fold(source, spelling, letters, arm_length, wrong_pairs)


def whole_fold(source, spelling, d, letters):
    """All of it is a palindrome with at most d errors. Every other time it has
    a middle letter, where one is its own partner."""
    arm_length = source.randrange(1, 21)
    wrong_pairs = source.randrange(min(d, arm_length) + 1)
    word = fold(source, spelling, letters, arm_length, wrong_pairs)
    letter_map = usable_map(spelling[0])
    middles = [x for x in letters if letter_map[x] == x]
    if middles and source.random() < 0.5:
        middle = bytes([source.choice(middles)])
        word = word[:arm_length] + middle + word[arm_length:]
    return word


def flanked_fold(source, spelling, d, letters):
    """The middle of a fold, with other letters before and behind it."""
    make = source.choice([blocked_fold, whole_fold])
    word = make(source, spelling, d, letters)
    cut = max(len(word) // 2 - 12, 0)
    before, behind = (random_word(source, letters, source.randrange(9))
                      for _ in range(2))
    return before + word[cut:len(word) - cut] + behind


def drawn_string(source, spelling, d):
    """Palindromes end to end, any letters, or a fold with others around it."""
    letters = source.choice(LETTERS_FOR[spelling[1]])
    if source.random() < 0.4:
        return flanked_fold(source, spelling, d, letters)
    return spelt_string(source, *spelling, source.choice(LENGTHS))


def shuffled_numbers(source, first, last):
    """All of them in some order, and again in others."""
    while True:
        yield from source.sample(range(first, last + 1), last + 1 - first)


# Lines.

def fill_line(d, spelling, string):
    return joined(b"C", d, *spelling, max(2 * len(string) - 1, 0), string)


def stop_line(d, spelling, centre, string):
    return joined(b"D", d, *spelling, centre, string)


def every_centre(d, spelling, string):
    """The fill, then each centre and the first one past the last."""
    centres = range(max(2 * len(string), 1))
    return [fill_line(d, spelling, string)] \
        + [stop_line(d, spelling, centre, string) for centre in centres]


def any_centre(source, string):
    """One of the string's, or one past the last."""
    n = len(string)
    inside = source.randrange(max(2 * n - 1, 1))
    return source.choice(
        [inside, inside, max(2 * n - 1, 0), 2 * n, inside + 256, 1999, 9999])


def faulty_lines(source, spelling):
    """Strings too long, letters outside, d too large and centres past the
    last, the later faults with and without the earlier ones."""
    string = spelt_string(source, *spelling, source.choice(LENGTHS))
    strange = with_letter_outside(source, spelling[1], string)
    too_long = spelt_string(source, *spelling, 1001) or b"A" * 1001
    any_d = source.choice([0, 1, 15] + TOO_LARGE_D)
    return [
        stop_line(any_d, spelling, source.choice([0, 2000, 2001, 9999]),
                  too_long + b"A" * source.randrange(20)),
        stop_line(any_d, spelling, any_centre(source, strange), strange),
        stop_line(source.choice(TOO_LARGE_D), spelling,
                  any_centre(source, string), string),
        stop_line(source.randrange(16), spelling,
                  2 * len(string) + source.choice([0, 1, 256, 7000]), string)]


def strings_to_stop_in(source, spelling, all_d, errors_allowed):
    """Strings, each with a d. The first three are made so that each case that
    can come up does, the first of them with letters whose partners under C
    are others."""
    letters = LETTERS_FOR[spelling[1]]
    strings = [(0, blocked_fold(source, spelling, 5, letters[0]))]
    for make in (blocked_fold, whole_fold):
        d = next(errors_allowed)
        strings.append((d, make(source, spelling, d, source.choice(letters))))
    for d in (source.randrange(3), next(all_d), next(all_d)):
        strings.append((d, drawn_string(source, spelling, d)))
    return strings


def every_centre_lines(source):
    """Each d from 0 to 15 comes up."""
    lines = []
    all_d = shuffled_numbers(source, 0, 15)
    errors_allowed = shuffled_numbers(source, 1, 15)
    for spelling in SPELLINGS:
        lines += faulty_lines(source, spelling)
        lines += every_centre(source.randrange(16), spelling, b"")
        if spelling in RIGHT_SPELLINGS:
            for d, string in strings_to_stop_in(
                    source, spelling, all_d, errors_allowed):
                lines += every_centre(d, spelling, string)
    return lines


# Long strings.

def long_string(source, spelling, d, length):
    """One palindrome with about d errors, a word again and again, or any
    letters."""
    letters = source.choice(LETTERS_FOR[spelling[1]])
    sort = source.randrange(4)
    if sort == 0:
        return repeated_word(source, letters, length)
    if sort == 1:
        return random_word(source, letters, length)
    wrong_pairs = source.choice([0, d, d + 1, d + 1, 40])
    word = fold(source, spelling, letters, length // 2, wrong_pairs)
    return word + random_word(source, letters, length % 2)


def some_centres(source, n):
    """The first and last ones, those of the middle, and any others."""
    near = [0, 1, 2, n - 2, n - 1, n, 2 * n - 4, 2 * n - 3, 2 * n - 2,
            2 * n - 1]
    return near + [source.randrange(2 * n - 1) for _ in range(6)]


def long_lines(source):
    """Strings of all sorts; then 1,000 letters that are one palindrome with d
    errors, and some with one error more."""
    strings = []
    all_d = shuffled_numbers(source, 0, 15)
    for spelling in RIGHT_SPELLINGS:
        d = next(all_d)
        length = source.choice(LONG_LENGTHS)
        strings.append((d, spelling, long_string(source, spelling, d, length)))
    for more in (0, 1):
        d, spelling = source.randrange(1, 16), source.choice(RIGHT_SPELLINGS)
        letters = source.choice(LETTERS_FOR[spelling[1]])
        strings.append((d, spelling, fold(
            source, spelling, letters, 500, d + more)))
    lines = []
    for d, spelling, string in strings:
        lines.append(fill_line(d, spelling, string))
        lines += [stop_line(d, spelling, centre, string)
                  for centre in some_centres(source, len(string))]
    return lines


def any_stop_line(source, string):
    """A line among those of other sorts."""
    d = source.choice([0, 0, 1, 1, 2, 3, 15, 16, 256])
    spelling = source.choice(SPELLINGS + 6 * RIGHT_SPELLINGS)
    return stop_line(d, spelling, any_centre(source, string), string)


# What the replies have to show.

def end_of(first, length, count):
    at_left, at_right = first == 0, first + length == count
    if at_left and at_right:
        return "an end at both"
    return "an end at the left" if at_left else "an end at the right"


def outcome(d, centre, string, answer):
    """What an accepted answer is an instance of."""
    length, case, left, right = answer
    if case == palindromes.BARRED:
        return "a barred centre"
    if case == palindromes.END_MET:
        first = palindromes.start_of_span(centre, length)
        return end_of(first, length, len(string))
    if left == right:
        return "a middle letter"
    # Where a pair blocks, all d errors are inside it.
    return "a pair behind errors" if d > 0 else "a pair behind none"


ENDS = {"an end at the left", "an end at the right", "an end at both"}
PAIRS_THAT_BLOCK = {"a pair behind errors", "a pair behind none"}


def outcomes_of(map_name, alphabet):
    """All that can come of a map and an alphabet, by the list of refusals and
    by the readings of L3; and all of it has to come up."""
    if map_name not in CLOSED:
        return {1, 2 if map_name == b"S" else 3}
    if alphabet not in CLOSED[map_name]:
        return {1, 18}
    refusals = {1, 5, 6} if alphabet == b"*" else {1, 19, 5, 6}
    if alphabet == b"E":
        return refusals
    answers = ENDS | PAIRS_THAT_BLOCK | {"the fill's length"}
    if alphabet not in WITH_OWN_PARTNER[map_name]:
        return refusals | answers | {"a barred centre"}
    if map_name == b"C":
        return refusals | answers | {"a middle letter"}
    return refusals | answers


def numbers_in(reply):
    """All numbers behind the first letters of a reply's lines."""
    return [int(field) for row in reply.split(b"\n")
            for field in row.split()[1:]]


class Replies:
    """Goes through lines and their replies, and keeps what is seen under each
    map and alphabet, each d that is answered, and the faults."""

    def __init__(self, lines, replies):
        self.seen = {spelling: set() for spelling in SPELLINGS}
        self.answered_d = set()
        self.faults = []
        self.fills = {}
        for line, reply in zip(lines, replies):
            self.take(line, numbers_in(reply))

    def take(self, line, numbers):
        letter, d, map_name, alphabet, number, string = line.split(b" ", 5)
        question = int(d), (map_name, alphabet), string
        if letter == b"C":
            # Behind number and count, all lent entries are lengths.
            self.fills[question] = numbers[2:] if numbers[0] == 0 else []
        elif numbers[0] != 0:
            self.refused(line, question, numbers)
        else:
            self.answered(line, question, int(number), numbers[1:])

    def fault(self, line, what):
        self.faults.append("%s: %s" % (line[:60].decode("latin-1"), what))

    def refused(self, line, question, numbers):
        if numbers[1:] != [0, 0, 0, 0]:
            self.fault(line, "no zeros behind a refusal")
        self.seen[question[1]].add(numbers[0])

    def answered(self, line, question, centre, answer):
        d, spelling, string = question
        letter_map = second.INSPECT_MAPS[spelling[0]]
        for law in broken_laws(string, letter_map, centre, d, answer):
            self.fault(line, "not " + law)
        self.seen[spelling].add(outcome(d, centre, string, answer))
        self.answered_d.add(d)
        if question in self.fills:
            self.seen[spelling].add("the fill's length")
            if self.fills[question][centre:centre + 1] != answer[:1]:
                self.fault(line, "not the fill's length")


def find_faults(lines, replies):
    """Broken laws, and outcomes that are not there though they have to be, or
    that are there though they can't be."""
    found = Replies(lines, replies)
    faults = found.faults
    for spelling, shown in found.seen.items():
        name = b" ".join(spelling).decode("ascii")
        wanted = outcomes_of(*spelling)
        faults += ["%s never gives %s" % (name, one) for one in wanted - shown]
        faults += ["%s gives %s" % (name, one) for one in shown - wanted]
    faults += ["no answer with d %d" % d
               for d in set(range(16)) - found.answered_d]
    return sorted(faults)


def find_long_faults(lines, replies):
    """The same with a sample of centres: over all spellings together, each
    case that is sure to come up."""
    found = Replies(lines, replies)
    shown = set().union(*found.seen.values())
    wanted = ENDS | {6, "a pair behind errors", "a barred centre",
                     "the fill's length"}
    return sorted(
        found.faults + ["never %s" % one for one in wanted - shown])
