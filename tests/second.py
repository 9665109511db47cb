#!/usr/bin/env python3
"""An independent second program for the call program and for inspection.

Written from the build description (01), from requests L1 to L7 (02) and from
how docs/DECISIONS.md reads them, by the definitions, so that it shares no code
with the program that it is compared with.

    python3 tests/second.py call        answers the call program's lines
    python3 tests/second.py inspect     answers the inspect lines
    python3 tests/second.py self-check  compares its two ways of each question

Short strings are tiled by brute force over all permitted tilings, longer ones
by a plain table. The self-check (selfcheck.py) shows that both ways agree. A
sheet carries its changes out one by one, and after each of them its letters
and limits are reckoned afresh from the opening. Palindromes of all sorts are
in palindromes.py.
"""

import itertools
import sys

# Keeps the tests' directory free of compiled files.
sys.dont_write_bytecode = True
from palindromes import (  # noqa: E402
    error_count, exact_lengths, is_exact_palindrome, longer_of_two,
    longest_part, maximal_length, maximal_length_by_definition,
    maximal_lengths, shuffled_lengths, start_of_span, stop)

MOST_LETTERS = 1000
MOST_CHANGES = 64
MOST_GAPS = 15
MOST_ERRORS = 15
MOST_LINE_BYTES = 1040
NO_TILING = 65535
BYTES_A_PART = 6
LENT_FILL = 9

# Brute force is for strings so short, and with so few tilings.
BRUTE_LETTERS = 10
BRUTE_TILINGS = 2500

PIECE = "P"
GAP = "G"

CAPITALS = b"ABCDEFGHIJKLMNOPQRSTUVWXYZ"

PLAIN_MAP = bytes(range(256))
COMPLEMENT_MAP = PLAIN_MAP.translate(bytes.maketrans(b"ATCG", b"TAGC"))
SHORT_MAP = PLAIN_MAP[:255]
SHIFTED_MAP = PLAIN_MAP[1:] + PLAIN_MAP[:1]
# Neighbours are partners: no byte is its own.
PAIRED_MAP = bytes(x ^ 1 for x in range(256))

CALL_MAPS = {b"I": PLAIN_MAP, b"C": COMPLEMENT_MAP}
INSPECT_MAPS = {b"I": PLAIN_MAP, b"C": COMPLEMENT_MAP, b"S": SHORT_MAP,
                b"X": SHIFTED_MAP, b"Y": PAIRED_MAP}


def alphabet_of(letters):
    """256 flags, one for each byte: 0 out, else in."""
    return bytes(1 if x in letters else 0 for x in range(256))


ALL_BYTES = alphabet_of(range(256))
ALPHABETS = {b"*": ALL_BYTES, b"D": alphabet_of(b"ACGT"),
             b"N": alphabet_of(b"ACGTN"), b"O": alphabet_of(b"ACG"),
             b"S": ALL_BYTES[:255], b"E": alphabet_of(b"")}


class Refusal(Exception):
    """One of 01's numbers that say no."""

    def __init__(self, number):
        super().__init__(number)
        self.number = number


# Brute force over all tilings. A part is (sort, start, length, errors).

def is_piece(letters, letter_map, alphabet, limits, start, length, longest_at):
    """Whether a span inside the string is a piece; longest_at is one of the
    two ways to the maximal length of a centre."""
    kind, m, _, d = limits
    if length < m:
        return False
    if kind == 1:
        return is_exact_palindrome(letters[start:start + length], letter_map)
    centre = start + (start + length - 1)
    return length == longest_at(letters, letter_map, alphabet, centre, d)


def pieces_by_definition(letters, letter_map, alphabet, limits):
    """For each start the pieces of the whole string that begin there."""
    count = len(letters)
    return [
        [(PIECE, start, length,
          error_count(letters[start:start + length], letter_map))
         for length in range(1, count - start + 1)
         if is_piece(letters, letter_map, alphabet, limits, start, length,
                     maximal_length_by_definition)]
        for start in range(count)]


def all_tilings(pieces, start, gaps_left, after_gap=False):
    """Every permitted tiling of the letters from start onward."""
    if start == len(pieces):
        yield ()
        return
    for piece in pieces[start]:
        for rest in all_tilings(pieces, start + piece[2], gaps_left):
            yield (piece,) + rest
    if gaps_left > 0 and not after_gap:
        for length in range(1, len(pieces) - start + 1):
            gap = (GAP, start, length, 0)
            for rest in all_tilings(
                    pieces, start + length, gaps_left - 1, after_gap=True):
                yield (gap,) + rest


def gap_total(tiling):
    return sum(length for sort, _, length, _ in tiling if sort == GAP)


def gap_count(tiling):
    return sum(1 for part in tiling if part[0] == GAP)


def order_key(tiling):
    """Least total first; then, at the first part where two tilings differ, a
    piece before a gap, a longer piece and a shorter gap first."""
    return gap_total(tiling), [
        (0, -length) if sort == PIECE else (1, length)
        for sort, _, length, _ in tiling]


def brute_row(tilings, g):
    """The least gap totals with at most 0, 1, .. g gaps."""
    return [min((gap_total(tiling) for tiling in tilings
                 if gap_count(tiling) <= q), default=NO_TILING)
            for q in range(g + 1)]


def tile_by_brute_force(letters, letter_map, alphabet, limits):
    """(parts or None, table), or None where there are too many tilings."""
    g = limits[2]
    pieces = pieces_by_definition(letters, letter_map, alphabet, limits)
    table = []
    whole = None
    for start in range(len(letters) + 1):
        tilings = list(itertools.islice(
            all_tilings(pieces, start, g), BRUTE_TILINGS + 1))
        if len(tilings) > BRUTE_TILINGS:
            return None
        table.extend(brute_row(tilings, g))
        if start == 0:
            whole = min(tilings, key=order_key, default=None)
    return whole, table


# The plain table, for strings of any length.

# Stands for 'no tiling' while totals are still added up.
ENDLESS = 10 ** 6


def piece_ends(letters, letter_map, alphabet, limits):
    """For each start the places after its pieces, longest piece first."""
    kind, m, _, d = limits
    ends = [[] for _ in letters]
    if kind == 1:
        lengths = exact_lengths(letters, letter_map)
    else:
        lengths = maximal_lengths(letters, letter_map, alphabet, d)
    for centre, longest in enumerate(lengths):
        # Exact palindromes nest: all shorter spans of the centre are exact.
        shortest = longest if kind == 2 else 1
        for length in range(longest, max(shortest, m) - 1, -2):
            if length >= 1:
                start = start_of_span(centre, length)
                ends[start].append(start + length)
    for places in ends:
        places.sort(reverse=True)
    return ends


def least_totals(ends, g):
    """Two lists of rows, rows by q and entries by place: the least totals of
    all tilings of the rest, and of those that don't begin with a gap."""
    n = len(ends)
    least, no_gap_first = [], []
    for q in range(g + 1):
        row = [ENDLESS] * n + [0]
        pieces_row = [ENDLESS] * n + [0]
        gap_first = ENDLESS
        for start in range(n - 1, -1, -1):
            if ends[start]:
                pieces_row[start] = min(map(row.__getitem__, ends[start]))
            if q > 0:
                gap_first = 1 + min(gap_first, no_gap_first[q - 1][start + 1])
            row[start] = min(pieces_row[start], gap_first)
        least.append(row)
        no_gap_first.append(pieces_row)
    return least, no_gap_first


def longest_fitting_piece(ends, row, start, total):
    for end in ends[start]:
        if row[end] == total:
            return end
    return None


def shortest_fitting_gap(pieces_row, start, total):
    for end in range(start + 1, len(pieces_row)):
        if end - start + pieces_row[end] == total:
            return end
    raise AssertionError("the table promises a gap that isn't there")


def first_tiling(ends, least, no_gap_first, g):
    """Walks the table, each time with the first part that keeps the total."""
    n = len(ends)
    start, q, total = 0, g, least[g][0]
    after_gap = False
    spans = []
    while start < n:
        end = longest_fitting_piece(ends, least[q], start, total)
        sort = PIECE
        if end is None:
            assert not after_gap and q > 0
            q -= 1
            end = shortest_fitting_gap(no_gap_first[q], start, total)
            sort = GAP
            total -= end - start
        after_gap = sort == GAP
        spans.append((sort, start, end - start))
        start = end
    return spans


def with_errors(spans, letters, letter_map):
    return tuple(
        (sort, start, length,
         error_count(letters[start:start + length], letter_map)
         if sort == PIECE else 0)
        for sort, start, length in spans)


def tile_by_table(letters, letter_map, alphabet, limits):
    g = limits[2]
    ends = piece_ends(letters, letter_map, alphabet, limits)
    least, no_gap_first = least_totals(ends, g)
    table = [min(least[q][start], NO_TILING)
             for start in range(len(letters) + 1) for q in range(g + 1)]
    if least[g][0] >= ENDLESS:
        return None, table
    spans = first_tiling(ends, least, no_gap_first, g)
    return with_errors(spans, letters, letter_map), table


def tile(letters, letter_map, alphabet, limits):
    """(parts or None where no tiling exists, table)."""
    if len(letters) <= BRUTE_LETTERS:
        answer = tile_by_brute_force(letters, letter_map, alphabet, limits)
        if answer is not None:
            return answer
    return tile_by_table(letters, letter_map, alphabet, limits)


# Refusals, each list in testing order.

def refuse_too_many_letters(letters):
    if len(letters) > MOST_LETTERS:
        raise Refusal(1)


def refuse_letters_and_map(letters, letter_map):
    refuse_too_many_letters(letters)
    if len(letter_map) != 256:
        raise Refusal(2)
    if any(letter_map[letter_map[x]] != x for x in range(256)):
        raise Refusal(3)


def refuse_letter(letter, alphabet):
    if alphabet[letter] == 0:
        raise Refusal(19)


def refuse_spelling(letters, letter_map, alphabet):
    """String, map and alphabet. Closed is tested with a map that is right:
    where a byte is in, its partner is."""
    refuse_letters_and_map(letters, letter_map)
    if len(alphabet) != 256:
        raise Refusal(18)
    if any(alphabet[x] != 0 and alphabet[letter_map[x]] == 0
           for x in range(256)):
        raise Refusal(18)
    for letter in letters:
        refuse_letter(letter, alphabet)


def refuse_kind_and_errors(kind, d):
    if kind not in (1, 2):
        raise Refusal(4)
    if d > MOST_ERRORS or kind == 1 and d != 0:
        raise Refusal(5)


def refuse_length_and_gaps(m, g):
    if m == 0 or m > MOST_LETTERS or g > MOST_GAPS:
        raise Refusal(5)


def refuse_limits(kind, m, g, d):
    """4 before any 5: kind and d come first."""
    refuse_kind_and_errors(kind, d)
    refuse_length_and_gaps(m, g)


# Part records, written and read back.

def record_of(part):
    sort, start, length, errors = part
    return bytes([ord(sort), errors, start // 256, start % 256,
                  length // 256, length % 256])


def records_of(parts):
    return b"".join(record_of(part) for part in parts)


def read_part(file, place):
    """One step of the reader: None at the end, else the part at the place, as
    it stands there, and the place of the next."""
    if place == len(file):
        return None
    if place > len(file) or place % BYTES_A_PART != 0:
        raise Refusal(6)
    record = file[place:place + BYTES_A_PART]
    if len(record) < BYTES_A_PART:
        raise Refusal(15)
    if chr(record[0]) not in (PIECE, GAP):
        raise Refusal(16)
    start = 256 * record[2] + record[3]
    length = 256 * record[4] + record[5]
    part = chr(record[0]), start, length, record[1]
    return part, place + BYTES_A_PART


def walked_parts(file):
    """All parts that the reader hands out from 0 up to the end."""
    parts = []
    step = read_part(file, 0)
    while step is not None:
        part, following = step
        parts.append(part)
        step = read_part(file, following)
    return parts


def is_right_part(letters, letter_map, alphabet, limits, part):
    """What one part shows by itself, beside string, map, alphabet and
    limits."""
    sort, start, length, errors = part
    if length == 0 or start + length > len(letters):
        return False
    if sort == GAP:
        return errors == 0
    span = letters[start:start + length]
    return errors == error_count(span, letter_map) and is_piece(
        letters, letter_map, alphabet, limits, start, length, maximal_length)


def is_tiling(parts, count, g):
    """What only right parts together show: in order from 0 without overlap up
    to the last of so many letters, no touching gaps, at most g gaps."""
    place = 0
    for _, start, length, _ in parts:
        if start != place:
            return False
        place += length
    touching = any(one[0] == GAP and following[0] == GAP
                   for one, following in zip(parts, parts[1:]))
    return place == count and not touching and gap_count(parts) <= g


def refuse_file(letters, letter_map, alphabet, limits, file):
    """The second question: a file that isn't refused is a permitted tiling.
    All records are judged by themselves before any are judged together."""
    refuse_spelling(letters, letter_map, alphabet)
    refuse_limits(*limits)
    if len(file) % BYTES_A_PART != 0:
        raise Refusal(15)
    parts = walked_parts(file)
    if not all(is_right_part(letters, letter_map, alphabet, limits, part)
               for part in parts):
        raise Refusal(16)
    if not is_tiling(parts, len(letters), limits[2]):
        raise Refusal(17)


def ask_agreement(letters, letter_map, alphabet, limits, file):
    """The second question's number; 0 says yes."""
    try:
        refuse_file(letters, letter_map, alphabet, limits, file)
    except Refusal as refusal:
        return refusal.number
    return 0


# The sheet.

# A change is (sort, place, old, new): a letter (L), kind and d (K) or m and g
# (M) with what it replaces, a put-in (I) without an old letter, a take-out (X)
# without a new one. To take it back is to make it the other way round, old for
# new.
OTHER_WAY_ROUND = {"L": "L", "K": "K", "M": "M", "I": "X", "X": "I"}


class Sheet:
    """One string, its alphabet and its limits during a call, with the two
    lists. Every sheet here comes from an opening and is changed by its calls
    alone, so refusal 24, which goes before all others, never holds."""

    def __init__(self, letters, letter_map, alphabet, kind, m, g, d):
        refuse_spelling(letters, letter_map, alphabet)
        refuse_limits(kind, m, g, d)
        self.letters = list(letters)
        self.letter_map = letter_map
        self.alphabet = alphabet
        self.limits = (kind, m, g, d)
        self.opened = bytes(letters), self.limits
        self.standing = []
        self.taken_back = []

    def change_letter(self, place, letter):
        if place >= len(self.letters):
            raise Refusal(6)
        refuse_letter(letter, self.alphabet)
        self.refuse_when_full()
        return self.accept(("L", place, self.letters[place], letter))

    def put_in(self, place, letter):
        """Before a place, or behind the last letter."""
        if place > len(self.letters):
            raise Refusal(6)
        if len(self.letters) >= MOST_LETTERS:
            raise Refusal(1)
        refuse_letter(letter, self.alphabet)
        self.refuse_when_full()
        return self.accept(("I", place, None, letter))

    def take_out(self, place):
        if place >= len(self.letters):
            raise Refusal(6)
        self.refuse_when_full()
        return self.accept(("X", place, self.letters[place], None))

    def change_kind_and_errors(self, kind, d):
        refuse_kind_and_errors(kind, d)
        self.refuse_when_full()
        old_kind, _, _, old_d = self.limits
        return self.accept(("K", None, (old_kind, old_d), (kind, d)))

    def change_length_and_gaps(self, m, g):
        refuse_length_and_gaps(m, g)
        self.refuse_when_full()
        _, old_m, old_g, _ = self.limits
        return self.accept(("M", None, (old_m, old_g), (m, g)))

    def refuse_when_full(self):
        if len(self.standing) >= MOST_CHANGES:
            raise Refusal(7)

    def accept(self, change):
        self.taken_back = []
        self.standing.append(change)
        return self.carry_out(change)

    def take_back(self):
        if not self.standing:
            raise Refusal(8)
        change = self.standing.pop()
        self.taken_back.append(change)
        sort, place, old, new = change
        return self.carry_out((OTHER_WAY_ROUND[sort], place, new, old))

    def put_again(self):
        if not self.taken_back:
            raise Refusal(9)
        change = self.taken_back.pop()
        self.standing.append(change)
        return self.carry_out(change)

    def carry_out(self, change):
        """Makes the change and says it back with the number standing."""
        sort, place, old, new = change
        if sort == "L":
            self.letters[place] = new
            said = (place, old, new)
        elif sort == "I":
            self.letters.insert(place, new)
            said = (place, new, len(self.letters))
        elif sort == "X":
            self.letters.pop(place)
            said = (place, old, len(self.letters))
        else:
            self.set_limits(sort, new)
            said = self.limits
        self.check()
        return line_of(sort, *said, len(self.standing))

    def set_limits(self, sort, new):
        """The two that the change names; the other two are kept."""
        kind, m, g, d = self.limits
        if sort == "K":
            self.limits = (new[0], m, g, new[1])
        else:
            self.limits = (kind, new[0], new[1], d)

    def reckoned(self):
        """Letters and limits afresh: those of the opening, with the standing
        changes made in order. What they replaced isn't looked at."""
        letters, (kind, m, g, d) = self.opened
        for sort, place, _, new in self.standing:
            if sort == "K":
                kind, d = new
            elif sort == "M":
                m, g = new
            else:
                following = place if sort == "I" else place + 1
                written = b"" if sort == "X" else bytes([new])
                letters = letters[:place] + written + letters[following:]
        return letters, (kind, m, g, d)

    def check(self):
        if (bytes(self.letters), self.limits) != self.reckoned():
            raise AssertionError("not the opening with the standing changes")
        if len(self.letters) > MOST_LETTERS:
            raise AssertionError("more than 1,000 letters")
        if len(self.standing) + len(self.taken_back) > MOST_CHANGES:
            raise AssertionError("more than 64 changes in both lists")


# Lines, in and out.

def line_of(*fields):
    return " ".join(str(field) for field in fields) + "\n"


def refusal_line(number):
    return line_of("!", number)


def number_from(field):
    """A number of 1 to 4 digits without a leading zero, or refusal 13."""
    if not 1 <= len(field) <= 4 or any(c not in b"0123456789" for c in field):
        raise Refusal(13)
    if len(field) > 1 and field[:1] == b"0":
        raise Refusal(13)
    return int(field)


def numbers_from(fields):
    return [number_from(field) for field in fields]


def byte_from(field):
    value = number_from(field)
    if value > 255:
        raise Refusal(13)
    return value


def named_by(field, known):
    """The map or the alphabet of that name, or refusal 13."""
    if field not in known:
        raise Refusal(13)
    return known[field]


def file_from(field):
    """Two small hexadecimal digits a byte, or refusal 13."""
    if len(field) % 2 == 1 or any(c not in b"0123456789abcdef" for c in field):
        raise Refusal(13)
    return bytes.fromhex(field.decode("ascii"))


def fields_of(line, count, string_last=False):
    """Exactly count fields; a string may hold spaces itself and is last."""
    fields = line.split(b" ", count - 1) if string_last else line.split(b" ")
    if len(fields) != count:
        raise Refusal(13)
    return fields


def lines_of(data):
    """The lines of whole input: an empty rest without line end is none."""
    lines = data.split(b"\n")
    if lines[-1] == b"":
        lines.pop()
    return lines


# The call program.

class CallProgram:
    """Keeps the open sheet and answers one line at a time."""

    def __init__(self):
        self.sheet = None

    def answer(self, line):
        try:
            if len(line) > MOST_LINE_BYTES:
                raise Refusal(13)
            return self.answer_fields(line).encode("ascii")
        except Refusal as refusal:
            return refusal_line(refusal.number).encode("ascii")

    def answer_fields(self, line):
        sort = line[:1]
        if sort == b"O":
            return self.open(line)
        if sort in (b"L", b"I"):
            name, place, byte = fields_of(line, 3)
            numbers = number_from(place), byte_from(byte)
        elif sort == b"X":
            name, place = fields_of(line, 2)
            numbers = (number_from(place),)
        elif sort in (b"K", b"M"):
            name, *limits = fields_of(line, 3)
            numbers = numbers_from(limits)
        else:
            name, numbers = line, ()
        calls = {b"L": Sheet.change_letter,
                 b"K": Sheet.change_kind_and_errors,
                 b"M": Sheet.change_length_and_gaps,
                 b"I": Sheet.put_in, b"X": Sheet.take_out,
                 b"B": said_back("B", Sheet.take_back),
                 b"A": said_back("A", Sheet.put_again), b"Q": question_lines}
        if name not in calls:
            raise Refusal(13)
        if self.sheet is None:
            raise Refusal(14)
        return calls[name](self.sheet, *numbers)

    def open(self, line):
        name, kind, m, g, d, map_name, string = fields_of(
            line, 7, string_last=True)
        limits = numbers_from([kind, m, g, d])
        letter_map = named_by(map_name, CALL_MAPS)
        if name != b"O":
            raise Refusal(13)
        # A refusal leaves here before the former sheet is replaced.
        self.sheet = Sheet(string, letter_map, ALL_BYTES, *limits)
        return line_of("O", len(string), 0)


def said_back(letter, call):
    return lambda sheet: letter + " " + call(sheet)


def question_lines(sheet):
    parts, _ = tile(bytes(sheet.letters), sheet.letter_map, sheet.alphabet,
                    sheet.limits)
    if parts is None:
        raise Refusal(10)
    return line_of("Q", gap_total(parts), len(parts), gap_count(parts)) \
        + "".join(line_of(*part) for part in parts)


# The inspect lines.

def fill(lent, values):
    """Later entries stay."""
    lent[:len(values)] = values


def room_line(letter, lent):
    return line_of(letter, *lent)


def ask_tiling(sheet, table, room):
    """The tiling question of a sheet: number, total, parts and gaps. Fills
    the lent table and room as 01 says they stand."""
    if len(table) < (len(sheet.letters) + 1) * (sheet.limits[2] + 1):
        return 11, 0, 0, 0
    parts, entries = tile(bytes(sheet.letters), sheet.letter_map,
                          sheet.alphabet, sheet.limits)
    fill(table, entries)
    if parts is None:
        return 10, 0, 0, 0
    if len(parts) * BYTES_A_PART > len(room):
        return 12, 0, len(parts), 0
    fill(room, records_of(parts))
    return 0, gap_total(parts), len(parts), gap_count(parts)


def inspect_tiling(fields):
    """T asks without a sheet, after the same tests; S opens a sheet and asks
    that."""
    (letter, kind, m, g, d, map_name, alphabet_name, entries, room_bytes,
     string) = fields
    limits = tuple(numbers_from([kind, m, g, d]))
    letter_map = named_by(map_name, INSPECT_MAPS)
    alphabet = named_by(alphabet_name, ALPHABETS)
    table = [LENT_FILL] * number_from(entries)
    room = [LENT_FILL] * number_from(room_bytes)
    try:
        sheet = Sheet(string, letter_map, alphabet, *limits)
        reply = ask_tiling(sheet, table, room)
    except Refusal as refusal:
        if letter == b"S":
            raise
        reply = refusal.number, 0, 0, 0
    return line_of(letter.decode(), *reply) \
        + room_line("E", table) + room_line("R", room)


def refuse_centres(letters, letter_map, alphabet, d):
    """What the fill and the question for one centre test first: of 5 the part
    on d alone."""
    refuse_spelling(letters, letter_map, alphabet)
    if d > MOST_ERRORS:
        raise Refusal(5)


def ask_centres(letters, letter_map, alphabet, d, lent):
    refuse_centres(letters, letter_map, alphabet, d)
    lengths = maximal_lengths(letters, letter_map, alphabet, d)
    if len(lent) < len(lengths):
        raise Refusal(11)
    fill(lent, lengths)
    return len(lengths)


def ask_stop(letters, letter_map, alphabet, d, centre):
    """Length, case and two places for one centre. No letters, no centres."""
    refuse_centres(letters, letter_map, alphabet, d)
    if centre >= 2 * len(letters) - 1:
        raise Refusal(6)
    question = letters, letter_map, alphabet, centre, d
    return (maximal_length(*question),) + stop(*question)


def centres_named(fields):
    """What C and D name: string, map, alphabet and d, and a number beside
    them."""
    _, d, map_name, alphabet_name, number, string = fields
    d = number_from(d)
    letter_map = named_by(map_name, INSPECT_MAPS)
    alphabet = named_by(alphabet_name, ALPHABETS)
    return (string, letter_map, alphabet, d), number_from(number)


def inspect_centres(fields):
    question, entries = centres_named(fields)
    lent = [LENT_FILL] * entries
    try:
        reply = 0, ask_centres(*question, lent)
    except Refusal as refusal:
        reply = refusal.number, 0
    return line_of("C", *reply) + room_line("E", lent)


def inspect_stop(fields):
    """D asks for one centre and what stops its palindrome."""
    question, centre = centres_named(fields)
    try:
        reply = (0,) + ask_stop(*question, centre)
    except Refusal as refusal:
        reply = refusal.number, 0, 0, 0, 0
    return line_of("D", *reply)


def part_lines(letter, number, part):
    return line_of(letter, number, len(part)) + room_line("R", part)


def inspect_longest(fields):
    _, map_name, string = fields
    letter_map = named_by(map_name, INSPECT_MAPS)
    try:
        refuse_letters_and_map(string, letter_map)
    except Refusal as refusal:
        return part_lines("P", refusal.number, b"")
    return part_lines("P", 0, longest_part(string, letter_map))


def inspect_longer(fields):
    _, map_name, count, string = fields
    letter_map = named_by(map_name, INSPECT_MAPS)
    count = number_from(count)
    if count > len(string):
        raise Refusal(13)
    first, second = string[:count], string[count:]
    try:
        # Either string too long comes before any fault of the map.
        refuse_letters_and_map(max(first, second, key=len), letter_map)
    except Refusal as refusal:
        return part_lines("W", refusal.number, b"")
    return part_lines("W", 0, longer_of_two(first, second, letter_map))


def inspect_step(fields):
    """F asks the reader for one step."""
    _, place, file = fields
    place, file = number_from(place), file_from(file)
    try:
        step = read_part(file, place)
    except Refusal as refusal:
        return line_of("F", refusal.number)
    if step is None:
        return line_of("F", 0)
    (sort, start, length, errors), following = step
    return line_of("F", 0, ord(sort), errors, start, length, following)


def inspect_agreement(fields):
    """Y asks whether the records agree with string, map, alphabet and
    limits."""
    _, kind, m, g, d, map_name, alphabet_name, file, string = fields
    limits = tuple(numbers_from([kind, m, g, d]))
    letter_map = named_by(map_name, INSPECT_MAPS)
    alphabet = named_by(alphabet_name, ALPHABETS)
    return line_of("Y", ask_agreement(
        string, letter_map, alphabet, limits, file_from(file)))


def ask_shuffles(letters, lent):
    """Fills one entry a letter."""
    refuse_too_many_letters(letters)
    if any(letter not in CAPITALS for letter in letters):
        raise Refusal(20)
    if len(lent) < len(letters):
        raise Refusal(11)
    fill(lent, shuffled_lengths(letters))


def inspect_shuffles(fields):
    """A asks for the longest shuffled palindrome from each place."""
    _, entries, string = fields
    lent = [LENT_FILL] * number_from(entries)
    number = 0
    try:
        ask_shuffles(string, lent)
    except Refusal as refusal:
        number = refusal.number
    return line_of("A", number) + room_line("E", lent)


INSPECT_LINES = {
    b"T": (10, inspect_tiling),
    b"S": (10, inspect_tiling),
    b"C": (6, inspect_centres),
    b"D": (6, inspect_stop),
    b"P": (3, inspect_longest),
    b"W": (4, inspect_longer),
    b"F": (3, inspect_step),
    b"Y": (9, inspect_agreement),
    b"A": (3, inspect_shuffles),
}


class InspectProgram:
    """Answers one line at a time; nothing is kept between lines."""

    def answer(self, line):
        try:
            name = line.split(b" ", 1)[0]
            if len(line) > MOST_LINE_BYTES or name not in INSPECT_LINES:
                raise Refusal(13)
            count, inspect = INSPECT_LINES[name]
            return inspect(fields_of(line, count, True)).encode("ascii")
        except Refusal as refusal:
            return refusal_line(refusal.number).encode("ascii")


def run_lines(program):
    for line in sys.stdin.buffer:
        if line.endswith(b"\n"):
            line = line[:-1]
        sys.stdout.buffer.write(program.answer(line))
        sys.stdout.buffer.flush()


def main(arguments):
    if arguments == ["call"]:
        run_lines(CallProgram())
    elif arguments == ["inspect"]:
        run_lines(InspectProgram())
    elif arguments == ["self-check"]:
        import selfcheck
        selfcheck.run()
    else:
        sys.exit("usage: second.py call | inspect | self-check")


if __name__ == "__main__":
    main(sys.argv[1:])
