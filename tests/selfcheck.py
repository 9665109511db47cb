"""The second program's self-check: both of its ways to each question agree,
for every map and alphabet that an opening accepts. A part file is judged to be
a permitted tiling exactly when it is the file of one of all permitted tilings,
and a span is a d-palindrome exactly when some exact palindrome over the
alphabet differs from it in at most d places. What stops a palindrome goes with
its length, and letters farther out change neither. A stretch is a shuffled
palindrome exactly when some order of its letters is a palindrome. After any
run of calls a sheet is what its opening and the calls alone make of it.

    python3 tests/second.py self-check
"""

import functools
import itertools
import random
import sys

from palindromes import (
    BARRED, END_MET, PAIR_BLOCKS, error_count, exact_lengths, has_own_partner,
    is_d_palindrome, is_exact_palindrome, longest_palindrome,
    longest_palindrome_by_definition, maximal_length,
    maximal_length_by_definition, maximal_lengths, shuffled_lengths,
    start_of_span, stop)
from second import (
    ALPHABETS, BRUTE_TILINGS, BYTES_A_PART, CAPITALS, GAP, INSPECT_MAPS,
    LENT_FILL, MOST_CHANGES, MOST_LETTERS, NO_TILING, PLAIN_MAP, Refusal,
    Sheet, all_tilings, alphabet_of, ask_agreement, ask_centres, ask_shuffles,
    ask_stop, gap_total, line_of, pieces_by_definition, read_part, record_of,
    records_of, tile_by_brute_force, tile_by_table)

# By hand from the descriptions of maps and alphabets: the letters of each
# alphabet, the alphabets that a map closes, and those among them with a letter
# that is its own partner.
LETTERS_OF = {b"*": bytes(range(256)), b"D": b"ACGT", b"N": b"ACGTN",
              b"O": b"ACG", b"E": b""}
CLOSED = {b"I": [b"*", b"D", b"N", b"O", b"E"], b"C": [b"*", b"D", b"N", b"E"],
          b"Y": [b"*", b"E"]}
WITH_OWN_PARTNER = {b"I": [b"*", b"D", b"N", b"O"], b"C": [b"*", b"N"],
                    b"Y": []}

# All maps with all alphabets that an opening accepts, beside letters for the
# strings that are checked under both, and the length up to which all such
# strings are written out.
WRITTEN = [
    (b"I", b"*", b"AC", 6), (b"I", b"*", b"ACGT", 2), (b"I", b"D", b"AC", 4),
    (b"I", b"D", b"ACGT", 2), (b"I", b"N", b"AN", 4), (b"I", b"O", b"ACG", 2),
    (b"I", b"E", b"", 0), (b"C", b"*", b"AT", 6), (b"C", b"*", b"AN", 6),
    (b"C", b"*", b"ACGT", 2), (b"C", b"D", b"AT", 5), (b"C", b"D", b"AC", 5),
    (b"C", b"D", b"ACGT", 3), (b"C", b"N", b"AT", 4), (b"C", b"N", b"ATN", 3),
    (b"C", b"N", b"ACGTN", 2), (b"C", b"E", b"", 0), (b"Y", b"*", b"@A", 5),
    (b"Y", b"*", b"AC", 4), (b"Y", b"*", b"@ABC", 3), (b"Y", b"E", b"", 0)]

# Small alphabets closed under a map, over which all palindromes are written
# out.
SMALL_ALPHABETS = [
    (b"I", b"A"), (b"I", b"ACG"), (b"C", b"AT"), (b"C", b"ACGT"),
    (b"C", b"ACGTN"), (b"C", b"ATN"), (b"C", b"N"), (b"C", b"NX"),
    (b"Y", b"@A"), (b"Y", b"@ABC")]


def small_strings(letters, most):
    for length in range(most + 1):
        for word in itertools.product(letters, repeat=length):
            yield bytes(word)


def small_limits():
    for kind, m, g, d in itertools.product(
            (1, 2), (1, 2, 3), (0, 1, 2, 3), (0, 1, 2)):
        if kind == 2 or d == 0:
            yield kind, m, g, d


def must_agree(what, case, one, other):
    if one != other:
        sys.exit("self-check FAILED: %s of %r: %r and %r"
                 % (what, case, one, other))


def number_of(call, *arguments):
    """The number that a call is refused with, or 0."""
    try:
        call(*arguments)
    except Refusal as refusal:
        return refusal.number
    return 0


# Refusals: each list of tests against the calls.

def first_fault(tests):
    """The number of the first test that holds, or 0."""
    return next((number for number, holds in tests if holds), 0)


def spelling_tests(letters, map_name, name):
    known = LETTERS_OF.get(name, b"")
    return [(1, len(letters) > 1000), (2, map_name == b"S"),
            (3, map_name == b"X"), (18, name not in CLOSED.get(map_name, [])),
            (19, any(letter not in known for letter in letters))]


def limit_tests(kind, m, g, d):
    return [(4, kind not in (1, 2)),
            (5, not 1 <= m <= 1000 or g > 15 or d > 15 or kind == 1 and d > 0)]


def check_refusals(letters, map_name, name, limits):
    """Opening, fill, one centre and second question; the fill with too little
    and the second question with a file that is cut."""
    case = letters[:10], map_name, name, limits
    spelt = letters, INSPECT_MAPS[map_name], ALPHABETS[name]
    spelling = spelling_tests(letters, map_name, name)
    opening = spelling + limit_tests(*limits)
    must_agree("opening", case, first_fault(opening),
               number_of(Sheet, *spelt, *limits))
    must_agree("fill", case, first_fault(
        spelling + [(5, limits[3] > 15), (11, len(letters) > 0)]),
        number_of(ask_centres, *spelt, limits[3], []))
    centres = range(2 * len(letters) - 1)
    for centre in (0, 1, len(centres), 9999):
        must_agree("one centre", (case, centre), first_fault(
            spelling + [(5, limits[3] > 15), (6, centre not in centres)]),
            number_of(ask_stop, *spelt, limits[3], centre))
    must_agree("second question", case, first_fault(opening + [(15, True)]),
               ask_agreement(*spelt, limits, b"P"))


def check_all_refusals():
    """All maps and alphabets, with strings and limits of all faults."""
    strings = [b"", b"A", b"AT", b"ACGTN", b"TN", b"NT", b"@", b"N" * 1001]
    faulty_and_right = [
        (9, 0, 99, 99), (2, 0, 0, 0), (2, 1001, 0, 0), (2, 1, 16, 0),
        (2, 1, 0, 16), (1, 1, 0, 1), (1, 1, 0, 0), (2, 1000, 15, 15)]
    for case in itertools.product(
            strings, INSPECT_MAPS, ALPHABETS, faulty_and_right):
        check_refusals(*case)


def check_alphabets():
    """Where a map closes an alphabet: each byte as the only letter, and
    whether a letter is its own partner."""
    for map_name, names in CLOSED.items():
        for name in names:
            letter_map, alphabet = INSPECT_MAPS[map_name], ALPHABETS[name]
            must_agree("own partner", (map_name, name),
                       name in WITH_OWN_PARTNER[map_name],
                       has_own_partner(letter_map, alphabet))
            for letter in range(256):
                number = number_of(Sheet, bytes([letter]), letter_map,
                                   alphabet, 1, 1, 0, 0)
                must_agree("letter", (map_name, name, letter),
                           0 if letter in LETTERS_OF[name] else 19, number)


# Spans over an alphabet.

def differing_places(one, other):
    return sum(1 for x, y in zip(one, other) if x != y)


def check_distances(map_name, letters):
    """Spans over a small alphabet against all exact palindromes over it."""
    letter_map, alphabet = INSPECT_MAPS[map_name], alphabet_of(letters)
    most = 5 if len(letters) < 5 else 4
    words = [word for word in small_strings(letters, most) if word]
    palindromes = [word for word in words
                   if is_exact_palindrome(word, letter_map)]
    for span in words:
        distances = [differing_places(span, word) for word in palindromes
                     if len(word) == len(span)]
        for d in range(6):
            must_agree("distance", (map_name, letters, span, d),
                       any(distance <= d for distance in distances),
                       is_d_palindrome(span, letter_map, alphabet, d))
        if distances:
            must_agree("error count", (map_name, letters, span),
                       min(distances), error_count(span, letter_map))
    return len(words)


# Tilings and palindromes. A case is (letters, map name, alphabet name).

def check_tiling(case, limits):
    letters, map_name, name = case
    question = letters, INSPECT_MAPS[map_name], ALPHABETS[name], limits
    brute = tile_by_brute_force(*question)
    if brute is None:
        return 0
    parts, table = tile_by_table(*question)
    must_agree("table", (case, limits), brute[1], table)
    must_agree("parts", (case, limits), brute[0], parts)
    total = NO_TILING if parts is None else gap_total(parts)
    must_agree("total", (case, limits), total, table[limits[2]])
    return 1


def check_palindromes(case):
    letters, map_name, name = case
    letter_map, alphabet = INSPECT_MAPS[map_name], ALPHABETS[name]
    must_agree("longest", case, longest_palindrome(letters, letter_map),
               longest_palindrome_by_definition(letters, letter_map))
    centres = range(2 * len(letters) - 1)
    for d in (0, 1, 2, 15):
        must_agree("centres", (case, d),
                   maximal_lengths(letters, letter_map, alphabet, d),
                   [maximal_length_by_definition(
                       letters, letter_map, alphabet, c, d) for c in centres])
    # Exact palindromes are the 0-palindromes, also where odd spans are none:
    # their middle letter would be an own partner in the alphabet.
    must_agree("exact", case, exact_lengths(letters, letter_map),
               maximal_lengths(letters, letter_map, alphabet, 0))


# What stops a palindrome.

def pairs_outward(count, centre):
    """The pairs of places of a centre inside so many letters; where there is
    a middle letter, its place with itself comes first."""
    left, right = centre // 2, centre - centre // 2
    while left >= 0 and right < count:
        yield left, right
        left, right = left - 1, right + 1


def stop_by_wrong_pairs(case, centre, d):
    """Of the pairs that are no partners d pass, and the next one blocks."""
    letters, map_name, name = case
    if centre % 2 == 0 and name not in WITH_OWN_PARTNER[map_name]:
        return BARRED, 0, 0
    letter_map = INSPECT_MAPS[map_name]
    wrong = [(left, right)
             for left, right in pairs_outward(len(letters), centre)
             if letter_map[letters[left]] != letters[right]]
    return (PAIR_BLOCKS,) + wrong[d] if len(wrong) > d else (END_MET, 0, 0)


def broken_laws(letters, letter_map, centre, d, answer):
    """What an answer (length, case, left, right) of a right question says that
    can't be: laws that hold however it is found. Where a pair blocks, all d
    errors are inside it."""
    length, case, left, right = answer
    if case == PAIR_BLOCKS and not 0 <= left <= right < len(letters):
        return ["a pair inside the string"]
    first = start_of_span(centre, length)
    span = letters[first:first + length]
    errors = error_count(span, letter_map) if span else 0
    if case == PAIR_BLOCKS:
        laws = [
            ("a pair of the centre", left + right == centre),
            ("the length of what is inside", length == right - left - 1
             or length == 0 and left == right),
            ("a pair of no partners",
             letters[left] != letter_map[letters[right]]),
            ("d errors inside", errors == d)]
    elif case == END_MET:
        laws = [
            ("no places", (left, right) == (0, 0)),
            ("a span with the first or the last letter", length > 0
             and (first == 0 or first + length == len(letters))),
            ("at most d errors", errors <= d)]
    else:
        laws = [
            ("a known case", case == BARRED),
            ("zeros", (length, left, right) == (0, 0, 0)),
            ("a middle letter", centre % 2 == 0)]
    return [name for name, holds in laws if not holds]


def with_other_letter_outside(random_source, case, centre, answer):
    """Another letter of the alphabet, outside the span and the pair; None
    where every place is inside."""
    letters, _, name = case
    length, stopped_by, left, right = answer
    first = start_of_span(centre, length)
    inside = set(range(first, first + length))
    if stopped_by == PAIR_BLOCKS:
        inside |= {left, right}
    places = [k for k in range(len(letters)) if k not in inside]
    if not places:
        return None
    place = random_source.choice(places)
    other = random_source.choice(
        [x for x in LETTERS_OF[name] if x != letters[place]])
    return letters[:place] + bytes([other]) + letters[place + 1:]


def answer_at(letters, map_name, name, centre, d):
    question = letters, INSPECT_MAPS[map_name], ALPHABETS[name], centre, d
    return (maximal_length(*question),) + stop(*question)


def check_stop(random_source, case, centre, d):
    """Both ways to the stop, the laws of the answer, and the local law: what
    is farther out changes nothing. Gives the case where a letter is farther
    out, else None."""
    letters, map_name, name = case
    answer = answer_at(*case, centre, d)
    must_agree("stop", (case, centre, d), answer[1:],
               stop_by_wrong_pairs(case, centre, d))
    must_agree("laws of a stop", (case, centre, d), [], broken_laws(
        letters, INSPECT_MAPS[map_name], centre, d, answer))
    changed = with_other_letter_outside(random_source, case, centre, answer)
    if changed is None:
        return None
    must_agree("local law", (case, centre, d, changed), answer,
               answer_at(changed, map_name, name, centre, d))
    return answer[1]


def check_all_stops(random_source, rounds):
    """Every centre of all small strings, and of so many longer ones."""
    cases = [(string, map_name, name)
             for map_name, name, letters, most in WRITTEN
             for string in small_strings(letters, most)]
    cases += [any_case(random_source, range(7, 41), 1)[0]
              for _ in range(rounds)]
    count, seen = 0, set()
    for case in cases:
        centres = range(2 * len(case[0]) - 1)
        for question in itertools.product(centres, (0, 1, 2, 5, 15)):
            seen.add(check_stop(random_source, case, *question))
            count += 1
    must_agree("cases of stops", "all strings", seen,
               {PAIR_BLOCKS, END_MET, BARRED, None})
    return count


def check_every_small_string():
    count = 0
    for map_name, name, letters, most in WRITTEN:
        for string in small_strings(letters, most):
            case = string, map_name, name
            check_palindromes(case)
            for limits in small_limits():
                count += check_tiling(case, limits)
    return count


def any_case(random_source, lengths, most_m):
    """A string with map and alphabet, and limits, that an opening accepts."""
    map_name, name, letters, _ = random_source.choice(WRITTEN)
    string = b""
    if letters:
        length = random_source.choice(lengths)
        string = bytes(random_source.choices(letters, k=length))
    kind = random_source.choice([1, 2])
    d = random_source.randrange(4) if kind == 2 else 0
    m = random_source.randrange(1, most_m + 1)
    return (string, map_name, name), (kind, m, random_source.randrange(5), d)


def check_random_strings(random_source, rounds):
    count = 0
    for _ in range(rounds):
        case, limits = any_case(random_source, range(6, 12), 5)
        check_palindromes(case)
        count += check_tiling(case, limits)
    return count


# Part files.

def right_records(pieces):
    """The records of all pieces and of all gaps inside the string."""
    count = len(pieces)
    gaps = [(GAP, start, length, 0) for start in range(count)
            for length in range(1, count - start + 1)]
    return {record_of(part) for part in itertools.chain(gaps, *pieces)}


def agreement_by_lookup(file, whole_files, records):
    """The second question's number after the opening's: the file is looked up
    among those of all permitted tilings, its records among all right ones."""
    if file in whole_files:
        return 0
    if len(file) % BYTES_A_PART != 0:
        return 15
    places = range(0, len(file), BYTES_A_PART)
    known = all(file[k:k + BYTES_A_PART] in records for k in places)
    return 17 if known else 16


def any_cover(random_source, pieces):
    """Right parts from 0 up to the end; gaps may touch or be too many."""
    parts, place = [], 0
    while place < len(pieces):
        gaps = [(GAP, place, length, 0)
                for length in range(1, len(pieces) - place + 1)]
        parts.append(random_source.choice(
            random_source.choice([gaps, pieces[place] or gaps])))
        place += parts[-1][2]
    return parts


def damaged(random_source, file):
    """Records left out, doubled or in another order, the tail cut, or a byte
    written over."""
    first, last = sorted(
        BYTES_A_PART * random_source.randrange(len(file) // BYTES_A_PART + 1)
        for _ in range(2))
    place = random_source.randrange(len(file) + 1)
    byte = random_source.choice([0, 1, 2, 3, 71, 80, 255])
    return random_source.choice([
        file[:first] + file[last:], file[:last] + file[first:],
        file[first:last] + file[:first] + file[last:], file[:place],
        file[:place] + bytes([byte]) + file[place + 1:]])


def check_walk(tiling, file):
    for index, part in enumerate(tiling):
        place = BYTES_A_PART * index
        must_agree("reader", (file, place), read_part(file, place),
                   (part, place + BYTES_A_PART))
    must_agree("reader's end", file, read_part(file, len(file)), None)


def files_with_odd_spans(letters, letter_map, limits):
    """Files right for an alphabet with an own partner: under another one
    their pieces of odd length may be none."""
    parts, _ = tile_by_table(letters, letter_map, ALPHABETS[b"*"], limits)
    return [] if parts is None else [records_of(parts)]


def check_files(random_source, case, limits, rounds):
    """Whole files and damaged ones of one string."""
    letters, map_name, name = case
    letter_map, alphabet = INSPECT_MAPS[map_name], ALPHABETS[name]
    pieces = pieces_by_definition(letters, letter_map, alphabet, limits)
    tilings = list(itertools.islice(
        all_tilings(pieces, 0, limits[2]), BRUTE_TILINGS + 1))
    if len(tilings) > BRUTE_TILINGS:
        return 0
    whole_files = {records_of(tiling): tiling for tiling in tilings}
    for file, tiling in whole_files.items():
        check_walk(tiling, file)
    records = right_records(pieces)
    files = random_source.sample(sorted(whole_files),
                                 min(rounds, len(whole_files)))
    files += [records_of(any_cover(random_source, pieces))
              for _ in range(rounds)]
    files += files_with_odd_spans(letters, letter_map, limits)
    # Damaged once, and then some of them again, so that refusals meet.
    for _ in range(2):
        files += [damaged(random_source, file) for file in files]
    for file in files:
        must_agree("agreement", (case, limits, file),
                   agreement_by_lookup(file, whole_files, records),
                   ask_agreement(letters, letter_map, alphabet, limits, file))
    return len(files)


def check_random_files(random_source, rounds):
    return sum(check_files(random_source, *any_case(
        random_source, range(10), 3), 6) for _ in range(rounds))


# The sheet's calls, named by their letters in the call program.

SHEET_CALLS = {
    "L": Sheet.change_letter, "K": Sheet.change_kind_and_errors,
    "M": Sheet.change_length_and_gaps, "I": Sheet.put_in,
    "X": Sheet.take_out, "B": Sheet.take_back, "A": Sheet.put_again}

# The lists of 01, L2, L5 and L6, in testing order.
REFUSALS_OF_CALLS = {"L": [6, 19, 7], "K": [4, 5, 7], "M": [5, 7],
                     "I": [6, 1, 19, 7], "X": [6, 7], "B": [8], "A": [9]}

# How take-back shows each change.
SHOWN_BACK = {"L": "L", "K": "K", "M": "M", "I": "X", "X": "I"}


def with_asked_limits(limits, sort, numbers):
    """Those that K or M leads to: two as asked for, the other two kept."""
    kind, m, g, d = limits
    if sort == "K":
        kind, d = numbers
    else:
        m, g = numbers
    return kind, m, g, d


class Followed:
    """Both lists as they come of the calls made since the opening, each change
    as it was asked for. Nothing is read off the sheet."""

    def __init__(self, letters, limits):
        self.opened, self.opened_limits = letters, limits
        self.standing, self.taken_back = [], []
        self.letters = letters

    def follow(self, sort, numbers):
        """An accepted call."""
        if sort == "B":
            self.taken_back.append(self.standing.pop())
        elif sort == "A":
            self.standing.append(self.taken_back.pop())
        else:
            self.standing.append((sort, numbers))
            self.taken_back = []
        self.letters = bytes(map(self.letter_at, range(self.count())))

    def limits(self):
        """Those of the opening, but for kind and d as asked for last, and for
        m and g."""
        limits = self.opened_limits
        for sort in ("K", "M"):
            asked = [change for change in self.standing if change[0] == sort]
            if asked:
                limits = with_asked_limits(limits, *asked[-1])
        return limits

    def count(self):
        sorts = [sort for sort, _ in self.standing]
        return len(self.opened) + sorts.count("I") - sorts.count("X")

    def letter_at(self, place):
        """Follows the letter from place to place, from the newest change back
        to the one that wrote it or else to the opening."""
        for sort, numbers in reversed(self.standing):
            if sort in ("L", "I") and numbers[0] == place:
                return numbers[1]
            if sort == "I" and numbers[0] < place:
                place -= 1
            elif sort == "X" and numbers[0] <= place:
                place += 1
        return self.opened[place]


def call_tests(followed, name, sort, numbers):
    """A call's list of refusals, each with whether it holds."""
    if sort == "B":
        return [(8, not followed.standing)]
    if sort == "A":
        return [(9, not followed.taken_back)]
    full = [(7, len(followed.standing) >= MOST_CHANGES)]
    if sort in ("K", "M"):
        # All four as an opening tests them: what is kept passes, so that only
        # what the call names can be refused.
        return limit_tests(*with_asked_limits(
            followed.limits(), sort, numbers)) + full
    place, count = numbers[0], followed.count()
    if sort == "X":
        return [(6, place >= count)] + full
    outside = [(19, numbers[1] not in LETTERS_OF[name])]
    if sort == "L":
        return [(6, place >= count)] + outside + full
    return [(6, place > count), (1, count >= MOST_LETTERS)] + outside + full


def change_shown(followed, sort, numbers):
    """The sort of the change that a call makes, and its numbers as asked."""
    if sort == "B":
        newest, numbers = followed.standing[-1]
        return SHOWN_BACK[newest], numbers
    if sort == "A":
        return followed.taken_back[-1]
    return sort, numbers


def letters_said(shown, place, before, after):
    """What a change of letters says back, read off the strings before it and
    after it."""
    if shown == "L":
        return place, before[place], after[place]
    changed = before if shown == "X" else after
    return place, changed[place], len(after)


def followed_reply(followed, sort, numbers):
    """The sort of the change that an accepted call makes, and its line."""
    before = followed.letters
    shown, asked = change_shown(followed, sort, numbers)
    followed.follow(sort, numbers)
    said = followed.limits()
    if shown not in ("K", "M"):
        said = letters_said(shown, asked[0], before, followed.letters)
    return shown, line_of(shown, *said, len(followed.standing))


def reply_of(sheet, sort, numbers):
    """The line that is said back, or the number of a refusal."""
    try:
        return SHEET_CALLS[sort](sheet, *numbers)
    except Refusal as refusal:
        return refusal.number


def as_asked(change):
    """A change that the sheet keeps, without what it replaced."""
    sort, place, _, new = change
    if sort in ("K", "M"):
        return sort, new
    return sort, (place,) if sort == "X" else (place, new)


def check_sheet(call, sheet, followed):
    """The sheet beside what its opening and the calls make of it."""
    wanted = followed.letters, followed.limits()
    must_agree("sheet", call, (bytes(sheet.letters), sheet.limits), wanted)
    must_agree("sheet reckoned afresh", call, sheet.reckoned(), wanted)
    must_agree("standing", call, followed.standing,
               [as_asked(change) for change in sheet.standing])
    must_agree("taken back", call, followed.taken_back,
               [as_asked(change) for change in sheet.taken_back])
    must_agree("1,000 letters at most", call, len(sheet.letters) <= 1000, True)
    must_agree("64 changes at most", call, len(sheet.standing) <= 64, True)
    # What an opening would refuse would be 24.
    must_agree("bounds", call, 0, number_of(
        Sheet, bytes(sheet.letters), sheet.letter_map, sheet.alphabet,
        *sheet.limits))


def check_call(sheet, followed, name, sort, numbers):
    """One call, and what came of it: each two refusals that hold together, and
    the number of the first or the sort of the change that is made."""
    call = len(followed.opened), name, followed.standing, sort, numbers
    tests = call_tests(followed, name, sort, numbers)
    wanted = outcome = first_fault(tests)
    if wanted == 0:
        outcome, wanted = followed_reply(followed, sort, numbers)
    must_agree("call", call, wanted, reply_of(sheet, sort, numbers))
    check_sheet(call, sheet, followed)
    held = [number for number, holds in tests if holds]
    return {(sort, outcome)} | {
        (sort,) + two for two in itertools.combinations(held, 2)}


# Kinds, shortest lengths, and numbers of gaps or errors: right ones, those at
# the bounds and past them, and some that a byte would cut to right ones.
ASKED_KINDS = [0, 1, 2, 3, 4, 255, 256, 257, 258, 513, 9999]
ASKED_LENGTHS = [0, 1, 2, 15, 16, 255, 256, 257, 999, 1000, 1001, 1024, 9999]
ASKED_COUNTS = list(range(18)) + [255, 256, 257, 271, 272, 9999]


def check_limit_calls():
    """K and M with each value beside each, from either kind; one that is made
    is taken back before the next."""
    asked = [("K", two)
             for two in itertools.product(ASKED_KINDS, ASKED_COUNTS)]
    asked += [("M", two)
              for two in itertools.product(ASKED_LENGTHS, ASKED_COUNTS)]
    sheets = [(1, 1, 0, 0), (2, 1000, 15, 15)]
    for limits in sheets:
        sheet = Sheet(b"", INSPECT_MAPS[b"I"], ALPHABETS[b"*"], *limits)
        followed = Followed(b"", limits)
        for sort, numbers in asked:
            check_call(sheet, followed, b"*", sort, numbers)
            if followed.standing:
                check_call(sheet, followed, b"*", "B", ())
    return len(sheets) * len(asked)


def any_numbers(random_source, sort, count):
    """Places up to the second past the last letter; right and wrong letters
    and limits."""
    if sort in ("B", "A"):
        return ()
    if sort == "K":
        return random_source.choice([
            (1, 0), (1, 0), (2, 0), (2, 1), (2, 15), (3, 0), (1, 1), (2, 16),
            (0, 99)])
    if sort == "M":
        return random_source.choice([
            (1, 0), (1, 2), (2, 3), (1000, 15), (0, 0), (1001, 0), (1, 16),
            (0, 99)])
    inside = random_source.randrange(count + 1)
    place = random_source.choice(
        [0, max(count - 1, 0), count, count + 1, inside, inside, inside])
    if sort == "X":
        return (place,)
    return place, random_source.choice(b"AAACCGTN@\0\xff")


def sorts_of_calls(random_source, preferences):
    """Without end, in runs that prefer one sort: so changes come to stand up
    to 64, and letters to be 1,000 or none."""
    while True:
        preferred = random_source.choice(preferences)
        for _ in range(random_source.choice([3, 10, 30, 70])):
            other = random_source.choice("LIXKMBA")
            yield random_source.choice([preferred, preferred, other])


def check_calls(random_source, case, preferences, rounds):
    """So many calls on one sheet, and all that came of them."""
    letters, map_name, name = case
    limits = 1, 1, 0, 0
    sheet = Sheet(letters, INSPECT_MAPS[map_name], ALPHABETS[name], *limits)
    followed = Followed(letters, limits)
    seen = set()
    sorts = sorts_of_calls(random_source, preferences)
    for sort in itertools.islice(sorts, rounds):
        numbers = any_numbers(random_source, sort, followed.count())
        seen |= check_call(sheet, followed, name, sort, numbers)
        if followed.count() in (0, MOST_LETTERS):
            seen.add((sort, "at", followed.count()))
    return seen


def all_that_comes_of_calls():
    """Each refusal, each two of a list together, and each change that is made;
    and each call that leaves no letters, and 1,000."""
    wanted = {(sort, number) for sort, numbers in REFUSALS_OF_CALLS.items()
              for number in numbers}
    wanted |= {(sort,) + two for sort, numbers in REFUSALS_OF_CALLS.items()
               for two in itertools.combinations(numbers, 2)}
    wanted |= {(sort, sort) for sort in "LKMIX"}
    wanted |= {(sort, shown) for sort in "BA" for shown in "LKMIX"}
    return wanted | {(sort, "at", count) for sort in "LKMIXBA"
                     for count in (0, MOST_LETTERS)}


def check_random_calls(random_source):
    """All maps and alphabets with few letters, and some with nearly 1,000."""
    cases = [((length * letters[:1], map_name, name), "LIIIXXXKMBBAA")
             for map_name, name, letters, _ in WRITTEN for length in (0, 4)]
    cases += [((length * b"A", map_name, name), "LLIIIKM")
              for length, map_name, name in (
                  (1000, b"I", b"*"), (1000, b"C", b"D"), (1000, b"I", b"N"),
                  (990, b"Y", b"*"), (960, b"I", b"O"), (940, b"C", b"N"))]
    seen, rounds = set(), 400
    for case, preferences in cases:
        seen |= check_calls(random_source, case, preferences, rounds)
    missing = sorted(all_that_comes_of_calls() ^ seen, key=repr)
    must_agree("missing or strange outcomes", "all calls", missing, [])
    return rounds * len(cases)


# Shuffled palindromes.

# Letters, and the length up to which all strings in them are written out.
SHUFFLED = [(b"AB", 8), (b"AZ", 4), (b"ABC", 6), (b"ACGT", 5), (b"ABCDE", 5)]


@functools.lru_cache(maxsize=None)
def can_be_reordered(sorted_letters):
    """Whether one of all their orders is a palindrome."""
    return any(order == order[::-1]
               for order in itertools.permutations(sorted_letters))


def lengths_by_orders(letters):
    """How a stretch is ordered makes no difference to its orders, so that
    those of equal letters are gone through once."""
    return [max(end - start for end in range(start + 1, len(letters) + 1)
                if can_be_reordered(bytes(sorted(letters[start:end]))))
            for start in range(len(letters))]


def is_counted_as_shuffled(stretch):
    odd_ones = [x for x in set(stretch) if stretch.count(x) % 2 == 1]
    return len(odd_ones) <= 1


def lengths_by_whole_counts(letters):
    """Each stretch is counted afresh, from the longest down."""
    return [next(end - start for end in range(len(letters), start, -1)
                 if is_counted_as_shuffled(letters[start:end]))
            for start in range(len(letters))]


def longer_exact_palindromes(letters, lengths):
    """Those under the plain map that are longer than the length given for the
    place where they begin."""
    return [(start, end) for start, longest in enumerate(lengths)
            for end in range(start + longest + 1, len(letters) + 1)
            if is_exact_palindrome(letters[start:end], PLAIN_MAP)]


def check_shuffles(letters, lengths_another_way):
    lengths = shuffled_lengths(letters)
    must_agree("shuffles", letters, lengths, lengths_another_way(letters))
    must_agree("longer exact palindromes", letters, [],
               longer_exact_palindromes(letters, lengths))


def shuffle_tests(letters, entries):
    """L7's list of refusals, each with whether it holds."""
    return [(1, len(letters) > 1000),
            (20, any(not 65 <= letter <= 90 for letter in letters)),
            (11, entries < len(letters))]


def check_shuffle_room(letters, entries):
    """The refusal, and all lent entries."""
    case, lent = (letters[:10], entries), [LENT_FILL] * entries
    number = number_of(ask_shuffles, letters, lent)
    must_agree("shuffles refused", case, number,
               first_fault(shuffle_tests(letters, entries)))
    filled = shuffled_lengths(letters) if number == 0 else []
    must_agree("lent entries", case, lent,
               filled + [LENT_FILL] * (entries - len(filled)))


def check_all_shuffles(random_source, rounds):
    """All small strings, and so many longer ones; and the refusals with each
    byte, and with strings at the bound."""
    strings = [string for letters, most in SHUFFLED
               for string in small_strings(letters, most)]
    for string in strings:
        check_shuffles(string, lengths_by_orders)
    for _ in range(rounds):
        letters = random_source.choice([b"AB", b"ACGT", b"QRSTUVWX", CAPITALS])
        length = random_source.randrange(9, 41)
        check_shuffles(bytes(random_source.choices(letters, k=length)),
                       lengths_by_whole_counts)
    faulty_and_right = [bytes([x]) for x in range(256)] + [
        b"", b"AZ", b"A@", b"[Z", b"A" * 1000, b"A" * 1001, b"a" * 1001]
    for string in faulty_and_right:
        for entries in (0, 1, 2, 999, 1000, 1001, 1002):
            check_shuffle_room(string, entries)
    return len(strings) + rounds


def run():
    random_source = random.Random(1)
    check_all_refusals()
    check_alphabets()
    spans = sum(check_distances(*small) for small in SMALL_ALPHABETS)
    count = check_every_small_string()
    count += check_random_strings(random_source, 600)
    file_count = check_random_files(random_source, 1500)
    calls = check_limit_calls() + check_random_calls(random_source)
    stops = check_all_stops(random_source, 100)
    shuffles = check_all_shuffles(random_source, 300)
    print("self-check: %d spans, %d tilings, %d files, %d calls, %d stops and "
          "%d shuffled strings agree, and all maps with all alphabets"
          % (spans, count, file_count, calls, stops, shuffles))
