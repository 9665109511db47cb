"""Lines over all maps and alphabets (02, L2), and what their replies have to
show: each refusal in its place, answers with pieces of odd length, and answers
where odd spans are no palindromes."""

import itertools

import palindromes
import second
from damage import ALPHABET_WAYS, FILE_WAYS, Returned, other_tiling
from drawing import (
    agreement_question, any_limits, joined, parts_given, random_word,
    room_near, table_entries, tiling_question, usual_limits,
    with_wrong_letters)
from selfcheck import CLOSED, LETTERS_OF, WITH_OWN_PARTNER

PAIRS = list(itertools.product(
    [b"I", b"C", b"Y", b"S", b"X"], [b"*", b"D", b"N", b"O", b"S", b"E"]))

# Any byte but the line end and its partner under Y.
ARBITRARY = bytes(x for x in range(256) if x not in (10, 11))
ALL_LETTERS = [b"ACGT", b"ACGTN", b"@A", b"@ABC", b"AT \r\0\x80\xff",
               ARBITRARY]
LETTERS_FOR = {
    b"*": ALL_LETTERS, b"S": ALL_LETTERS, b"D": [b"ACGT", b"AT", b"AC"],
    b"N": [b"ACGTN", b"ATN", b"ACGT"], b"O": [b"ACG", b"AC"], b"E": [b""]}

LENGTHS = [1, 2, 3, 4, 5, 6, 7, 8, 9, 10, 12, 15, 20, 21, 30, 40]
# The whole of so many letters has at most 15 errors under any map.
WHOLE_LENGTHS = {"odd": [1, 3, 5, 7, 9, 11, 21, 29],
                 "even": [2, 4, 6, 8, 10, 12, 22, 30]}


# Strings.

def usable_map(map_name):
    """The map itself, or plain for one that every question refuses."""
    if map_name in CLOSED:
        return second.INSPECT_MAPS[map_name]
    return second.PLAIN_MAP


def folded(source, letters, letter_map, length):
    """Palindromes of one map, end to end, with a few wrong letters. Now and
    then one has a middle letter."""
    word = b""
    while len(word) < length:
        arm = random_word(source, letters, source.randrange(1, 6))
        middle = random_word(source, letters, source.choice([0, 0, 1]))
        word += arm + middle + arm[::-1].translate(letter_map)
    return with_wrong_letters(source, letters, word[:length])


def spelt_string(source, map_name, alphabet, length):
    """Of the alphabet's letters; no letter of it is outside where the map
    closes the alphabet."""
    letters = source.choice(LETTERS_FOR[alphabet])
    if not letters:
        return b""
    if source.random() < 0.6:
        return folded(source, letters, usable_map(map_name), length)
    return random_word(source, letters, length)


def with_letter_outside(source, alphabet, string):
    """One letter more, outside the alphabet where there is such a letter."""
    inside = LETTERS_OF.get(alphabet, ARBITRARY)
    outside = [x for x in b"NTat@U \0\x80\xff" if x not in inside]
    place = source.randrange(len(string) + 1)
    return string[:place] + bytes([source.choice(outside or b"N")]) \
        + string[place:]


def any_length(source):
    return 200 if source.random() < 0.02 else source.choice(LENGTHS)


# Lines that take the whole string as one piece: kind 2 with d 15, no gap.

def whole_lines(source, pair, parity):
    """One of each sort, with just enough lent. Where the alphabet has an own
    partner, the string is one piece; where not, only with even length."""
    map_name, alphabet = pair
    string = spelt_string(
        source, map_name, alphabet, source.choice(WHOLE_LENGTHS[parity]))
    n = len(string)
    limits = [2, source.choice([1, max(n, 1)]), 0, 15]
    file = b""
    if n > 0:
        errors = palindromes.error_count(string, usable_map(map_name))
        file = second.record_of((second.PIECE, 0, n, errors))
    tiling = [*limits, map_name, alphabet, table_entries(string, 0), 6, string]
    return [
        joined(b"T", *tiling), joined(b"S", *tiling),
        joined(b"C", 15, map_name, alphabet, max(2 * n - 1, 0), string),
        agreement_question(Returned(limits, map_name, alphabet, string, file))]


# Lines with limits and rooms of any sort.

def limits_with_errors(source):
    """Every other time kind 2 and an error or more: odd spans are then pieces
    wherever the alphabet allows them."""
    limits = any_limits(source)
    if source.random() < 0.5:
        limits[0], limits[3] = 2, source.choice([1, 1, 2, 3])
    return limits


def file_beside(source, pair, string):
    """The file of the tiling under this alphabet or under all bytes, or one
    gap where there is none or where it is long. Every other time the file is
    changed, and the file alone: the rest settles which refusal has to come."""
    map_name, alphabet = pair
    limits = limits_with_errors(source)
    parts = parts_given(
        string, map_name, source.choice([alphabet, b"*"]), limits)
    if parts is None or len(parts) > 50:
        parts = [(second.GAP, 0, len(string), 0)]
    returned = Returned(limits, map_name, alphabet, string,
                        second.records_of(parts))
    if source.random() < 0.5:
        way = source.choice(FILE_WAYS + [other_tiling])
        returned = way(source, returned) or returned
    return returned


def lines_of_each_sort(source, pair, string):
    map_name, alphabet = pair
    lines = [tiling_question(source, letter, limits_with_errors(source),
                             map_name, alphabet, string)
             for letter in (b"T", b"S")]
    d = source.choice([0, 0, 1, 1, 2, 3, 15, 16, 9999])
    entries = room_near(source, 2 * len(string) - 1)
    return lines + [joined(b"C", d, map_name, alphabet, entries, string),
                    agreement_question(file_beside(source, pair, string))]


def lines_of_pair(source, pair):
    """Strings with a letter outside the alphabet; where the map is right whole
    strings too, and where it closes the alphabet several of any sort, more of
    them where it has no own partner."""
    map_name, alphabet = pair
    string = spelt_string(source, map_name, alphabet, any_length(source))
    lines = lines_of_each_sort(
        source, pair, with_letter_outside(source, alphabet, string))
    if map_name not in CLOSED:
        return lines
    for parity in WHOLE_LENGTHS:
        lines += whole_lines(source, pair, parity)
    rounds = 0
    if alphabet in CLOSED[map_name]:
        rounds = 3 if alphabet in WITH_OWN_PARTNER[map_name] else 6
    for _ in range(rounds):
        string = spelt_string(source, map_name, alphabet, any_length(source))
        lines += lines_of_each_sort(source, pair, string)
    return lines


def longest_lines(source, map_name):
    """These take no alphabet."""
    string = spelt_string(source, map_name, b"*", any_length(source))
    first = source.randrange(len(string) + 1)
    return [joined(b"P", map_name, string),
            joined(b"W", map_name, first, string)]


def lines_over_all_pairs(source):
    lines = []
    for pair in PAIRS:
        lines += lines_of_pair(source, pair)
    for map_name in [b"I", b"C", b"Y", b"Y", b"Y"]:
        lines += longest_lines(source, map_name)
    return lines


# Returned files whose alphabet changes too.

def spelt_case(source):
    """Limits, map, alphabet and a string that an opening accepts."""
    map_name, alphabet = source.choice(
        [(map_name, name) for map_name, names in CLOSED.items()
         for name in names if name != b"E"])
    string = spelt_string(source, map_name, alphabet, source.choice(LENGTHS))
    return usual_limits(source), map_name, alphabet, string


def returned_lines(source, count):
    """So many files of tilings, whole and changed in every way."""
    lines = []
    while count > 0:
        limits, map_name, alphabet, string = spelt_case(source)
        parts = parts_given(string, map_name, alphabet, limits)
        if parts is None:
            continue
        count -= 1
        returned = Returned(limits, map_name, alphabet, string,
                            second.records_of(parts))
        changed = [way(source, returned) for way in ALPHABET_WAYS]
        lines += [agreement_question(one)
                  for one in [returned] + changed if one is not None]
    return lines


# What the replies to lines over all pairs have to show.

def piece_lengths_of(letter, line, reply):
    """The lengths of all pieces of an accepted answer: those written, filled
    or agreed with."""
    rows = [row.split() for row in reply.split(b"\n")]
    if letter == b"C":
        answered = int(rows[0][2])
        return [int(length) for length in rows[1][1:answered + 1]]
    if letter == b"Y":
        file = bytes.fromhex(line.split(b" ")[7].decode("ascii"))
    else:
        file_bytes = second.BYTES_A_PART * int(rows[0][3])
        file = bytes(int(byte) for byte in rows[2][1:file_bytes + 1])
    return [length for sort, _, length, _ in second.walked_parts(file)
            if sort == second.PIECE]


def outcome(letter, line, reply):
    """The number of a refusal, or which pieces an accepted answer has."""
    number = int(reply.split()[1])
    if number != 0:
        return number
    lengths = piece_lengths_of(letter, line, reply)
    if any(length % 2 == 1 for length in lengths):
        return "odd pieces"
    return "even pieces" if any(lengths) else "no pieces"


def outcomes_of(letter, map_name, alphabet):
    """What T, S, C or Y has to show under a map and an alphabet, by 01's and
    L2's lists."""
    if map_name not in CLOSED:
        return {2 if map_name == b"S" else 3}
    if alphabet not in CLOSED[map_name]:
        return {18}
    wanted = set() if alphabet == b"*" else {19}
    if alphabet == b"E":
        return wanted | {"no pieces"}
    if alphabet not in WITH_OWN_PARTNER[map_name]:
        # A whole string of odd length: no tiling, no right part.
        barred = {b"T": {10}, b"S": {10}, b"C": set(), b"Y": {16}}[letter]
        return wanted | barred | {"even pieces"}
    if letter == b"C":
        return wanted | {"odd pieces"}
    return wanted | {"odd pieces", "even pieces"}


def case_of(line):
    """The sort of a line, its map and its alphabet."""
    fields = line.split(b" ")
    place = 2 if fields[0] == b"C" else 5
    return fields[0], fields[place], fields[place + 1]


# The map, or map and alphabet, settle these whatever else is asked.
SETTLED = {2, 3, 18, "odd pieces"}


def find_faults(lines, replies):
    """Outcomes that are not there though they have to be, or that are there
    though they can't be."""
    seen = {(letter,) + pair: set() for pair in PAIRS
            for letter in (b"T", b"S", b"C", b"Y")}
    for line, reply in zip(lines, replies):
        if line[:1] not in (b"P", b"W"):
            case = case_of(line)
            seen[case].add(outcome(case[0], line, reply))
    faults = []
    for case, shown in seen.items():
        name, wanted = b" ".join(case).decode("ascii"), outcomes_of(*case)
        faults += ["%s never gives %s" % (name, one) for one in wanted - shown]
        faults += ["%s gives %s" % (name, one)
                   for one in shown & (SETTLED - wanted)]
    return sorted(faults)
