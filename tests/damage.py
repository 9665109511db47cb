"""Part files that come back changed: ways to damage a file, or to change the
string, map, alphabet or limits beside it. Each way takes a source of chance
and what returned, and gives that changed, or None where there is nothing to
change so."""

import collections
import struct

import second

Returned = collections.namedtuple(
    "Returned", "limits map_name alphabet string file")

# First byte, errors, start, length.
RECORD = struct.Struct(">BBHH")
PIECE_BYTE, GAP_BYTE = 80, 71


def whole_records(file):
    """Without the rest of a record that is cut off."""
    return [file[k:k + RECORD.size]
            for k in range(0, len(file) - RECORD.size + 1, RECORD.size)]


def length_of(record):
    return RECORD.unpack(record)[3]


def rewritten(record, first_byte=None, errors=0, start=0, length=0):
    """Another first byte, or steps added to the numbers of a record."""
    old = RECORD.unpack(record)
    return RECORD.pack(old[0] if first_byte is None else first_byte,
                       (old[1] + errors) % 256, (old[2] + start) % 65536,
                       (old[3] + length) % 65536)

# Values that no limit may have: kind, m, g, d.
OUT_OF_RANGE = [
    [0, 3, 255, 257, 258, 9999],
    [0, 1001, 1024, 1025, 9999],
    [16, 255, 256, 272, 9999],
    [1, 16, 255, 256, 257, 9999],
]


def can_be_opened(string, map_name, alphabet, limits):
    try:
        second.Sheet(string, second.INSPECT_MAPS[map_name],
                     second.ALPHABETS[alphabet], *limits)
    except second.Refusal:
        return False
    return True


# Ways to damage a file: from its records to other ones, or to None where
# there is nothing to damage so.

def flipped_bit(source, records):
    file = bytearray(b"".join(records))
    file[source.randrange(len(file))] ^= 1 << source.randrange(8)
    return [bytes(file)]


def dropped_record(source, records):
    place = source.randrange(len(records))
    return records[:place] + records[place + 1:]


def doubled_record(source, records):
    place = source.randrange(len(records))
    return records[:place + 1] + records[place:]


def swapped_records(source, records):
    records = list(records)
    one, other = source.sample(range(len(records)), 2)
    records[one], records[other] = records[other], records[one]
    return records


def cut_at_a_record(source, records):
    return records[:source.randrange(len(records))]


def cut_inside_a_record(source, records):
    place = source.randrange(len(records))
    return records[:place] + [records[place][:source.randrange(1, 6)]]


def lengthened_file(source, records):
    more = source.choice([records[-1], bytes(6), records[0][:1], bytes(5),
                          RECORD.pack(GAP_BYTE, 0, 0, 1)])
    return records + [more]


def replaced(source, records, fits, change):
    """One record of those that fit gives way to others."""
    places = [k for k, record in enumerate(records) if fits(record)]
    if not places:
        return None
    place = source.choice(places)
    return records[:place] + change(records[place]) + records[place + 1:]


def any_record(_record):
    return True


def is_gap(record):
    return record[0] == GAP_BYTE


def is_piece(record):
    return record[0] == PIECE_BYTE


def split_gap(source, records):
    def halves(gap):
        first = source.randrange(1, length_of(gap))
        return [rewritten(gap, length=first - length_of(gap)),
                rewritten(gap, start=first, length=-first)]
    return replaced(source, records, lambda record: is_gap(record)
                    and length_of(record) >= 2, halves)


def merged_neighbours(source, records):
    """Into one part of the first one's sort, or into a gap."""
    place = source.randrange(len(records) - 1)
    one, following = records[place:place + 2]
    merged = rewritten(one, length=length_of(following))
    if source.random() < 0.7:
        merged = rewritten(merged, GAP_BYTE, errors=-merged[1])
    return records[:place] + [merged] + records[place + 2:]


def piece_as_gap(source, records):
    """The errors of the piece stay there now and then."""
    kept = source.random() < 0.3
    return replaced(source, records, is_piece, lambda piece: [
        rewritten(piece, GAP_BYTE, errors=0 if kept else -piece[1])])


def gap_as_piece(source, records):
    return replaced(source, records, is_gap, lambda gap: [
        rewritten(gap, PIECE_BYTE, errors=source.choice([0, 0, 1, 2]))])


def raised_errors(source, records):
    return replaced(source, records, any_record, lambda record: [
        rewritten(record, errors=source.choice([1, 1, 1, 2, 15]))])


def lowered_errors(source, records):
    return replaced(source, records, lambda record: record[1] > 0,
                    lambda record: [rewritten(record, errors=-1)])


def start_off_by_one(source, records):
    return replaced(source, records, any_record, lambda record: [
        rewritten(record, start=source.choice([-1, 1]))])


def length_off_by_one(source, records):
    return replaced(source, records, any_record, lambda record: [
        rewritten(record, length=source.choice([-1, 1]))])


def moved_border(source, records):
    """One neighbour takes a letter from the other: all is covered still."""
    place, step = source.randrange(len(records) - 1), source.choice([-1, 1])
    one, following = records[place:place + 2]
    return records[:place] + [
        rewritten(one, length=step),
        rewritten(following, start=step, length=-step)] + records[place + 2:]


def wrong_first_byte(source, records):
    return replaced(source, records, any_record, lambda record: [
        rewritten(record, source.choice(
            [0, 1, 70, 72, 79, 81, 103, 112, 113, 128, 199, 208, 255]))])


def far_number(source, records):
    """A start or a length far outside, or both adding up past 65,535."""
    steps = source.choice([{"start": 256}, {"length": 256}, {"start": -2},
                           {"start": 65535, "length": 1}, {"length": 65000}])
    return replaced(source, records, any_record,
                    lambda record: [rewritten(record, **steps)])


def damaging(least_records, damage):
    """The damage as a way to change what returned."""
    def way(source, returned):
        records = whole_records(returned.file)
        if len(records) < least_records:
            return None
        damaged = damage(source, records)
        if damaged is None:
            return None
        return returned._replace(file=b"".join(damaged))
    return way


# Ways to change the limits, the map, the alphabet or the string beside the
# file.

def with_limit(returned, which, value):
    limits = list(returned.limits)
    limits[which] = value
    return returned._replace(limits=limits)


def lowered_g(source, returned):
    """Below what it was, or below the number of gaps."""
    g = returned.limits[2]
    gaps = sum(map(is_gap, whole_records(returned.file)))
    lower = [q for q in (g - 1, gaps - 1, gaps) if 0 <= q < g]
    return with_limit(returned, 2, source.choice(lower)) if lower else None


def raised_m(source, returned):
    """Above what it was, up to the shortest piece or above that."""
    m = returned.limits[1]
    shortest = min((length_of(record)
                    for record in whole_records(returned.file)
                    if is_piece(record)), default=m)
    return with_limit(returned, 1, source.choice(
        [m + 1, max(shortest, m + 1), max(shortest, m) + 1]))


def other_kind(source, returned):
    """Kind 1 with errors allowed is refused now and then."""
    kind, m, g, d = returned.limits
    if kind == 2 and source.random() < 0.8:
        d = 0
    return returned._replace(limits=[3 - kind, m, g, d])


def other_d(source, returned):
    d = returned.limits[3]
    others = [other for other in (0, d - 1, d + 1, d + 2, 15)
              if other >= 0 and other != d]
    return with_limit(returned, 3, source.choice(others))


def other_map(source, returned):
    others = [name for name in (b"I", b"I", b"I", b"C", b"C", b"C", b"S", b"X")
              if name != returned.map_name]
    return returned._replace(map_name=source.choice(others))


def map_without_own_partners(_source, returned):
    return None if returned.map_name == b"Y" else \
        returned._replace(map_name=b"Y")


def other_alphabet(source, returned):
    others = [name for name in second.ALPHABETS if name != returned.alphabet]
    return returned._replace(alphabet=source.choice(others))


def wrong_limit(source, returned):
    which = source.randrange(4)
    return with_limit(returned, which, source.choice(OUT_OF_RANGE[which]))


def changed_letter(source, returned):
    letters = bytearray(returned.string)
    if not letters:
        return None
    place = source.randrange(len(letters))
    letters[place] = source.choice(
        [letter for letter in b"ACGTN" if letter != letters[place]])
    return returned._replace(string=bytes(letters))


def changed_length(source, returned):
    """A letter more or fewer at the start or at the end."""
    string = returned.string
    return returned._replace(string=source.choice(
        [string[1:], string[:-1], string + b"A", b"A" + string]))


def any_spans(source, ends, least, no_gap_first):
    """The spans of some permitted tiling, chosen part by part among those
    that the second program's tables allow."""
    place, q, after_gap, spans = 0, len(least) - 1, False, []
    while place < len(ends):
        pieces = [end for end in ends[place]
                  if least[q][end] < second.ENDLESS]
        gaps = [] if after_gap or q == 0 else [
            end for end in range(place + 1, len(ends) + 1)
            if no_gap_first[q - 1][end] < second.ENDLESS]
        after_gap = not pieces or len(gaps) > 0 and source.random() < 0.4
        sort, chosen_ends = second.PIECE, pieces
        if after_gap:
            sort, chosen_ends, q = second.GAP, gaps, q - 1
        end = source.choice(chosen_ends)
        spans.append((sort, place, end - place))
        place = end
    return spans


def other_tiling(source, returned):
    """The file of another permitted tiling, where one is found."""
    limits, map_name, alphabet, string, file = returned
    if not can_be_opened(string, map_name, alphabet, limits):
        return None
    letter_map = second.INSPECT_MAPS[map_name]
    ends = second.piece_ends(
        string, letter_map, second.ALPHABETS[alphabet], limits)
    least, no_gap_first = second.least_totals(ends, limits[2])
    if least[-1][0] >= second.ENDLESS:
        return None
    for _ in range(20):
        spans = any_spans(source, ends, least, no_gap_first)
        other = second.records_of(
            second.with_errors(spans, string, letter_map))
        if other != file:
            return returned._replace(file=other)
    return None


def two_ways(source, returned):
    """One after the other, so that refusals meet."""
    for ways in (SINGLE_WAYS, FILE_WAYS):
        returned = source.choice(ways)(source, returned) or returned
    return returned


def other_alphabet_and_file(source, returned):
    changed = other_alphabet(source, returned)
    return source.choice(FILE_WAYS)(source, changed) or changed


def with_loose_bytes(source, returned):
    """One way, and less than a record behind the file, so that 15 meets the
    other refusals."""
    changed = source.choice(SINGLE_WAYS)(source, returned) or returned
    loose = source.choice([b"P", b"G", b"\0"]) * source.randrange(1, 6)
    return changed._replace(file=changed.file + loose)


FILE_WAYS = [damaging(1, damage) for damage in (
    flipped_bit, dropped_record, doubled_record, cut_at_a_record,
    cut_inside_a_record, lengthened_file, split_gap, piece_as_gap,
    gap_as_piece, raised_errors, lowered_errors, start_off_by_one,
    length_off_by_one, wrong_first_byte, far_number)]
FILE_WAYS += [damaging(2, damage) for damage in (
    swapped_records, merged_neighbours, moved_border)]
SINGLE_WAYS = FILE_WAYS + [
    lowered_g, raised_m, other_kind, other_d, other_map, wrong_limit,
    changed_letter, changed_length, other_tiling]
RETURN_WAYS = SINGLE_WAYS + 6 * [two_ways] + 3 * [with_loose_bytes]
ALPHABET_WAYS = RETURN_WAYS + 3 * [other_alphabet] + [
    map_without_own_partners, other_alphabet_and_file]
