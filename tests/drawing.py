"""What is drawn from a source of chance for the scripts of both programs:
strings, maps, limits and lent rooms; and fields put together to lines."""

import second
from damage import OUT_OF_RANGE, can_be_opened


# Strings.

def random_word(source, letters, length):
    return bytes(source.choices(letters, k=length))


def repeated_word(source, letters, length):
    word = random_word(source, letters, source.randrange(1, 7))
    return (word * (length + 1))[:length]


def fibonacci_word(length, first=b"A", other=b"C"):
    shorter, longer = first, first + other
    while len(longer) < length:
        shorter, longer = longer, longer + shorter
    return longer[:length]


def with_wrong_letters(source, letters, word):
    word = bytearray(word)
    for _ in range(len(word) // 12):
        word[source.randrange(len(word))] = source.choice(letters)
    return bytes(word)


def folded_word(source, letters, length):
    """Palindromes of both maps with a few wrong letters, end to end."""
    word = b""
    while len(word) < length:
        arm = random_word(source, letters, source.randrange(1, 9))
        partner_map = source.choice(
            [second.PLAIN_MAP, second.COMPLEMENT_MAP])
        word += arm + arm[::-1].translate(partner_map)
        word += random_word(source, letters, source.choice([0, 0, 1, 2, 5]))
    return with_wrong_letters(source, letters, word[:length])


def any_string(source, length):
    letters = source.choice([b"AC", b"AT", b"ACG", b"ACGT", b"ACGTN"])
    sort = source.randrange(6)
    if sort == 0:
        return repeated_word(source, letters, length)
    if sort == 1:
        return fibonacci_word(length, *source.choice(
            [(b"A", b"C"), (b"A", b"T"), (b"C", b"G")]))
    if sort == 2:
        return folded_word(source, letters, length)
    if sort == 3 and length < 40:
        # Spaces, CR, NUL and bytes from 128 on are letters too.
        return random_word(source, b"AT \r\0\x80\xff", length)
    return random_word(source, letters, length)


# Maps and limits.

def any_map(source):
    return source.choice([b"I", b"C"])


def usual_limits(source):
    kind = source.choice([1, 2])
    m = source.choice([1, 1, 2, 2, 3, 4, 6])
    g = source.choice([0, 0, 1, 1, 2, 3, 5, 15])
    d = source.choice([0, 0, 1, 1, 2, 3, 15]) if kind == 2 else 0
    return [kind, m, g, d]


def any_limits(source):
    limits = usual_limits(source)
    while source.random() < 0.15:
        which = source.randrange(4)
        limits[which] = source.choice(OUT_OF_RANGE[which])
    if source.random() < 0.05:
        limits[1] = source.choice([999, 1000])
    return limits


# Lent rooms.

def room_near(source, needed):
    """Exact, one short, none, or larger than needed."""
    rooms = [needed, needed, needed, needed - 1, 0, needed + 1, needed + 7]
    return min(9999, max(0, source.choice(rooms)))


def table_entries(string, g):
    return (len(string) + 1) * (g + 1)


def parts_given(string, map_name, alphabet, limits):
    """None where the opening is refused or no tiling exists."""
    if not can_be_opened(string, map_name, alphabet, limits):
        return None
    return second.tile(string, second.INSPECT_MAPS[map_name],
                       second.ALPHABETS[alphabet], tuple(limits))[0]


def room_for_parts(string, map_name, alphabet, limits):
    """Bytes that the parts need; any room will do where none are given."""
    parts = parts_given(string, map_name, alphabet, limits)
    return 6 if parts is None else 6 * len(parts)


# Lines.

def joined(*fields):
    return b" ".join(field if isinstance(field, bytes)
                     else str(field).encode("ascii") for field in fields)


def opening(limits, map_name, string):
    """A line of the call program."""
    return joined(b"O", *limits, map_name, string)


def kind_line(limits):
    """Sets kind and d of these limits."""
    return joined(b"K", limits[0], limits[3])


def length_line(limits):
    """Sets m and g of these limits."""
    return joined(b"M", limits[1], limits[2])


def limit_lines(limits):
    return [kind_line(limits), length_line(limits)]


def tiling_question(source, letter, limits, map_name, alphabet, string):
    """T or S, with rooms near what is needed."""
    table = room_near(source, table_entries(string, limits[2]))
    room = room_near(
        source, room_for_parts(string, map_name, alphabet, limits))
    return joined(letter, *limits, map_name, alphabet, table, room, string)


def agreement_question(returned):
    return joined(b"Y", *returned.limits, returned.map_name,
                  returned.alphabet, returned.file.hex(), returned.string)
