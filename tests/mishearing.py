"""Lines that a clerk mishears: right lines of either program with one thing
wrong, and lines that are wrong altogether."""

from calls import CHANGES
from drawing import any_map, opening, random_word, usual_limits


# Right lines with one thing wrong.

def with_changed_field(source, line, change):
    fields = line.split(b" ")
    which = source.randrange(len(fields))
    fields[which] = change(fields[which])
    return b" ".join(fields)


def with_changed_space(source, line, other):
    places = [k for k in range(len(line)) if line[k:k + 1] == b" "]
    if not places:
        return line + other
    place = source.choice(places)
    return line[:place] + other + line[place + 1:]


def with_noise_byte(source, line):
    place = source.randrange(len(line) + 1)
    byte = bytes([source.randrange(256)]).replace(b"\n", b"\r")
    kept_from = place + source.randrange(2)
    return line[:place] + byte + line[kept_from:]


def dropped_field(source, line):
    fields = line.split(b" ")
    del fields[source.randrange(len(fields))]
    return b" ".join(fields)


def misheard(source, line):
    ways = [
        lambda: with_changed_field(source, line, lambda f: b"0" + f),
        lambda: with_changed_field(source, line, lambda f: f + b"0000"),
        lambda: with_changed_field(source, line, lambda f: b"256"),
        lambda: with_changed_field(source, line, lambda f: b"-" + f),
        lambda: with_changed_field(source, line, lambda f: b"+" + f),
        lambda: with_changed_field(source, line, lambda f: f.lower() + b"x"),
        lambda: with_changed_field(source, line, lambda f: b""),
        lambda: with_changed_space(source, line, b"  "),
        lambda: with_changed_space(source, line, b"\t"),
        lambda: with_changed_space(source, line, b""),
        lambda: dropped_field(source, line),
        lambda: line + b" ", lambda: b" " + line, lambda: line + b"\r",
        lambda: line + b"\0", lambda: line + b"\x85", lambda: line + b" 7",
        lambda: line.lower(), lambda: line + line,
        # One change for another: an X line with a byte, an I line without.
        lambda: source.choice(CHANGES) + line[1:],
        lambda: with_noise_byte(source, line),
        lambda: with_noise_byte(source, line),
    ]
    return source.choice(ways)()


def misheard_sample(source, lines_from):
    """Some of the lines of a group, each misheard."""
    lines = source.sample(lines_from(source), 150)
    return [misheard(source, line) for line in lines]


# Lines that are wrong altogether.

def wrong_line(source):
    sort = source.randrange(4)
    if sort == 0:
        return source.choice([b"", b" ", b"X", b"HELP", b"\r", b"\0", b"\xff",
                              b"L", b"M", b"O", b"QQ", b"BA", b"0", b"Q Q",
                              b"!", b"E", b"\xc3\x96 1 2 2 0 I AC", b"I",
                              b"I 0", b"X 0 65", b"B X", b"IX 0", b"K",
                              b"K 1", b"M 1", b"K 1 0 0", b"M 1 2 2 0",
                              b"B K", b"KM 1 0"])
    if sort == 1:
        length = source.choice([1040, 1041, 1042, 2081, 5000])
        head = source.choice([b"O 1 2 2 0 I ", b"Q", b"L 0 65 ", b"I 0 65 ",
                              b"X 0 ", b"K 1 0 ", b"M 1 0 ", b"", b" "])
        return (head + b"ACGT" * 1300)[:length]
    if sort == 2:
        return refused_long_opening(source)
    return random_word(
        source, b"OLKMIXBAQ 0123456789IC", source.randrange(1, 16))


def refused_long_opening(source):
    """More than 1,000 letters, up to and past the line's own bound."""
    length = source.choice([1001, 1002, 1023, 1025, 1027, 1028, 1029, 1030])
    return opening(usual_limits(source), any_map(source), b"A" * length)
