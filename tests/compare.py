#!/usr/bin/env python3
"""Compares the call and inspect programs with the second program.

    python3 tests/compare.py --call COMMAND --inspect COMMAND
                             [--long] [--seed N] [--spoil]

Each COMMAND runs a program under test on standard input and output. Seeded
scripts are sent to it, and each reply is compared byte for byte with that of
tests/second.py; where 01, requests L1 to L7 or their readings settle the
answer, also with a text written by hand. Scripts over maps and alphabets,
those with letters put in and taken out or with limits set, and those with
shuffled palindromes have to show all that can come of them. --long does ten
times as much. --spoil flips one byte of each program's output, to show that
the comparison can fail. The last line is 'N passed, M failed', and the exit
status is 0 only where nothing failed.
"""

import argparse
import random
import shlex
import sys
import time

# Keeps the tests' directory free of compiled files.
sys.dont_write_bytecode = True
import alphabets  # noqa: E402
import calls  # noqa: E402
import places  # noqa: E402
import second  # noqa: E402
import shuffles  # noqa: E402
import stops  # noqa: E402
from alphabet_texts import (  # noqa: E402
    ALPHABET_LINES, ALPHABET_READINGS, CALLS_WITH_ALL_BYTES, INSPECT_EXAMPLES)
from damage import RECORD, RETURN_WAYS, Returned  # noqa: E402
from drawing import (  # noqa: E402
    agreement_question, any_limits, any_map, any_string, fibonacci_word,
    joined, limit_lines, opening, parts_given, random_word, room_near,
    table_entries, tiling_question, usual_limits)
from limit_texts import LIMIT_READINGS  # noqa: E402
from limits import GROUPS as LIMIT_GROUPS, in_turn_lines  # noqa: E402
from map_texts import MAP_READINGS  # noqa: E402
from mishearing import (  # noqa: E402
    misheard, misheard_sample, refused_long_opening, wrong_line)
from place_texts import PLACE_READINGS  # noqa: E402
from selfcheck import small_strings  # noqa: E402
from sending import SENDERS  # noqa: E402
from shuffle_texts import (  # noqa: E402
    CALLS_WITHOUT_SHUFFLES, SHUFFLE_EXAMPLES, SHUFFLE_LINES, SHUFFLE_READINGS,
    SHUFFLE_REFUSALS)
from stop_texts import (  # noqa: E402
    CALLS_WITHOUT_STOPS, STOP_EXAMPLES, STOP_LINES, STOP_READINGS,
    STOP_REFUSALS)
from texts import (  # noqa: E402
    AGREEMENT_LINES, AGREEMENT_READINGS, EXAMPLE_12, EXAMPLE_12_START,
    EXAMPLE_INPUT, EXAMPLE_OUTPUT, LINE_READINGS, READER_READINGS,
    READ_BACK_CALLS, READ_BACK_INSPECTIONS, TILING_READINGS)

SHRINK_LIMIT_SECONDS = 60
SHOWN_BYTES = 1500


class Script:
    """Lines for one run of a program, and how they are sent. The expected
    text, or its start alone, is written by hand. Where there is a function
    that finds faults in lines and replies together, it has to find none."""

    def __init__(self, name, lines, ended=True, sent="whole", expected=None,
                 only_start=False, find_faults=None):
        self.name = name
        self.lines = list(lines)
        self.ended = ended
        self.sent = sent
        self.expected = expected
        self.only_start = only_start
        self.find_faults = find_faults

    def data(self):
        end = b"\n" if self.ended and self.lines else b""
        return b"\n".join(self.lines) + end

    def fits_hand_text(self, output):
        if self.expected is None:
            return True
        if self.only_start:
            return output.startswith(self.expected)
        return output == self.expected

    def faults(self, replies):
        if self.find_faults is None:
            return []
        return self.find_faults(self.lines, replies)

    def with_lines(self, lines, ended):
        return Script(self.name, lines, ended, self.sent)


class Program:
    """A program under test and the second program's part for it."""

    def __init__(self, name, command, answerer, spoil):
        self.name = name
        self.command = shlex.split(command)
        self.answerer = answerer
        self.spoil = spoil

    def expected_replies(self, script):
        answerer = self.answerer()
        return [answerer.answer(line)
                for line in second.lines_of(script.data())]

    def run(self, script, replies):
        """(output, trouble): trouble is None or what else went wrong."""
        output, trouble = SENDERS[script.sent](self.command, script, replies)
        if self.spoil and output:
            middle = len(output) // 2
            output = output[:middle] + bytes([output[middle] ^ 1]) \
                + output[middle + 1:]
        return output, trouble


# Comparing, shrinking and reporting.

def differs(program, script):
    replies = program.expected_replies(script)
    output, trouble = program.run(script, replies)
    return trouble is not None or output != b"".join(replies)


def first_wrong_reply(replies, output):
    """The index of the first reply that differs, or None."""
    place = 0
    for index, reply in enumerate(replies):
        if output[place:place + len(reply)] != reply:
            return index
        place += len(reply)
    return None


def shortest_prefix(program, script, replies, output):
    index = first_wrong_reply(replies, output)
    if index is not None and index + 1 < len(script.lines):
        prefix = script.with_lines(script.lines[:index + 1], True)
        if differs(program, prefix):
            return prefix
    return script


def shrink(program, script):
    """Drops runs of lines, then single lines, while the difference stays."""
    deadline = time.monotonic() + SHRINK_LIMIT_SECONDS
    step = max(1, len(script.lines) // 2)
    while step >= 1:
        place = 0
        while place < len(script.lines) and time.monotonic() < deadline:
            lines = script.lines[:place] + script.lines[place + step:]
            shorter = script.with_lines(lines, script.ended)
            if lines and differs(program, shorter):
                script = shorter
            else:
                place += step
        step //= 2
    return script


def shown(data):
    if len(data) <= SHOWN_BYTES:
        return repr(data)
    half = SHOWN_BYTES // 2
    return "%r .. %r (%d bytes)" % (data[:half], data[-half:], len(data))


def shown_lines(data):
    return "\n".join("    " + shown(line) for line in data.split(b"\n"))


def report_difference(program, script, seed, replies, output, trouble):
    print("FAILED: %s script '%s', seed %d"
          % (program.name, script.name, seed))
    if trouble:
        print("  trouble: " + trouble)
    small = shrink(program, shortest_prefix(program, script, replies, output))
    replies = program.expected_replies(small)
    output, trouble = program.run(small, replies)
    ending = "" if small.ended else ", the last one without line end"
    print("  shortest script found, %d lines%s:" % (len(small.lines), ending))
    print(shown_lines(b"\n".join(small.lines)))
    print("  second program:")
    print(shown_lines(b"".join(replies)))
    print("  program under test%s:" % (" (%s)" % trouble if trouble else ""))
    print(shown_lines(output))
    sys.stdout.flush()


def report_hand_text(program, script, whole):
    print("FAILED: %s script '%s': the second program differs from the text "
          "written by hand" % (program.name, script.name))
    print("  by hand:\n" + shown_lines(script.expected))
    print("  second program:\n" + shown_lines(whole))


def report_faults(program, script, seed, faults):
    print("FAILED: %s script '%s', seed %d: what the second program's replies "
          "show" % (program.name, script.name, seed))
    print("\n".join("    " + fault for fault in faults))


def passes(program, script, seed):
    replies = program.expected_replies(script)
    whole = b"".join(replies)
    if not script.fits_hand_text(whole):
        report_hand_text(program, script, whole)
        return False
    faults = script.faults(replies)
    if faults:
        report_faults(program, script, seed, faults)
        return False
    output, trouble = program.run(script, replies)
    if trouble is None and output == whole:
        return True
    report_difference(program, script, seed, replies, output, trouble)
    return False


def compare_all(program, scripts, seed):
    """(passed, failed); only the first script is spoiled, if any."""
    passed = failed = lines = 0
    for script in scripts:
        if passes(program, script, seed):
            passed += 1
        else:
            failed += 1
        lines += len(second.lines_of(script.data()))
        program.spoil = False
    print("%s: %d scripts, %d lines compared"
          % (program.name, passed + failed, lines))
    sys.stdout.flush()
    return passed, failed


def hand_scripts(group, cases):
    for name, pairs in cases:
        lines = [line for line, _ in pairs]
        text = "".join(reply + "\n" for _, reply in pairs)
        yield Script("%s, %s" % (group, name), lines,
                     expected=text.encode("ascii"))


def raw_script(name, data, expected, sent="whole"):
    """The data as it is: its last piece has no line end of its own."""
    return Script(name, data.split(b"\n"), False, sent, expected)


def example_12_script():
    lines = [b"O 2 14 4 3 C " + EXAMPLE_12, b"Q"]
    return Script("Example 12 of document 000", lines,
                  expected=EXAMPLE_12_START, only_start=True)


def input_end_scripts():
    long_opening = b"O 1 2 2 0 I " + b"A" * 1028
    return [
        raw_script("empty input", b"", b""),
        raw_script("a lone line end", b"\n", b"! 13\n"),
        raw_script("two line ends", b"\n\n", b"! 13\n! 13\n"),
        raw_script("a last line without line end", b"O 1 1 0 0 I A\nQ",
                   b"O 1 0\nQ 0 1 0\nP 0 1 0\n"),
        raw_script("a lone byte", b"Q", b"! 14\n"),
        raw_script("a last CR", b"Q\n\r", b"! 14\n! 13\n"),
        raw_script("1,040 bytes without line end", long_opening, b"! 1\n"),
        raw_script("1,041 bytes without line end", long_opening + b"A",
                   b"! 13\n"),
        raw_script("100,000 bytes without line end", b"A" * 100000,
                   b"! 13\n"),
    ]


# Lines of the call program.

CALL_WEIGHTS = [(b"O", 5), (b"L", 14), (b"I", 14), (b"X", 10), (b"K", 7),
                (b"M", 7), (b"B", 18), (b"A", 12), (b"Q", 16), (b"wrong", 7)]


def call_line(source, sort, count):
    """On a sheet of so many letters."""
    if sort in calls.CHANGES:
        return calls.change_line(source, sort, count)
    return wrong_line(source) if sort == b"wrong" else sort


def random_call(source, line_count, lengths, question_share=1.0):
    """Lines as a clerk who mishears part of a call would type them."""
    sorts = [sort for sort, _ in CALL_WEIGHTS]
    weights = [weight * (question_share if sort == b"Q" else 1)
               for sort, weight in CALL_WEIGHTS]
    clerk = calls.Clerk()
    for index in range(line_count):
        sort = source.choices(sorts, weights)[0]
        if index == 4 or sort == b"O":
            string = any_string(source, source.choice(lengths))
            line = opening(any_limits(source), any_map(source), string)
        else:
            line = call_line(source, sort, clerk.count())
        if source.random() < 0.08:
            line = misheard(source, line)
        clerk.type(line)
    return clerk.lines


def history_call(source, rounds):
    """Runs of one sort of line, long enough to pass 64 changes."""
    string = b"A" * source.choice([0, 1, 3, 8, 20])
    clerk = calls.Clerk()
    clerk.type(opening([1, 1, 1, 0], any_map(source), string))
    for _ in range(rounds):
        sort = source.choice(calls.CHANGES + [b"I", b"B", b"B", b"A", b"A"])
        for _ in range(source.choice([1, 2, 5, 30, 63, 64, 65, 70])):
            clerk.type(call_line(source, sort, clerk.count()))
        clerk.type(source.choice([
            b"Q", b"B", b"A", b"L 9999 65", b"L 0 256", b"K 3 0", b"K 1 1",
            b"M 0 0", b"M 1 2 2 0", b"I 9999 65", b"I 0 256", b"X 9999", b"X",
            b"O 3 1 0 0 I A", refused_long_opening(source)]))
    return clerk.lines


# Groups of scripts for the call program.

def seeded(seed, name):
    return random.Random("%d, %s" % (seed, name))


def many(seed, name, count, lines_from, **options):
    for index in range(count):
        title = "%s %d" % (name, index + 1)
        source = seeded(seed, title)
        lines = lines_from(source)
        ended = source.random() < 0.8
        yield Script(title, lines, ended, **options)


SHORT_LENGTHS = [0, 1, 2, 3, 4, 5, 6, 7, 8, 9, 10, 11, 12, 16, 25, 40]


def many_limits(source, string, map_name, count):
    lines = [opening(usual_limits(source), map_name, string), b"Q"]
    for _ in range(count):
        lines += limit_lines(usual_limits(source)) + [b"Q"]
    return lines


def small_string_lines(source):
    """Here the second program answers by brute force over all tilings."""
    lines = []
    for _ in range(30):
        alphabet = source.choice([b"AC", b"AT", b"ACT", b"ACGT", b"ATN"])
        string = random_word(source, alphabet, source.randrange(2, 11))
        lines += many_limits(source, string, any_map(source), 5)
    return lines


def every_small_string(alphabet, map_name):
    def lines_from(source):
        lines = []
        for string in small_strings(alphabet, 6):
            lines += many_limits(source, string, map_name, 6)
        return lines
    return lines_from


def patterned_lines(source):
    lines = []
    for _ in range(6):
        length = source.choice([13, 21, 34, 55, 89, 144, 200])
        string = any_string(source, length)
        lines += many_limits(source, string, any_map(source), 3)
    return lines


def full_length_lines(source):
    """1,000 letters with many gaps, a few questions."""
    string = any_string(source, source.choice([1000, 1000, 999, 997]))
    kind = source.choice([1, 2, 2])
    limits = [kind, source.choice([2, 4, 6, 9]), 15,
              source.choice([0, 1, 3, 15]) if kind == 2 else 0]
    lines = [opening(limits, any_map(source), string), b"Q"]
    one, other, third = (source.randrange(len(string)) for _ in range(3))
    lines += [joined(b"L", one, source.choice(b"ACGT")), b"Q",
              joined(b"X", other),
              joined(b"I", third, source.choice(b"ACGT")), b"Q"]
    lines += limit_lines([2, source.choice([5, 8, 11]), 15,
                          source.choice([1, 2, 4])])
    return lines + [b"Q", b"B", b"B", b"B", b"A"]


def heavy_scripts():
    """The strings with the most palindromes and the largest tables."""
    same = b"A" * 1000
    return [
        Script("all A, every length", [
            opening([1, 1, 15, 0], b"I", same), b"Q", b"L 500 67", b"Q"]),
        Script("all A, long pieces only", [
            opening([1, 900, 15, 0], b"I", same), b"L 3 67", b"L 996 67",
            b"Q", b"K 2 15", b"M 1000 15", b"Q", b"M 1 0", b"Q"]),
        Script("AT and AC repeated", [
            opening([1, 4, 15, 0], b"C", b"AT" * 500), b"L 501 67", b"Q",
            opening([2, 3, 15, 2], b"I", b"AC" * 500), b"L 333 71", b"Q"]),
        Script("Fibonacci word", [
            opening([1, 5, 15, 0], b"I", fibonacci_word(1000)), b"Q",
            b"L 612 84", b"Q", b"K 2 1", b"M 9 15", b"Q"]),
    ]


def noise_scripts(seed, size):
    plain = seeded(seed, "noise").randbytes(size // 2)
    source = seeded(seed, "noise of known letters")
    alphabet = b"OLKMIXBAQ QQBA 0123456789 IC ACGT\n\n\n"
    known = random_word(source, alphabet, size // 2)
    first = b"O 2 1 2 1 C ACGTTGCA\n"
    return [raw_script("noise", plain, None),
            raw_script("noise of known letters", first + known, None)]


def arrival_scripts(seed, lines_from):
    """The same lines, sent in each of the ways; bytes take a short one."""
    lines = lines_from(seeded(seed, "arrival"))
    few = [line for line in lines[:30] if len(line) < 60]
    for sent in SENDERS:
        yield Script("arrival: " + sent, few if sent == "bytes" else lines,
                     sent=sent)


def long_line_scripts(seed):
    """Lines past the bound between right ones, sent in pieces too."""
    source = seeded(seed, "long lines")
    lines = [opening([1, 1, 1, 0], b"I", b"ACCA")]
    for length in (1040, 1041, 5000, 100000, 1039, 4096, 8192, 65536, 65537):
        body = random_word(source, b"ACQ BLKMIX017", length)
        lines += [body, b"Q", (b"O 1 1 1 0 I " + body)[:length], b"B"]
    yield Script("long lines", lines)
    yield Script("long lines in pieces", lines, sent="pieces")


def misheard_changes(source, lines_from):
    """On an open sheet."""
    return [opening(usual_limits(source), any_map(source), b"ACGTTGCA")] \
        + misheard_sample(source, lines_from)


def group_scripts(seed, times, request, groups):
    """The numbers are those of the readings of that request of 02."""
    for name, count, lines_from, find_faults in groups:
        yield from many(seed, "%s readings %s" % (request, name),
                        count * times, lines_from, find_faults=find_faults)


def change_scripts(seed, times, request, readings, groups, misheard_from):
    yield from hand_scripts(request + " reading", readings)
    yield from group_scripts(seed, times, request, groups)
    yield from many(seed, request + ": misheard lines", 2 * times,
                    lambda s: misheard_changes(s, misheard_from))


def call_scripts(seed, times):
    """All scripts for the call program; times is 10 for a long run."""
    yield raw_script("01's example", EXAMPLE_INPUT, EXAMPLE_OUTPUT)
    yield raw_script("01's example, byte by byte", EXAMPLE_INPUT,
                     EXAMPLE_OUTPUT, sent="bytes")
    yield from input_end_scripts()
    yield from hand_scripts("read-back sheet", READ_BACK_CALLS)
    yield example_12_script()
    yield from hand_scripts("reading", LINE_READINGS + TILING_READINGS)
    yield Script("reading 16: example in turns",
                 second.lines_of(EXAMPLE_INPUT), sent="turns",
                 expected=EXAMPLE_OUTPUT)
    yield from many(seed, "random call", 40 * times,
                    lambda s: random_call(s, 250, SHORT_LENGTHS))
    yield from many(seed, "random long call", 5 * times,
                    lambda s: random_call(s, 80, [990, 999, 1000], 0.3))
    yield from many(seed, "history", 12 * times,
                    lambda s: history_call(s, 25))
    yield from many(seed, "small strings", 12 * times, small_string_lines)
    for alphabet, map_name in ((b"AC", b"I"), (b"AT", b"C")):
        yield from many(
            seed, "every small string, map %s," % map_name.decode(), times,
            every_small_string(alphabet, map_name))
    yield from many(seed, "patterns", 8 * times, patterned_lines)
    yield from many(seed, "full length", 14 * times, full_length_lines)
    yield from heavy_scripts()
    yield from long_line_scripts(seed)
    yield from noise_scripts(seed, 4000000 if times > 1 else 100000)
    yield from arrival_scripts(
        seed, lambda s: random_call(s, 150, SHORT_LENGTHS))
    yield from hand_scripts("L2 reading", CALLS_WITH_ALL_BYTES)
    yield from hand_scripts("L3 reading", CALLS_WITHOUT_STOPS)
    yield from change_scripts(seed, times, "L5", PLACE_READINGS,
                              places.GROUPS, places.any_history_lines)
    yield from change_scripts(seed, times, "L6", LIMIT_READINGS,
                              LIMIT_GROUPS, in_turn_lines)
    yield from hand_scripts("L7 reading", CALLS_WITHOUT_SHUFFLES)


# Lines and groups of scripts for the inspect program. Those over alphabets are
# in alphabets.py and stops.py, and those of shuffles.py take none; the
# alphabet of all others is all 256 bytes.

def any_inspect_map(source):
    return source.choice([b"I", b"C", b"I", b"C", b"I", b"C", b"S", b"X"])


def tiling_line(source, string):
    letter = source.choice([b"T", b"S"])
    limits, map_name = any_limits(source), any_inspect_map(source)
    return tiling_question(source, letter, limits, map_name, b"*", string)


def centres_line(source, string):
    d = source.choice([0, 0, 1, 1, 2, 3, 5, 15, 16, 256, 9999])
    entries = room_near(source, 2 * len(string) - 1)
    return joined(b"C", d, any_inspect_map(source), b"*", entries, string)


def longest_line(source, string):
    return joined(b"P", any_inspect_map(source), string)


def longer_line(source, string):
    n = len(string)
    first = source.choice([0, n // 2, n // 2, source.randrange(n + 1), n,
                           n + 1])
    return joined(b"W", any_inspect_map(source), first, string)


# Part files beside the string, map, alphabet and limits that they return with.

def step_question(place, file):
    return joined(b"F", place, file.hex())


def writing_question(returned):
    """The tiling question that writes the very file, with just enough lent."""
    limits, map_name, alphabet, string, file = returned
    return joined(b"T", *limits, map_name, alphabet,
                  table_entries(string, limits[2]), len(file), string)


def file_beside(source, string):
    """The file of the tiling, or one gap where there is none."""
    limits, map_name = any_limits(source), any_inspect_map(source)
    parts = parts_given(string, map_name, b"*", limits)
    if parts is None:
        parts = [(second.GAP, 0, len(string), 0)]
    returned = Returned(limits, map_name, b"*", string,
                        second.records_of(parts))
    if source.random() < 0.5:
        returned = source.choice(RETURN_WAYS)(source, returned) or returned
    return returned


def some_places(source, file):
    """One on a record or behind the last, and any other."""
    count = len(file) // RECORD.size + 1
    return [RECORD.size * source.randrange(count),
            source.randrange(len(file) + 9)]


def step_line(source, string):
    file = file_beside(source, string).file
    return step_question(source.choice(some_places(source, file)), file)


def agreement_line(source, string):
    return agreement_question(file_beside(source, string))


INSPECT_SORTS = [tiling_line, tiling_line, centres_line, longest_line,
                 longer_line, step_line, agreement_line, agreement_line,
                 stops.any_stop_line, shuffles.any_shuffle_line]


def inspection_lines(source, line_count, lengths):
    lines = []
    for _ in range(line_count):
        string = any_string(source, source.choice(lengths))
        line = source.choice(INSPECT_SORTS)(source, string)
        if source.random() < 0.1:
            line = misheard(source, line)
        if source.random() < 0.03:
            line = wrong_line(source)
        lines.append(line)
    return lines


def long_inspection_lines(source):
    """Long strings; the largest table that a line can name is 9,999."""
    lines = []
    for g in (source.choice([0, 1, 2]), source.choice([5, 7, 8])):
        string = any_string(source, source.choice([1000, 998]))
        kind = source.choice([1, 2])
        d = source.choice([0, 2, 15]) if kind == 2 else 0
        needed = table_entries(string, g)
        for table in (needed, needed - 1, min(9999, needed + 5)):
            lines.append(joined(
                source.choice([b"T", b"S"]), kind, source.choice([1, 3, 6]), g,
                d, any_map(source), b"*", table,
                source.choice([6000, 3000, 5]), string))
        lines += [centres_line(source, string), longest_line(source, string),
                  longer_line(source, string),
                  shuffles.any_shuffle_line(source, string)]
    return lines


def too_long_strings(source):
    """1,000 letters and more, up to and past the line's own bound."""
    lines = []
    for length in (1000, 1001, 1002, 1016, 1022, 1023, 1025, 1030, 1036, 1037):
        string = b"A" * length
        map_name = any_inspect_map(source)
        lines += [
            joined(source.choice([b"T", b"S"]), 1, 1, 0, 0, map_name, b"*",
                   0, 0, string),
            joined(b"C", source.choice([0, 16]), map_name, b"*", 3, string),
            joined(b"P", map_name, string),
            joined(b"W", map_name, source.choice([0, 1, 30, 1000, 1001]),
                   string),
            joined(b"Y", 1, 1, 0, 0, map_name, b"*",
                   source.choice([b"", b"00", b"5000000003e8"]), string),
            shuffles.any_shuffle_line(source, string)]
    return lines


def short_case(source):
    """Limits, a map and a string of up to 60 letters."""
    length = source.choice([1, 3, 5, 8, 12, 20, 30, 45, 60])
    return usual_limits(source), any_map(source), any_string(source, length)


def long_folds(source, letter_map, length):
    """Long palindromes, some with other letters between them."""
    word = b""
    while len(word) < length:
        arm = random_word(source, b"ACGT", source.randrange(40, 200))
        word += arm + arm[::-1].translate(letter_map)
        word += random_word(source, b"ACGT", source.choice([0, 0, 3, 30]))
    return word[:length]


def long_case(source):
    """Up to 1,000 letters for few long parts, with limits whose table a line
    can name."""
    length = source.choice([1000, 990, 970, 940, 900, 800, 600])
    kind, d = source.choice([(1, 0), (2, 0), (2, 1), (2, 4), (2, 15)])
    m, g = source.choice([20, 30, 50, 300]), source.choice([0, 1, 2, 4, 8])
    map_name = any_map(source)
    string = long_folds(source, second.INSPECT_MAPS[map_name], length)
    if source.random() < 0.25:
        word = b"A" if map_name == b"I" else b"AT"
        string = word * (length // len(word))
        # All spans, or every other, are exact palindromes: a few are enough.
        m = length - 60 if kind == 1 else m
    return [kind, m, g, d], map_name, string


def returned_file(source, drawn_case):
    """A string that can be tiled, with the file of its tiling, where both fit
    in a line. Files of one or two parts are few: they leave little to damage.
    """
    while True:
        limits, map_name, string = drawn_case(source)
        parts = parts_given(string, map_name, b"*", limits)
        if parts is None or len(parts) < 3 and source.random() < 0.7:
            continue
        returned = Returned(limits, map_name, b"*", string,
                            second.records_of(parts))
        if len(agreement_question(returned)) <= second.MOST_LINE_BYTES:
            return returned


def places_of(file):
    """Every place of a short file, the records of a longer one; and places
    past the end."""
    step = 1 if len(file) <= 60 else RECORD.size
    return list(range(0, len(file) + 8, step)) + [len(file) + 1, 9999]


def returned_lines(source, returned):
    """Lines with the file whole, at all its places, and changed in every way
    that it allows; and the set of those ways."""
    file, used = returned.file, set()
    lines = [writing_question(returned), agreement_question(returned)]
    lines += [step_question(place, file) for place in places_of(file)]
    for way in RETURN_WAYS:
        changed = way(source, returned)
        if changed is None:
            continue
        used.add(way)
        lines.append(agreement_question(changed))
        if changed.file != file:
            lines += [step_question(place, changed.file)
                      for place in some_places(source, changed.file)]
    return lines, used


def returns(source, drawn_case, count):
    """So many files, and further ones as long as a way isn't used yet."""
    lines, unused = [], set(RETURN_WAYS)
    while count > 0 or unused:
        file_lines, used = returned_lines(
            source, returned_file(source, drawn_case))
        if count > 0 or unused & used:
            lines += file_lines
            unused -= used
        count -= 1
    return lines


def alphabet_scripts(seed, times):
    """The numbers are those of the readings of 02, L2."""
    yield from hand_scripts("L2 reading", ALPHABET_READINGS + ALPHABET_LINES)
    yield from many(seed, "L2 readings 3, 4, 7 and 8: all maps and alphabets",
                    8 * times, alphabets.lines_over_all_pairs,
                    find_faults=alphabets.find_faults)
    yield from many(seed, "L2 readings 3, 4 and 8: returned files", 4 * times,
                    lambda s: alphabets.returned_lines(s, 6))
    yield from many(
        seed, "L2: misheard lines", 2 * times,
        lambda s: misheard_sample(s, alphabets.lines_over_all_pairs))


def stop_scripts(seed, times):
    """The numbers are those of the readings of 02, L3."""
    yield from hand_scripts(
        "L3 reading", STOP_READINGS + STOP_REFUSALS + STOP_LINES)
    yield from many(seed, "L3 readings 1 to 6: every centre", 3 * times,
                    stops.every_centre_lines, find_faults=stops.find_faults)
    yield from many(seed, "L3 readings 1 to 6: long strings", 3 * times,
                    stops.long_lines, find_faults=stops.find_long_faults)
    yield from many(seed, "L3: misheard lines", 2 * times,
                    lambda s: misheard_sample(s, stops.every_centre_lines))


def shuffle_scripts(seed, times):
    """The numbers are those of the readings of 02, L7."""
    yield from hand_scripts(
        "L7 reading", SHUFFLE_READINGS + SHUFFLE_REFUSALS + SHUFFLE_LINES)
    yield from group_scripts(seed, times, "L7", shuffles.GROUPS)
    yield from many(seed, "L7: misheard lines", 2 * times,
                    lambda s: misheard_sample(s, shuffles.short_lines))


def inspect_scripts(seed, times):
    """All scripts for the inspect program."""
    yield from hand_scripts(
        "INSPECT.md", INSPECT_EXAMPLES + STOP_EXAMPLES + SHUFFLE_EXAMPLES)
    yield from hand_scripts("read-back sheet", READ_BACK_INSPECTIONS)
    yield from hand_scripts(
        "L1 reading", READER_READINGS + AGREEMENT_READINGS + AGREEMENT_LINES)
    yield raw_script("empty input", b"", b"")
    yield raw_script("a lone line end", b"\n", b"! 13\n")
    yield raw_script("a last line without line end", b"P I AA",
                     b"P 0 2\nR 65 65\n")
    yield raw_script("100,000 bytes without line end", b"P I " + b"A" * 99996,
                     b"! 13\n")
    yield from many(seed, "inspections", 24 * times,
                    lambda s: inspection_lines(s, 120, SHORT_LENGTHS))
    yield from many(seed, "middling inspections", 4 * times,
                    lambda s: inspection_lines(s, 20, [60, 100, 160]))
    yield from many(seed, "long inspections", 4 * times,
                    long_inspection_lines)
    yield from many(seed, "too long strings", 2 * times, too_long_strings)
    yield from many(seed, "returned files", 24 * times,
                    lambda s: returns(s, short_case, 3))
    yield from many(seed, "long returned files", 6 * times,
                    lambda s: returns(s, long_case, 2))
    yield raw_script("noise", seeded(seed, "inspect noise").randbytes(
        20000 * times), None)
    yield from arrival_scripts(
        seed, lambda s: inspection_lines(s, 80, SHORT_LENGTHS))
    yield from alphabet_scripts(seed, times)
    yield from stop_scripts(seed, times)
    yield from hand_scripts("L4 reading", MAP_READINGS)
    yield from shuffle_scripts(seed, times)


def parsed_arguments():
    parser = argparse.ArgumentParser(
        description="Compares the programs with the second program.")
    parser.add_argument("--call", required=True, metavar="COMMAND")
    parser.add_argument("--inspect", required=True, metavar="COMMAND")
    parser.add_argument("--long", action="store_true",
                        help="ten times as much")
    parser.add_argument("--seed", type=int, default=1)
    parser.add_argument("--spoil", action="store_true",
                        help="flip one byte of each program's output")
    return parser.parse_args()


def main():
    arguments = parsed_arguments()
    times = 10 if arguments.long else 1
    jobs = [
        (Program("call", arguments.call, second.CallProgram, arguments.spoil),
         call_scripts),
        (Program("inspect", arguments.inspect, second.InspectProgram,
                 arguments.spoil), inspect_scripts),
    ]
    passed = failed = 0
    for program, scripts_from in jobs:
        good, bad = compare_all(
            program, scripts_from(arguments.seed, times), arguments.seed)
        passed, failed = passed + good, failed + bad
    print("%d passed, %d failed" % (passed, failed))
    return 0 if failed == 0 else 1


if __name__ == "__main__":
    sys.exit(main())
