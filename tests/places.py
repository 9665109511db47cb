"""Lines of the call program that put letters in and take them out (02, L5),
among its other lines, and what their replies have to show: each change made,
taken back and put again, each refusal, and no reply that doesn't go with those
before it."""

import second
from calls import (
    CHANGES, Clerk, all_back_and_again, ask, back_and_again, fault_finder,
    full_history_lines, open_anew)
from drawing import (
    any_map, any_string, joined, opening, random_word, usual_limits)
from selfcheck import small_strings

LETTERS = b"ACGT"


# Runs of lines on an open sheet.

def put_in_until_refused(source, clerk):
    """At either end and between, up to 1,000 letters or to 64 changes; then
    at three places with a refusal."""
    while clerk.has_room() and clerk.count() < second.MOST_LETTERS:
        count = clerk.count()
        place = source.choice([0, count, source.randrange(count + 1)])
        clerk.type(joined(b"I", place, source.choice(LETTERS)))
        if source.random() < 0.06:
            back_and_again(source, clerk)
    count = clerk.count()
    clerk.type(*[joined(b"I", place, source.choice(LETTERS))
                 for place in (0, count, count + 1)])


def take_out_until_refused(source, clerk):
    """At either end and between, down to no letter or to 64 changes; then at
    two places with a refusal."""
    while clerk.has_room() and clerk.count() > 0:
        last = clerk.count() - 1
        place = source.choice([0, last, source.randrange(last + 1)])
        clerk.type(joined(b"X", place))
        if source.random() < 0.06:
            back_and_again(source, clerk)
        if source.random() < 0.1:
            ask(clerk)
    clerk.type(b"X 0", joined(b"X", clerk.count()))


# Scripts.

def every_place_lines(source):
    """Strings of up to four letters, with a letter put in and one taken out at
    each place and past the last, back and again."""
    letters, lines = source.choice([b"AC", b"AT"]), []
    for string in small_strings(letters, 4):
        lines += [opening(usual_limits(source), any_map(source), string), b"Q"]
        for place in range(len(string) + 2):
            for line in (joined(b"I", place, source.choice(letters)),
                         joined(b"X", place)):
                lines += [line, b"Q", b"B", b"A", b"B"]
        lines.append(b"Q")
    return lines


def filling_lines(source):
    """From a few letters to 1,000. Where 64 changes stand, the sheet is opened
    anew with the letters that there are."""
    clerk = Clerk()
    string = random_word(source, LETTERS, source.randrange(6))
    clerk.type(opening(usual_limits(source), any_map(source), string))
    put_in_until_refused(source, clerk)
    while clerk.count() < second.MOST_LETTERS:
        open_anew(clerk)
        put_in_until_refused(source, clerk)
    clerk.type(b"Q")
    return clerk.lines


def brim_lines(source):
    """1,000 letters, opened with or reached by putting in, once with the last
    of 64 changes; some taken out, so that others have room, and all back and
    again."""
    clerk = Clerk()
    for count in (1000, 999, 936, source.randrange(940, 999)):
        string = random_word(source, LETTERS, count)
        clerk.type(opening(usual_limits(source), any_map(source), string))
        put_in_until_refused(source, clerk)
        for _ in range(source.randrange(1, 5)):
            place = source.randrange(clerk.count())
            clerk.type(joined(b"X", place), b"B", b"A")
        put_in_until_refused(source, clerk)
        all_back_and_again(clerk)
        clerk.type(b"Q")
    return clerk.lines


def emptying_lines(source):
    """Letter by letter to the empty sheet and on; all back and again, and then
    from the empty sheet, where 64 changes don't stand yet."""
    clerk = Clerk()
    lengths = [[1, 2, 3], [10, 20, 40], [63, 64, 64]]
    for count in map(source.choice, lengths):
        string = any_string(source, count)
        clerk.type(opening(usual_limits(source), any_map(source), string))
        take_out_until_refused(source, clerk)
        clerk.type(b"L 0 65", b"I 1 65")
        all_back_and_again(clerk)
        clerk.type(b"I 0 65", b"Q", b"B", b"A", b"X 0", b"Q", b"B")
    return clerk.lines


# More letters are put in than taken out, so that some are there.
any_history_lines = full_history_lines(CHANGES + [b"I"])


# What the replies have to show.

BACK_AND_AGAIN = {"B shows X", "B shows I", "A shows X", "A shows I"}
PUT_IN_EVERYWHERE = {"I at the first letter", "I inside", "I at the end"}
TAKEN_OUT_EVERYWHERE = {"X at the first letter", "X inside", "X at the end"}
FROM_NONE_AND_BACK = {"X to no letters", "A to no letters", "B to no letters"}

SHOWN_AT_EVERY_PLACE = PUT_IN_EVERYWHERE | TAKEN_OUT_EVERYWHERE \
    | BACK_AND_AGAIN | FROM_NONE_AND_BACK | {
        "I is 6", "X is 6", "a question again"}
SHOWN_BY_FILLING = PUT_IN_EVERYWHERE | {
    "B shows X", "A shows I", "I is 7", "I is 6 with 64 changes",
    "I to 1,000 letters", "I is 1", "I is 6 with 1,000 letters",
    "a question again"}
SHOWN_AT_THE_BRIM = BACK_AND_AGAIN | {
    "I is 1", "I is 1 with 64 changes", "I is 6 with 1,000 letters",
    "X is 7 with 1,000 letters", "I to 1,000 letters", "B to 1,000 letters",
    "A to 1,000 letters", "B is 8", "A is 9"}
SHOWN_BY_EMPTYING = TAKEN_OUT_EVERYWHERE | BACK_AND_AGAIN \
    | FROM_NONE_AND_BACK | {
        "X is 6", "L is 6", "I is 6", "B is 8", "A is 9", "a question again"}
SHOWN_PAST_64 = BACK_AND_AGAIN | {
    "L is 7", "K is 7", "M is 7", "I is 7", "X is 7",
    "L is 6 with 64 changes", "K is 4 with 64 changes",
    "K is 5 with 64 changes", "M is 5 with 64 changes",
    "I is 6 with 64 changes", "X is 6 with 64 changes", "B shows L",
    "B shows K", "B shows M", "A shows L", "A shows K", "A shows M",
    "a question again"}

# Name, how many scripts, their lines, and what finds faults.
GROUPS = [
    ("1, 2, 4 and 5: every place", 1, every_place_lines,
     fault_finder(SHOWN_AT_EVERY_PLACE)),
    ("1, 3 and 6: up to 1,000 letters", 1, filling_lines,
     fault_finder(SHOWN_BY_FILLING)),
    ("3 and 6: at 1,000 letters", 4, brim_lines,
     fault_finder(SHOWN_AT_THE_BRIM)),
    ("2, 6 and 12: down to no letter", 4, emptying_lines,
     fault_finder(SHOWN_BY_EMPTYING)),
    ("3, 5, 7 and 8: past 64 changes", 5, any_history_lines,
     fault_finder(SHOWN_PAST_64)),
]
