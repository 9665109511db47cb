"""Lines of the call program that set kind and d or m and g (02, L6), among its
other lines, and what their replies have to show: each call made, taken back
and put again with the other two limits kept, each refusal, questions that tell
the limits apart, and that the former limits call is no line."""

import itertools

from calls import (
    OLD_LIMITS, Clerk, all_back_and_again, ask, back_and_again, change_line,
    fault_finder, full_history_lines, open_anew, refused_limit_lines)
from damage import OUT_OF_RANGE
from drawing import (
    any_limits, any_map, any_string, joined, kind_line, length_line,
    limit_lines, opening, usual_limits)

# Right values and wrong ones, some of which would pass if cut to a byte.
KINDS = [1, 2] + OUT_OF_RANGE[0]
LENGTHS = [1, 2, 255, 256, 257, 999, 1000] + OUT_OF_RANGE[1]
GAPS = list(range(16)) + OUT_OF_RANGE[2]
ERRORS = list(range(16)) + OUT_OF_RANGE[3]

LENGTHS_OF_STRINGS = [1, 5, 8, 10, 13, 20, 30]
MIXED_SORTS = [b"K", b"M"] * 3 + [b"L", b"I", b"I", b"X"]


def open_any(source, clerk):
    string = any_string(source, source.choice(LENGTHS_OF_STRINGS))
    clerk.type(opening(usual_limits(source), any_map(source), string))


# Scripts.

def every_value_lines(source):
    """Each value beside each, in any order, and right ones last. Where 64
    changes stand, the sheet is opened anew."""
    lines = {joined(b"K", *two) for two in itertools.product(KINDS, ERRORS)}
    lines |= {joined(b"M", *two) for two in itertools.product(LENGTHS, GAPS)}
    lines = source.sample(sorted(lines), len(lines))
    clerk = Clerk()
    open_any(source, clerk)
    for line in lines + limit_lines(usual_limits(source)):
        if not clerk.has_room():
            open_anew(clerk)
        clerk.type(line)
        if source.random() < 0.06:
            back_and_again(source, clerk)
    all_back_and_again(clerk)
    return clerk.lines


def one_limit_lines(source, limits):
    """Each sets another kind, m, g or d. There is no other d with kind 1."""
    kind, m, g, d = limits
    other_m = source.choice([x for x in (1, 2, 3, 4, 6) if x != m])
    other_g = source.choice([1, 2, 3, 15]) if g == 0 else 0
    other_d = source.choice([1, 2, 3, 15]) if d == 0 else 0
    return [kind_line([3 - kind, m, g, 0]), length_line([kind, other_m, g, d]),
            length_line([kind, m, other_g, d]), kind_line([2, m, g, other_d])]


def ask_one_by_one(source, clerk):
    """Each limit by itself is changed and taken back, in any order, now and
    then put again, with a question each time."""
    lines = one_limit_lines(source, clerk.limits())
    clerk.type(b"Q")
    for line in source.sample(lines, len(lines)):
        clerk.type(line, b"Q", b"B", b"Q")
        if source.random() < 0.3:
            clerk.type(b"A", b"Q", b"B")


def asked_lines(source):
    """First abaca, where each limit by itself makes another answer: with m 1
    and one gap kind 2 has aba, a gap and a."""
    clerk = Clerk()
    clerk.type(opening([2, 1, 1, 0], b"I", b"abaca"))
    ask_one_by_one(source, clerk)
    for _ in range(6):
        open_any(source, clerk)
        for _ in range(2):
            ask_one_by_one(source, clerk)
            clerk.type(*limit_lines(usual_limits(source)))
        all_back_and_again(clerk)
    return clerk.lines


def there_and_back_again(source, clerk):
    """To kind 2 with errors, to kind 1 and back; then limits that are there
    already, K before M and M before K."""
    errors = source.choice([1, 2, 3, 15])
    clerk.type(b"K 1 0", joined(b"K", 2, errors), b"K 1 0", b"Q", b"B", b"Q",
               b"A", b"Q")
    kind_first = limit_lines(clerk.limits())
    clerk.type(*kind_first, *reversed(kind_first))
    clerk.type(*[b"B"] * 4, *[b"A"] * 4)


def in_turn_lines(source):
    """Kind and d, m and g, and the letters are changed in turn, in any order,
    and taken back all together. Refused calls leave what is taken back, and
    accepted ones don't."""
    clerk = Clerk()
    for rounds in (4, 5):
        open_any(source, clerk)
        there_and_back_again(source, clerk)
        for sort in [b"L", b"I", b"X"] * rounds:
            for each in source.sample([b"K", b"M", sort], 3):
                clerk.type(change_line(source, each, clerk.count()))
            if source.random() < 0.15:
                back_and_again(source, clerk)
        all_back_and_again(clerk)
        clerk.type(b"B", b"B", b"B", *refused_limit_lines(source), b"A", b"A",
                   b"A")
        for line in limit_lines(usual_limits(source)):
            clerk.type(b"B", line, b"A")
        ask(clerk)
    return clerk.lines


mixed_history_lines = full_history_lines(MIXED_SORTS)


def old_limits_line(source):
    return joined(b"M", *any_limits(source))


def old_lines(source):
    """The former limits call among the new ones: with no sheet, behind
    openings that are refused, and between changes and take-backs."""
    clerk = Clerk()
    for _ in range(4):
        clerk.type(b"K 1 0", b"M 1 0", old_limits_line(source),
                   *refused_limit_lines(source), old_limits_line(source),
                   opening([3, 1, 0, 0], any_map(source), b"AC"))
    open_any(source, clerk)
    for _ in range(12):
        for line in limit_lines(usual_limits(source)):
            clerk.type(line, old_limits_line(source), b"B",
                       old_limits_line(source), b"A")
        ask(clerk)
    all_back_and_again(clerk)
    return clerk.lines


# What the replies have to show.

MADE = {"K to other limits", "M to other limits"}
BACK_AND_AGAIN = {"B shows K", "B shows M", "A shows K", "A shows M"}
IN_TURN = {
    "B shows K, then M", "B shows M, then K", "A shows K, then M",
    "A shows M, then K", "B shows L", "B shows X", "B shows I", "A shows L",
    "A shows X", "A shows I"}
REFUSED = {"K is 4", "K is 5", "M is 5"}
TOLD_APART = {"another answer by %s alone" % name
              for name in ("kind", "m", "g", "d")}
BETWEEN_KINDS = {
    "K from kind 1 to kind 2 with errors",
    "K from kind 2 with errors to kind 1",
    "B from kind 1 to kind 2 with errors",
    "A from kind 2 with errors to kind 1"}
TO_THE_SAME = {"K to the same limits", "M to the same limits"}
FULL = {"K is 7", "M is 7", "K is 4 with 64 changes", "K is 5 with 64 changes",
        "M is 5 with 64 changes"}
NO_LINE = {OLD_LIMITS + " is 13", OLD_LIMITS + " is 13 with no sheet"}

# Name, how many scripts, their lines, and what finds faults.
GROUPS = [
    ("1 and 2: every value", 2, every_value_lines,
     fault_finder(MADE | BACK_AND_AGAIN | REFUSED)),
    ("1 and 4: questions under other limits", 3, asked_lines,
     fault_finder(MADE | BACK_AND_AGAIN | TOLD_APART | {"a question again"})),
    ("4 and 5: K and M in turn", 3, in_turn_lines,
     fault_finder(MADE | BACK_AND_AGAIN | IN_TURN | REFUSED | BETWEEN_KINDS
                  | TO_THE_SAME | {"a question again"})),
    ("2 and 5: past 64 changes", 2, mixed_history_lines,
     fault_finder(MADE | BACK_AND_AGAIN | FULL | {"a question again"})),
    ("6: the former limits call", 2, old_lines,
     fault_finder(MADE | BACK_AND_AGAIN | NO_LINE | {
         "K is 14", "M is 14", "a question again"})),
]
