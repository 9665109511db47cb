"""Lines of the call program as a clerk types them on an open sheet, with
changes of all sorts, and a walk through the replies: each change has to go
with those before it, and what is seen is kept, for scripts to demand."""

import re

import second
from damage import OUT_OF_RANGE
from drawing import (
    any_limits, any_map, any_string, joined, kind_line, length_line,
    limit_lines, opening, usual_limits)
from selfcheck import REFUSALS_OF_CALLS, first_fault, limit_tests

CHANGES = [b"L", b"K", b"M", b"I", b"X"]

# A question on more letters than these takes long, and few are asked.
FEW_LETTERS = 150


class Clerk:
    """Types lines and keeps up with the sheet that they lead to. The second
    program answers each but a question, which changes nothing."""

    def __init__(self):
        self.lines = []
        self.program = second.CallProgram()

    def type(self, *lines):
        for line in lines:
            self.lines.append(line)
            if line != b"Q":
                self.program.answer(line)

    def letters(self):
        """None of them before the first opening."""
        sheet = self.program.sheet
        return b"" if sheet is None else bytes(sheet.letters)

    def count(self):
        return len(self.letters())

    def limits(self):
        return self.program.sheet.limits

    def standing(self):
        return len(self.program.sheet.standing)

    def has_room(self):
        """Whether a change may be accepted."""
        return self.standing() < second.MOST_CHANGES


# Lines with a change, of which most are accepted on so many letters.

def any_letter_byte(source):
    if source.random() < 0.85:
        return source.choice(b"ACGTN")
    return source.choice([0, 10, 13, 32, 128, 254, 255, 256, 300, 9999])


def any_place(source, count):
    if count > 0 and source.random() < 0.9:
        return source.randrange(count)
    return source.choice([0, count, count + 1, 999, 1000, 9999])


def put_in_place(source, count):
    """Behind the last letter and one further as well as before any letter."""
    if source.random() < 0.6:
        return source.randrange(count + 1)
    return source.choice(
        [0, count, count, count, count + 1, count + 1, 1000, 1001, 9999])


def take_out_place(source, count):
    if count > 0 and source.random() < 0.7:
        return source.randrange(count)
    return source.choice(
        [0, max(count - 1, 0), count, count, count + 1, 1000, 9999])


def change_line(source, sort, count):
    if sort == b"L":
        return joined(b"L", any_place(source, count), any_letter_byte(source))
    if sort == b"I":
        return joined(
            b"I", put_in_place(source, count), any_letter_byte(source))
    if sort == b"X":
        return joined(b"X", take_out_place(source, count))
    return (kind_line if sort == b"K" else length_line)(any_limits(source))


def refused_limit_lines(source):
    """K with 4 and twice with 5, and M with 5 for m and for g."""
    kind, m, g, d = map(source.choice, OUT_OF_RANGE)
    return [joined(b"K", kind, source.choice([0, d])), joined(b"K", 1, d),
            joined(b"K", 2, max(d, 16)),
            joined(b"M", m, source.choice([0, g])), joined(b"M", 1, g)]


# Runs of lines on an open sheet.

def ask(clerk):
    if clerk.count() <= FEW_LETTERS:
        clerk.type(b"Q")


def open_anew(clerk):
    """With the letters, limits and map that there are, so that the question
    has the same answer. A line end can't be opened with."""
    sheet = clerk.program.sheet
    map_name = next(name for name, letter_map in second.CALL_MAPS.items()
                    if letter_map == sheet.letter_map)
    if b"\n" not in clerk.letters():
        ask(clerk)
        clerk.type(opening(sheet.limits, map_name, clerk.letters()))
        ask(clerk)


def back_and_again(source, clerk):
    """Some changes taken back and put again, now and then one too many."""
    run = source.choice([1, 1, 2, 5, 12])
    clerk.type(*[b"B"] * run, *[b"A"] * source.randrange(run + 2))


def all_back_and_again(clerk):
    """And one more each time, with a question at both ends."""
    run = clerk.standing() + 1
    ask(clerk)
    clerk.type(*[b"B"] * run)
    ask(clerk)
    clerk.type(*[b"A"] * run)
    ask(clerk)


def change_until_refused(source, clerk, sorts):
    """Changes of such sorts until 64 stand, then one of each sort that 64
    changes alone stand against, and some that have a fault before that."""
    while clerk.has_room():
        clerk.type(change_line(source, source.choice(sorts), clerk.count()))
        if source.random() < 0.05:
            back_and_again(source, clerk)
        if source.random() < 0.05:
            ask(clerk)
    count = clerk.count()
    clerk.type(joined(b"L", 0, 65), *limit_lines(usual_limits(source)),
               joined(b"I", source.choice([0, count]), 65), b"X 0",
               joined(b"L", count, 65), *refused_limit_lines(source),
               joined(b"I", count + 1, 65), joined(b"X", count))


def full_history_lines(sorts):
    """Scripts with changes of such sorts past 64, some taken back, and on; at
    the end all back and again."""
    def lines_from(source):
        clerk = Clerk()
        string = any_string(source, source.choice([0, 1, 5, 12, 30]))
        clerk.type(opening(usual_limits(source), any_map(source), string))
        change_until_refused(source, clerk, sorts)
        for _ in range(2):
            run = source.choice([1, 5, 20, 64, 65])
            clerk.type(*[b"B"] * run, *[b"A"] * source.choice([0, run // 2]))
            change_until_refused(source, clerk, sorts)
        all_back_and_again(clerk)
        open_anew(clerk)
        return clerk.lines
    return lines_from


# What the replies have to show.

LIMIT_NAMES = ["kind", "m", "g", "d"]
# Which of them each limits call names.
NAMED_BY = {"K": (0, 3), "M": (1, 2)}

# The limits call before L6, with kind, m, g and d, is no line: always 13.
OLD_LIMITS_LINE = re.compile(rb"M( (0|[1-9][0-9]{0,3})){4}")
OLD_LIMITS = "the old M"
KNOWN_REFUSALS = {sort: numbers + [13, 14]
                  for sort, numbers in REFUSALS_OF_CALLS.items()}
KNOWN_REFUSALS[OLD_LIMITS] = [13]


def where(sort, place, count):
    """Of so many letters before the change."""
    if place == 0:
        return sort + " at the first letter"
    behind = count if sort == "I" else count - 1
    return sort + (" at the end" if place == behind else " inside")


def kind_shown(limits):
    return "kind %d%s" % (limits[0], " with errors" if limits[3] > 0 else "")


class Replies:
    """Goes through lines and their replies. Each change that is said back is
    made on letters and limits of its own, and has to go with them and with the
    number standing; a question that is asked again has the same answer. Keeps
    what is seen, and the faults."""

    def __init__(self, lines, replies):
        self.letters, self.standing = b"", 0
        self.map_name, self.limits = b"", []
        # The limits while 0, 1, .. changes stood, with those taken back.
        self.limits_by_standing = []
        self.answers = {}
        self.last_shown = None
        self.seen, self.faults = set(), []
        for line, reply in zip(lines, replies):
            self.take(line, reply.decode("ascii"))

    def take(self, line, reply):
        call, *said = reply.split()
        if line == b"Q":
            self.answered(line, reply)
        elif call == "!":
            self.refused(line, int(said[0]))
        elif call == "O":
            self.opened(line)
        elif call in ("B", "A"):
            self.changed(line, call, said[0], [int(x) for x in said[1:]])
            self.shown(call, said[0])
        else:
            self.changed(line, call, call, [int(x) for x in said])
        if call not in ("B", "A"):
            self.last_shown = None

    def opened(self, line):
        _, *limits, self.map_name, self.letters = line.split(b" ", 6)
        self.limits, self.standing = [int(x) for x in limits], 0
        self.limits_by_standing = [self.limits]

    def refused(self, line, number):
        """And whether the sheet was full, so that others were due later."""
        sort = line[:1].decode("latin-1")
        if OLD_LIMITS_LINE.fullmatch(line):
            sort = OLD_LIMITS
        self.must(line, "a refusal of that call",
                  number in KNOWN_REFUSALS.get(sort, [number]))
        what = "%s is %d" % (sort, number)
        self.seen.add(what)
        if not self.map_name:
            self.seen.add(what + " with no sheet")
        if self.standing == 64:
            self.seen.add(what + " with 64 changes")
        if len(self.letters) == 1000:
            self.seen.add(what + " with 1,000 letters")

    def must(self, line, what, holds):
        if not holds:
            self.faults.append("%s: not %s" % (line.decode("latin-1"), what))

    def shown(self, call, sort):
        """The sort that take-back or put-again shows, and the one that the
        same call showed just before."""
        self.seen.add("%s shows %s" % (call, sort))
        if self.last_shown is not None and self.last_shown[0] == call:
            self.seen.add("%s shows %s, then %s" % (*self.last_shown, sort))
        self.last_shown = call, sort

    def changed(self, line, call, sort, numbers):
        """A change that is said back by a call, its standing last."""
        self.standing += -1 if call == "B" else 1
        self.must(line, "the number standing", numbers[-1] == self.standing)
        self.must(line, "0 to 64 standing", 0 <= self.standing <= 64)
        if sort in NAMED_BY:
            self.limited(line, call, sort, numbers[:-1])
        elif sort == "L":
            self.write(line, numbers[0], numbers[1:2], numbers[2:3])
        else:
            self.moved(line, call, sort, *numbers[:3])
        self.follow_limits(line, call)

    def limited(self, line, call, sort, limits):
        """Two limits set, as the line asks where it asks for any; the other
        two are kept."""
        if len(limits) != len(LIMIT_NAMES):
            self.must(line, "all four limits", False)
            return
        old, self.limits = self.limits, limits
        named = NAMED_BY[sort]
        self.must(line, "limits in range",
                  first_fault(limit_tests(*limits)) == 0)
        self.must(line, "what it doesn't name kept", all(
            limits[k] == old[k] for k in range(4) if k not in named))
        if sort == "K":
            self.seen.add("%s from %s to %s" % (
                call, kind_shown(old), kind_shown(limits)))
        if call == sort:
            self.must(line, "the limits asked for", line.split(b" ")[1:]
                      == [b"%d" % limits[k] for k in named])
            self.seen.add("%s to %s limits" % (
                sort, "the same" if limits == old else "other"))

    def follow_limits(self, line, call):
        """Take-back and put-again come to the limits of so many changes."""
        if call in ("B", "A"):
            known = self.limits_by_standing[self.standing:self.standing + 1]
            self.must(line, "the limits of then", known == [self.limits])
        else:
            self.limits_by_standing[self.standing:] = [self.limits]

    def moved(self, line, call, sort, place, letter, count):
        """A letter put in or taken out."""
        self.seen.add(where(sort, place, len(self.letters)))
        old, new = ([], [letter]) if sort == "I" else ([letter], [])
        self.write(line, place, old, new)
        self.must(line, "the number of letters", count == len(self.letters))
        self.must(line, "0 to 1,000 letters", 0 <= count <= 1000)
        if count in (0, 1000):
            self.seen.add("%s to %s letters" % (
                call, "1,000" if count > 0 else "no"))

    def write(self, line, place, old, new):
        """New letters in place of the old ones: one each, or none."""
        end = place + len(old)
        self.must(line, "a place", end <= len(self.letters))
        self.must(line, "the letter there",
                  self.letters[place:end] == bytes(old))
        self.letters = self.letters[:place] + bytes(new) + self.letters[end:]

    def answered(self, line, reply):
        """And whether another answer came of one other limit alone."""
        limits = tuple(self.limits)
        answers = self.answers.setdefault((self.map_name, self.letters), {})
        if limits in answers:
            self.seen.add("a question again")
        self.must(line, "the same answer as before",
                  answers.setdefault(limits, reply) == reply)
        for others, answer in answers.items():
            differing = [name for name, one, other
                         in zip(LIMIT_NAMES, limits, others) if one != other]
            if len(differing) == 1 and answer != reply:
                self.seen.add("another answer by %s alone" % differing[0])


def fault_finder(wanted):
    """Replies that don't go together, and what is never seen of all that is
    wanted."""
    def find_faults(lines, replies):
        found = Replies(lines, replies)
        return sorted(found.faults + [
            "never %s" % one for one in wanted - found.seen])
    return find_faults
