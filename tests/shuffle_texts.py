"""Texts written out by hand from request L7 (02): lines beside the replies
that it and its readings settle. No program made any of them; where a reply is
not plain to see, a comment says how it comes about."""

# How L7 is read, by the numbers of its readings. A reply is the number, and
# all lent entries in a second line: each is 9 before the call, and entry a is
# the longest stretch from place a on of which at most one letter is odd, that
# is, occurs an odd number of times. The comments name the odd ones. Where
# there is none, one more letter is the only one: so an entry is even only
# where its stretch ends with the string.

ALL_LETTERS = b"ABCDEFGHIJKLMNOPQRSTUVWXYZ"
LETTERS = [ALL_LETTERS[k:k + 1] for k in range(26)]
# Byte 10 can't stand in a line.
BYTES = [bytes([x]) for x in range(256) if x != 10]
# Those next to A and Z and next to a and z, digits, space, CR and NUL; and 1,
# 26, 193 and 218, which are A and Z but for their highest bits.
OUTSIDE = [b"@", b"[", b"`", b"a", b"z", b"{", b"0", b"9", b" ", b"\r",
           b"\x00", b"\x01", b"\x1a", b"\x7f", b"\x80", b"\xc1", b"\xda",
           b"\xff"]


def filled(*lengths):
    return "A 0\nE" + "".join(" %d" % length for length in lengths)


def refused(number, lent):
    return "A %d\nE" % number + " 9" * lent


def falling(first, last, step=1):
    """From the first number down to the last."""
    return list(range(first, last - 1, -step))


def twice_each(lengths):
    return [length for length in lengths for _ in range(2)]


SHUFFLE_READINGS = [
    ("1: up to three letters", [
        (b"A 1 A", "A 0\nE 1"), (b"A 1 Z", "A 0\nE 1"),
        (b"A 2 AA", "A 0\nE 2 1"), (b"A 2 AB", "A 0\nE 1 1"),
        (b"A 2 BA", "A 0\nE 1 1"), (b"A 3 AAA", "A 0\nE 3 2 1"),
        (b"A 3 AAB", "A 0\nE 3 1 1"), (b"A 3 ABA", "A 0\nE 3 1 1"),
        (b"A 3 BAA", "A 0\nE 3 2 1"), (b"A 3 ABB", "A 0\nE 3 2 1"),
        (b"A 3 ABC", "A 0\nE 1 1 1"), (b"A 3 CBA", "A 0\nE 1 1 1")]),
    ("1: four letters", [
        (b"A 4 AAAA", "A 0\nE 4 3 2 1"), (b"A 4 AABB", "A 0\nE 4 3 2 1"),
        (b"A 4 ABAB", "A 0\nE 4 3 1 1"), (b"A 4 ABBA", "A 0\nE 4 3 1 1"),
        # A once and B three times are two odd ones.
        (b"A 4 ABBB", "A 0\nE 3 3 2 1"), (b"A 4 AAAB", "A 0\nE 3 3 1 1"),
        (b"A 4 ABAA", "A 0\nE 3 3 2 1"), (b"A 4 AABA", "A 0\nE 3 3 1 1"),
        (b"A 4 AABC", "A 0\nE 3 1 1 1"), (b"A 4 ABAC", "A 0\nE 3 1 1 1"),
        (b"A 4 ABBC", "A 0\nE 3 3 1 1"), (b"A 4 ABCB", "A 0\nE 1 3 1 1"),
        (b"A 4 ABCC", "A 0\nE 1 3 2 1"), (b"A 4 ABCA", "A 0\nE 1 1 1 1"),
        (b"A 4 ABCD", "A 0\nE 1 1 1 1")]),
    # The whole always passes: E is the only odd one, and V in the last two.
    ("1: the same letters in any order", [
        # From 1 on E and R, without the R only E. From 2 on E, A and R.
        (b"A 7 RACECAR", "A 0\nE 7 5 3 1 1 1 1"),
        # From 1 on C and E, without the E only C. From 2 on A, C and E.
        (b"A 7 CARRACE", "A 0\nE 7 5 3 1 1 1 1"),
        # From 1 on none, from 2 on A, from 3 on C and A.
        (b"A 7 EACCARR", "A 0\nE 7 6 5 1 3 2 1"),
        # From 1 on A and E, up to ACC. From 3 on C and E.
        (b"A 7 AACCERR", "A 0\nE 7 3 5 1 3 2 1"),
        # From 1 on E and R, and with fewer letters never fewer than two.
        (b"A 7 RACERAC", "A 0\nE 7 1 1 1 1 1 1"),
        (b"A 5 LEVEL", "A 0\nE 5 3 1 1 1"),
        # From 1 on V and E.
        (b"A 5 EVELL", "A 0\nE 5 1 3 2 1")]),
    ("1: odd is also three times and five times", [
        # From 0 on A and B, without the last B only A; from 2 on A and B.
        (b"A 6 AAABBB", "A 0\nE 5 5 3 3 2 1"),
        # From 0 on six and more letters have A and B or all three. From 1 on
        # B and C, without the last C only B. From 2 on all three, then A and B
        # at least, up to ABB. From 3 on B and C, as AAABBB.
        (b"A 9 AAABBBCCC", "A 0\nE 5 7 3 5 5 3 3 2 1"),
        (b"A 6 AAAAAB", "A 0\nE 5 5 3 3 1 1"),
        (b"A 6 BAAAAA", "A 0\nE 5 5 4 3 2 1"),
        # From 0 on B and A, without the last A only B.
        (b"A 6 BANANA", "A 0\nE 5 5 4 3 1 1"),
        # From 0 on M, from 1 on none, from 2 on I. From 3 on S and I, without
        # the last I only S. From 4 on I, from 5 on none, from 6 on S.
        (b"A 11 MISSISSIPPI", "A 0\nE 11 10 9 7 7 6 5 4 3 1 1")]),
    ("1: strings of document 002 as capitals", [
        # From 0 on G and T, without the last A three, then A and G, then A.
        (b"A 6 ACCGTA", "A 0\nE 3 3 1 1 1 1"),
        # From 0 on G and always another. From 1 on C and T, without the last C
        # only T.
        (b"A 7 GACTCAC", "A 0\nE 1 5 3 1 3 1 1")]),
    ("1 and 6: a letter counts for itself, each beside each", [
        (b"A 2 " + one + other, "A 0\nE 2 1" if one == other else "A 0\nE 1 1")
        for one in LETTERS for other in LETTERS]),
    ("1 and 6: two others don't make a third one", [
        (b"A 4 AIQY", "A 0\nE 1 1 1 1"), (b"A 4 BCAA", "A 0\nE 1 3 2 1"),
        (b"A 5 WXYZA", "A 0\nE 1 1 1 1 1"), (b"A 5 AIAIQ", "A 0\nE 5 3 1 1 1"),
        # From 1 on A and Y.
        (b"A 5 AQAYQ", "A 0\nE 5 1 1 1 1"),
        # From 1 on H, from 2 on P and H.
        (b"A 6 HPXPHX", "A 0\nE 6 5 1 1 1 1")]),
    ("2: one entry a letter", [
        # From 1 on A and C.
        (b"A 5 AABCB", "A 0\nE 5 1 3 1 1"),
        (b"A 6 AABBCC", "A 0\nE 6 5 4 3 2 1"),
        # From 2 on B and A, without the A only B.
        (b"A 6 ABCCBA", "A 0\nE 6 5 3 1 1 1"),
        (b"A 8 AAAAAAAA", "A 0\nE 8 7 6 5 4 3 2 1"),
        (b"A 12 AAAAAAAAAAAA", "A 0\nE 12 11 10 9 8 7 6 5 4 3 2 1")]),
    ("2: the longest is not the whole rest", [
        # From 0 on X and Y, without the Y only X. From 2 on A and Y.
        (b"A 6 XABBAY", "A 0\nE 5 5 3 1 1 1"),
        # From 0 on X and Y whatever follows.
        (b"A 6 XYABBA", "A 0\nE 1 5 4 3 1 1"),
        (b"A 6 ABBAXY", "A 0\nE 5 3 1 1 1 1"),
        (b"A 8 XYABBAVW", "A 0\nE 1 5 5 3 1 1 1 1"),
        (b"A 5 XYABA", "A 0\nE 1 1 3 1 1"),
        (b"A 7 XYABAVW", "A 0\nE 1 1 3 1 1 1 1")]),
    ("2: the longest lies beyond lengths that fail", [
        # Two to four letters fail, five have C. From 1 on A, from 2 on A and
        # B.
        (b"A 6 ABCABC", "A 0\nE 6 5 1 1 1 1"),
        (b"A 5 ABCAB", "A 0\nE 5 1 1 1 1"),
        # From 0 on A, from 1 on none, from 2 on B.
        (b"A 7 ABCABCA", "A 0\nE 7 6 5 1 1 1 1"),
        (b"A 8 AXBYAXBY", "A 0\nE 8 7 1 1 1 1 1 1"),
        # From 1 on A. From 2 on B and A, without the A only B. From 3 on C and
        # others, up to DDC.
        (b"A 8 ABCDDCBA", "A 0\nE 8 7 5 3 1 1 1 1"),
        # Longest ones with others behind them. From 0 on X and Y, without the
        # Y only X; from 1 on A too.
        (b"A 8 ABCABCXY", "A 0\nE 7 5 1 1 1 1 1 1"),
        (b"A 7 ABCABXY", "A 0\nE 5 1 1 1 1 1 1")]),
    ("2: the longest lies beyond shorter ones and lengths that fail", [
        # A, AA and AAB pass, four to six letters fail, seven have D. From 1 on
        # A, from 2 on none, from 3 on B, from 4 on B and C.
        (b"A 8 AABCDBCD", "A 0\nE 8 7 6 5 1 1 1 1"),
        # From 0 and from 2 on X and Y, without the Y only X. From 1 and from 3
        # on X is one too many as well.
        (b"A 10 AABCDBCDXY", "A 0\nE 9 7 7 5 1 1 1 1 1 1"),
        # A and ABA pass, ABAC fails. From 1 on A, from 2 on A and B.
        (b"A 6 ABACBC", "A 0\nE 6 5 1 3 1 1"),
        (b"A 7 ABACDEF", "A 0\nE 3 1 1 1 1 1 1")]),
    ("2: all 26 letters", [
        (b"A 26 " + ALL_LETTERS, filled(*[1] * 26)),
        (b"A 26 " + ALL_LETTERS[::-1], filled(*[1] * 26)),
        # From 1 on A, from 2 on A and B.
        (b"A 52 " + ALL_LETTERS * 2, filled(52, 51, *[1] * 50)),
        # From 0 on A, from 1 on none, from 2 on B, from 3 on B and C.
        (b"A 53 " + ALL_LETTERS * 2 + b"A", filled(53, 52, 51, *[1] * 50)),
        # From 0 on Z alone, and A alone; from 1 on A and Z, and A and B.
        (b"A 51 " + ALL_LETTERS + ALL_LETTERS[:25], filled(51, *[1] * 50)),
        (b"A 51 " + ALL_LETTERS[1:] + ALL_LETTERS, filled(51, *[1] * 50)),
        # Each letter goes up to the same one on the way back and one further,
        # but A has none further.
        (b"A 52 " + ALL_LETTERS + ALL_LETTERS[::-1],
         filled(52, *falling(51, 3, 2), *[1] * 26)),
        (b"A 52 " + b"".join(letter * 2 for letter in LETTERS),
         filled(*falling(52, 1)))]),
    ("3 and 4: as many entries as letters, and more, which stay", [
        (b"A 5 AABCB", "A 0\nE 5 1 3 1 1"),
        (b"A 6 AABCB", "A 0\nE 5 1 3 1 1 9"),
        (b"A 8 AABCB", "A 0\nE 5 1 3 1 1 9 9 9"),
        (b"A 100 AABCB", "A 0\nE 5 1 3 1 1" + " 9" * 95),
        # Cut to a byte, 256 and 260 would be 0 and 4.
        (b"A 256 AABCB", "A 0\nE 5 1 3 1 1" + " 9" * 251),
        (b"A 260 AABCB", "A 0\nE 5 1 3 1 1" + " 9" * 255),
        (b"A 9999 AABCB", "A 0\nE 5 1 3 1 1" + " 9" * 9994),
        (b"A 1 A", "A 0\nE 1"), (b"A 2 A", "A 0\nE 1 9"),
        (b"A 9999 A", "A 0\nE 1" + " 9" * 9998),
        (b"A 3 AB", "A 0\nE 1 1 9"), (b"A 3 AA", "A 0\nE 2 1 9"),
        # The first 9 is filled, the last one stays.
        (b"A 10 AAAAAAAAA", "A 0\nE 9 8 7 6 5 4 3 2 1 9")]),
    ("3 and 4: right and refused lines in turn", [
        (b"A 8 AABCB", "A 0\nE 5 1 3 1 1 9 9 9"),
        (b"A 4 AABCB", "A 11\nE 9 9 9 9"),
        (b"A 8 AAbCB", "A 20\nE 9 9 9 9 9 9 9 9"),
        (b"A 8 ", "A 0\nE 9 9 9 9 9 9 9 9"),
        (b"A 8 AABCB", "A 0\nE 5 1 3 1 1 9 9 9"),
        (b"A 0 " + b"A" * 1001, "A 1\nE"),
        (b"A 8 BAACB", "A 0\nE 5 3 1 1 1 9 9 9")]),
    ("5: no letters, nothing is filled", [
        (b"A 0 ", "A 0\nE"), (b"A 1 ", "A 0\nE 9"),
        (b"A 5 ", "A 0\nE 9 9 9 9 9"), (b"A 1000 ", "A 0\nE" + " 9" * 1000),
        (b"A 9999 ", "A 0\nE" + " 9" * 9999)]),
    # Partners under the complement are different letters here.
    ("6: no map", [
        (b"A 2 AT", "A 0\nE 1 1"), (b"A 2 CG", "A 0\nE 1 1"),
        (b"A 4 ACGT", "A 0\nE 1 1 1 1"), (b"A 3 ACT", "A 0\nE 1 1 1"),
        # From 0 on G and C, without the C only G. From 2 on A and C.
        (b"A 6 GAATTC", "A 0\nE 5 5 3 3 1 1"),
        # From 0 on T and A, without the last A only T. From 1 on A, from 2 on
        # none, from 3 on G, from 4 on G and T, and never fewer than two with
        # fewer letters.
        (b"A 10 TAGTCGACTA", "A 0\nE 9 9 8 7 1 1 1 1 1 1"),
        (b"A 5 NNNNN", "A 0\nE 5 4 3 2 1")]),
    ("6: every exact palindrome passes", [
        # From 1 on A and C, without the last A only C. From 2 on all three,
        # then C and B, then C. From 3 on C and B.
        (b"A 7 ABACABA", "A 0\nE 7 5 3 1 3 1 1"),
        (b"A 4 NOON", "A 0\nE 4 3 1 1"),
        (b"A 5 ABCBA", "A 0\nE 5 3 1 1 1"),
        # From 1 on E and A, from 2 on E and B at least, from 3 on E and C.
        (b"A 9 ABCDEDCBA", "A 0\nE 9 7 5 3 1 1 1 1 1")]),
    # The longest exact ones of AABCB are AA, A, BCB, C and B from 0 to 4; of
    # CARRACE the longest is CARRAC.
    ("6: beside the exact ones", [
        (b"P I AABCB", "P 0 3\nR 66 67 66"),
        (b"C 0 I * 9 AABCB", "C 0 9\nE 1 2 1 0 1 0 3 0 1"),
        (b"A 5 AABCB", "A 0\nE 5 1 3 1 1"),
        (b"D 0 I * 1 AABCB", "D 0 2 2 0 0"),
        (b"P I CARRACE", "P 0 6\nR 67 65 82 82 65 67"),
        (b"A 7 CARRACE", "A 0\nE 7 5 3 1 1 1 1")]),
    ("2: 1,000 letters, all the same", [
        (b"A 1000 " + b"A" * 1000, filled(*falling(1000, 1))),
        (b"A 1000 " + b"Z" * 1000, filled(*falling(1000, 1))),
        (b"A 1001 " + b"M" * 1000, filled(*falling(1000, 1)) + " 9"),
        (b"A 9999 " + b"A" * 1000, filled(*falling(1000, 1)) + " 9" * 8999),
        (b"A 999 " + b"A" * 999, filled(*falling(999, 1)))]),
    ("2: 1,000 letters, few of them different", [
        # From 0 on B and A, without the last A only B.
        (b"A 1000 B" + b"A" * 999, filled(999, *falling(999, 1))),
        # A and B from each even place on, without the B only A. From each odd
        # place on only B.
        (b"A 1000 " + b"A" * 999 + b"B", filled(*twice_each(
            falling(999, 1, 2)))),
        # There are 500 B, so that A alone can be odd; from 500 on B alone.
        (b"A 1000 " + b"A" * 500 + b"B" * 500, filled(*falling(1000, 1))),
        # A and B from each even place up to 500 on, without the last B only A.
        # From each odd place and from 501 on only B.
        (b"A 1000 " + b"A" * 501 + b"B" * 499, filled(
            *twice_each(falling(999, 501, 2)), 499, *falling(499, 1))),
        # From 0 on 2 to 998 letters have Y and Z. From 1 on Y. From 2 on Y and
        # Z again: Z can be the only one where X is even, else X.
        (b"A 1000 YZ" + b"X" * 996 + b"ZY", filled(
            1000, 999, 997, *twice_each(falling(995, 1, 2)), 1))]),
    ("2: 1,000 letters, a word again and again", [
        # Both are odd where the length is 2 more than a multiple of 4.
        (b"A 1000 " + b"AB" * 500, filled(
            *[length for most in falling(1000, 4, 4)
              for length in (most, most - 1, most - 3, most - 3)])),
        # Only multiples of 6 pass, and one more and one less: 997 is one more.
        (b"A 1000 " + b"ABC" * 333 + b"A", filled(
            *[length for most in falling(996, 6, 6)
              for length in [most + 1] * 4 + [most, most - 1]], *[1] * 4)),
        # Only multiples of 52 pass, and one more and one less. 988 is one of
        # them, and from the first twelve places on there are 989 and more.
        (b"A 1000 " + ALL_LETTERS * 38 + ALL_LETTERS[:12], filled(
            *[989] * 12, 988, 987,
            *[length for most in falling(936, 52, 52)
              for length in [most + 1] * 50 + [most, most - 1]],
            *[1] * 50)),
        # One letter at most is without its neighbour.
        (b"A 1000 " + b"AABB" * 250, filled(*falling(1000, 1)))]),
]

# In each list the later faults are there too, and then fewer of them.
SHUFFLE_REFUSALS = [
    ("4: 1 before 20 and 11", [
        (b"A 0 " + b"a" * 1001, refused(1, 0)),
        (b"A 1000 " + b"a" * 1001, refused(1, 1000)),
        (b"A 1000 @" + b"A" * 1000, refused(1, 1000)),
        (b"A 1000 " + b"A" * 1000 + b"[", refused(1, 1000))]),
    ("4: 1 before 20", [
        (b"A 1001 " + b"a" * 1001, refused(1, 1001)),
        (b"A 1001 @" + b"A" * 1000, refused(1, 1001)),
        (b"A 1001 " + b"A" * 500 + b" " + b"A" * 500, refused(1, 1001)),
        (b"A 1001 " + b"A" * 1000 + b"[", refused(1, 1001)),
        (b"A 9999 " + b"\xff" * 1001, refused(1, 9999))]),
    ("4: 1 before 11", [
        (b"A 0 " + b"A" * 1001, refused(1, 0)),
        (b"A 1 " + b"A" * 1001, refused(1, 1)),
        (b"A 1000 " + b"A" * 1001, refused(1, 1000)),
        (b"A 1001 " + b"A" * 1002, refused(1, 1001)),
        # Cut to a byte, 1,024 letters would be none.
        (b"A 0 " + b"A" * 1024, refused(1, 0))]),
    ("4: 1 alone", [
        (b"A 1001 " + b"A" * 1001, refused(1, 1001)),
        (b"A 1001 " + b"Z" * 1001, refused(1, 1001)),
        (b"A 1002 " + b"A" * 1001, refused(1, 1002)),
        (b"A 1024 " + b"A" * 1024, refused(1, 1024)),
        (b"A 9999 " + b"AB" * 501, refused(1, 9999)),
        (b"A 1000 " + b"A" * 1000, filled(*falling(1000, 1)))]),
    # The byte is also where no entry is lent for it.
    ("4: 20 before 11", [
        (b"A 0 a", "A 20\nE"), (b"A 0 @", "A 20\nE"), (b"A 0 [", "A 20\nE"),
        (b"A 0  ", "A 20\nE"), (b"A 4 aabcb", "A 20\nE 9 9 9 9"),
        (b"A 0 aabcb", "A 20\nE"), (b"A 4 aABCB", "A 20\nE 9 9 9 9"),
        (b"A 4 AAbCB", "A 20\nE 9 9 9 9"), (b"A 4 AABCb", "A 20\nE 9 9 9 9"),
        (b"A 2 AABCb", "A 20\nE 9 9"), (b"A 0 AABC[", "A 20\nE"),
        (b"A 999 @" + b"A" * 999, refused(20, 999)),
        (b"A 999 " + b"A" * 999 + b"[", refused(20, 999)),
        (b"A 0 " + b"A" * 999 + b"z", refused(20, 0))]),
    ("4: 20 alone", [
        (b"A 5 aabcb", "A 20\nE 9 9 9 9 9"), (b"A 1 a", "A 20\nE 9"),
        (b"A 6 aabcb", "A 20\nE 9 9 9 9 9 9"), (b"A 2 Aa", "A 20\nE 9 9"),
        (b"A 2 aA", "A 20\nE 9 9"), (b"A 3 AaA", "A 20\nE 9 9 9"),
        (b"A 9999 AABCb", refused(20, 9999)),
        (b"A 1000 " + b"a" * 1000, refused(20, 1000)),
        (b"A 1000 @" + b"A" * 999, refused(20, 1000)),
        (b"A 1000 " + b"A" * 500 + b"a" + b"A" * 499, refused(20, 1000)),
        (b"A 1000 " + b"A" * 999 + b"[", refused(20, 1000)),
        (b"A 1001 " + b"A" * 999 + b"\x00", refused(20, 1001))]),
    ("4: 11 alone", [
        (b"A 4 AABCB", "A 11\nE 9 9 9 9"), (b"A 3 AABCB", "A 11\nE 9 9 9"),
        (b"A 1 AABCB", "A 11\nE 9"), (b"A 0 AABCB", "A 11\nE"),
        (b"A 0 A", "A 11\nE"), (b"A 1 AA", "A 11\nE 9"),
        (b"A 0 AA", "A 11\nE"), (b"A 25 " + ALL_LETTERS, refused(11, 25)),
        (b"A 51 " + ALL_LETTERS * 2, refused(11, 51)),
        (b"A 255 " + b"A" * 256, refused(11, 255)),
        # Cut to a byte, 256 and 257 letters would be none and one.
        (b"A 0 " + b"A" * 256, refused(11, 0)),
        (b"A 1 " + b"A" * 257, refused(11, 1)),
        (b"A 256 " + b"A" * 256, filled(*falling(256, 1))),
        (b"A 257 " + b"A" * 257, filled(*falling(257, 1))),
        (b"A 999 " + b"A" * 1000, refused(11, 999)),
        (b"A 0 " + b"A" * 1000, refused(11, 0))]),
    ("4: every byte as the only letter", [
        (b"A 1 " + byte, "A 0\nE 1" if byte in LETTERS else "A 20\nE 9")
        for byte in BYTES]),
    ("4: a byte outside A to Z in the first place", [
        (b"A 4 " + byte + b"ABA", "A 20\nE 9 9 9 9") for byte in OUTSIDE]),
    ("4: a byte outside A to Z in the middle", [
        (b"A 5 AB" + byte + b"BA", "A 20\nE 9 9 9 9 9") for byte in OUTSIDE]),
    ("4: a byte outside A to Z in the last place", [
        (b"A 4 ABA" + byte, "A 20\nE 9 9 9 9") for byte in OUTSIDE]),
    ("4: A and Z in the first place, in the middle and in the last", [
        (b"A 2 AZ", "A 0\nE 1 1"), (b"A 2 ZA", "A 0\nE 1 1"),
        (b"A 2 ZZ", "A 0\nE 2 1"), (b"A 3 AZA", "A 0\nE 3 1 1"),
        (b"A 3 ZAZ", "A 0\nE 3 1 1"), (b"A 4 ZABZ", "A 0\nE 1 1 1 1"),
        (b"A 5 ZBZBZ", "A 0\nE 5 4 3 1 1"),
        (b"A 5 BAZAB", "A 0\nE 5 3 1 1 1"),
        (b"A 5 BZAZB", "A 0\nE 5 3 1 1 1")]),
]

SHUFFLE_LINES = [
    ("7: right forms", [
        (b"A 0 ", "A 0\nE"), (b"A 0 A", "A 11\nE"), (b"A 1 A", "A 0\nE 1"),
        # A space behind the first one is a letter, and outside.
        (b"A 1  ", "A 20\nE 9"), (b"A 2  A", "A 20\nE 9 9"),
        (b"A 2 A ", "A 20\nE 9 9"), (b"A 3 A A", "A 20\nE 9 9 9"),
        (b"A 1 A A", "A 20\nE 9"), (b"A 2 A\r", "A 20\nE 9 9"),
        (b"A 1 \r", "A 20\nE 9"), (b"A 1 0", "A 20\nE 9"),
        (b"A 3 5 A", "A 20\nE 9 9 9"), (b"A 2 A\t", "A 20\nE 9 9"),
        (b"A 5 A 5 A", "A 20\nE 9 9 9 9 9"),
        (b"A 9999 ", "A 0\nE" + " 9" * 9999)]),
    ("7: 13, a field is missing", [
        (b"A", "! 13"), (b"A ", "! 13"), (b"A 5", "! 13"), (b"A 0", "! 13"),
        (b"A  ", "! 13"), (b"A AABCB", "! 13"), (b"A AABCB ", "! 13"),
        (b"A5 AABCB", "! 13"), (b"A 5AABCB", "! 13"), (b"A5AABCB", "! 13"),
        # A space in the string makes up for the number that is missing.
        (b"A AAB CB", "! 13"), (b"5 AABCB", "! 13"), (b"AABCB", "! 13")]),
    ("7: 13, names, spaces and bytes between fields", [
        (b"a 5 AABCB", "! 13"), (b"AA 5 AABCB", "! 13"),
        (b" A 5 AABCB", "! 13"), (b"A  5 AABCB", "! 13"),
        (b"A\t5 AABCB", "! 13"), (b"A 5\tAABCB", "! 13"),
        (b"A 5\r", "! 13"), (b"A 5\r AABCB", "! 13"),
        (b"A\r 5 AABCB", "! 13"), (b"A 5\x00 AABCB", "! 13"),
        (b"\x00A 5 AABCB", "! 13"), (b"\xc1 5 AABCB", "! 13"),
        (b"E 5 AABCB", "! 13"), (b"Z 5 AABCB", "! 13")]),
    ("7: 13, numbers that are none", [
        (b"A 10000 AABCB", "! 13"), (b"A 65541 AABCB", "! 13"),
        (b"A 00000 AABCB", "! 13"), (b"A 00 AABCB", "! 13"),
        (b"A 05 AABCB", "! 13"), (b"A 0005 AABCB", "! 13"),
        (b"A 00005 AABCB", "! 13"), (b"A +5 AABCB", "! 13"),
        (b"A -5 AABCB", "! 13"), (b"A -0 ", "! 13"), (b"A 5. AABCB", "! 13"),
        (b"A 5.0 AABCB", "! 13"), (b"A 0x5 AABCB", "! 13"),
        (b"A 1_0 AABCB", "! 13"), (b"A x AABCB", "! 13"),
        (b"A A AABCB", "! 13"), (b"A * AABCB", "! 13"),
        (b"A \xb2 AABCB", "! 13"), (b"A 5\xb2 AABCB", "! 13"),
        # No d, no map and no alphabet is named.
        (b"A I * 5 AABCB", "! 13"), (b"A I 5 AABCB", "! 13")]),
    ("7: 13 before all else", [
        (b"A 10000 " + b"A" * 1001, "! 13"),
        (b"A 01 " + b"a" * 1001, "! 13"), (b"A 05 aabcb", "! 13"),
        (b"A 04 AABCB", "! 13"), (b"A x aabcb", "! 13")]),
    # Heads of 4 and 7 bytes.
    ("7: 1,040 bytes", [
        (b"A 0 " + b"A" * 1036, refused(1, 0)),
        (b"A 0 " + b"A" * 1037, "! 13"),
        (b"A 0 " + b"a" * 1036, refused(1, 0)),
        (b"A 0 " + b"a" * 1037, "! 13"),
        (b"A 1033 " + b"A" * 1033, refused(1, 1033)),
        (b"A 1033 " + b"A" * 1034, "! 13"),
        (b"A 9999 " + b"A" * 1034, "! 13"),
        (b"A 9999 " + b"A" * 50000, "! 13"),
        (b"A 5 AABCB", "A 0\nE 5 1 3 1 1")]),
]

# The examples of docs/INSPECT.md with A, each line with what it prints.
SHUFFLE_EXAMPLES = [
    ("shuffled palindromes", [
        (b"A 8 AABCB", "A 0\nE 5 1 3 1 1 9 9 9"),
        (b"A 4 AABCB", "A 11\nE 9 9 9 9"),
        (b"A 5 aabcb", "A 20\nE 9 9 9 9 9")]),
]

# The call program has no line for it: 13, with no sheet open and with one. Its
# A is put-again, which is 14 with no sheet open.
CALLS_WITHOUT_SHUFFLES = [
    ("8: no line of the call program", [
        (b"A 5 AABCB", "! 13"), (b"A 0 ", "! 13"), (b"A ", "! 13"),
        (b"A", "! 14"),
        (b"O 1 1 0 0 I AABCB", "O 5 0"),
        (b"A 5 AABCB", "! 13"), (b"A", "! 9"),
        (b"L 0 66", "L 0 65 66 1"),
        (b"B", "B L 0 66 65 0"),
        # What is refused leaves the list of what was taken back.
        (b"A 5 AABCB", "! 13"), (b"A 8 AABCB", "! 13"), (b"A 0", "! 13"),
        (b"A 0 ", "! 13"), (b"A 5 aabcb", "! 13"), (b"A 4 AABCB", "! 13"),
        (b"A 0 " + b"A" * 1001, "! 13"),
        (b"A", "A L 0 65 66 1"),
        (b"A", "! 9"),
        # The letters are BABCB, and BAB is their longest piece from 0 on.
        (b"Q", "Q 0 3 0\nP 0 3 0\nP 3 1 0\nP 4 1 0")]),
]
