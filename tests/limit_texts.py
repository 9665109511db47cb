"""Texts written out by hand from request L6 (02): lines of the call program,
among them those that set kind and d or m and g, beside the replies that it and
its readings settle. No program made any of them; where a reply is not plain to
see, a comment says how it comes about. Long runs of like lines follow the rule
that stands beside them."""

from place_texts import SAME_LETTER, not_understood

# How L6 is read, numbered in the order of its readings: 1 kind 1 with d not 0,
# 2 what either call tests, 4 what is kept, 5 what the history holds, 6 lines
# that are not understood; 3, on refusal 24, shows in no line. `K kind d` and
# `M m g` both say kind, m, g, d and standing.

SAID_BACK_READINGS = [
    ("the lines of the readings", [
        (b"O 1 2 2 0 I TACCATG", "O 7 0"),
        (b"K 2 1", "K 2 2 2 1 1"),
        (b"M 3 0", "M 2 3 0 1 2"),
        (b"B", "B M 2 2 2 1 1"),
        (b"B", "B K 1 2 2 0 0"),
        (b"A", "A K 2 2 2 1 1"),
        (b"K 1 1", "! 5"),
        (b"K 3 16", "! 4"),
        (b"M 0 1", "! 5"),
        (b"A", "A M 2 3 0 1 2"),
        (b"A", "! 9")]),
    # No two of the four limits are equal, but once at the upper bounds.
    ("4: each sets its two, keeps the other two and says all four", [
        (b"O 1 3 5 0 I ACGT", "O 4 0"),
        (b"K 2 7", "K 2 3 5 7 1"),
        (b"M 11 13", "M 2 11 13 7 2"),
        (b"K 2 6", "K 2 11 13 6 3"),
        (b"M 4 3", "M 2 4 3 6 4"),
        (b"K 1 0", "K 1 4 3 0 5"),
        (b"M 1000 15", "M 1 1000 15 0 6"),
        (b"K 2 15", "K 2 1000 15 15 7"),
        (b"M 1 0", "M 2 1 0 15 8"),
        (b"B", "B M 2 1000 15 15 7"),
        (b"B", "B K 1 1000 15 0 6"),
        (b"B", "B M 1 4 3 0 5"),
        (b"B", "B K 2 4 3 6 4"),
        (b"B", "B M 2 11 13 6 3"),
        (b"B", "B K 2 11 13 7 2"),
        (b"B", "B M 2 3 5 7 1"),
        (b"B", "B K 1 3 5 0 0"),
        (b"B", "! 8"),
        (b"A", "A K 2 3 5 7 1"),
        (b"A", "A M 2 11 13 7 2"),
        (b"A", "A K 2 11 13 6 3"),
        (b"A", "A M 2 4 3 6 4"),
        (b"A", "A K 1 4 3 0 5"),
        (b"A", "A M 1 1000 15 0 6"),
        (b"A", "A K 2 1000 15 15 7"),
        (b"A", "A M 2 1 0 15 8"),
        (b"A", "! 9")]),
    ("4: two of a sort, and another after take-back", [
        (b"O 2 5 6 7 C A", "O 1 0"),
        (b"K 2 1", "K 2 5 6 1 1"),
        (b"K 2 2", "K 2 5 6 2 2"),
        (b"M 8 9", "M 2 8 9 2 3"),
        (b"M 10 11", "M 2 10 11 2 4"),
        (b"B", "B M 2 8 9 2 3"),
        (b"B", "B M 2 5 6 2 2"),
        (b"B", "B K 2 5 6 1 1"),
        (b"M 3 4", "M 2 3 4 1 2"),
        (b"A", "! 9"),
        (b"B", "B M 2 5 6 1 1"),
        (b"B", "B K 2 5 6 7 0"),
        (b"B", "! 8"),
        (b"A", "A K 2 5 6 1 1"),
        (b"A", "A M 2 3 4 1 2"),
        (b"A", "! 9")]),
    ("4: a K taken back, an M made, a K made", [
        (b"O 1 2 3 0 I TACCATG", "O 7 0"),
        (b"K 2 4", "K 2 2 3 4 1"),
        (b"B", "B K 1 2 3 0 0"),
        (b"M 5 6", "M 1 5 6 0 1"),
        (b"A", "! 9"),
        (b"K 2 7", "K 2 5 6 7 2"),
        (b"B", "B K 1 5 6 0 1"),
        (b"A", "A K 2 5 6 7 2"),
        (b"B", "B K 1 5 6 0 1"),
        (b"B", "B M 1 2 3 0 0"),
        (b"A", "A M 1 5 6 0 1"),
        (b"A", "A K 2 5 6 7 2"),
        (b"A", "! 9")]),
    # ABA, ABAB, BBAB, BBA. In BBAB kind 1 takes BB first, and then A and B.
    ("4: between letters changed, put in and taken out", [
        (b"O 1 2 1 0 I ABA", "O 3 0"),
        (b"Q", "Q 0 1 0\nP 0 3 0"),
        (b"K 2 1", "K 2 2 1 1 1"),
        (b"I 3 66", "I 3 66 4 2"),
        (b"M 1 0", "M 2 1 0 1 3"),
        (b"L 0 66", "L 0 65 66 4"),
        (b"K 1 0", "K 1 1 0 0 5"),
        (b"Q", "Q 0 3 0\nP 0 2 0\nP 2 1 0\nP 3 1 0"),
        (b"X 3", "X 3 66 3 6"),
        (b"M 3 15", "M 1 3 15 0 7"),
        (b"Q", "Q 3 1 1\nG 0 3 0"),
        (b"B", "B M 1 1 0 0 6"),
        (b"B", "B I 3 66 4 5"),
        (b"Q", "Q 0 3 0\nP 0 2 0\nP 2 1 0\nP 3 1 0"),
        (b"B", "B K 2 1 0 1 4"),
        (b"B", "B L 0 66 65 3"),
        (b"B", "B M 2 2 1 1 2"),
        (b"B", "B X 3 66 3 1"),
        (b"B", "B K 1 2 1 0 0"),
        (b"B", "! 8"),
        (b"Q", "Q 0 1 0\nP 0 3 0"),
        (b"A", "A K 2 2 1 1 1"),
        (b"A", "A I 3 66 4 2"),
        (b"A", "A M 2 1 0 1 3"),
        (b"A", "A L 0 65 66 4"),
        (b"A", "A K 1 1 0 0 5"),
        (b"A", "A X 3 66 3 6"),
        (b"A", "A M 1 3 15 0 7"),
        (b"A", "! 9"),
        (b"Q", "Q 3 1 1\nG 0 3 0")]),
    ("4: a refused opening leaves all four, an accepted one sets all four", [
        (b"O 1 2 3 0 I ACA", "O 3 0"),
        (b"K 2 4", "K 2 2 3 4 1"),
        (b"M 5 6", "M 2 5 6 4 2"),
        (b"B", "B M 2 2 3 4 1"),
        (b"O 3 1 0 0 I A", "! 4"), (b"O 1 1 0 1 I A", "! 5"),
        (b"O 2 1 16 0 I A", "! 5"),
        (b"A", "A M 2 5 6 4 2"),
        (b"K 2 8", "K 2 5 6 8 3"),
        (b"M 7 9", "M 2 7 9 8 4"),
        (b"O 1 10 11 0 I ACA", "O 3 0"),
        (b"B", "! 8"), (b"A", "! 9"),
        (b"K 2 12", "K 2 10 11 12 1"),
        (b"O 2 13 14 15 I ACA", "O 3 0"),
        (b"M 1 2", "M 2 1 2 15 1"),
        (b"K 1 0", "K 1 1 2 0 2")]),
]

FROM_KIND_TO_KIND_READINGS = [
    # In abaca kind 1 has aba, c and a; kind 2 with three errors has the whole
    # string, whose b and c are one error.
    ("1: from kind 2 with d 3 to kind 1 in one call", [
        (b"O 2 1 0 3 I abaca", "O 5 0"),
        (b"Q", "Q 0 1 0\nP 0 5 1"),
        (b"K 1 3", "! 5"), (b"K 1 1", "! 5"), (b"K 1 15", "! 5"),
        (b"Q", "Q 0 1 0\nP 0 5 1"),
        (b"B", "! 8"),
        (b"K 1 0", "K 1 1 0 0 1"),
        (b"Q", "Q 0 3 0\nP 0 3 0\nP 3 1 0\nP 4 1 0"),
        (b"K 1 3", "! 5"),
        (b"B", "B K 2 1 0 3 0"),
        (b"Q", "Q 0 1 0\nP 0 5 1"),
        (b"K 1 3", "! 5"),
        (b"A", "A K 1 1 0 0 1"),
        (b"Q", "Q 0 3 0\nP 0 3 0\nP 3 1 0\nP 4 1 0")]),
    ("1: from kind 1 to kind 2 and on, with and without errors", [
        (b"O 1 2 3 0 I AC", "O 2 0"),
        (b"K 2 0", "K 2 2 3 0 1"),
        (b"K 2 15", "K 2 2 3 15 2"),
        (b"K 2 0", "K 2 2 3 0 3"),
        (b"K 1 0", "K 1 2 3 0 4"),
        (b"K 2 15", "K 2 2 3 15 5"),
        (b"K 1 0", "K 1 2 3 0 6"),
        (b"B", "B K 2 2 3 15 5"),
        (b"B", "B K 1 2 3 0 4"),
        (b"B", "B K 2 2 3 0 3"),
        (b"B", "B K 2 2 3 15 2"),
        (b"B", "B K 2 2 3 0 1"),
        (b"B", "B K 1 2 3 0 0"),
        (b"B", "! 8"),
        (b"A", "A K 2 2 3 0 1"),
        (b"A", "A K 2 2 3 15 2")]),
    ("1: M gives neither 4 nor 5 for the kind and the d that are there", [
        (b"O 2 1 0 15 I AC", "O 2 0"),
        (b"M 1000 15", "M 2 1000 15 15 1"),
        (b"M 1 0", "M 2 1 0 15 2"),
        (b"K 1 0", "K 1 1 0 0 3"),
        (b"M 1000 15", "M 1 1000 15 0 4"),
        (b"M 1 0", "M 1 1 0 0 5"),
        (b"K 2 0", "K 2 1 0 0 6"),
        (b"M 2 1", "M 2 2 1 0 7")]),
]

# Every d with kind 2, and every g: change k sets k - 1.
EVERY_D = [(b"K 2 %d" % d, "K 2 1 0 %d %d" % (d, d + 1)) for d in range(16)]
EVERY_G = [(b"M 1 %d" % g, "M 1 1 %d 0 %d" % (g, g + 1)) for g in range(16)]

OPENED = (b"O 1 1 0 0 I A", "O 1 0")

BOUND_READINGS = [
    # 257, 258, 513 and 514 are 1 and 2 and 256 or 512 more.
    ("2: K, 4, and before 5", [
        OPENED,
        (b"K 0 0", "! 4"), (b"K 3 0", "! 4"), (b"K 4 0", "! 4"),
        (b"K 10 0", "! 4"), (b"K 255 0", "! 4"), (b"K 256 0", "! 4"),
        (b"K 257 0", "! 4"), (b"K 258 0", "! 4"), (b"K 513 0", "! 4"),
        (b"K 514 0", "! 4"), (b"K 999 0", "! 4"), (b"K 1000 0", "! 4"),
        (b"K 9999 0", "! 4"), (b"K 0 1", "! 4"), (b"K 0 16", "! 4"),
        (b"K 3 15", "! 4"), (b"K 3 16", "! 4"), (b"K 3 9999", "! 4"),
        (b"K 257 1", "! 4"), (b"K 257 16", "! 4"), (b"K 9999 9999", "! 4"),
        (b"B", "! 8"),
        (b"K 2 0", "K 2 1 0 0 1")]),
    ("2: K, 5 with kind 1", [
        OPENED,
        (b"K 1 1", "! 5"), (b"K 1 2", "! 5"), (b"K 1 14", "! 5"),
        (b"K 1 15", "! 5"), (b"K 1 16", "! 5"), (b"K 1 255", "! 5"),
        (b"K 1 256", "! 5"), (b"K 1 512", "! 5"), (b"K 1 9999", "! 5"),
        (b"B", "! 8"),
        (b"K 1 0", "K 1 1 0 0 1")]),
    # 256, 271 and 272 are 0, 15 and 16 and 256 more.
    ("2: K, 5 with kind 2", [
        OPENED,
        (b"K 2 16", "! 5"), (b"K 2 17", "! 5"), (b"K 2 31", "! 5"),
        (b"K 2 32", "! 5"), (b"K 2 99", "! 5"), (b"K 2 255", "! 5"),
        (b"K 2 256", "! 5"), (b"K 2 257", "! 5"), (b"K 2 271", "! 5"),
        (b"K 2 272", "! 5"), (b"K 2 1000", "! 5"), (b"K 2 9999", "! 5"),
        (b"B", "! 8"),
        (b"K 2 15", "K 2 1 0 15 1"),
        (b"K 2 16", "! 5"), (b"K 1 15", "! 5"), (b"K 1 1", "! 5")]),
    ("2: M, 5 for m", [
        OPENED,
        (b"M 0 0", "! 5"), (b"M 0 1", "! 5"), (b"M 0 15", "! 5"),
        (b"M 0 16", "! 5"), (b"M 1001 0", "! 5"), (b"M 1001 15", "! 5"),
        (b"M 1002 0", "! 5"), (b"M 1024 0", "! 5"), (b"M 1025 0", "! 5"),
        (b"M 1256 0", "! 5"), (b"M 2000 0", "! 5"), (b"M 9999 0", "! 5"),
        (b"M 9999 9999", "! 5"),
        (b"B", "! 8"),
        (b"M 1 0", "M 1 1 0 0 1")]),
    ("2: M, 5 for g", [
        OPENED,
        (b"M 1 16", "! 5"), (b"M 1 17", "! 5"), (b"M 1 31", "! 5"),
        (b"M 1 32", "! 5"), (b"M 1 255", "! 5"), (b"M 1 256", "! 5"),
        (b"M 1 257", "! 5"), (b"M 1 271", "! 5"), (b"M 1 272", "! 5"),
        (b"M 1 1000", "! 5"), (b"M 1 9999", "! 5"), (b"M 1000 16", "! 5"),
        (b"B", "! 8"),
        (b"M 1 15", "M 1 1 15 0 1")]),
    # m is from 1 to 1,000 whatever n is, and doesn't fit a byte.
    ("2: M, what is right", [
        OPENED,
        (b"M 1000 15", "M 1 1000 15 0 1"),
        (b"M 1000 0", "M 1 1000 0 0 2"),
        (b"M 1 15", "M 1 1 15 0 3"),
        (b"M 1 0", "M 1 1 0 0 4"),
        (b"M 16 14", "M 1 16 14 0 5"),
        (b"M 255 0", "M 1 255 0 0 6"),
        (b"M 256 1", "M 1 256 1 0 7"),
        (b"M 257 2", "M 1 257 2 0 8"),
        (b"M 512 3", "M 1 512 3 0 9"),
        (b"M 999 15", "M 1 999 15 0 10"),
        (b"B", "B M 1 512 3 0 9"),
        (b"B", "B M 1 257 2 0 8"),
        (b"B", "B M 1 256 1 0 7"),
        (b"A", "A M 1 257 2 0 8")]),
    ("2: every d", [OPENED] + EVERY_D + [
        (b"K 2 16", "! 5"),
        (b"B", "B K 2 1 0 14 15"),
        (b"K 1 0", "K 1 1 0 0 16")]),
    ("2: every g", [OPENED] + EVERY_G + [
        (b"M 1 16", "! 5"),
        (b"B", "B M 1 1 14 0 15"),
        (b"M 1000 0", "M 1 1000 0 0 16")]),
    ("2: neither tests what the other names", [
        (b"O 2 1000 15 15 I A", "O 1 0"),
        (b"K 1 0", "K 1 1000 15 0 1"),
        (b"K 2 15", "K 2 1000 15 15 2"),
        (b"M 1 0", "M 2 1 0 15 3"),
        (b"M 1000 15", "M 2 1000 15 15 4"),
        (b"K 1 15", "! 5"), (b"M 1000 16", "! 5"), (b"M 0 15", "! 5"),
        (b"K 3 15", "! 4")]),
]

# Answers that tell the limits apart.
WHOLE_ABACA = "Q 0 1 0\nP 0 5 1"
ABA_C_A = "Q 0 3 0\nP 0 3 0\nP 3 1 0\nP 4 1 0"
ABA_AND_GAP = "Q 2 2 1\nP 0 3 0\nG 3 2 0"
ONE_GAP_OF_5 = "Q 5 1 1\nG 0 5 0"
TACCAT_AND_GAP = "Q 1 2 1\nP 0 6 0\nG 6 1 0"
TAC_CA_TG = "Q 0 3 0\nP 0 3 1\nP 3 2 1\nP 5 2 1"

QUESTION_READINGS = [
    # With one error TAC, CA and TG are maximal. With m 3 the pieces have three
    # letters or six, exact ones four or six, which don't add up to seven.
    ("4: TACCATG", [
        (b"O 1 2 2 0 I TACCATG", "O 7 0"),
        (b"Q", TACCAT_AND_GAP),
        (b"K 2 1", "K 2 2 2 1 1"),
        (b"Q", TAC_CA_TG),
        (b"M 3 0", "M 2 3 0 1 2"),
        (b"Q", "! 10"),
        (b"B", "B M 2 2 2 1 1"),
        (b"Q", TAC_CA_TG),
        (b"B", "B K 1 2 2 0 0"),
        (b"Q", TACCAT_AND_GAP),
        (b"M 3 0", "M 1 3 0 0 1"),
        (b"Q", "! 10"),
        (b"K 2 1", "K 2 3 0 1 2"),
        (b"Q", "! 10"),
        (b"M 2 0", "M 2 2 0 1 3"),
        (b"Q", TAC_CA_TG),
        (b"B", "B M 2 3 0 1 2"),
        (b"Q", "! 10"),
        (b"A", "A M 2 2 0 1 3"),
        (b"Q", TAC_CA_TG)]),
    # With m 5 the whole string is a piece, of one error; with m 6 nothing is.
    ("4: abaca by all four", [
        (b"O 2 1 0 0 I abaca", "O 5 0"),
        (b"Q", "! 10"),
        (b"K 2 1", "K 2 1 0 1 1"),
        (b"Q", WHOLE_ABACA),
        (b"K 1 0", "K 1 1 0 0 2"),
        (b"Q", ABA_C_A),
        (b"M 2 1", "M 1 2 1 0 3"),
        (b"Q", ABA_AND_GAP),
        (b"M 2 0", "M 1 2 0 0 4"),
        (b"Q", "! 10"),
        (b"M 6 1", "M 1 6 1 0 5"),
        (b"Q", ONE_GAP_OF_5),
        (b"K 2 1", "K 2 6 1 1 6"),
        (b"Q", ONE_GAP_OF_5),
        (b"M 5 0", "M 2 5 0 1 7"),
        (b"Q", WHOLE_ABACA),
        (b"K 2 0", "K 2 5 0 0 8"),
        (b"Q", "! 10"),
        (b"B", "B K 2 5 0 1 7"),
        (b"Q", WHOLE_ABACA),
        (b"B", "B M 2 6 1 1 6"),
        (b"Q", ONE_GAP_OF_5),
        (b"B", "B K 1 6 1 0 5"),
        (b"Q", ONE_GAP_OF_5),
        (b"B", "B M 1 2 0 0 4"),
        (b"Q", "! 10"),
        (b"B", "B M 1 2 1 0 3"),
        (b"Q", ABA_AND_GAP),
        (b"B", "B M 1 1 0 0 2"),
        (b"Q", ABA_C_A),
        (b"B", "B K 2 1 0 1 1"),
        (b"Q", WHOLE_ABACA),
        (b"B", "B K 2 1 0 0 0"),
        (b"Q", "! 10"),
        (b"A", "A K 2 1 0 1 1"),
        (b"A", "A K 1 1 0 0 2"),
        (b"Q", ABA_C_A),
        (b"A", "A M 1 2 1 0 3"),
        (b"Q", ABA_AND_GAP)]),
    # With two errors the whole string is a piece; exact are G, TAT, C and G.
    ("4: GTATCG by m, d and kind", [
        (b"O 2 2 0 1 I GTATCG", "O 6 0"),
        (b"Q", "Q 0 2 0\nP 0 3 1\nP 3 3 1"),
        (b"M 1 0", "M 2 1 0 1 1"),
        (b"Q", "Q 0 2 0\nP 0 5 1\nP 5 1 0"),
        (b"K 2 2", "K 2 1 0 2 2"),
        (b"Q", "Q 0 1 0\nP 0 6 2"),
        (b"K 1 0", "K 1 1 0 0 3"),
        (b"Q", "Q 0 4 0\nP 0 1 0\nP 1 3 0\nP 4 1 0\nP 5 1 0"),
        (b"B", "B K 2 1 0 2 2"),
        (b"Q", "Q 0 1 0\nP 0 6 2"),
        (b"B", "B K 2 1 0 1 1"),
        (b"Q", "Q 0 2 0\nP 0 5 1\nP 5 1 0"),
        (b"B", "B M 2 2 0 1 0"),
        (b"Q", "Q 0 2 0\nP 0 3 1\nP 3 3 1")]),
    # Exact are AA, ACA and CAC.
    ("4: AACAC by g and m", [
        (b"O 1 3 2 0 I AACAC", "O 5 0"),
        (b"Q", "Q 2 3 2\nG 0 1 0\nP 1 3 0\nG 4 1 0"),
        (b"M 3 1", "M 1 3 1 0 1"),
        (b"Q", "Q 2 2 1\nG 0 2 0\nP 2 3 0"),
        (b"M 3 0", "M 1 3 0 0 2"),
        (b"Q", "! 10"),
        (b"M 2 0", "M 1 2 0 0 3"),
        (b"Q", "Q 0 2 0\nP 0 2 0\nP 2 3 0"),
        (b"M 4 1", "M 1 4 1 0 4"),
        (b"Q", ONE_GAP_OF_5)]),
    ("4: A under the complement", [
        (b"O 2 1 0 0 C A", "O 1 0"),
        (b"Q", "! 10"),
        (b"K 2 1", "K 2 1 0 1 1"),
        (b"Q", "Q 0 1 0\nP 0 1 1"),
        (b"K 1 0", "K 1 1 0 0 2"),
        (b"Q", "! 10"),
        (b"M 1 1", "M 1 1 1 0 3"),
        (b"Q", "Q 1 1 1\nG 0 1 0"),
        (b"B", "B M 1 1 0 0 2"),
        (b"Q", "! 10"),
        (b"B", "B K 2 1 0 1 1"),
        (b"Q", "Q 0 1 0\nP 0 1 1")]),
    ("4: no letters", [
        (b"O 1 1 0 0 I ", "O 0 0"),
        (b"K 2 15", "K 2 1 0 15 1"),
        (b"Q", "Q 0 0 0"),
        (b"M 1000 15", "M 2 1000 15 15 2"),
        (b"Q", "Q 0 0 0"),
        (b"B", "B M 2 1 0 15 1"),
        (b"B", "B K 1 1 0 0 0"),
        (b"Q", "Q 0 0 0")]),
    # The C at 0 and the A at 999 are one error of the whole.
    ("4: 1,000 letters", [
        (b"O 1 1000 0 0 I " + b"A" * 1000, "O 1000 0"),
        (b"Q", "Q 0 1 0\nP 0 1000 0"),
        (b"K 2 15", "K 2 1000 0 15 1"),
        (b"Q", "Q 0 1 0\nP 0 1000 0"),
        (b"L 0 67", "L 0 65 67 2"),
        (b"Q", "Q 0 1 0\nP 0 1000 1"),
        (b"K 2 0", "K 2 1000 0 0 3"),
        (b"Q", "! 10"),
        (b"M 1000 15", "M 2 1000 15 0 4"),
        (b"Q", "Q 1000 1 1\nG 0 1000 0"),
        (b"M 1 0", "M 2 1 0 0 5"),
        (b"Q", "Q 0 2 0\nP 0 1 0\nP 1 999 0"),
        (b"B", "B M 2 1000 15 0 4"),
        (b"B", "B M 2 1000 0 0 3"),
        (b"B", "B K 2 1000 0 15 2"),
        (b"Q", "Q 0 1 0\nP 0 1000 1")]),
]

# On kind 1, m 2, g 3: to kind 2 with d 4 with each odd change, and back with
# each even one. Taken back, change k leaves k - 1, and what that change set.
TO_AND_FRO = [(b"K 2 4", "K 2 2 3 4"), (b"K 1 0", "K 1 2 3 0")]
KINDS_TO_64 = [(line, "%s %d" % (reply, 2 * k + which + 1))
               for k in range(32)
               for which, (line, reply) in enumerate(TO_AND_FRO)]
KINDS_BACK = [(b"B", "B K %s %d" % ("1 2 3 0" if k % 2 == 0 else "2 2 3 4", k))
              for k in range(63, -1, -1)]
KINDS_AGAIN = [(b"A", "A " + reply) for _, reply in KINDS_TO_64]

# On kind 2 with m 1, g 0 and d 0. Pair k of changes, from 0 to 31: K sets d
# to 15 - k, then M sets m to k + 2 and g to k + 1, with d and g modulo 16. So
# before the pair d is 16 - k, m is k + 1 and g is k.
BOTH_TO_64 = [pair for k in range(32) for pair in (
    (b"K 2 %d" % ((15 - k) % 16),
     "K 2 %d %d %d %d" % (k + 1, k % 16, (15 - k) % 16, 2 * k + 1)),
    (b"M %d %d" % (k + 2, (k + 1) % 16),
     "M 2 %d %d %d %d" % (k + 2, (k + 1) % 16, (15 - k) % 16, 2 * k + 2)))]
BOTH_BACK = [pair for k in range(31, -1, -1) for pair in (
    (b"B", "B M 2 %d %d %d %d" % (k + 1, k % 16, (15 - k) % 16, 2 * k + 1)),
    (b"B", "B K 2 %d %d %d %d" % (k + 1, k % 16, (16 - k) % 16, 2 * k)))]
BOTH_AGAIN = [(b"A", "A " + reply) for _, reply in BOTH_TO_64]

REFUSED_LIMITS = [
    (b"K 3 0", "! 4"), (b"K 0 0", "! 4"), (b"K 3 16", "! 4"),
    (b"K 9999 9999", "! 4"), (b"K 1 1", "! 5"), (b"K 1 16", "! 5"),
    (b"K 2 16", "! 5"), (b"K 2 256", "! 5"), (b"M 0 0", "! 5"),
    (b"M 1001 0", "! 5"), (b"M 1 16", "! 5"), (b"M 0 16", "! 5"),
    (b"M 9999 9999", "! 5")]
FULL = [(b"K 1 0", "! 7"), (b"K 2 0", "! 7"), (b"K 2 15", "! 7"),
        (b"M 1 0", "! 7"), (b"M 2 2", "! 7"), (b"M 1000 15", "! 7")]

CHANGE_READINGS = [
    ("5: limits that are there already count as a change", [
        (b"O 2 3 4 5 I A", "O 1 0"),
        (b"K 2 5", "K 2 3 4 5 1"),
        (b"M 3 4", "M 2 3 4 5 2"),
        (b"M 3 4", "M 2 3 4 5 3"),
        (b"K 2 5", "K 2 3 4 5 4"),
        (b"B", "B K 2 3 4 5 3"),
        (b"B", "B M 2 3 4 5 2"),
        (b"A", "A M 2 3 4 5 3"),
        (b"B", "B M 2 3 4 5 2"),
        (b"B", "B M 2 3 4 5 1"),
        (b"B", "B K 2 3 4 5 0"),
        (b"B", "! 8"),
        (b"A", "A K 2 3 4 5 1"),
        (b"K 2 5", "K 2 3 4 5 2"),
        (b"A", "! 9")]),
    ("5: 64 changes, and 4 and 5 before 7",
        [OPENED] + SAME_LETTER + FULL + REFUSED_LIMITS
        + [(b"M 1 1 0 0", "! 13"), (b"K 1", "! 13"),
           (b"B", "B L 0 65 65 63"),
           (b"K 2 3", "K 2 1 0 3 64")] + FULL + REFUSED_LIMITS
        + [(b"B", "B K 1 1 0 0 63"),
           (b"M 2 2", "M 1 2 2 0 64")] + FULL + REFUSED_LIMITS
        + [(b"A", "! 9"),
           (b"B", "B M 1 1 0 0 63"),
           (b"K 3 0", "! 4"), (b"M 0 0", "! 5"),
           (b"A", "A M 1 2 2 0 64")] + FULL),
    ("5: each K is one change, the 65th is 7",
        [(b"O 1 2 3 0 I AC", "O 2 0")] + KINDS_TO_64 + FULL
        + [(b"L 0 65", "! 7"), (b"L 2 65", "! 6")] + KINDS_BACK
        + [(b"B", "! 8")] + KINDS_AGAIN + [(b"A", "! 9")] + FULL),
    ("5: K and M in turn are 64 changes, the 65th is 7",
        [(b"O 2 1 0 0 I AC", "O 2 0")] + BOTH_TO_64 + FULL + REFUSED_LIMITS
        + BOTH_BACK + [(b"B", "! 8")] + BOTH_AGAIN + [(b"A", "! 9")] + FULL),
    ("5: an accepted K or M empties the taken-back list", [
        (b"O 1 1 0 0 I AC", "O 2 0"),
        (b"L 0 67", "L 0 65 67 1"),
        (b"B", "B L 0 67 65 0"),
        (b"K 2 1", "K 2 1 0 1 1"),
        (b"A", "! 9"),
        (b"B", "B K 1 1 0 0 0"),
        (b"M 2 2", "M 1 2 2 0 1"),
        (b"A", "! 9"),
        (b"B", "B M 1 1 0 0 0"),
        (b"K 1 0", "K 1 1 0 0 1"),
        (b"A", "! 9"),
        (b"B", "B K 1 1 0 0 0"),
        (b"M 1 0", "M 1 1 0 0 1"),
        (b"A", "! 9"),
        (b"X 0", "X 0 65 1 2"),
        (b"B", "B I 0 65 2 1"),
        (b"K 2 0", "K 2 1 0 0 2"),
        (b"A", "! 9"),
        (b"I 2 65", "I 2 65 3 3"),
        (b"B", "B X 2 65 2 2"),
        (b"M 3 1", "M 2 3 1 0 3"),
        (b"A", "! 9"),
        (b"B", "B M 2 1 0 0 2"),
        (b"L 0 65", "L 0 65 65 3"),
        (b"A", "! 9")]),
]

# Wrong forms of K; M has the same fields, so its wrong forms are these with
# its letter.
WRONG_KINDS = [
    b"K", b"K ", b"K  ", b"K 1", b"K 2", b"K 1 ", b"K  1", b"K  0", b"K  1 0",
    b"K 1  0", b"K 1 0 ", b"K 1 0  ", b" K 1 0", b"K 1 0 0", b"K 1 0 1",
    b"K 2 2 0", b"K 1 2 2 0", b"K 1 1 0 0", b"K 1 2 2 0 1", b"K 01 0",
    b"K 00 0", b"K 0001 0", b"K 1 00", b"K 1 01", b"K 2 015", b"K 2 0000",
    b"K 1 10000", b"K 10000 0", b"K 00000 0", b"K 1 00000", b"K 65537 0",
    b"K 1 65536", b"K -1 0", b"K 1 -0", b"K 1 -1", b"K +1 0", b"K 1 +0",
    b"K x 0", b"K 1 x", b"K I 0", b"K 1 I", b"K 0x1 0", b"K 1 0x0",
    b"K 1.0 0", b"K 1,0", b"K 1, 0", b"K 1_0 0", b"K 1 0.", b"K\t1 0",
    b"K 1\t0", b"K 1 0\t", b"K 1 0\r", b"K 1 0\0", b"K \xb2 0", b"K 1 \xb9",
    b"k 1 0", b"KK 1 0", b"K1 0", b"K10", b"K 10", b"KM 1 0", b"MK 1 0",
    b"OK 1 0", b"KL 1 0", b"LK 1 0", b"K 1 0K 1 0", b"K 1 0 K 1 0",
    b"K 1 0" + b" " * 1035, b"K 1 0" + b" " * 1036, b"K 1 " + b"0" * 5000,
    b"K " + b"1" * 5000 + b" 0"]
WRONG_LENGTHS = [line.replace(b"K", b"M").replace(b"k", b"m")
                 for line in WRONG_KINDS]

# The former limits call, with kind, m, g and d: values that it took, values
# that it refused, and wrong forms of it.
OLD_LIMITS = [
    b"M 1 2 2 0", b"M 1 1 0 0", b"M 1 2 1 0", b"M 2 1 0 3", b"M 2 1 1 0",
    b"M 2 1000 15 15", b"M 1 1000 15 0", b"M 3 1 0 0", b"M 0 1 0 0",
    b"M 257 1 0 0", b"M 1 0 0 0", b"M 2 1001 0 0", b"M 2 1 16 0",
    b"M 2 1 0 16", b"M 1 1 0 1", b"M 9 0 99 99", b"M 9999 9999 9999 9999",
    b"M 1 2 2", b"M 1 2 2 0 0", b"M 1 2 2 0 ", b"M 1 2 2 00"]

# What is said back is no line.
REPLIES_AS_LINES = [
    b"K 2 2 2 1 1", b"M 2 3 0 1 2", b"B K 1 2 2 0 0", b"B M 2 2 2 1 1",
    b"A K 2 2 2 1 1", b"A M 2 3 0 1 2", b"B K", b"B M", b"A K", b"A M",
    b"B K 1 0", b"A M 1 0", b"BK", b"BM", b"KB", b"MB"]

# A K stands and an M is taken back, so that both lists show afterwards whether
# a line has touched them.
BOTH_LISTS = [
    (b"O 1 2 2 0 I TACCATG", "O 7 0"),
    (b"K 2 1", "K 2 2 2 1 1"),
    (b"M 3 0", "M 2 3 0 1 2"),
    (b"B", "B M 2 2 2 1 1")]
BOTH_LISTS_THERE = [
    (b"Q", TAC_CA_TG),
    (b"A", "A M 2 3 0 1 2"),
    (b"A", "! 9"),
    (b"Q", "! 10"),
    (b"B", "B M 2 2 2 1 1"),
    (b"B", "B K 1 2 2 0 0"),
    (b"B", "! 8"),
    (b"Q", TACCAT_AND_GAP)]

NO_SHEET = [
    (b"K 1 0", "! 14"), (b"K 2 15", "! 14"), (b"K 3 16", "! 14"),
    (b"K 1 1", "! 14"), (b"K 9999 9999", "! 14"), (b"M 1 0", "! 14"),
    (b"M 1000 15", "! 14"), (b"M 0 16", "! 14"), (b"M 9999 9999", "! 14"),
    (b"M 1 2 2 0", "! 13"), (b"K 1", "! 13"), (b"M 1", "! 13"),
    (b"K 1 00", "! 13"), (b"M 10000 0", "! 13"), (b"K 1 0 0", "! 13")]

FORM_READINGS = [
    ("5: a refused K or M leaves both lists",
        BOTH_LISTS + REFUSED_LIMITS + BOTH_LISTS_THERE),
    ("6: K and M lines that are not understood, no sheet open",
        not_understood(WRONG_KINDS + WRONG_LENGTHS + OLD_LIMITS
                       + REPLIES_AS_LINES)),
    ("6: K lines that are not understood, a sheet open",
        BOTH_LISTS + not_understood(WRONG_KINDS) + BOTH_LISTS_THERE),
    ("6: M lines that are not understood, a sheet open",
        BOTH_LISTS + not_understood(WRONG_LENGTHS) + BOTH_LISTS_THERE),
    ("6: the former limits call is not understood, a sheet open",
        BOTH_LISTS + not_understood(OLD_LIMITS) + BOTH_LISTS_THERE),
    ("6: what is said back is no line",
        BOTH_LISTS + not_understood(REPLIES_AS_LINES) + BOTH_LISTS_THERE),
    ("6: 13, then 14, then the call's own list",
        NO_SHEET + [(b"O 3 1 0 0 I AB", "! 4")]
        + NO_SHEET + [(b"O 1 1 0 0 I " + b"A" * 1001, "! 1")]
        + NO_SHEET + [(b"O 1 1 0 0 I", "! 13")]
        + NO_SHEET + [
            (b"O 1 1 0 0 I AB", "O 2 0"),
            (b"K 3 16", "! 4"), (b"K 1 1", "! 5"), (b"M 0 16", "! 5"),
            (b"K 3 016", "! 13"), (b"M 1 2 2 0", "! 13"),
            (b"K 2 15", "K 2 1 0 15 1"),
            (b"M 1000 15", "M 2 1000 15 15 2")]),
    ("6: K 9999 0 is 4, M 9999 0 is 5, and five digits are 13", [
        OPENED,
        (b"K 9999 0", "! 4"), (b"K 10000 0", "! 13"), (b"K 2 9999", "! 5"),
        (b"K 2 10000", "! 13"), (b"M 9999 0", "! 5"), (b"M 10000 0", "! 13"),
        (b"M 1 9999", "! 5"), (b"M 1 10000", "! 13"),
        (b"B", "! 8"), (b"A", "! 9")]),
    ("6: the same numbers behind other letters", [
        (b"O 2 9 8 7 I AC", "O 2 0"),
        (b"K 2 1", "K 2 9 8 1 1"),
        (b"M 2 1", "M 2 2 1 1 2"),
        (b"M 1 0", "M 2 1 0 1 3"),
        (b"K 1 0", "K 1 1 0 0 4"),
        (b"L 1 0", "L 1 67 0 5"),
        (b"I 1 0", "I 1 0 3 6"),
        (b"X 1", "X 1 0 2 7"),
        (b"B", "B I 1 0 3 6"),
        (b"B", "B X 1 0 2 5"),
        (b"B", "B L 1 0 67 4"),
        (b"B", "B K 2 1 0 1 3"),
        (b"B", "B M 2 2 1 1 2"),
        (b"B", "B M 2 9 8 1 1"),
        (b"B", "B K 2 9 8 7 0"),
        (b"B", "! 8")]),
]

LIMIT_READINGS = SAID_BACK_READINGS + FROM_KIND_TO_KIND_READINGS \
    + BOUND_READINGS + QUESTION_READINGS + CHANGE_READINGS + FORM_READINGS
