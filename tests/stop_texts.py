"""Texts written out by hand from request L3 (02): lines beside the replies
that it and its readings settle. No program made any of them; where a reply is
not plain to see, a comment says how it comes about."""

# How L3 is read, by the numbers of its readings. A reply is number, length,
# case, left and right: case 1 is the pair of places that blocks, 2 an end of
# the string, 3 a barred centre. The pairs of a centre are the places that add
# up to it. Partners: under C A with T, C with G, and every other byte with
# itself; under Y @ goes with A, B with C, b with c, and no byte with itself.

STOP_READINGS = [
    # The letters are G T A T C G at 0 to 5. Each pair is named as it comes,
    # from the inside outward.
    ("1: the pair that exceeds d, GTATCG with no error", [
        (b"D 0 I * 0 GTATCG", "D 0 1 2 0 0"),
        (b"D 0 I * 1 GTATCG", "D 0 0 1 0 1"),
        (b"D 0 I * 2 GTATCG", "D 0 1 1 0 2"),
        (b"D 0 I * 3 GTATCG", "D 0 0 1 1 2"),
        # T and T fit, G and C don't.
        (b"D 0 I * 4 GTATCG", "D 0 3 1 0 4"),
        (b"D 0 I * 5 GTATCG", "D 0 0 1 2 3"),
        (b"D 0 I * 6 GTATCG", "D 0 1 1 2 4"),
        (b"D 0 I * 7 GTATCG", "D 0 0 1 3 4"),
        (b"D 0 I * 8 GTATCG", "D 0 1 1 3 5"),
        (b"D 0 I * 9 GTATCG", "D 0 0 1 4 5"),
        (b"D 0 I * 10 GTATCG", "D 0 1 2 0 0"),
        (b"D 0 I * 11 GTATCG", "D 6 0 0 0 0")]),
    ("1: the pair that exceeds d, GTATCG with one error and two", [
        (b"D 1 I * 0 GTATCG", "D 0 1 2 0 0"),
        (b"D 1 I * 1 GTATCG", "D 0 2 2 0 0"),
        (b"D 1 I * 2 GTATCG", "D 0 3 2 0 0"),
        # T and A are the one error, G and T the second: the inner pair differs
        # and doesn't block.
        (b"D 1 I * 3 GTATCG", "D 0 2 1 0 3"),
        (b"D 1 I * 4 GTATCG", "D 0 5 2 0 0"),
        # A and T, then T and C.
        (b"D 1 I * 5 GTATCG", "D 0 2 1 1 4"),
        # A and C, then T and G.
        (b"D 1 I * 6 GTATCG", "D 0 3 1 1 5"),
        # T and C, then A and G.
        (b"D 1 I * 7 GTATCG", "D 0 2 1 2 5"),
        (b"D 1 I * 8 GTATCG", "D 0 3 2 0 0"),
        (b"D 1 I * 9 GTATCG", "D 0 2 2 0 0"),
        (b"D 1 I * 10 GTATCG", "D 0 1 2 0 0"),
        (b"D 1 I * 11 GTATCG", "D 6 0 0 0 0"),
        (b"D 2 I * 3 GTATCG", "D 0 4 2 0 0"),
        # Behind the two errors G and G fit: the whole string.
        (b"D 2 I * 5 GTATCG", "D 0 6 2 0 0"),
        (b"D 2 I * 6 GTATCG", "D 0 5 2 0 0"),
        (b"D 2 I * 7 GTATCG", "D 0 4 2 0 0")]),
    # Centre 9: dd fits, c and e at 3 and 6 don't, bb and aa fit, q and r at 0
    # and 9 don't.
    ("1 and 2: the second wrong pair, and the last one inside", [
        (b"D 0 I * 9 qabcddebar", "D 0 2 1 3 6"),
        (b"D 1 I * 9 qabcddebar", "D 0 8 1 0 9"),
        (b"D 2 I * 9 qabcddebar", "D 0 10 2 0 0"),
        (b"D 15 I * 9 qabcddebar", "D 0 10 2 0 0")]),
    # Small and capital letters are no partners: all six pairs are wrong, and
    # with d of them allowed the next one outward blocks.
    ("1: every pair is wrong", [
        (b"D 0 I * 11 abcdefFEDCBA", "D 0 0 1 5 6"),
        (b"D 1 I * 11 abcdefFEDCBA", "D 0 2 1 4 7"),
        (b"D 2 I * 11 abcdefFEDCBA", "D 0 4 1 3 8"),
        (b"D 3 I * 11 abcdefFEDCBA", "D 0 6 1 2 9"),
        (b"D 4 I * 11 abcdefFEDCBA", "D 0 8 1 1 10"),
        (b"D 5 I * 11 abcdefFEDCBA", "D 0 10 1 0 11"),
        (b"D 6 I * 11 abcdefFEDCBA", "D 0 12 2 0 0")]),
    # 16 wrong pairs: the sixteenth is 0 and 31. Around place 15 there are 15
    # of them, behind the middle letter.
    ("1 and 2: the largest d", [
        (b"D 15 I * 31 " + b"a" * 16 + b"b" * 16, "D 0 30 1 0 31"),
        (b"D 14 I * 31 " + b"a" * 16 + b"b" * 16, "D 0 28 1 1 30"),
        (b"D 15 I * 30 " + b"a" * 16 + b"b" * 16, "D 0 31 2 0 0"),
        (b"D 14 I * 30 " + b"a" * 16 + b"b" * 16, "D 0 29 1 0 30"),
        (b"D 15 I * 33 " + b"a" * 17 + b"b" * 17, "D 0 30 1 1 32"),
        (b"D 15 I * 29 " + b"a" * 15 + b"b" * 15, "D 0 30 2 0 0"),
        (b"D 14 I * 29 " + b"a" * 15 + b"b" * 15, "D 0 28 1 0 29"),
        (b"D 15 C D 31 " + b"A" * 16 + b"C" * 16, "D 0 30 1 0 31"),
        (b"D 15 C D 30 " + b"A" * 16 + b"C" * 16, "D 0 0 3 0 0"),
        # The middle letter is an error too: only 14 pairs pass.
        (b"D 15 C * 30 " + b"A" * 16 + b"C" * 16, "D 0 29 1 0 30")]),
    # GACATTCGAACGT, pairs of centre 13: C and G, T and A, T and A fit, A and C
    # at 3 and 10 don't, C and G, A and T fit, and 13 is no place.
    ("1 and 2: under the complement", [
        (b"D 0 C * 13 GACATTCGAACGT", "D 0 6 1 3 10"),
        (b"D 1 C * 13 GACATTCGAACGT", "D 0 12 2 0 0"),
        (b"D 0 C D 13 GACATTCGAACGT", "D 0 6 1 3 10"),
        (b"D 1 C D 13 GACATTCGAACGT", "D 0 12 2 0 0"),
        (b"D 0 C D 9 TAGTCGACTA", "D 0 10 2 0 0"),
        (b"D 0 C D 3 ACGT", "D 0 4 2 0 0"),
        (b"D 0 C D 1 ACGT", "D 0 0 1 0 1"),
        (b"D 1 C D 1 ACGT", "D 0 2 2 0 0"),
        (b"D 0 C D 5 ACGT", "D 0 0 1 2 3"),
        # C and T, then A and G.
        (b"D 0 C * 3 ACTG", "D 0 0 1 1 2"),
        (b"D 1 C * 3 ACTG", "D 0 2 1 0 3"),
        (b"D 2 C * 3 ACTG", "D 0 4 2 0 0"),
        # T and A fit, G and T don't; A and T fit, T and C, G and G don't.
        (b"D 0 C D 3 GTATCG", "D 0 2 1 0 3"),
        (b"D 1 C D 3 GTATCG", "D 0 4 2 0 0"),
        (b"D 0 C D 5 GTATCG", "D 0 2 1 1 4"),
        (b"D 1 C D 5 GTATCG", "D 0 4 1 0 5"),
        (b"D 0 C D 7 GTATCG", "D 0 0 1 3 4"),
        (b"D 1 C D 7 GTATCG", "D 0 2 1 2 5"),
        (b"D 0 C D 9 GTATCG", "D 0 2 2 0 0")]),
    ("1 and 2: no byte is its own partner, odd centres", [
        (b"D 0 Y * 1 @A", "D 0 2 2 0 0"), (b"D 0 Y * 1 A@", "D 0 2 2 0 0"),
        (b"D 0 Y * 1 AA", "D 0 0 1 0 1"), (b"D 1 Y * 1 AA", "D 0 2 2 0 0"),
        (b"D 0 Y * 3 AA@@", "D 0 4 2 0 0"),
        (b"D 0 Y * 3 AA@B", "D 0 2 1 0 3"),
        (b"D 1 Y * 3 AA@B", "D 0 4 2 0 0"),
        (b"D 0 Y * 1 abca", "D 0 0 1 0 1"),
        (b"D 0 Y * 3 abca", "D 0 2 1 0 3"),
        (b"D 0 Y * 5 abca", "D 0 0 1 2 3"),
        # b and c fit, a and d don't, x and y do.
        (b"D 0 Y * 5 xabcdy", "D 0 2 1 1 4"),
        (b"D 1 Y * 5 xabcdy", "D 0 6 2 0 0")]),
    ("2: an end at the left, at the right and at both", [
        (b"D 0 I * 0 AA", "D 0 1 2 0 0"), (b"D 0 I * 1 AA", "D 0 2 2 0 0"),
        (b"D 0 I * 2 AA", "D 0 1 2 0 0"), (b"D 0 I * 3 AA", "D 6 0 0 0 0"),
        (b"D 0 I * 1 AAB", "D 0 2 2 0 0"), (b"D 0 I * 3 BAA", "D 0 2 2 0 0"),
        (b"D 0 I * 2 AAA", "D 0 3 2 0 0"), (b"D 0 I * 2 AAAB", "D 0 3 2 0 0"),
        (b"D 0 I * 4 BAAA", "D 0 3 2 0 0"), (b"D 0 I * 3 AAAA", "D 0 4 2 0 0"),
        (b"D 0 I * 3 ABBAC", "D 0 4 2 0 0"),
        (b"D 0 I * 5 CABBA", "D 0 4 2 0 0"),
        (b"D 0 I * 5 CABBAD", "D 0 4 1 0 5"),
        (b"D 0 I * 5 CABBAC", "D 0 6 2 0 0")]),
    ("2: a last pair inside is no end", [
        (b"D 0 I * 1 AC", "D 0 0 1 0 1"), (b"D 1 I * 1 AC", "D 0 2 2 0 0"),
        (b"D 0 I * 2 AAC", "D 0 1 1 0 2"), (b"D 1 I * 2 AAC", "D 0 3 2 0 0"),
        (b"D 0 I * 2 CAA", "D 0 1 1 0 2"), (b"D 1 I * 2 CAA", "D 0 3 2 0 0"),
        # The pair has the first letter, or the last, and not both.
        (b"D 0 I * 2 CAAA", "D 0 1 1 0 2"), (b"D 0 I * 4 AAAC", "D 0 1 1 1 3"),
        (b"D 0 I * 1 ACAA", "D 0 0 1 0 1"),
        (b"D 0 I * 5 AACA", "D 0 0 1 2 3")]),
    ("3: a barred centre, at any d and with any letters", [
        (b"D 0 C D 0 ACT", "D 0 0 3 0 0"), (b"D 0 C D 2 ACT", "D 0 0 3 0 0"),
        (b"D 0 C D 4 ACT", "D 0 0 3 0 0"), (b"D 1 C D 0 ACT", "D 0 0 3 0 0"),
        (b"D 1 C D 2 ACT", "D 0 0 3 0 0"), (b"D 1 C D 4 ACT", "D 0 0 3 0 0"),
        (b"D 15 C D 2 ACT", "D 0 0 3 0 0"), (b"D 15 C D 2 AAA", "D 0 0 3 0 0"),
        (b"D 0 C D 4 AACTT", "D 0 0 3 0 0"),
        (b"D 15 C D 4 AACTT", "D 0 0 3 0 0"),
        (b"D 0 C D 2 ACGT", "D 0 0 3 0 0"), (b"D 0 C D 4 ACGT", "D 0 0 3 0 0"),
        (b"D 0 C D 6 ACGT", "D 0 0 3 0 0"),
        (b"D 0 Y * 0 A", "D 0 0 3 0 0"), (b"D 15 Y * 0 A", "D 0 0 3 0 0"),
        (b"D 0 Y * 0 @A", "D 0 0 3 0 0"), (b"D 15 Y * 2 @A", "D 0 0 3 0 0"),
        (b"D 15 Y * 2 @CA", "D 0 0 3 0 0"), (b"D 1 Y * 4 abca", "D 0 0 3 0 0"),
        (b"D 0 Y * 2 \x00\x80\x01", "D 0 0 3 0 0")]),
    # A and C, C and T are no partners.
    ("3: the odd centres beside barred ones", [
        (b"D 0 C D 1 ACT", "D 0 0 1 0 1"), (b"D 1 C D 1 ACT", "D 0 2 2 0 0"),
        (b"D 0 C D 3 ACT", "D 0 0 1 1 2"), (b"D 1 C D 3 ACT", "D 0 2 2 0 0"),
        (b"D 15 C D 1 ACT", "D 0 2 2 0 0"), (b"D 0 C D 5 ACT", "D 6 0 0 0 0"),
        (b"D 15 Y * 1 @CA", "D 0 2 2 0 0"),
        (b"D 0 Y * 3 @CA", "D 0 0 1 1 2")]),
    # N is its own partner in its alphabet, though no string here needs it; and
    # under I every letter is.
    ("3 and 4: the same centres where they are not barred", [
        (b"D 0 C N 2 ACT", "D 0 0 1 1 1"), (b"D 1 C N 2 ACT", "D 0 3 2 0 0"),
        (b"D 0 C * 2 ACT", "D 0 0 1 1 1"), (b"D 1 C * 2 ACT", "D 0 3 2 0 0"),
        (b"D 0 I D 2 ACT", "D 0 1 1 0 2"), (b"D 1 I D 2 ACT", "D 0 3 2 0 0"),
        (b"D 0 I O 2 ACA", "D 0 3 2 0 0"), (b"D 0 I O 2 ACG", "D 0 1 1 0 2"),
        (b"D 0 I N 2 ANA", "D 0 3 2 0 0"),
        # The middle letter is one error; then C and N, A and N are no pairs.
        (b"D 0 C N 6 ACTN", "D 0 1 2 0 0"), (b"D 0 C N 5 ACTN", "D 0 0 1 2 3"),
        (b"D 1 C N 5 ACTN", "D 0 2 2 0 0"), (b"D 0 C N 4 ACTN", "D 0 0 1 2 2"),
        (b"D 1 C N 4 ACTN", "D 0 1 1 1 3"),
        (b"D 1 C N 3 ACTN", "D 0 2 1 0 3")]),
    ("4: a middle letter over d is a pair with itself", [
        (b"D 0 C * 0 A", "D 0 0 1 0 0"), (b"D 0 C N 0 A", "D 0 0 1 0 0"),
        (b"D 1 C * 0 A", "D 0 1 2 0 0"), (b"D 1 C N 0 A", "D 0 1 2 0 0"),
        (b"D 0 C D 0 A", "D 0 0 3 0 0"), (b"D 0 I * 0 A", "D 0 1 2 0 0"),
        (b"D 0 C N 0 N", "D 0 1 2 0 0"), (b"D 0 C * 0 a", "D 0 1 2 0 0"),
        (b"D 0 C * 0 ACGT", "D 0 0 1 0 0"), (b"D 0 C * 2 ACGT", "D 0 0 1 1 1"),
        (b"D 0 C * 4 ACGT", "D 0 0 1 2 2"), (b"D 0 C * 6 ACGT", "D 0 0 1 3 3"),
        # With one error the middle passes; A and G, C and T are a second.
        (b"D 1 C * 0 ACGT", "D 0 1 2 0 0"), (b"D 1 C * 2 ACGT", "D 0 1 1 0 2"),
        (b"D 1 C * 4 ACGT", "D 0 1 1 1 3"), (b"D 1 C * 6 ACGT", "D 0 1 2 0 0"),
        (b"D 2 C * 2 ACGT", "D 0 3 2 0 0"),
        (b"D 0 C * 2 ANT", "D 0 3 2 0 0"), (b"D 0 C * 2 ANA", "D 0 1 1 0 2"),
        (b"D 0 C * 2 AAT", "D 0 0 1 1 1"), (b"D 1 C * 2 AAT", "D 0 3 2 0 0"),
        (b"D 1 C * 2 AAA", "D 0 1 1 0 2"), (b"D 2 C * 2 AAA", "D 0 3 2 0 0"),
        # Where the arms fit, the middle blocks all the same.
        (b"D 0 C * 6 AACTGTT", "D 0 0 1 3 3"),
        (b"D 0 C * 6 AACNGTT", "D 0 7 2 0 0")]),
]

# Each line has every fault behind the number too, as far as they meet, and
# then fewer of them.
STOP_REFUSALS = [
    ("5 and 6: 1 before 2, 3, 18, 19, 5 and 6", [
        (b"D 16 S S 9999 " + b"N" * 1001, "D 1 0 0 0 0"),
        (b"D 16 X S 9999 " + b"N" * 1001, "D 1 0 0 0 0"),
        (b"D 16 X O 9999 " + b"N" * 1001, "D 1 0 0 0 0"),
        (b"D 16 C S 9999 " + b"N" * 1001, "D 1 0 0 0 0"),
        (b"D 16 C O 9999 " + b"N" * 1001, "D 1 0 0 0 0"),
        (b"D 16 C D 9999 " + b"N" * 1001, "D 1 0 0 0 0"),
        (b"D 0 C D 0 " + b"N" * 1001, "D 1 0 0 0 0"),
        (b"D 16 I * 9999 " + b"A" * 1001, "D 1 0 0 0 0"),
        (b"D 16 I * 0 " + b"A" * 1001, "D 1 0 0 0 0"),
        # 1,001 letters would have the centres 0 to 2,000.
        (b"D 0 I * 2001 " + b"A" * 1001, "D 1 0 0 0 0"),
        (b"D 0 I * 2000 " + b"A" * 1001, "D 1 0 0 0 0"),
        (b"D 0 I * 0 " + b"A" * 1001, "D 1 0 0 0 0"),
        (b"D 0 C D 0 " + b"A" * 1001, "D 1 0 0 0 0")]),
    ("5 and 6: 2 before 18, 19, 5 and 6", [
        (b"D 16 S S 9999 N", "D 2 0 0 0 0"),
        (b"D 16 S O 9999 N", "D 2 0 0 0 0"),
        (b"D 16 S D 9999 N", "D 2 0 0 0 0"),
        (b"D 16 S E 9999 N", "D 2 0 0 0 0"),
        (b"D 16 S * 9999 N", "D 2 0 0 0 0"),
        (b"D 0 S D 0 N", "D 2 0 0 0 0"), (b"D 0 S S 0 A", "D 2 0 0 0 0"),
        (b"D 16 S * 0 A", "D 2 0 0 0 0"), (b"D 0 S * 1 A", "D 2 0 0 0 0"),
        (b"D 0 S * 0 A", "D 2 0 0 0 0"), (b"D 0 S * 0 ", "D 2 0 0 0 0")]),
    ("5 and 6: 3 before 18, 19, 5 and 6", [
        (b"D 16 X S 9999 N", "D 3 0 0 0 0"),
        (b"D 16 X O 9999 N", "D 3 0 0 0 0"),
        (b"D 16 X D 9999 N", "D 3 0 0 0 0"),
        (b"D 16 X E 9999 N", "D 3 0 0 0 0"),
        (b"D 16 X * 9999 N", "D 3 0 0 0 0"),
        (b"D 0 X E 0 N", "D 3 0 0 0 0"), (b"D 0 X S 0 A", "D 3 0 0 0 0"),
        (b"D 16 X * 0 A", "D 3 0 0 0 0"), (b"D 0 X * 1 A", "D 3 0 0 0 0"),
        (b"D 0 X * 0 A", "D 3 0 0 0 0"), (b"D 0 X * 0 ", "D 3 0 0 0 0")]),
    # O has A and no T; under Y D and N have A and no @.
    ("5 and 6: 18 before 19, 5 and 6", [
        (b"D 16 I S 9999 N", "D 18 0 0 0 0"),
        (b"D 16 C S 9999 N", "D 18 0 0 0 0"),
        (b"D 16 Y S 9999 N", "D 18 0 0 0 0"),
        (b"D 16 C O 9999 N", "D 18 0 0 0 0"),
        (b"D 16 C O 9999 T", "D 18 0 0 0 0"),
        (b"D 16 Y O 9999 N", "D 18 0 0 0 0"),
        (b"D 16 Y D 9999 N", "D 18 0 0 0 0"),
        (b"D 16 Y N 9999 @", "D 18 0 0 0 0"),
        (b"D 0 C O 0 T", "D 18 0 0 0 0"), (b"D 16 C O 0 A", "D 18 0 0 0 0"),
        (b"D 0 C O 1 A", "D 18 0 0 0 0"), (b"D 0 C O 0 A", "D 18 0 0 0 0"),
        (b"D 0 C O 0 ", "D 18 0 0 0 0"), (b"D 0 I S 0 A", "D 18 0 0 0 0"),
        (b"D 0 I S 0 ", "D 18 0 0 0 0"), (b"D 0 Y D 0 ", "D 18 0 0 0 0"),
        (b"D 0 I O 0 A", "D 0 1 2 0 0")]),
    ("5 and 6: 19 before 5 and 6, wherever the letter is", [
        (b"D 16 C D 9999 N", "D 19 0 0 0 0"),
        (b"D 16 C E 9999 A", "D 19 0 0 0 0"),
        (b"D 16 I O 9999 T", "D 19 0 0 0 0"),
        (b"D 16 Y E 9999 A", "D 19 0 0 0 0"),
        (b"D 16 C D 0 N", "D 19 0 0 0 0"), (b"D 0 C D 1 N", "D 19 0 0 0 0"),
        (b"D 0 C D 0 N", "D 19 0 0 0 0"), (b"D 0 C N 0 n", "D 19 0 0 0 0"),
        (b"D 0 I D 0 AN", "D 19 0 0 0 0"), (b"D 0 I D 2 NA", "D 19 0 0 0 0"),
        (b"D 0 C D 0 ACTN", "D 19 0 0 0 0"),
        (b"D 0 C D 2 ACTN", "D 19 0 0 0 0"),
        (b"D 0 C D 0 " + b"A" * 999 + b"N", "D 19 0 0 0 0"),
        (b"D 0 C D 1998 N" + b"A" * 999, "D 19 0 0 0 0"),
        (b"D 0 C D 1999 N" + b"A" * 999, "D 19 0 0 0 0")]),
    ("5 and 6: 5 before 6, also where the centre is barred", [
        (b"D 16 C D 9999 A", "D 5 0 0 0 0"), (b"D 16 C D 1 A", "D 5 0 0 0 0"),
        (b"D 16 C D 0 A", "D 5 0 0 0 0"), (b"D 16 Y * 0 A", "D 5 0 0 0 0"),
        (b"D 16 I * 1 A", "D 5 0 0 0 0"), (b"D 16 I * 0 A", "D 5 0 0 0 0"),
        (b"D 16 I * 9999 ", "D 5 0 0 0 0"), (b"D 16 I * 0 ", "D 5 0 0 0 0"),
        (b"D 16 C E 0 ", "D 5 0 0 0 0"), (b"D 9999 I E 0 ", "D 5 0 0 0 0"),
        # Cut to a byte, 256, 257 and 271 would be 0, 1 and 15.
        (b"D 255 I * 0 A", "D 5 0 0 0 0"), (b"D 256 I * 0 A", "D 5 0 0 0 0"),
        (b"D 257 I * 0 A", "D 5 0 0 0 0"), (b"D 271 I * 0 A", "D 5 0 0 0 0"),
        (b"D 9999 I * 0 A", "D 5 0 0 0 0"),
        (b"D 16 I * 1999 " + b"A" * 1000, "D 5 0 0 0 0"),
        (b"D 15 I * 0 A", "D 0 1 2 0 0")]),
    ("5 and 6: 6 for a centre past the last, barred or not", [
        (b"D 15 I * 1 A", "D 6 0 0 0 0"), (b"D 0 C D 1 A", "D 6 0 0 0 0"),
        (b"D 0 C D 2 A", "D 6 0 0 0 0"), (b"D 15 Y * 2 A", "D 6 0 0 0 0"),
        (b"D 0 I * 5 ACT", "D 6 0 0 0 0"), (b"D 0 I * 6 ACT", "D 6 0 0 0 0"),
        (b"D 0 C D 6 ACT", "D 6 0 0 0 0"),
        # Cut to a byte, 256 and 258 would be 0 and 2.
        (b"D 0 I * 256 ACT", "D 6 0 0 0 0"),
        (b"D 0 I * 258 ACT", "D 6 0 0 0 0"),
        (b"D 0 I * 9999 ACT", "D 6 0 0 0 0"),
        (b"D 0 I * 2 ACT", "D 0 1 1 0 2")]),
    ("6: no letters, every centre is 6", [
        (b"D 0 I * 0 ", "D 6 0 0 0 0"), (b"D 0 I * 1 ", "D 6 0 0 0 0"),
        (b"D 0 I * 9999 ", "D 6 0 0 0 0"), (b"D 15 C D 0 ", "D 6 0 0 0 0"),
        (b"D 15 C D 1 ", "D 6 0 0 0 0"), (b"D 15 C D 9999 ", "D 6 0 0 0 0"),
        (b"D 0 Y * 0 ", "D 6 0 0 0 0"), (b"D 0 Y * 1 ", "D 6 0 0 0 0"),
        (b"D 0 Y * 9999 ", "D 6 0 0 0 0"), (b"D 0 I E 0 ", "D 6 0 0 0 0"),
        (b"D 0 C E 1 ", "D 6 0 0 0 0"), (b"D 0 Y E 9999 ", "D 6 0 0 0 0")]),
    ("6: the last centre and the next one", [
        (b"D 0 I * 0 A", "D 0 1 2 0 0"), (b"D 0 I * 1 A", "D 6 0 0 0 0"),
        (b"D 0 C D 0 A", "D 0 0 3 0 0"), (b"D 0 C D 1 A", "D 6 0 0 0 0"),
        (b"D 0 C * 0 A", "D 0 0 1 0 0"), (b"D 0 C * 1 A", "D 6 0 0 0 0"),
        (b"D 0 I * 2 AC", "D 0 1 2 0 0"), (b"D 0 I * 3 AC", "D 6 0 0 0 0"),
        (b"D 0 C * 2 AC", "D 0 0 1 1 1"), (b"D 0 C * 3 AC", "D 6 0 0 0 0"),
        (b"D 0 I * 4 ACT", "D 0 1 2 0 0"), (b"D 0 I * 5 ACT", "D 6 0 0 0 0"),
        (b"D 0 C D 4 ACT", "D 0 0 3 0 0"), (b"D 0 C D 5 ACT", "D 6 0 0 0 0"),
        (b"D 0 I * 10 GTATCG", "D 0 1 2 0 0"),
        (b"D 0 I * 11 GTATCG", "D 6 0 0 0 0")]),
    # Places 499 and 500 are the middle.
    ("6: 1,000 letters", [
        (b"D 0 I * 0 " + b"A" * 1000, "D 0 1 2 0 0"),
        (b"D 0 I * 256 " + b"A" * 1000, "D 0 257 2 0 0"),
        (b"D 0 I * 511 " + b"A" * 1000, "D 0 512 2 0 0"),
        (b"D 0 I * 998 " + b"A" * 1000, "D 0 999 2 0 0"),
        (b"D 0 I * 999 " + b"A" * 1000, "D 0 1000 2 0 0"),
        (b"D 15 I * 999 " + b"A" * 1000, "D 0 1000 2 0 0"),
        (b"D 0 I * 1000 " + b"A" * 1000, "D 0 999 2 0 0"),
        # 249 letters on each side of place 750.
        (b"D 0 I * 1500 " + b"A" * 1000, "D 0 499 2 0 0"),
        (b"D 0 I * 1998 " + b"A" * 1000, "D 0 1 2 0 0"),
        (b"D 0 I * 1999 " + b"A" * 1000, "D 6 0 0 0 0"),
        (b"D 0 C * 0 " + b"A" * 1000, "D 0 0 1 0 0"),
        (b"D 0 C * 999 " + b"A" * 1000, "D 0 0 1 499 500"),
        (b"D 15 C * 999 " + b"A" * 1000, "D 0 30 1 484 515"),
        # The middle letter and 14 pairs pass.
        (b"D 15 C * 998 " + b"A" * 1000, "D 0 29 1 484 514"),
        (b"D 0 C * 1998 " + b"A" * 1000, "D 0 0 1 999 999"),
        (b"D 0 C * 1999 " + b"A" * 1000, "D 6 0 0 0 0"),
        (b"D 0 C D 0 " + b"A" * 1000, "D 0 0 3 0 0"),
        (b"D 0 C D 999 " + b"A" * 1000, "D 0 0 1 499 500"),
        (b"D 0 C D 1998 " + b"A" * 1000, "D 0 0 3 0 0"),
        (b"D 0 C D 1999 " + b"A" * 1000, "D 6 0 0 0 0")]),
    ("1, 2 and 4: 1,000 letters with a wrong one", [
        (b"D 0 C D 999 " + b"AT" * 500, "D 0 1000 2 0 0"),
        (b"D 0 C D 998 " + b"AT" * 500, "D 0 0 3 0 0"),
        # T at 499 is the middle, with A on both sides.
        (b"D 0 C * 998 " + b"AT" * 500, "D 0 0 1 499 499"),
        (b"D 1 C * 998 " + b"AT" * 500, "D 0 1 1 498 500"),
        (b"D 0 I * 999 C" + b"A" * 999, "D 0 998 1 0 999"),
        (b"D 1 I * 999 C" + b"A" * 999, "D 0 1000 2 0 0"),
        (b"D 0 I * 998 C" + b"A" * 999, "D 0 997 1 0 998"),
        (b"D 0 I * 1000 C" + b"A" * 999, "D 0 999 2 0 0"),
        (b"D 0 I * 999 " + b"A" * 999 + b"C", "D 0 998 1 0 999"),
        (b"D 0 I * 998 " + b"A" * 999 + b"C", "D 0 999 2 0 0"),
        (b"D 0 I * 1000 " + b"A" * 999 + b"C", "D 0 997 1 1 999"),
        (b"D 0 I * 999 " + b"a" * 500 + b"b" * 500, "D 0 0 1 499 500"),
        (b"D 15 I * 999 " + b"a" * 500 + b"b" * 500, "D 0 30 1 484 515"),
        # 999 letters: place 499 is the middle one.
        (b"D 0 I * 998 " + b"A" * 499 + b"C" + b"A" * 499, "D 0 999 2 0 0"),
        (b"D 0 I * 1996 " + b"A" * 999, "D 0 1 2 0 0"),
        (b"D 0 I * 1997 " + b"A" * 999, "D 6 0 0 0 0")]),
]

STOP_LINES = [
    ("right forms: every byte but the line end is a letter", [
        (b"D 0 I * 0 ", "D 6 0 0 0 0"), (b"D 0 I * 0  ", "D 0 1 2 0 0"),
        (b"D 0 I * 0  A", "D 0 1 2 0 0"), (b"D 0 I * 1  A", "D 0 0 1 0 1"),
        (b"D 0 I * 2  A ", "D 0 3 2 0 0"), (b"D 0 I * 1   ", "D 0 2 2 0 0"),
        (b"D 0 I * 2 A\r", "D 0 1 2 0 0"), (b"D 0 I * 1 A\r", "D 0 0 1 0 1"),
        (b"D 0 I * 1 \r\r", "D 0 2 2 0 0"), (b"D 0 C * 2 A\rT", "D 0 3 2 0 0"),
        (b"D 0 C * 1 \x00\x00", "D 0 2 2 0 0"),
        (b"D 0 C * 1 \x80\xff", "D 0 0 1 0 1"),
        (b"D 0 C * 2 A\xffT", "D 0 3 2 0 0"),
        (b"D 0 C * 2 a\tt", "D 0 1 1 0 2"),
        (b"D 0 I * 0 0 1", "D 0 1 2 0 0"), (b"D 0 I * 2 0 1", "D 0 1 1 0 2"),
        (b"D 0 I * 2 1 1", "D 0 3 2 0 0"), (b"D 0 I * 2 * *", "D 0 3 2 0 0"),
        (b"D 0 I * 5 A", "D 6 0 0 0 0"), (b"D 9999 I * 9999 A", "D 5 0 0 0 0"),
        (b"D 0 C D 0 A ", "D 19 0 0 0 0"), (b"D 0 C D 0 A\r", "D 19 0 0 0 0"),
        (b"D 0 S S 0 A", "D 2 0 0 0 0")]),
    ("13: a field is missing", [
        (b"D", "! 13"), (b"D ", "! 13"), (b"D 0", "! 13"), (b"D 0 I", "! 13"),
        (b"D 0 I *", "! 13"), (b"D 0 I * ", "! 13"), (b"D 0 I * 0", "! 13"),
        (b"D I * 0 A", "! 13"), (b"D 0 * 0 A", "! 13"),
        (b"D 0 I 0 A", "! 13"), (b"D 0 I * A", "! 13"),
        (b"D 0 I * 0A", "! 13"), (b"D 0 I *0 A", "! 13"),
        (b"D 0 I* 0 A", "! 13"), (b"D 0I * 0 A", "! 13"),
        (b"D0 I * 0 A", "! 13"),
        # A space in the string makes up for the field that is missing.
        (b"D I * 0 A C", "! 13"), (b"D 0 * 0 A C", "! 13"),
        (b"D 0 I 0 A C", "! 13"), (b"D 0 I * A C", "! 13")]),
    ("13: names, spaces and bytes between fields", [
        (b"d 0 I * 0 A", "! 13"), (b"DD 0 I * 0 A", "! 13"),
        (b" D 0 I * 0 A", "! 13"), (b"D  0 I * 0 A", "! 13"),
        (b"D 0  I * 0 A", "! 13"), (b"D 0 I  * 0 A", "! 13"),
        (b"D 0 I *  0 A", "! 13"), (b"D\t0 I * 0 A", "! 13"),
        (b"D 0\tI * 0 A", "! 13"), (b"D 0 I\t* 0 A", "! 13"),
        (b"D 0 I *\t0 A", "! 13"), (b"D 0 I * 0\tA", "! 13"),
        (b"D 0 I * 0\r", "! 13"), (b"D 0 I * 0\r A", "! 13"),
        (b"D\r 0 I * 0 A", "! 13"), (b"D 0 I * 0\x00 A", "! 13")]),
    ("13: numbers that are none", [
        (b"D 10000 I * 0 A", "! 13"), (b"D 00000 I * 0 A", "! 13"),
        (b"D 0 I * 10000 A", "! 13"), (b"D 0 I * 65536 A", "! 13"),
        (b"D 0 I * 00000 A", "! 13"), (b"D 00 I * 0 A", "! 13"),
        (b"D 01 I * 0 A", "! 13"), (b"D 015 I * 0 A", "! 13"),
        (b"D 0 I * 00 A", "! 13"), (b"D 0 I * 01 A", "! 13"),
        (b"D 0 I * 0001 A", "! 13"), (b"D +0 I * 0 A", "! 13"),
        (b"D -0 I * 0 A", "! 13"), (b"D 0 I * +0 A", "! 13"),
        (b"D 0 I * -1 A", "! 13"), (b"D 0 I * 1.0 A", "! 13"),
        (b"D 0 I * 0x0 A", "! 13"), (b"D x I * 0 A", "! 13"),
        (b"D 0 I * * A", "! 13"), (b"D \xb2 I * 0 A", "! 13"),
        (b"D 0 I * \xb2 A", "! 13"), (b"D 1_0 I * 0 A", "! 13")]),
    ("13: maps and alphabets that are none", [
        (b"D 0 i * 0 A", "! 13"), (b"D 0 c * 0 A", "! 13"),
        (b"D 0 y * 0 A", "! 13"), (b"D 0 s * 0 A", "! 13"),
        (b"D 0 x * 0 A", "! 13"), (b"D 0 Z * 0 A", "! 13"),
        (b"D 0 D * 0 A", "! 13"), (b"D 0 N * 0 A", "! 13"),
        (b"D 0 IC * 0 A", "! 13"), (b"D 0 \x00 * 0 A", "! 13"),
        (b"D 0 I d 0 A", "! 13"), (b"D 0 I n 0 A", "! 13"),
        (b"D 0 I o 0 A", "! 13"), (b"D 0 I s 0 A", "! 13"),
        (b"D 0 I e 0 A", "! 13"), (b"D 0 I I 0 A", "! 13"),
        (b"D 0 I C 0 A", "! 13"), (b"D 0 I X 0 A", "! 13"),
        (b"D 0 I Y 0 A", "! 13"), (b"D 0 I Z 0 A", "! 13"),
        (b"D 0 I A 0 A", "! 13"), (b"D 0 I 0 0 A", "! 13"),
        (b"D 0 I ** 0 A", "! 13"), (b"D 0 I DN 0 A", "! 13"),
        (b"D 0 I \xaa 0 A", "! 13"), (b"D 0 * I 0 A", "! 13"),
        (b"D 0 D C 0 A", "! 13"), (b"D 0 E I 0 A", "! 13")]),
    ("13 before all else", [
        (b"D 16 S Z 9999 N", "! 13"), (b"D 16 Z S 9999 N", "! 13"),
        (b"D 16 S S 10000 N", "! 13"), (b"D 016 S S 9999 N", "! 13"),
        (b"D 16 X d 9999 N", "! 13"), (b"D 16 C D 09999 N", "! 13"),
        (b"D 0 I Z 0 " + b"A" * 1001, "! 13"),
        (b"D 0 I * 00 " + b"A" * 1001, "! 13")]),
    # Heads of 10 and 14 bytes.
    ("1,040 bytes", [
        (b"D 0 I * 0 " + b"A" * 1030, "D 1 0 0 0 0"),
        (b"D 0 I * 0 " + b"A" * 1031, "! 13"),
        (b"D 15 C D 1998 " + b"A" * 1026, "D 1 0 0 0 0"),
        (b"D 15 C D 1998 " + b"A" * 1027, "! 13"),
        (b"D 15 C D 1998 " + b"A" * 1000, "D 0 0 3 0 0"),
        (b"D 15 C D 1998 " + b"A" * 50000, "! 13")]),
    # Pieces of GTATCG with one error and two letters or more: (0, 2), (1, 2),
    # (2, 2), (3, 3) and (4, 2) among them, and none from 5. The first part is
    # (0, 3): behind (0, 5) a letter is left.
    ("the fill, the pieces and the longest part answer as before", [
        (b"C 0 I * 11 GTATCG", "C 0 11\nE 1 0 1 0 3 0 1 0 1 0 1"),
        (b"D 0 I * 4 GTATCG", "D 0 3 1 0 4"),
        (b"P I GTATCG", "P 0 3\nR 84 65 84"),
        (b"C 1 I * 11 GTATCG", "C 0 11\nE 1 2 3 2 5 2 3 2 3 2 1"),
        (b"D 1 I * 4 GTATCG", "D 0 5 2 0 0"),
        (b"T 2 2 0 1 I * 7 12 GTATCG",
         "T 0 0 2 0\nE 0 0 0 0 0 65535 0\nR 80 1 0 0 0 3 80 1 0 3 0 3"),
        (b"D 16 I * 4 GTATCG", "D 5 0 0 0 0"),
        (b"C 16 I * 11 GTATCG", "C 5 0\nE" + " 9" * 11),
        (b"C 0 I * 10 GTATCG", "C 11 0\nE" + " 9" * 10),
        (b"D 0 I * 10 GTATCG", "D 0 1 2 0 0"),
        (b"D 0 I * 4 GTATCG", "D 0 3 1 0 4")]),
]

# The examples of docs/INSPECT.md with D, each line with what it prints.
STOP_EXAMPLES = [
    ("what stops a palindrome", [
        (b"D 0 I * 4 GTATCG", "D 0 3 1 0 4"),
        (b"D 1 C D 2 ACT", "D 0 0 3 0 0"),
        (b"D 0 C * 2 ACT", "D 0 0 1 1 1"),
        (b"D 0 C * 0 ACT", "D 0 0 1 0 0"),
        (b"D 1 C * 2 ACT", "D 0 3 2 0 0"),
        (b"D 0 I * 5 ACT", "D 6 0 0 0 0")]),
]

# The call program has no line for it: 13, with no sheet open and with one.
CALLS_WITHOUT_STOPS = [
    ("7: no line of the call program", [
        (b"D 0 I * 0 A", "! 13"), (b"D", "! 13"), (b"D 0", "! 13"),
        (b"O 2 3 0 1 C ACT", "O 3 0"),
        (b"L 1 65", "L 1 67 65 1"),
        (b"B", "B L 1 65 67 0"),
        (b"D 0 C * 2 ACT", "! 13"), (b"D", "! 13"), (b"D 2", "! 13"),
        (b"D 0 C * 2 ", "! 13"),
        (b"A", "A L 1 67 65 1"),
        (b"Q", "Q 0 1 0\nP 0 3 1")]),
]
