"""Texts written out by hand from request L5 (02): lines of the call program,
among them those that put letters in and take them out, beside the replies that
it and its readings settle. No program made any of them; where a reply is not
plain to see, a comment says how it comes about. Long runs of like lines follow
the rule that stands beside them."""

# How L5 is read, by the numbers of its readings. `I place byte` says place,
# letter, new n and standing, and `X place` the same. As numbers the letters
# are A 65, B 66, C 67, D 68, E 69, G 71, T 84, X 88.

PUT_IN_READINGS = [
    # BA, then ABA.
    ("1: before the first letter", [
        (b"O 1 2 1 0 I BA", "O 2 0"),
        (b"Q", "Q 2 1 1\nG 0 2 0"),
        (b"I 0 65", "I 0 65 3 1"),
        (b"Q", "Q 0 1 0\nP 0 3 0"),
        (b"B", "B X 0 65 2 0"),
        (b"Q", "Q 2 1 1\nG 0 2 0"),
        (b"A", "A I 0 65 3 1"),
        (b"Q", "Q 0 1 0\nP 0 3 0")]),
    # AA is shorter than m; then ABA.
    ("1: between two letters", [
        (b"O 1 3 1 0 I AA", "O 2 0"),
        (b"Q", "Q 2 1 1\nG 0 2 0"),
        (b"I 1 66", "I 1 66 3 1"),
        (b"Q", "Q 0 1 0\nP 0 3 0"),
        (b"B", "B X 1 66 2 0"),
        (b"Q", "Q 2 1 1\nG 0 2 0"),
        (b"A", "A I 1 66 3 1"),
        (b"Q", "Q 0 1 0\nP 0 3 0")]),
    # AB, then ABA.
    ("1: behind the last letter", [
        (b"O 1 2 1 0 I AB", "O 2 0"),
        (b"Q", "Q 2 1 1\nG 0 2 0"),
        (b"I 2 65", "I 2 65 3 1"),
        (b"Q", "Q 0 1 0\nP 0 3 0"),
        (b"B", "B X 2 65 2 0"),
        (b"Q", "Q 2 1 1\nG 0 2 0"),
        (b"A", "A I 2 65 3 1"),
        (b"Q", "Q 0 1 0\nP 0 3 0")]),
    # ABXCDE: a letter line says which letter stands at a place.
    ("1: the letters from p on stand one place further", [
        (b"O 1 1 0 0 I ABCDE", "O 5 0"),
        (b"I 2 88", "I 2 88 6 1"),
        (b"L 0 65", "L 0 65 65 2"),
        (b"L 1 66", "L 1 66 66 3"),
        (b"L 2 88", "L 2 88 88 4"),
        (b"L 3 67", "L 3 67 67 5"),
        (b"L 4 68", "L 4 68 68 6"),
        (b"L 5 69", "L 5 69 69 7"),
        (b"L 6 69", "! 6")]),
    # 259 is 3 and 256 more.
    ("1: 6 exactly when p exceeds n", [
        (b"O 1 1 0 0 I ABC", "O 3 0"),
        (b"I 4 65", "! 6"), (b"I 5 65", "! 6"), (b"I 255 65", "! 6"),
        (b"I 256 65", "! 6"), (b"I 259 65", "! 6"), (b"I 999 65", "! 6"),
        (b"I 1000 65", "! 6"), (b"I 1001 65", "! 6"), (b"I 9999 65", "! 6"),
        (b"I 3 68", "I 3 68 4 1"),
        (b"I 5 69", "! 6"),
        (b"I 4 69", "I 4 69 5 2"),
        (b"I 0 64", "I 0 64 6 3"),
        (b"I 7 70", "! 6"),
        (b"I 6 70", "I 6 70 7 4"),
        (b"B", "B X 6 70 6 3"),
        (b"I 7 71", "! 6"),
        (b"I 6 71", "I 6 71 7 4")]),
    ("1, 2 and 4: I 0 on an empty sheet", [
        (b"O 1 1 0 0 I ", "O 0 0"),
        (b"Q", "Q 0 0 0"),
        (b"I 1 65", "! 6"),
        (b"I 0 65", "I 0 65 1 1"),
        (b"Q", "Q 0 1 0\nP 0 1 0"),
        (b"X 0", "X 0 65 0 2"),
        (b"Q", "Q 0 0 0"),
        (b"X 0", "! 6"),
        (b"I 1 65", "! 6"),
        (b"B", "B I 0 65 1 1"),
        (b"Q", "Q 0 1 0\nP 0 1 0"),
        (b"B", "B X 0 65 0 0"),
        (b"Q", "Q 0 0 0"),
        (b"B", "! 8"),
        (b"A", "A I 0 65 1 1"),
        (b"A", "A X 0 65 0 2"),
        (b"A", "! 9"),
        (b"Q", "Q 0 0 0")]),
    # 0 10 13 32 128 255. With place 1 taken out 13 stands there.
    ("1: every byte may be put in", [
        (b"O 1 1 0 0 I ", "O 0 0"),
        (b"I 0 0", "I 0 0 1 1"),
        (b"I 1 10", "I 1 10 2 2"),
        (b"I 2 13", "I 2 13 3 3"),
        (b"I 3 32", "I 3 32 4 4"),
        (b"I 4 128", "I 4 128 5 5"),
        (b"I 5 255", "I 5 255 6 6"),
        (b"L 1 10", "L 1 10 10 7"),
        (b"X 1", "X 1 10 5 8"),
        (b"L 1 65", "L 1 13 65 9"),
        (b"X 4", "X 4 255 4 10"),
        (b"B", "B I 4 255 5 9"),
        (b"B", "B L 1 65 13 8"),
        (b"B", "B I 1 10 6 7"),
        (b"Q", "Q 0 6 0\nP 0 1 0\nP 1 1 0\nP 2 1 0\nP 3 1 0\nP 4 1 0\n"
               "P 5 1 0")]),
    # B, BB, ABB, ABBA, ABBBA, ACBBBA, and ABBBA again.
    ("1: a word from both ends and from the middle", [
        (b"O 1 2 2 0 I ", "O 0 0"),
        (b"I 0 66", "I 0 66 1 1"),
        (b"Q", "Q 1 1 1\nG 0 1 0"),
        (b"I 1 66", "I 1 66 2 2"),
        (b"Q", "Q 0 1 0\nP 0 2 0"),
        (b"I 0 65", "I 0 65 3 3"),
        (b"Q", "Q 1 2 1\nG 0 1 0\nP 1 2 0"),
        (b"I 3 65", "I 3 65 4 4"),
        (b"Q", "Q 0 1 0\nP 0 4 0"),
        (b"I 2 66", "I 2 66 5 5"),
        (b"Q", "Q 0 1 0\nP 0 5 0"),
        (b"I 1 67", "I 1 67 6 6"),
        (b"Q", "Q 3 3 2\nG 0 2 0\nP 2 3 0\nG 5 1 0"),
        (b"B", "B X 1 67 5 5"),
        (b"Q", "Q 0 1 0\nP 0 5 0")]),
    # AC, ACA, ACCA, ACC, CC.
    ("1 and 2: AC with m 2", [
        (b"O 1 2 1 0 I AC", "O 2 0"),
        (b"Q", "Q 2 1 1\nG 0 2 0"),
        (b"I 2 65", "I 2 65 3 1"),
        (b"Q", "Q 0 1 0\nP 0 3 0"),
        (b"I 1 67", "I 1 67 4 2"),
        (b"Q", "Q 0 1 0\nP 0 4 0"),
        (b"X 3", "X 3 65 3 3"),
        (b"Q", "Q 1 2 1\nG 0 1 0\nP 1 2 0"),
        (b"X 0", "X 0 65 2 4"),
        (b"Q", "Q 0 1 0\nP 0 2 0")]),
    # A with T and C with G: A, AT, ACT, ACGT, CGT and CG. In ACT no two
    # neighbours are partners; in CGT the T is left over.
    ("1 and 2: under the complement", [
        (b"O 1 2 0 0 C A", "O 1 0"),
        (b"Q", "! 10"),
        (b"I 1 84", "I 1 84 2 1"),
        (b"Q", "Q 0 1 0\nP 0 2 0"),
        (b"I 1 67", "I 1 67 3 2"),
        (b"Q", "! 10"),
        (b"I 2 71", "I 2 71 4 3"),
        (b"Q", "Q 0 1 0\nP 0 4 0"),
        (b"X 0", "X 0 65 3 4"),
        (b"Q", "! 10"),
        (b"X 2", "X 2 84 2 5"),
        (b"Q", "Q 0 1 0\nP 0 2 0"),
        (b"B", "B I 2 84 3 4"),
        (b"Q", "! 10"),
        (b"B", "B I 0 65 4 3"),
        (b"Q", "Q 0 1 0\nP 0 4 0")]),
]

TAKE_OUT_READINGS = [
    # CABA, then ABA.
    ("2: the first letter", [
        (b"O 1 2 1 0 I CABA", "O 4 0"),
        (b"Q", "Q 1 2 1\nG 0 1 0\nP 1 3 0"),
        (b"X 0", "X 0 67 3 1"),
        (b"Q", "Q 0 1 0\nP 0 3 0"),
        (b"B", "B I 0 67 4 0"),
        (b"Q", "Q 1 2 1\nG 0 1 0\nP 1 3 0"),
        (b"A", "A X 0 67 3 1"),
        (b"Q", "Q 0 1 0\nP 0 3 0")]),
    # ABBCA with its BB, then ABBA.
    ("2: a letter between others", [
        (b"O 1 2 2 0 I ABBCA", "O 5 0"),
        (b"Q", "Q 3 3 2\nG 0 1 0\nP 1 2 0\nG 3 2 0"),
        (b"X 3", "X 3 67 4 1"),
        (b"Q", "Q 0 1 0\nP 0 4 0"),
        (b"B", "B I 3 67 5 0"),
        (b"Q", "Q 3 3 2\nG 0 1 0\nP 1 2 0\nG 3 2 0"),
        (b"A", "A X 3 67 4 1"),
        (b"Q", "Q 0 1 0\nP 0 4 0")]),
    # ABAC, then ABA.
    ("2: the last letter", [
        (b"O 1 2 1 0 I ABAC", "O 4 0"),
        (b"Q", "Q 1 2 1\nP 0 3 0\nG 3 1 0"),
        (b"X 3", "X 3 67 3 1"),
        (b"Q", "Q 0 1 0\nP 0 3 0"),
        (b"X 3", "! 6"),
        (b"B", "B I 3 67 4 0"),
        (b"Q", "Q 1 2 1\nP 0 3 0\nG 3 1 0"),
        (b"A", "A X 3 67 3 1"),
        (b"Q", "Q 0 1 0\nP 0 3 0")]),
    # ACDE.
    ("2: the letters behind it stand one place nearer", [
        (b"O 1 1 0 0 I ABCDE", "O 5 0"),
        (b"X 1", "X 1 66 4 1"),
        (b"L 0 65", "L 0 65 65 2"),
        (b"L 1 67", "L 1 67 67 3"),
        (b"L 2 68", "L 2 68 68 4"),
        (b"L 3 69", "L 3 69 69 5"),
        (b"L 4 69", "! 6")]),
    # 258 is 2 and 256 more.
    ("2: 6 where p is not below n", [
        (b"O 1 1 0 0 I ABC", "O 3 0"),
        (b"X 3", "! 6"), (b"X 4", "! 6"), (b"X 255", "! 6"),
        (b"X 256", "! 6"), (b"X 258", "! 6"), (b"X 999", "! 6"),
        (b"X 1000", "! 6"), (b"X 9999", "! 6"),
        (b"X 2", "X 2 67 2 1"),
        (b"X 2", "! 6"),
        (b"X 1", "X 1 66 1 2"),
        (b"X 1", "! 6"),
        (b"X 0", "X 0 65 0 3"),
        (b"X 0", "! 6"), (b"X 1", "! 6"), (b"L 0 65", "! 6"),
        (b"Q", "Q 0 0 0"),
        (b"B", "B I 0 65 1 2"),
        (b"X 1", "! 6"),
        (b"B", "B I 1 66 2 1"),
        (b"X 2", "! 6"),
        (b"B", "B I 2 67 3 0"),
        (b"X 3", "! 6"),
        (b"Q", "Q 0 3 0\nP 0 1 0\nP 1 1 0\nP 2 1 0")]),
    ("2: always 6 on an empty sheet", [
        (b"O 2 1000 15 15 C ", "O 0 0"),
        (b"X 0", "! 6"), (b"X 1", "! 6"), (b"X 256", "! 6"),
        (b"X 9999", "! 6"), (b"B", "! 8"), (b"A", "! 9"),
        (b"Q", "Q 0 0 0")]),
    # ABBA, BBA, BA, A, none, and back.
    ("2: letter by letter to the empty sheet", [
        (b"O 1 1 0 0 I ABBA", "O 4 0"),
        (b"Q", "Q 0 1 0\nP 0 4 0"),
        (b"X 0", "X 0 65 3 1"),
        (b"Q", "Q 0 2 0\nP 0 2 0\nP 2 1 0"),
        (b"X 0", "X 0 66 2 2"),
        (b"Q", "Q 0 2 0\nP 0 1 0\nP 1 1 0"),
        (b"X 0", "X 0 66 1 3"),
        (b"Q", "Q 0 1 0\nP 0 1 0"),
        (b"X 0", "X 0 65 0 4"),
        (b"Q", "Q 0 0 0"),
        (b"X 0", "! 6"),
        (b"B", "B I 0 65 1 3"),
        (b"B", "B I 0 66 2 2"),
        (b"Q", "Q 0 2 0\nP 0 1 0\nP 1 1 0"),
        (b"B", "B I 0 66 3 1"),
        (b"B", "B I 0 65 4 0"),
        (b"B", "! 8"),
        (b"Q", "Q 0 1 0\nP 0 4 0"),
        (b"A", "A X 0 65 3 1"),
        (b"A", "A X 0 66 2 2"),
        (b"A", "A X 0 66 1 3"),
        (b"A", "A X 0 65 0 4"),
        (b"A", "! 9"),
        (b"Q", "Q 0 0 0")]),
    # In abaca the c is maximal only as aca; in abaa the last letter is maximal
    # by itself, at the end of the string.
    ("2: maximal in the string as it now stands", [
        (b"O 2 1 0 0 I abaca", "O 5 0"),
        (b"Q", "! 10"),
        (b"X 3", "X 3 99 4 1"),
        (b"Q", "Q 0 2 0\nP 0 3 0\nP 3 1 0"),
        (b"B", "B I 3 99 5 0"),
        (b"Q", "! 10"),
        (b"A", "A X 3 99 4 1"),
        (b"Q", "Q 0 2 0\nP 0 3 0\nP 3 1 0")]),
]

# Openings of so many letters, all A; those of length 998 and more are pieces.
THOUSAND = (b"O 1 998 2 0 I " + b"A" * 1000, "O 1000 0")
ONE_LESS = (b"O 1 998 2 0 I " + b"A" * 999, "O 999 0")

# Change k of 64: the letter at 0 to itself, so that k stand.
SAME_LETTER = [(b"L 0 65", "L 0 65 65 %d" % k) for k in range(1, 65)]

# On 936 letters a B put in at 0 makes 936 + k of them with change k; 64 of
# them make 1,000. Taken back one by one, k stand and 936 + k letters are left;
# the first to be taken back leaves 63.
B_TO_1000 = [(b"I 0 66", "I 0 66 %d %d" % (936 + k, k)) for k in range(1, 65)]
B_BACK = [(b"B", "B X 0 66 %d %d" % (936 + k, k)) for k in range(63, -1, -1)]
B_AGAIN = [(b"A", "A I 0 66 %d %d" % (936 + k, k)) for k in range(1, 65)]

ORDER_READINGS = [
    # Behind the last changes the string is C, 998 times A, B.
    ("3: 6, then 1, on 1,000 letters", [
        THOUSAND,
        (b"I 1001 65", "! 6"), (b"I 1002 65", "! 6"), (b"I 9999 65", "! 6"),
        (b"I 1000 65", "! 1"), (b"I 999 65", "! 1"), (b"I 500 65", "! 1"),
        (b"I 1 66", "! 1"), (b"I 0 65", "! 1"), (b"B", "! 8"),
        (b"X 1000", "! 6"),
        (b"X 999", "X 999 65 999 1"),
        (b"I 1000 66", "! 6"),
        (b"I 999 66", "I 999 66 1000 2"),
        (b"I 1000 66", "! 1"), (b"I 1001 66", "! 6"),
        (b"X 0", "X 0 65 999 3"),
        (b"I 0 67", "I 0 67 1000 4"),
        (b"I 0 67", "! 1"),
        (b"L 999 66", "L 999 66 66 5"),
        (b"L 1000 66", "! 6"),
        (b"Q", "Q 2 3 2\nG 0 1 0\nP 1 998 0\nG 999 1 0")]),
    ("3: 999 letters take one more", [
        ONE_LESS,
        (b"I 1000 65", "! 6"),
        (b"I 999 66", "I 999 66 1000 1"),
        (b"I 1000 67", "! 1"), (b"I 1001 67", "! 6"),
        (b"B", "B X 999 66 999 0"),
        (b"I 0 67", "I 0 67 1000 1"),
        (b"I 0 67", "! 1"),
        (b"A", "! 9"),
        (b"B", "B X 0 67 999 0"),
        (b"A", "A I 0 67 1000 1"),
        (b"I 1000 65", "! 1")]),
    ("3: 6, 1, 7 with 64 changes on 1,000 letters",
        [THOUSAND] + SAME_LETTER
        + [(b"I 1001 65", "! 6"), (b"I 1000 65", "! 1"), (b"I 0 65", "! 1"),
           (b"X 1000", "! 6"), (b"X 999", "! 7"), (b"X 0", "! 7"),
           (b"L 1000 65", "! 6"), (b"L 0 65", "! 7"), (b"K 1 0", "! 7"),
           (b"M 1 0", "! 7"),
           (b"B", "B L 0 65 65 63"),
           (b"I 0 65", "! 1"),
           (b"X 5", "X 5 65 999 64"),
           (b"I 1000 65", "! 6"), (b"I 999 65", "! 7"), (b"I 0 65", "! 7"),
           (b"X 999", "! 6"), (b"X 998", "! 7"),
           (b"B", "B I 5 65 1000 63"),
           (b"I 1000 65", "! 1"),
           (b"A", "A X 5 65 999 64"),
           (b"A", "! 9")]),
    ("3 and 6: change 64 makes 1,000 letters",
        [(b"O 1 1 0 0 I " + b"A" * 936, "O 936 0")] + B_TO_1000
        + [(b"I 0 66", "! 1"), (b"I 1000 66", "! 1"), (b"I 1001 66", "! 6"),
           (b"X 0", "! 7"), (b"X 1000", "! 6"),
           (b"B", "B X 0 66 999 63"),
           (b"I 1000 67", "! 6"),
           (b"A", "A I 0 66 1000 64"),
           (b"A", "! 9"), (b"I 0 66", "! 1")]
        + B_BACK + [(b"B", "! 8")] + B_AGAIN
        + [(b"A", "! 9"), (b"I 0 66", "! 1"),
           (b"B", "B X 0 66 999 63"),
           (b"I 999 67", "I 999 67 1000 64"),
           (b"A", "! 9"), (b"I 999 67", "! 1"),
           (b"B", "B X 999 67 999 63"),
           (b"A", "A I 999 67 1000 64")]),
    ("3: 6, then 7, for each of I and X",
        [(b"O 1 1 0 0 I AB", "O 2 0")] + SAME_LETTER
        + [(b"I 3 65", "! 6"), (b"I 2 65", "! 7"), (b"I 0 65", "! 7"),
           (b"X 2", "! 6"), (b"X 1", "! 7"), (b"X 0", "! 7"),
           (b"L 0 65", "! 7"), (b"K 1 0", "! 7"), (b"M 1 0", "! 7"),
           (b"B", "B L 0 65 65 63"),
           (b"I 2 67", "I 2 67 3 64"),
           (b"I 4 65", "! 6"), (b"I 3 65", "! 7"),
           (b"X 3", "! 6"), (b"X 2", "! 7"),
           (b"B", "B X 2 67 2 63"),
           (b"X 1", "X 1 66 1 64"),
           (b"I 2 66", "! 6"), (b"I 1 66", "! 7"),
           (b"X 1", "! 6"), (b"X 0", "! 7"),
           (b"L 1 65", "! 6"), (b"L 0 65", "! 7"),
           (b"K 3 0", "! 4"), (b"K 1 0", "! 7"), (b"M 0 0", "! 5"),
           (b"M 1 0", "! 7"),
           (b"B", "B I 1 66 2 63"),
           (b"A", "A X 1 66 1 64"),
           (b"I 0 65", "! 7"), (b"X 0", "! 7")]),
]

SAID_BACK_READINGS = [
    # TAACCATG has AA and CC, or ACCA: four letters are left over either way,
    # and the first gap is shorter with AA and CC.
    ("4 and 5: seven letters", [
        (b"O 1 2 2 0 I TACCATG", "O 7 0"),
        (b"I 2 65", "I 2 65 8 1"),
        (b"B", "B X 2 65 7 0"),
        (b"A", "A I 2 65 8 1"),
        (b"X 2", "X 2 65 7 2"),
        (b"B", "B I 2 65 8 1"),
        (b"Q", "Q 4 4 2\nG 0 1 0\nP 1 2 0\nP 3 2 0\nG 5 3 0"),
        (b"A", "A X 2 65 7 2"),
        (b"Q", "Q 1 2 1\nP 0 6 0\nG 6 1 0"),
        (b"B", "B I 2 65 8 1"),
        (b"B", "B X 2 65 7 0"),
        (b"B", "! 8"),
        (b"Q", "Q 1 2 1\nP 0 6 0\nG 6 1 0")]),
    ("5: X says the letter that stood there", [
        (b"O 1 1 0 0 I ABC", "O 3 0"),
        (b"L 1 88", "L 1 66 88 1"),
        (b"X 1", "X 1 88 2 2"),
        (b"B", "B I 1 88 3 1"),
        (b"B", "B L 1 88 66 0"),
        (b"X 1", "X 1 66 2 1"),
        (b"A", "! 9"),
        (b"B", "B I 1 66 3 0"),
        (b"A", "A X 1 66 2 1")]),
    # AXBC, AYBC, ABC.
    ("5: a letter put in, changed and taken out", [
        (b"O 1 1 0 0 I ABC", "O 3 0"),
        (b"I 1 88", "I 1 88 4 1"),
        (b"L 1 89", "L 1 88 89 2"),
        (b"X 1", "X 1 89 3 3"),
        (b"B", "B I 1 89 4 2"),
        (b"B", "B L 1 89 88 1"),
        (b"B", "B X 1 88 3 0"),
        (b"A", "A I 1 88 4 1"),
        (b"A", "A L 1 88 89 2"),
        (b"A", "A X 1 89 3 3"),
        (b"A", "! 9"),
        (b"Q", "Q 0 3 0\nP 0 1 0\nP 1 1 0\nP 2 1 0")]),
    # ABCBA, ABBA, CABBA, CABBC, CBBC, CBABC; m is 3 before M, then 2. Each
    # piece is maximal at its centre, so kind 2 answers as kind 1 does.
    ("5: all five changes, back and again", [
        (b"O 1 3 1 0 I ABCBA", "O 5 0"),
        (b"Q", "Q 0 1 0\nP 0 5 0"),
        (b"X 2", "X 2 67 4 1"),
        (b"Q", "Q 0 1 0\nP 0 4 0"),
        (b"M 2 2", "M 1 2 2 0 2"),
        (b"I 0 67", "I 0 67 5 3"),
        (b"Q", "Q 1 2 1\nG 0 1 0\nP 1 4 0"),
        (b"L 4 67", "L 4 65 67 4"),
        (b"Q", "Q 3 3 2\nG 0 2 0\nP 2 2 0\nG 4 1 0"),
        (b"K 2 0", "K 2 2 2 0 5"),
        (b"X 1", "X 1 65 4 6"),
        (b"Q", "Q 0 1 0\nP 0 4 0"),
        (b"I 2 65", "I 2 65 5 7"),
        (b"Q", "Q 0 1 0\nP 0 5 0"),
        (b"B", "B X 2 65 4 6"),
        (b"B", "B I 1 65 5 5"),
        (b"Q", "Q 3 3 2\nG 0 2 0\nP 2 2 0\nG 4 1 0"),
        (b"B", "B K 1 2 2 0 4"),
        (b"B", "B L 4 67 65 3"),
        (b"B", "B X 0 67 4 2"),
        (b"B", "B M 1 3 1 0 1"),
        (b"B", "B I 2 67 5 0"),
        (b"B", "! 8"),
        (b"Q", "Q 0 1 0\nP 0 5 0"),
        (b"A", "A X 2 67 4 1"),
        (b"A", "A M 1 2 2 0 2"),
        (b"A", "A I 0 67 5 3"),
        (b"A", "A L 4 65 67 4"),
        (b"A", "A K 2 2 2 0 5"),
        (b"A", "A X 1 65 4 6"),
        (b"A", "A I 2 65 5 7"),
        (b"A", "! 9"),
        (b"Q", "Q 0 1 0\nP 0 5 0")]),
    # AB, ACB, AB, B, BB; BB, B, BB, AB, BB, B, AB; B, AB, A, AB, B, AB.
    ("5: all five changes with take-backs between", [
        (b"O 1 1 0 0 I AB", "O 2 0"),
        (b"I 1 67", "I 1 67 3 1"),
        (b"B", "B X 1 67 2 0"),
        (b"X 0", "X 0 65 1 1"),
        (b"A", "! 9"),
        (b"I 1 66", "I 1 66 2 2"),
        (b"M 2 0", "M 1 2 0 0 3"),
        (b"Q", "Q 0 1 0\nP 0 2 0"),
        (b"K 2 1", "K 2 2 0 1 4"),
        (b"Q", "Q 0 1 0\nP 0 2 0"),
        (b"B", "B K 1 2 0 0 3"),
        (b"B", "B M 1 1 0 0 2"),
        (b"B", "B X 1 66 1 1"),
        (b"A", "A I 1 66 2 2"),
        (b"L 0 65", "L 0 66 65 3"),
        (b"A", "! 9"),
        (b"B", "B L 0 65 66 2"),
        (b"B", "B X 1 66 1 1"),
        (b"B", "B I 0 65 2 0"),
        (b"B", "! 8"),
        (b"A", "A X 0 65 1 1"),
        (b"I 0 65", "I 0 65 2 2"),
        (b"A", "! 9"),
        (b"X 1", "X 1 66 1 3"),
        (b"B", "B I 1 66 2 2"),
        (b"B", "B X 0 65 1 1"),
        (b"B", "B I 0 65 2 0"),
        (b"Q", "Q 0 2 0\nP 0 1 0\nP 1 1 0")]),
]

TAKE_BACK_READINGS = [
    ("6: back to 1,000 letters", [
        THOUSAND,
        (b"X 3", "X 3 65 999 1"),
        (b"B", "B I 3 65 1000 0"),
        (b"A", "A X 3 65 999 1"),
        (b"I 999 66", "I 999 66 1000 2"),
        (b"B", "B X 999 66 999 1"),
        (b"A", "A I 999 66 1000 2"),
        (b"B", "B X 999 66 999 1"),
        (b"B", "B I 3 65 1000 0"),
        (b"I 0 65", "! 1"),
        (b"A", "A X 3 65 999 1"),
        (b"A", "A I 999 66 1000 2"),
        (b"A", "! 9")]),
    ("6: from no letters and back to none", [
        (b"O 1 1 0 0 I A", "O 1 0"),
        (b"X 0", "X 0 65 0 1"),
        (b"B", "B I 0 65 1 0"),
        (b"A", "A X 0 65 0 1"),
        (b"I 0 66", "I 0 66 1 2"),
        (b"B", "B X 0 66 0 1"),
        (b"B", "B I 0 65 1 0"),
        (b"A", "A X 0 65 0 1"),
        (b"A", "A I 0 66 1 2"),
        (b"A", "! 9"),
        (b"Q", "Q 0 1 0\nP 0 1 0")]),
    ("6: back to 64 changes",
        [(b"O 1 1 0 0 I AB", "O 2 0")] + SAME_LETTER[:63]
        + [(b"X 1", "X 1 66 1 64"),
           (b"B", "B I 1 66 2 63"),
           (b"A", "A X 1 66 1 64"),
           (b"X 0", "! 7"), (b"A", "! 9"),
           (b"B", "B I 1 66 2 63"),
           (b"I 1 67", "I 1 67 3 64"),
           (b"B", "B X 1 67 2 63"),
           (b"A", "A I 1 67 3 64"),
           (b"I 0 65", "! 7"), (b"A", "! 9")]),
    # The place that comes back, or goes, is the last one or behind it.
    ("6: at the end of the string", [
        (b"O 1 1 0 0 I ABC", "O 3 0"),
        (b"X 2", "X 2 67 2 1"),
        (b"B", "B I 2 67 3 0"),
        (b"A", "A X 2 67 2 1"),
        (b"I 2 68", "I 2 68 3 2"),
        (b"I 3 69", "I 3 69 4 3"),
        (b"B", "B X 3 69 3 2"),
        (b"B", "B X 2 68 2 1"),
        (b"B", "B I 2 67 3 0"),
        (b"L 2 67", "L 2 67 67 1")]),
]

WRONG_PUT_INS = [
    b"I", b"I ", b"I  ", b"I 1", b"I 1 ", b"I  1", b"I  65", b"I  1 65",
    b"I 1  65", b"I 1 65 ", b"I 1 65  ", b" I 1 65", b"I 1 65 1", b"I 1 65 0",
    b"I 1 65 3 1", b"I 1 256", b"I 1 257", b"I 1 321", b"I 1 999",
    b"I 1 9999", b"I 1 65535", b"I 01 65", b"I 00 65", b"I 0001 65",
    b"I 1 065", b"I 1 00", b"I 1 0065", b"I 10000 65", b"I 00000 65",
    b"I 65536 65", b"I -1 65", b"I +1 65", b"I 1 -65", b"I 1 +65", b"I 1 A",
    b"I A 1", b"I x 65", b"I 1 0x41", b"I 1.0 65", b"I 1,65", b"I 1_0 65",
    b"I\t1 65", b"I 1\t65", b"I 1 65\r", b"I 1 65\0", b"I \xb2 65",
    b"I 1 \xb2", b"i 1 65", b"II 1 65", b"I1 65", b"IX 1 65", b"LI 1 65",
    b"IL 1 65", b"I 1 65I 1 65", b"I 1 65" + b" " * 1034,
    b"I 1 65" + b" " * 1035, b"I 1 " + b"0" * 5000]

WRONG_TAKE_OUTS = [
    b"X", b"X ", b"X  ", b"X  1", b"X 1 ", b"X 1  ", b" X 1", b"X 1 65",
    b"X 1 0", b"X 1 1", b"X 1 65 3 1", b"X 01", b"X 00", b"X 0001",
    b"X 10000", b"X 00000", b"X 65536", b"X 99999", b"X -1", b"X +1", b"X x",
    b"X A", b"X X", b"X 1x", b"X 0x1", b"X 1.0", b"X 1_0", b"X,1", b"X\t1",
    b"X 1\t", b"X 1\r", b"X 1\0", b"X \xb2", b"x 1", b"XX 1", b"X1", b"XI 1",
    b"IX 1", b"LX 1", b"X 1X 1", b"X 1" + b" " * 1037, b"X 1" + b" " * 1038,
    b"X " + b"0" * 5000]

# What is said back is no line.
REPLIES_AS_LINES = [
    b"I 0 65 3 1", b"X 0 65 2 2", b"B I 0 65 3 1", b"B X 0 65 2 0",
    b"A I 0 65 3 1", b"A X 0 65 2 2", b"B I", b"B X", b"A I", b"A X", b"BI",
    b"BX", b"B 1", b"A 1", b"IB", b"XB"]


def not_understood(lines):
    return [(line, "! 13") for line in lines]


# A change stands and one is taken back, so that both lists show afterwards
# whether a line has touched them.
BOTH_LISTS = [
    (b"O 1 1 0 0 I AB", "O 2 0"),
    (b"I 2 67", "I 2 67 3 1"),
    (b"X 0", "X 0 65 2 2"),
    (b"B", "B I 0 65 3 1")]
BOTH_LISTS_THERE = [
    (b"A", "A X 0 65 2 2"),
    (b"A", "! 9"),
    (b"B", "B I 0 65 3 1"),
    (b"B", "B X 2 67 2 0"),
    (b"B", "! 8")]

FORM_READINGS = [
    ("7: lines that are not understood, no sheet open",
        not_understood(WRONG_PUT_INS + WRONG_TAKE_OUTS + REPLIES_AS_LINES)),
    ("7: I lines that are not understood, a sheet open",
        BOTH_LISTS + not_understood(WRONG_PUT_INS) + BOTH_LISTS_THERE),
    ("7: X lines that are not understood, a sheet open",
        BOTH_LISTS + not_understood(WRONG_TAKE_OUTS) + BOTH_LISTS_THERE),
    ("7: what is said back is no line",
        BOTH_LISTS + not_understood(REPLIES_AS_LINES) + BOTH_LISTS_THERE),
    ("7: 13, then 14, then the call's own list", [
        (b"I 0 65", "! 14"), (b"I 1 255", "! 14"), (b"I 9999 0", "! 14"),
        (b"X 0", "! 14"), (b"X 9999", "! 14"), (b"I 0 256", "! 13"),
        (b"I 9999 256", "! 13"), (b"I 01 65", "! 13"), (b"I 0", "! 13"),
        (b"X 10000", "! 13"), (b"X 0 65", "! 13"), (b"X", "! 13"),
        (b"O 3 1 0 0 I AB", "! 4"),
        (b"I 0 65", "! 14"), (b"X 0", "! 14"),
        (b"O 1 1 0 0 I " + b"A" * 1001, "! 1"),
        (b"I 0 65", "! 14"), (b"X 0", "! 14"),
        (b"O 1 1 0 0 I", "! 13"),
        (b"I 0 65", "! 14"), (b"X 0", "! 14"),
        (b"O 1 1 0 0 I AB", "O 2 0"),
        (b"I 3 65", "! 6"), (b"X 2", "! 6"), (b"I 3 256", "! 13"),
        (b"X 02", "! 13"),
        (b"I 2 67", "I 2 67 3 1"),
        (b"X 2", "X 2 67 2 2")]),
    # ABC, BC, XC, XCY, XCZ, WXCZ, WACZ, WACB, WAC, WAT.
    ("7: places of the letters as they now stand", [
        (b"O 1 1 0 0 I ABC", "O 3 0"),
        (b"X 0", "X 0 65 2 1"),
        (b"L 0 88", "L 0 66 88 2"),
        (b"L 2 88", "! 6"),
        (b"I 2 89", "I 2 89 3 3"),
        (b"L 2 90", "L 2 89 90 4"),
        (b"I 0 87", "I 0 87 4 5"),
        (b"L 1 65", "L 1 88 65 6"),
        (b"L 3 66", "L 3 90 66 7"),
        (b"L 4 66", "! 6"),
        (b"X 3", "X 3 66 3 8"),
        (b"L 3 66", "! 6"),
        (b"L 2 84", "L 2 67 84 9"),
        (b"Q", "Q 0 3 0\nP 0 1 0\nP 1 1 0\nP 2 1 0")]),
    ("7: a refused opening leaves letters and lists, an accepted one doesn't",
        BOTH_LISTS
        + [(b"O 3 1 0 0 I A", "! 4"), (b"O 1 0 0 0 I A", "! 5"),
           (b"O 1 1 0 0 I " + b"A" * 1001, "! 1")]
        + BOTH_LISTS_THERE + BOTH_LISTS
        + [(b"O 1 1 0 0 I B", "O 1 0"),
           (b"A", "! 9"), (b"B", "! 8"), (b"X 1", "! 6"), (b"I 2 65", "! 6"),
           (b"X 0", "X 0 66 0 1")]),
]

# A put in 64 times at 0, from no letters: with change k there are k, and k
# stand. Taken back, k are left and k stand.
A_TO_64 = [(b"I 0 65", "I 0 65 %d %d" % (k, k)) for k in range(1, 65)]
A_TO_64_BACK = [(b"B", "B X 0 65 %d %d" % (k, k)) for k in range(63, -1, -1)]
A_TO_64_AGAIN = [(b"A", "A I 0 65 %d %d" % (k, k)) for k in range(1, 65)]

# The first of 64 letters A taken out 64 times: change k leaves 64 - k. Taken
# back, change k is put in again, k - 1 stand and 65 - k are there.
A_FROM_64 = [(b"X 0", "X 0 65 %d %d" % (64 - k, k)) for k in range(1, 65)]
A_FROM_64_BACK = [(b"B", "B I 0 65 %d %d" % (65 - k, k - 1))
                  for k in range(64, 0, -1)]
A_FROM_64_AGAIN = [(b"A", "A X 0 65 %d %d" % (64 - k, k))
                   for k in range(1, 65)]

# Of 65 letters one is left: change k leaves 65 - k.
A_FROM_65 = [(b"X 0", "X 0 65 %d %d" % (65 - k, k)) for k in range(1, 65)]

# B put in before AAA and taken out, 32 times: changes 2k + 1 and 2k + 2.
IN_AND_OUT = [pair for k in range(32)
              for pair in ((b"I 0 66", "I 0 66 4 %d" % (2 * k + 1)),
                           (b"X 0", "X 0 66 3 %d" % (2 * k + 2)))]
IN_AND_OUT_BACK = [pair for k in range(31, -1, -1)
                   for pair in ((b"B", "B I 0 66 4 %d" % (2 * k + 1)),
                                (b"B", "B X 0 66 3 %d" % (2 * k)))]

CHANGE_READINGS = [
    ("8: 64 put in, the 65th is 7",
        [(b"O 1 1 0 0 I ", "O 0 0")] + A_TO_64
        + [(b"I 0 65", "! 7"), (b"I 64 65", "! 7"), (b"I 65 65", "! 6"),
           (b"X 63", "! 7"), (b"X 64", "! 6"), (b"L 63 65", "! 7"),
           (b"L 64 65", "! 6"), (b"K 1 0", "! 7"), (b"M 1 0", "! 7"),
           (b"Q", "Q 0 1 0\nP 0 64 0")]
        + A_TO_64_BACK
        + [(b"B", "! 8"), (b"Q", "Q 0 0 0"), (b"X 0", "! 6")]
        + A_TO_64_AGAIN
        + [(b"A", "! 9"), (b"I 0 65", "! 7"),
           (b"Q", "Q 0 1 0\nP 0 64 0")]),
    ("8: 64 taken out, and no letter is left",
        [(b"O 1 1 0 0 I " + b"A" * 64, "O 64 0"),
         (b"Q", "Q 0 1 0\nP 0 64 0")] + A_FROM_64
        + [(b"X 0", "! 6"), (b"I 0 65", "! 7"), (b"I 1 65", "! 6"),
           (b"L 0 65", "! 6"), (b"K 1 0", "! 7"), (b"M 1 0", "! 7"),
           (b"K 3 0", "! 4"),
           (b"Q", "Q 0 0 0")]
        + A_FROM_64_BACK
        + [(b"B", "! 8"), (b"X 64", "! 6"), (b"Q", "Q 0 1 0\nP 0 64 0")]
        + A_FROM_64_AGAIN
        + [(b"A", "! 9"), (b"X 0", "! 6"), (b"Q", "Q 0 0 0")]),
    ("8: 64 taken out, the 65th is 7",
        [(b"O 1 1 0 0 I " + b"A" * 65, "O 65 0")] + A_FROM_65
        + [(b"X 0", "! 7"), (b"X 1", "! 6"), (b"I 1 65", "! 7"),
           (b"I 2 65", "! 6"), (b"L 0 65", "! 7"),
           (b"B", "B I 0 65 2 63"),
           (b"X 1", "X 1 65 1 64"),
           (b"X 0", "! 7"),
           (b"Q", "Q 0 1 0\nP 0 1 0")]),
    ("8: changes that leave the string as it was", [
        (b"O 1 1 0 0 I AAA", "O 3 0"),
        (b"I 1 65", "I 1 65 4 1"),
        (b"X 3", "X 3 65 3 2"),
        (b"L 0 65", "L 0 65 65 3"),
        (b"X 2", "X 2 65 2 4"),
        (b"I 0 65", "I 0 65 3 5"),
        (b"B", "B X 0 65 2 4"),
        (b"B", "B I 2 65 3 3"),
        (b"B", "B L 0 65 65 2"),
        (b"B", "B I 3 65 4 1"),
        (b"B", "B X 1 65 3 0"),
        (b"B", "! 8"),
        (b"Q", "Q 0 1 0\nP 0 3 0")]),
    ("8: in and out, 32 times",
        [(b"O 1 1 0 0 I AAA", "O 3 0")] + IN_AND_OUT
        + [(b"I 0 66", "! 7"), (b"X 0", "! 7"), (b"L 0 65", "! 7"),
           (b"K 1 0", "! 7"), (b"M 1 0", "! 7")]
        + IN_AND_OUT_BACK
        + [(b"B", "! 8"), (b"Q", "Q 0 1 0\nP 0 3 0")]),
    ("8: an accepted I or X empties the taken-back list", [
        (b"O 1 1 0 0 I AB", "O 2 0"),
        (b"L 0 67", "L 0 65 67 1"),
        (b"B", "B L 0 67 65 0"),
        (b"I 2 67", "I 2 67 3 1"),
        (b"A", "! 9"),
        (b"B", "B X 2 67 2 0"),
        (b"X 0", "X 0 65 1 1"),
        (b"A", "! 9"),
        (b"B", "B I 0 65 2 0"),
        (b"A", "A X 0 65 1 1"),
        (b"B", "B I 0 65 2 0"),
        (b"L 0 65", "L 0 65 65 1"),
        (b"A", "! 9"),
        (b"I 0 67", "I 0 67 3 2"),
        (b"B", "B X 0 67 2 1"),
        (b"M 1 0", "M 1 1 0 0 2"),
        (b"A", "! 9"),
        (b"X 0", "X 0 65 1 3"),
        (b"B", "B I 0 65 2 2"),
        (b"K 1 0", "K 1 1 0 0 3"),
        (b"A", "! 9")]),
    ("8: a refused I or X leaves the taken-back list", [
        (b"O 1 1 0 0 I AB", "O 2 0"),
        (b"I 1 67", "I 1 67 3 1"),
        (b"X 0", "X 0 65 2 2"),
        (b"B", "B I 0 65 3 1"),
        (b"B", "B X 1 67 2 0"),
        (b"I 3 65", "! 6"), (b"X 2", "! 6"), (b"I 0 256", "! 13"),
        (b"X", "! 13"), (b"L 2 65", "! 6"), (b"K 3 0", "! 4"),
        (b"K 1 1", "! 5"), (b"M 0 0", "! 5"),
        (b"B", "! 8"),
        (b"Q", "Q 0 2 0\nP 0 1 0\nP 1 1 0"),
        (b"A", "A I 1 67 3 1"),
        (b"I 4 65", "! 6"), (b"X 3", "! 6"),
        (b"A", "A X 0 65 2 2"),
        (b"A", "! 9")]),
    ("8: an I refused with 1 leaves the taken-back list", [
        THOUSAND,
        (b"L 0 66", "L 0 65 66 1"),
        (b"B", "B L 0 66 65 0"),
        (b"I 0 67", "! 1"), (b"I 1001 67", "! 6"), (b"X 1000", "! 6"),
        (b"A", "A L 0 65 66 1"),
        (b"X 0", "X 0 66 999 2"),
        (b"B", "B I 0 66 1000 1"),
        (b"I 1000 65", "! 1"),
        (b"A", "A X 0 66 999 2"),
        (b"A", "! 9")]),
    # ABC, AB, ABD, BD, BDE.
    ("12: no letter comes back from behind the last", [
        (b"O 1 1 0 0 I ABC", "O 3 0"),
        (b"X 2", "X 2 67 2 1"),
        (b"I 2 68", "I 2 68 3 2"),
        (b"L 2 68", "L 2 68 68 3"),
        (b"X 0", "X 0 65 2 4"),
        (b"L 1 68", "L 1 68 68 5"),
        (b"I 2 69", "I 2 69 3 6"),
        (b"L 0 66", "L 0 66 66 7"),
        (b"L 1 68", "L 1 68 68 8"),
        (b"L 2 69", "L 2 69 69 9"),
        (b"L 3 0", "! 6"), (b"X 3", "! 6")]),
    # Only the new letters count: CC, and behind it no A of the first four.
    ("12: all letters taken out, others put in", [
        (b"O 1 2 1 0 I AAAA", "O 4 0"),
        (b"X 3", "X 3 65 3 1"),
        (b"X 2", "X 2 65 2 2"),
        (b"X 1", "X 1 65 1 3"),
        (b"X 0", "X 0 65 0 4"),
        (b"I 0 67", "I 0 67 1 5"),
        (b"I 1 67", "I 1 67 2 6"),
        (b"Q", "Q 0 1 0\nP 0 2 0"),
        (b"L 2 67", "! 6"),
        (b"I 2 65", "I 2 65 3 7"),
        (b"Q", "Q 1 2 1\nP 0 2 0\nG 2 1 0"),
        (b"B", "B X 2 65 2 6"),
        (b"A", "A I 2 65 3 7"),
        (b"Q", "Q 1 2 1\nP 0 2 0\nG 2 1 0")]),
]

PLACE_READINGS = PUT_IN_READINGS + TAKE_OUT_READINGS + ORDER_READINGS \
    + SAID_BACK_READINGS + TAKE_BACK_READINGS + FORM_READINGS \
    + CHANGE_READINGS
