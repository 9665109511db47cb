"""Palindromes for the second program, by the definitions of 01 and of requests
L2, L3 and L7 (02): exact ones, those with errors, the longest, what stops one,
and those that only need another order of their letters."""

import collections
import functools

# What stops the palindrome of a centre.
PAIR_BLOCKS, END_MET, BARRED = 1, 2, 3


# Spans and centres.

def is_exact_palindrome(span, letter_map):
    length = len(span)
    return length >= 1 and all(
        span[k] == letter_map[span[length - 1 - k]] for k in range(length))


def error_count(span, letter_map):
    length = len(span)
    unequal_pairs = sum(
        1 for k in range(length)
        if k < length - 1 - k and span[k] != letter_map[span[length - 1 - k]])
    middle = span[length // 2]
    odd_middle = length % 2 == 1 and middle != letter_map[middle]
    return unequal_pairs + (1 if odd_middle else 0)


@functools.lru_cache(maxsize=None)
def has_own_partner(letter_map, alphabet):
    """Whether some letter of the alphabet is its own partner."""
    return any(alphabet[x] != 0 and letter_map[x] == x for x in range(256))


def is_d_palindrome(span, letter_map, alphabet, d):
    """Where no letter of the alphabet can stand in the middle, a span of odd
    length is none at any d."""
    if len(span) % 2 == 1 and not has_own_partner(letter_map, alphabet):
        return False
    return error_count(span, letter_map) <= d


def spans_at_centre(letters, centre):
    """All spans (start, length) with first place + last place = centre."""
    for first in range(len(letters)):
        last = centre - first
        if first <= last < len(letters):
            yield first, last - first + 1


def maximal_length_by_definition(letters, letter_map, alphabet, centre, d):
    lengths = [length for start, length in spans_at_centre(letters, centre)
               if is_d_palindrome(letters[start:start + length], letter_map,
                                  alphabet, d)]
    return max(lengths, default=0)


def grown_length(letters, letter_map, centre, d):
    """The longest span of a centre with at most d errors. Grows outward: a
    longer span never has fewer errors."""
    first, last = centre // 2, (centre + 1) // 2
    errors, longest = 0, 0
    while first >= 0 and last < len(letters):
        if letters[first] != letter_map[letters[last]]:
            errors += 1
        if errors > d:
            break
        longest = last - first + 1
        first, last = first - 1, last + 1
    return longest


def exact_lengths(letters, letter_map):
    """The longest exact palindromes of all centres; no alphabet is asked."""
    return [grown_length(letters, letter_map, centre, 0)
            for centre in range(2 * len(letters) - 1)]


def maximal_length(letters, letter_map, alphabet, centre, d):
    """The spans of an even centre are all of odd length."""
    if centre % 2 == 0 and not has_own_partner(letter_map, alphabet):
        return 0
    return grown_length(letters, letter_map, centre, d)


def maximal_lengths(letters, letter_map, alphabet, d):
    return [maximal_length(letters, letter_map, alphabet, centre, d)
            for centre in range(2 * len(letters) - 1)]


def start_of_span(centre, length):
    return (centre + 1 - length) // 2


def stop(letters, letter_map, alphabet, centre, d):
    """What stops the palindrome of a centre: the case, and both places of the
    pair that blocks, else zeros. Counts the errors of whole spans, so that it
    doesn't rest on the walk that gives the length."""
    if centre % 2 == 0 and not has_own_partner(letter_map, alphabet):
        return BARRED, 0, 0
    # Each pair outward is the ends of a span; a middle letter is both ends.
    for start, length in reversed(list(spans_at_centre(letters, centre))):
        if error_count(letters[start:start + length], letter_map) > d:
            return PAIR_BLOCKS, start, start + length - 1
    return END_MET, 0, 0


# The longest of a string or of two.

def longest_palindrome_by_definition(letters, letter_map):
    """(start, length), the first of the longest; (0, 0) where none is."""
    for length in range(len(letters), 0, -1):
        for start in range(len(letters) - length + 1):
            span = letters[start:start + length]
            if is_exact_palindrome(span, letter_map):
                return start, length
    return 0, 0


def longest_palindrome(letters, letter_map):
    lengths = exact_lengths(letters, letter_map)
    longest = max(lengths, default=0)
    if longest == 0:
        return 0, 0
    starts = [start_of_span(centre, length)
              for centre, length in enumerate(lengths) if length == longest]
    return min(starts), longest


def longest_part(letters, letter_map):
    start, length = longest_palindrome(letters, letter_map)
    return letters[start:start + length]


def longer_of_two(first, second, letter_map):
    parts = longest_part(first, letter_map), longest_part(second, letter_map)
    return parts[1] if len(parts[1]) > len(parts[0]) else parts[0]


# Shuffled palindromes: at most one letter occurs an odd number of times.

def longest_shuffled(letters, start):
    """The longest that begins at a place. The counts grow letter by letter,
    and with them the number of letters that are counted oddly often."""
    counts, odd_ones, longest = collections.Counter(), 0, 0
    for length, letter in enumerate(letters[start:], 1):
        counts[letter] += 1
        odd_ones += 1 if counts[letter] % 2 == 1 else -1
        if odd_ones <= 1:
            longest = length
    return longest


def shuffled_lengths(letters):
    return [longest_shuffled(letters, start) for start in range(len(letters))]
