/* The peer of the second question, do the part records agree with the string: inspect's line Y, answered by plain C. */

#include "lines.h"

enum {
    RECORD_BYTES = 6,
    FILE_BYTES = LINE_BYTES / 2 /* two digits a byte: no line holds a longer file */
};

/* The first byte of a record. */
enum { PIECE = 80, GAP = 71 };

enum {
    NOT_ITS_INVERSE = 3,
    BROKEN_RECORD = 15,
    NO_RIGHT_PART = 16,
    RECORDS_DONT_TILE = 17,
    NOT_CLOSED = 18,
    LETTER_OUTSIDE = 19
};

/* A string, which stands in the line, with its map and the flags of its alphabet; whether a letter is its own partner is found out. */
typedef struct {
    const uint8_t *letters;
    unsigned n;
    const uint8_t *partner;
    const uint8_t *flags;
    bool own_partner;
} Text;

typedef struct {
    bool is_piece;
    unsigned start, length, errors;
} Part;

/* ---- Maps and alphabets ---- */

static uint8_t plain_map[256], complement_map[256], all_bytes[256], bases[256];

/* Once at the start, so that no line pays for a map or an alphabet. */
static void make_maps(void) {
    memset(all_bytes, 1, sizeof all_bytes);
    bases['A'] = bases['C'] = bases['G'] = bases['T'] = 1;
    for (unsigned byte = 0; byte < 256; byte++)
        plain_map[byte] = complement_map[byte] = (uint8_t)byte;
    complement_map['A'] = 'T';
    complement_map['T'] = 'A';
    complement_map['C'] = 'G';
    complement_map['G'] = 'C';
}

/* ---- Palindromes ---- */

static inline bool pairs(const Text *text, unsigned first, unsigned last) {
    return text->letters[first] == text->partner[text->letters[last]];
}

/* The maximal d-palindrome of a centre, of length 0 where there is none.
 * Errors only grow outward from the centre, so the first pair too many ends the search. */
static inline Part maximal_part(const Text *text, unsigned d, unsigned centre) {
    Part part = {.is_piece = true};
    if (centre % 2 == 0 && !text->own_partner)
        return part;
    unsigned n = text->n, errors = 0;
    unsigned first = centre / 2, last = centre - first; /* the innermost pair, or the middle letter alone */
    while (last < n) {
        errors += !pairs(text, first, last);
        if (errors > d)
            break;
        part = (Part){true, first, last - first + 1, errors};
        if (first == 0)
            break;
        first--;
        last++;
    }
    return part;
}

static unsigned count_errors(const Text *text, unsigned start, unsigned length) {
    unsigned errors = 0;
    for (unsigned k = 0; 2 * k < length; k++)
        errors += !pairs(text, start + k, start + length - 1 - k);
    return errors;
}

/* The map is lent to the question, which tests it whatever made it. */
static bool is_own_inverse(const uint8_t *partner) {
    for (unsigned byte = 0; byte < 256; byte++)
        if (partner[partner[byte]] != byte)
            return false;
    return true;
}

static bool is_closed(const uint8_t *flags, const uint8_t *partner) {
    for (unsigned byte = 0; byte < 256; byte++)
        if (flags[byte] && !flags[partner[byte]])
            return false;
    return true;
}

static bool is_spelt(const Text *text) {
    for (unsigned k = 0; k < text->n; k++)
        if (!text->flags[text->letters[k]])
            return false;
    return true;
}

static bool has_own_partner(const uint8_t *flags, const uint8_t *partner) {
    for (unsigned byte = 0; byte < 256; byte++)
        if (flags[byte] && partner[byte] == byte)
            return true;
    return false;
}

/* 2 cannot occur: both maps have 256 bytes, and so have the flags. */
static unsigned refusal_of_opening(Limits limits, const Text *text) {
    if (text->n > LETTERS)
        return TOO_MANY_LETTERS;
    if (!is_own_inverse(text->partner))
        return NOT_ITS_INVERSE;
    if (!is_closed(text->flags, text->partner))
        return NOT_CLOSED;
    return is_spelt(text) ? refusal_of_limits(limits) : LETTER_OUTSIDE;
}

/* ---- The second question: do the records agree with the string? ---- */

static unsigned two_bytes(const uint8_t *bytes) { return 256u * bytes[0] + bytes[1]; }

static Part part_of(const uint8_t *record) {
    return (Part){record[0] == PIECE, two_bytes(record + 2), two_bytes(record + 4), record[1]};
}

/* Asked of parts inside the string. For kind 2 one walk from the centre tells length and errors. */
static bool is_right_piece(const Text *text, Limits limits, Part part) {
    if (part.length < limits.m)
        return false;
    if (limits.kind == 1)
        return part.errors == 0 && count_errors(text, part.start, part.length) == 0;
    Part most = maximal_part(text, limits.d, 2 * part.start + part.length - 1);
    return part.length == most.length && part.errors == most.errors;
}

static bool is_right_gap(Part part) { return part.errors == 0 && part.length > 0; }

static bool is_right_part(const Text *text, Limits limits, const uint8_t *record) {
    Part part = part_of(record);
    if (part.start + part.length > text->n)
        return false;
    return part.is_piece ? is_right_piece(text, limits, part) : record[0] == GAP && is_right_gap(part);
}

static bool are_right_parts(const Text *text, Limits limits, const uint8_t *file, const uint8_t *end) {
    for (const uint8_t *record = file; record < end; record += RECORD_BYTES)
        if (!is_right_part(text, limits, record))
            return false;
    return true;
}

/* Asked of right parts: each has a letter and is a piece or a gap. */
static bool parts_tile(unsigned n, unsigned g, const uint8_t *file, const uint8_t *end) {
    unsigned covered = 0, gaps = 0;
    bool after_gap = false;
    for (const uint8_t *record = file; record < end; record += RECORD_BYTES) {
        Part part = part_of(record);
        if (part.start != covered || (after_gap && !part.is_piece))
            return false;
        covered += part.length;
        gaps += !part.is_piece;
        after_gap = !part.is_piece;
    }
    return covered == n && gaps <= g;
}

/* A record that is no right part goes before records that don't tile, so all are judged first. */
static unsigned refusal_of_file(Text *text, Limits limits, const uint8_t *file, size_t length) {
    unsigned refusal = refusal_of_opening(limits, text);
    if (refusal != 0)
        return refusal;
    text->own_partner = has_own_partner(text->flags, text->partner);
    if (length % RECORD_BYTES != 0)
        return BROKEN_RECORD;
    if (!are_right_parts(text, limits, file, file + length))
        return NO_RIGHT_PART;
    return parts_tile(text->n, limits.g, file, file + length) ? 0 : RECORDS_DONT_TILE;
}

/* ---- The line ---- */

/* A space and the byte of a map. Inspect's further maps, S, X and Y, are not known here. */
static bool take_map(Cursor *cursor, const uint8_t **partner) {
    uint8_t map;
    if (!take_space(cursor) || !take_byte(cursor, &map))
        return false;
    *partner = map == 'C' ? complement_map : plain_map;
    return map == 'I' || map == 'C';
}

/* A space and the byte of an alphabet, all bytes or the four bases. */
static bool take_alphabet(Cursor *cursor, const uint8_t **flags) {
    uint8_t alphabet;
    if (!take_space(cursor) || !take_byte(cursor, &alphabet))
        return false;
    *flags = alphabet == 'D' ? bases : all_bytes;
    return alphabet == '*' || alphabet == 'D';
}

/* A space and the rest of the line. */
static bool take_string(Cursor *cursor, Text *text) {
    if (!take_space(cursor))
        return false;
    text->letters = cursor->at;
    text->n = (unsigned)(cursor->end - cursor->at);
    return true;
}

/* The value of each digit and one more, so that 0 says no digit. */
static const uint8_t digit_values[256] = {['0'] = 1, 2, 3, 4, 5, 6, 7, 8, 9, 10, ['a'] = 11, 12, 13, 14, 15, 16};

/* A space and two hexadecimal digits a byte, up to the next space. That one stays: it belongs to the string. */
static bool take_file(Cursor *cursor, uint8_t *file, size_t *length) {
    if (!take_space(cursor))
        return false;
    uint8_t *to = file;
    while (cursor->end - cursor->at >= 2 && *cursor->at != ' ') {
        unsigned high = digit_values[cursor->at[0]], low = digit_values[cursor->at[1]];
        if (high == 0 || low == 0)
            return false;
        *to++ = (uint8_t)(16 * (high - 1) + (low - 1));
        cursor->at += 2;
    }
    *length = (size_t)(to - file);
    return true;
}

static bool answer_file(Cursor *cursor) {
    uint8_t file[FILE_BYTES];
    size_t length;
    Limits limits;
    Text text;
    if (!take_limits(cursor, &limits) || !take_map(cursor, &text.partner) || !take_alphabet(cursor, &text.flags) ||
        !take_file(cursor, file, &length) || !take_string(cursor, &text))
        return false;
    unsigned number = refusal_of_file(&text, limits, file, length);
    put_line('Y', &number, 1);
    return true;
}

static bool answer_line(const uint8_t *line, size_t length) {
    Cursor cursor = {line, line + length};
    uint8_t letter;
    return length <= LINE_BYTES && take_byte(&cursor, &letter) && letter == 'Y' && answer_file(&cursor);
}

int main(void) {
    make_maps();
    return answer_input();
}
