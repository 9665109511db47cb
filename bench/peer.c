/* The peer of the speed comparison: the call program's lines, answered by plain C. */

#include "lines.h"

enum {
    CHANGES = 64,
    NO_TILING = 65535
};

enum {
    NO_SUCH_PLACE = 6,
    CHANGES_FULL = 7,
    NOTHING_TO_TAKE_BACK = 8,
    NOTHING_TO_PUT_AGAIN = 9,
    NOT_TILED = 10,
    NO_SHEET = 14
};

/* By its call's letter: L, I and X have a place and a letter, L the new one too; K and M have two limits, old and new. */
typedef struct {
    char call;
    unsigned place;
    uint8_t letter, new_letter;
    Limits old_limits, new_limits;
} Change;

/* The first `standing` changes stand; those from there to `kept` are taken back. */
typedef struct {
    bool is_open;
    unsigned n;
    uint8_t letters[LETTERS];
    uint8_t partner[256];
    Limits limits;
    Change changes[CHANGES];
    unsigned standing, kept;
} Sheet;

typedef struct {
    bool is_piece;
    unsigned start, length, errors;
} Part;

static Sheet sheet;

/* ---- The tiling question ---- */

static uint16_t maximal[2 * LETTERS];                   /* by centre: first place plus last place */
static uint16_t piece_first[LETTERS + 1][MOST_GAPS + 1]; /* least totals of tilings that begin with a piece */
static uint16_t least[LETTERS + 1][MOST_GAPS + 1];       /* least totals of all tilings */
static Part parts[LETTERS];

static bool pairs(unsigned first, unsigned last) {
    return sheet.letters[first] == sheet.partner[sheet.letters[last]];
}

/* Errors only grow outward from the centre, so the first pair too many ends the search. */
static unsigned maximal_length(unsigned centre) {
    unsigned n = sheet.n, d = sheet.limits.d, errors = 0, length = 0;
    unsigned first = centre / 2, last = centre - first; /* the innermost pair, or the middle letter alone */
    while (last < n) {
        errors += !pairs(first, last);
        if (errors > d)
            break;
        length = last - first + 1;
        if (first == 0)
            break;
        first--;
        last++;
    }
    return length;
}

static void find_maximal_lengths(void) {
    for (unsigned centre = 0; centre + 1 < 2 * sheet.n; centre++)
        maximal[centre] = (uint16_t)maximal_length(centre);
}

/* Asked of lengths of m or more. */
static inline bool is_piece(unsigned kind, unsigned start, unsigned length) {
    unsigned most = maximal[2 * start + length - 1];
    return kind == 1 ? length <= most : length == most;
}

static inline void lower(uint16_t *restrict row, const uint16_t *restrict by, unsigned width) {
    for (unsigned q = 0; q < width; q++)
        row[q] = by[q] < row[q] ? by[q] : row[q];
}

static void fill_with(uint16_t *row, unsigned width, uint16_t value) {
    for (unsigned q = 0; q < width; q++)
        row[q] = value;
}

static void fill_piece_first(unsigned start) {
    unsigned kind = sheet.limits.kind, longest = sheet.n - start, width = sheet.limits.g + 1;
    uint16_t *row = piece_first[start];
    fill_with(row, width, NO_TILING);
    for (unsigned length = sheet.limits.m; length <= longest; length++)
        if (is_piece(kind, start, length))
            lower(row, least[start + length], width);
}

/* gap_first goes from the next place's totals to this place's: one letter more in its gap, or a new gap of one letter.
 * A new gap may touch another; joined, the two are one gap of the same total, so the minimum is right. */
static void step_gap_first(uint16_t *gap_first, const uint16_t *next, unsigned width) {
    for (unsigned q = 1; q < width; q++) {
        uint16_t total = next[q - 1] < gap_first[q] ? next[q - 1] : gap_first[q];
        gap_first[q] = total == NO_TILING ? NO_TILING : total + 1;
    }
}

static void fill_table(void) {
    unsigned n = sheet.n, width = sheet.limits.g + 1;
    uint16_t gap_first[MOST_GAPS + 1];
    fill_with(gap_first, width, NO_TILING);
    fill_with(piece_first[n], width, 0); /* the end counts as begun with a piece, so a gap may end there */
    fill_with(least[n], width, 0);
    for (unsigned start = n; start-- > 0;) {
        fill_piece_first(start);
        step_gap_first(gap_first, least[start + 1], width);
        memcpy(least[start], piece_first[start], width * sizeof least[start][0]);
        lower(least[start], gap_first, width);
    }
}

static unsigned count_errors(unsigned start, unsigned length) {
    unsigned errors = 0;
    for (unsigned k = 0; 2 * k < length; k++)
        errors += !pairs(start + k, start + length - 1 - k);
    return errors;
}

/* The longest piece at start that keeps the least total. One exists where piece_first is least. */
static Part first_piece(unsigned start, unsigned q) {
    unsigned length = sheet.n - start;
    while (!is_piece(sheet.limits.kind, start, length) || least[start + length][q] != least[start][q])
        length--;
    return (Part){true, start, length, count_errors(start, length)};
}

/* The shortest gap at start that keeps the least total with a piece, or the end, behind it. */
static Part first_gap(unsigned start, unsigned q) {
    unsigned length = 1;
    while (length + piece_first[start + length][q - 1] != least[start][q])
        length++;
    return (Part){false, start, length, 0};
}

static unsigned read_out_parts(unsigned *gaps) {
    unsigned count = 0, q = sheet.limits.g;
    for (unsigned start = 0; start < sheet.n;) {
        bool piece = piece_first[start][q] == least[start][q];
        Part part = piece ? first_piece(start, q) : first_gap(start, q);
        if (!piece)
            q--;
        start += part.length;
        parts[count++] = part;
    }
    *gaps = sheet.limits.g - q;
    return count;
}

static void answer_question(void) {
    find_maximal_lengths();
    fill_table();
    unsigned total = least[0][sheet.limits.g], gaps;
    if (total == NO_TILING) {
        put_refusal(NOT_TILED);
        return;
    }
    unsigned count = read_out_parts(&gaps);
    put_line('Q', (unsigned[]){total, count, gaps}, 3);
    for (unsigned k = 0; k < count; k++) {
        Part part = parts[k];
        put_line(part.is_piece ? 'P' : 'G', (unsigned[]){part.start, part.length, part.errors}, 3);
    }
}

/* ---- The sheet ---- */

static void set_map(bool complement) {
    for (unsigned byte = 0; byte < 256; byte++)
        sheet.partner[byte] = (uint8_t)byte;
    if (complement) {
        sheet.partner['A'] = 'T';
        sheet.partner['T'] = 'A';
        sheet.partner['C'] = 'G';
        sheet.partner['G'] = 'C';
    }
}

static void open_sheet(Limits limits, bool complement, const uint8_t *string, size_t n) {
    unsigned refusal = n > LETTERS ? TOO_MANY_LETTERS : refusal_of_limits(limits);
    if (refusal != 0) {
        put_refusal(refusal);
        return;
    }
    sheet.is_open = true;
    sheet.n = (unsigned)n;
    memcpy(sheet.letters, string, n);
    set_map(complement);
    sheet.limits = limits;
    sheet.standing = sheet.kept = 0;
    put_line('O', (unsigned[]){sheet.n, 0}, 2);
}

static void put_limits_line(char call) {
    Limits now = sheet.limits;
    put_line(call, (unsigned[]){now.kind, now.m, now.g, now.d, sheet.standing}, 5);
}

/* K sets kind and d, M sets m and g; each keeps what it does not name. */
static Limits with_limits(char call, Limits asked) {
    Limits limits = sheet.limits;
    if (call == 'K') {
        limits.kind = asked.kind;
        limits.d = asked.d;
    } else {
        limits.m = asked.m;
        limits.g = asked.g;
    }
    return limits;
}

static void set_limits(char call, Limits asked) {
    sheet.limits = with_limits(call, asked);
    put_limits_line(call);
}

static void set_letter(unsigned place, uint8_t letter) {
    uint8_t replaced = sheet.letters[place];
    sheet.letters[place] = letter;
    put_line('L', (unsigned[]){place, replaced, letter, sheet.standing}, 4);
}

static void put_letter_in(unsigned place, uint8_t letter) {
    memmove(sheet.letters + place + 1, sheet.letters + place, sheet.n - place);
    sheet.letters[place] = letter;
    sheet.n++;
    put_line('I', (unsigned[]){place, letter, sheet.n, sheet.standing}, 4);
}

static void take_letter_out(unsigned place) {
    uint8_t letter = sheet.letters[place];
    sheet.n--;
    memmove(sheet.letters + place, sheet.letters + place + 1, sheet.n - place);
    put_line('X', (unsigned[]){place, letter, sheet.n, sheet.standing}, 4);
}

static void make(const Change *change) {
    switch (change->call) {
    case 'L': set_letter(change->place, change->new_letter); break;
    case 'I': put_letter_in(change->place, change->letter); break;
    case 'X': take_letter_out(change->place); break;
    default: set_limits(change->call, change->new_limits);
    }
}

static void undo(const Change *change) {
    switch (change->call) {
    case 'L': set_letter(change->place, change->letter); break;
    case 'I': take_letter_out(change->place); break;
    case 'X': put_letter_in(change->place, change->letter); break;
    default: set_limits(change->call, change->old_limits);
    }
}

/* A new change drops those that were taken back. */
static void accept(Change change) {
    sheet.changes[sheet.standing++] = change;
    sheet.kept = sheet.standing;
    make(&sheet.changes[sheet.standing - 1]);
}

static unsigned refusal_of_letter(char call, unsigned place) {
    if (call == 'I' ? place > sheet.n : place >= sheet.n)
        return NO_SUCH_PLACE;
    return call == 'I' && sheet.n == LETTERS ? TOO_MANY_LETTERS : 0;
}

static void accept_or_refuse(unsigned refusal, Change change) {
    if (refusal == 0 && sheet.standing == CHANGES)
        refusal = CHANGES_FULL;
    if (refusal == 0)
        accept(change);
    else
        put_refusal(refusal);
}

static void change_letter(char call, unsigned place, uint8_t letter) {
    unsigned refusal = refusal_of_letter(call, place);
    uint8_t there = refusal == 0 && call != 'I' ? sheet.letters[place] : letter;
    accept_or_refuse(refusal, (Change){.call = call, .place = place, .letter = there, .new_letter = letter});
}

/* The limits in force pass, so what the call does not name is refused by nothing. */
static void change_limits(char call, Limits asked) {
    Limits limits = with_limits(call, asked);
    accept_or_refuse(refusal_of_limits(limits), (Change){.call = call, .old_limits = sheet.limits, .new_limits = limits});
}

static void take_back(void) {
    if (sheet.standing == 0) {
        put_refusal(NOTHING_TO_TAKE_BACK);
        return;
    }
    put_char('B');
    put_char(' ');
    sheet.standing--;
    undo(&sheet.changes[sheet.standing]);
}

static void put_again(void) {
    if (sheet.standing == sheet.kept) {
        put_refusal(NOTHING_TO_PUT_AGAIN);
        return;
    }
    put_char('A');
    put_char(' ');
    sheet.standing++;
    make(&sheet.changes[sheet.standing - 1]);
}

/* ---- Lines ---- */

static bool answer_open(Cursor *cursor) {
    Limits limits;
    uint8_t map;
    if (!take_limits(cursor, &limits) || !take_space(cursor) || !take_byte(cursor, &map) || !take_space(cursor))
        return false;
    if (map != 'I' && map != 'C')
        return false;
    open_sheet(limits, map == 'C', cursor->at, (size_t)(cursor->end - cursor->at));
    return true;
}

/* One or two numbers, then the end of the line. */
static bool take_numbers(Cursor *cursor, unsigned *first, unsigned *second) {
    return take_number(cursor, first) && (second == NULL || take_number(cursor, second)) && cursor->at == cursor->end;
}

static bool answer_letter(char call, Cursor *cursor) {
    unsigned place, byte = 0;
    if (!take_numbers(cursor, &place, call == 'X' ? NULL : &byte) || byte > 255)
        return false;
    if (sheet.is_open)
        change_letter(call, place, (uint8_t)byte);
    else
        put_refusal(NO_SHEET);
    return true;
}

static bool answer_limits(char call, Cursor *cursor) {
    Limits asked = {0};
    bool is_kind = call == 'K';
    if (!take_numbers(cursor, is_kind ? &asked.kind : &asked.m, is_kind ? &asked.d : &asked.g))
        return false;
    if (sheet.is_open)
        change_limits(call, asked);
    else
        put_refusal(NO_SHEET);
    return true;
}

static bool answer_bare(Cursor *cursor, void (*answer)(void)) {
    if (cursor->at != cursor->end)
        return false;
    if (sheet.is_open)
        answer();
    else
        put_refusal(NO_SHEET);
    return true;
}

static bool answer_line(const uint8_t *line, size_t length) {
    Cursor cursor = {line, line + length};
    uint8_t letter;
    if (length > LINE_BYTES || !take_byte(&cursor, &letter))
        return false;
    switch (letter) {
    case 'O': return answer_open(&cursor);
    case 'L':
    case 'I':
    case 'X': return answer_letter((char)letter, &cursor);
    case 'K':
    case 'M': return answer_limits((char)letter, &cursor);
    case 'B': return answer_bare(&cursor, take_back);
    case 'A': return answer_bare(&cursor, put_again);
    case 'Q': return answer_bare(&cursor, answer_question);
    default: return false;
    }
}

int main(void) { return answer_input(); }
