/* The peer of the fill of shuffled palindromes: inspect's line A, answered by plain C. At most 1,000 entries are known here. */

#include "lines.h"
#include "shuffles.h"

enum { TOO_FEW_ENTRIES = 11, BYTE_OUTSIDE = 20, BEFORE = 9 };

static unsigned refusal_of(const uint8_t *letters, size_t n, unsigned entries) {
    if (n > LETTERS)
        return TOO_MANY_LETTERS;
    for (size_t k = 0; k < n; k++)
        if (letters[k] < 'A' || letters[k] > 'Z')
            return BYTE_OUTSIDE;
    return entries < n ? TOO_FEW_ENTRIES : 0;
}

static void put_entries(const uint16_t *entries, unsigned count) {
    put_char('E');
    for (unsigned k = 0; k < count; k++) {
        put_char(' ');
        put_number(entries[k]);
    }
    put_char('\n');
}

static bool answer_line(const uint8_t *line, size_t length) {
    Cursor cursor = {line, line + length};
    uint8_t letter;
    unsigned count;
    if (length > LINE_BYTES || !take_byte(&cursor, &letter) || letter != 'A' || !take_number(&cursor, &count) ||
        count > LETTERS || !take_space(&cursor))
        return false;
    uint16_t entries[LETTERS];
    for (unsigned k = 0; k < count; k++)
        entries[k] = BEFORE;
    size_t n = (size_t)(cursor.end - cursor.at);
    unsigned number = refusal_of(cursor.at, n, count);
    if (number == 0)
        fill_from_the_end(cursor.at, (unsigned)n, entries);
    put_line('A', &number, 1);
    put_entries(entries, count);
    return true;
}

int main(void) { return answer_input(); }
