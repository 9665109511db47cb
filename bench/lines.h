/* What the peers of the speed comparison share: limits, replies, the fields of a line, and lines taken in from standard
 * input. Input is read in pieces, and each reply is written by one write, as our programs do it. A peer has answer_line. */

#include <stdbool.h>
#include <stdint.h>
#include <string.h>
#include <unistd.h>

enum {
    LETTERS = 1000,
    MOST_GAPS = 15,
    MOST_ERRORS = 15,
    LINE_BYTES = 1040,
    INPUT_BYTES = 65536,
    PART_BYTES = 14, /* "P 999 1000 15" and a line end: no part's line is longer */
    REPLY_BYTES = 64 + LETTERS * PART_BYTES
};

enum {
    TOO_MANY_LETTERS = 1,
    NO_SUCH_KIND = 4,
    LIMIT_OUT_OF_RANGE = 5,
    NOT_UNDERSTOOD = 13
};

typedef struct {
    unsigned kind, m, g, d;
} Limits;

static unsigned refusal_of_limits(Limits limits) {
    if (limits.kind != 1 && limits.kind != 2)
        return NO_SUCH_KIND;
    if (limits.m == 0 || limits.m > LETTERS || limits.g > MOST_GAPS || limits.d > MOST_ERRORS)
        return LIMIT_OUT_OF_RANGE;
    return limits.kind == 1 && limits.d != 0 ? LIMIT_OUT_OF_RANGE : 0;
}

/* ---- Replies ---- */

static char reply[REPLY_BYTES];
static size_t reply_length;

static void put_char(char c) { reply[reply_length++] = c; }

static void put_number(unsigned value) {
    char digits[10];
    unsigned count = 0;
    do {
        digits[count++] = (char)('0' + value % 10);
        value /= 10;
    } while (value > 0);
    while (count > 0)
        put_char(digits[--count]);
}

/* A letter, then each number after a space, then the line end. */
static void put_line(char letter, const unsigned *numbers, unsigned count) {
    put_char(letter);
    for (unsigned k = 0; k < count; k++) {
        put_char(' ');
        put_number(numbers[k]);
    }
    put_char('\n');
}

static void put_refusal(unsigned number) { put_line('!', &number, 1); }

static bool send_reply(void) {
    size_t sent = 0;
    while (sent < reply_length) {
        ssize_t count = write(STDOUT_FILENO, reply + sent, reply_length - sent);
        if (count <= 0)
            return false;
        sent += (size_t)count;
    }
    reply_length = 0;
    return true;
}

/* ---- Fields ---- */

typedef struct {
    const uint8_t *at, *end;
} Cursor;

static bool take_byte(Cursor *cursor, uint8_t *byte) {
    if (cursor->at == cursor->end)
        return false;
    *byte = *cursor->at++;
    return true;
}

static bool take_space(Cursor *cursor) {
    uint8_t byte;
    return take_byte(cursor, &byte) && byte == ' ';
}

/* A space and a number of 1 to 4 digits without a leading zero. */
static bool take_number(Cursor *cursor, unsigned *value) {
    if (!take_space(cursor))
        return false;
    const uint8_t *start = cursor->at;
    *value = 0;
    while (cursor->at < cursor->end && *cursor->at >= '0' && *cursor->at <= '9' && cursor->at - start < 4)
        *value = *value * 10 + (*cursor->at++ - '0');
    return cursor->at > start && (*start != '0' || cursor->at - start == 1);
}

static bool take_limits(Cursor *cursor, Limits *limits) {
    return take_number(cursor, &limits->kind) && take_number(cursor, &limits->m) && take_number(cursor, &limits->g) &&
           take_number(cursor, &limits->d);
}

/* ---- Lines ---- */

/* False where the line is not understood. */
static bool answer_line(const uint8_t *line, size_t length);

static bool reply_to(const uint8_t *line, size_t length) {
    if (!answer_line(line, length))
        put_refusal(NOT_UNDERSTOOD);
    return send_reply();
}

/* ---- Input ---- */

static uint8_t input[INPUT_BYTES];
static uint8_t line[LINE_BYTES + 1]; /* one byte more than a right line has, to know a line that is too long */
static size_t line_length;

static void keep_bytes(const uint8_t *bytes, size_t count) {
    size_t room = sizeof line - line_length;
    size_t kept = count < room ? count : room;
    memcpy(line + line_length, bytes, kept);
    line_length += kept;
}

/* Answers each line that ends in these bytes and keeps the begun one. */
static bool feed(const uint8_t *bytes, size_t count) {
    const uint8_t *end = bytes + count;
    while (bytes < end) {
        const uint8_t *line_end = memchr(bytes, '\n', (size_t)(end - bytes));
        keep_bytes(bytes, (size_t)((line_end != NULL ? line_end : end) - bytes));
        if (line_end == NULL)
            return true;
        if (!reply_to(line, line_length))
            return false;
        line_length = 0;
        bytes = line_end + 1;
    }
    return true;
}

/* All lines of standard input, each answered by one write. */
static int answer_input(void) {
    ssize_t count;
    while ((count = read(STDIN_FILENO, input, sizeof input)) > 0)
        if (!feed(input, (size_t)count))
            return 1;
    if (count < 0)
        return 1;
    return line_length == 0 || reply_to(line, line_length) ? 0 : 1;
}
