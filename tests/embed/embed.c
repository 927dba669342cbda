/*
 * Cases on standard input, one a line, and on standard output what rs274_line leaves of each: the columns are
 * those of tests/second/README.md, so that the second program's answers can be held beside them. A case that
 * cannot be read is answered with "no case", and then the exit status is 1.
 */
#include "rs274.h"

int getchar(void);
int printf(const char *, ...);

enum { MOST_TEXT = 1 << 20, MOST_NUMBERS = 1000000, FILLER = 77 };

struct lent {
    size_t line_length;
    bool block_delete;
    size_t table_length;
    size_t room;
};

static char text[MOST_TEXT + 1];
static const char *at; /* the place in text that is read next */
static uint8_t line[MOST_TEXT / 2];
static int64_t rec[RS274_RECORD];
static int64_t before[MOST_NUMBERS]; /* the table as it was */
static int64_t table[MOST_NUMBERS];
static int64_t out[MOST_NUMBERS];

/* ---- reading a case */

/* The next line of text; a last one without a line feed counts if it has a byte. One that is too long to be
   held is left empty, which is no case. */
static bool next_text(void) {
    size_t length = 0;
    int byte = getchar();
    if (byte < 0) return false;
    for (; byte >= 0 && byte != '\n'; byte = getchar()) {
        if (length < MOST_TEXT) text[length] = (char)byte;
        if (length <= MOST_TEXT) length++;
    }
    text[length <= MOST_TEXT ? length : 0] = 0;
    at = text;
    return true;
}

static bool take(char wanted) {
    if (*at != wanted) return false;
    at++;
    return true;
}

static int hex_digit(char c) {
    if ('0' <= c && c <= '9') return c - '0';
    if ('a' <= c && c <= 'f') return c - 'a' + 10;
    return -1;
}

/* A whole number of 64 bits with a sign. */
static bool take_number(int64_t *number) {
    bool below_zero = take('-');
    uint64_t size = 0, most = (uint64_t)INT64_MAX + below_zero;
    if (*at < '0' || '9' < *at) return false;
    for (; '0' <= *at && *at <= '9'; at++) {
        uint64_t digit = (uint64_t)(*at - '0');
        if (size > (most - digit) / 10) return false;
        size = 10 * size + digit;
    }
    *number = below_zero && size > 0 ? -(int64_t)(size - 1) - 1 : (int64_t)size;
    return true;
}

static bool take_count(size_t *count, size_t most) {
    int64_t number;
    if (!take_number(&number) || number < 0 || (uint64_t)number > most) return false;
    *count = (size_t)number;
    return true;
}

/* The bytes of the line, two digits each. */
static bool take_line(struct lent *lent) {
    lent->line_length = 0;
    if (take('-')) return true;
    while (*at != ' ') {
        int high = hex_digit(at[0]);
        int low = high < 0 ? -1 : hex_digit(at[1]);
        if (low < 0) return false;
        line[lent->line_length++] = (uint8_t)(16 * high + low);
        at += 2;
    }
    return true;
}

static bool take_switch(struct lent *lent) {
    lent->block_delete = *at == '1';
    return take('0') || take('1');
}

static bool take_record(void) {
    for (int i = 0; i < RS274_RECORD; i++) {
        if (i > 0 && !take(',')) return false;
        if (!take_number(&rec[i])) return false;
    }
    return true;
}

/* The entries that are not 0. */
static bool take_entries(const struct lent *lent) {
    for (size_t i = 0; i < lent->table_length; i++) before[i] = 0;
    if (take('-')) return true;
    do {
        size_t entry;
        if (!take_count(&entry, MOST_NUMBERS) || entry >= lent->table_length) return false;
        if (!take(':') || !take_number(&before[entry])) return false;
    } while (take(','));
    return true;
}

static bool take_case(struct lent *lent) {
    if (!take_line(lent) || !take(' ')) return false;
    if (!take_switch(lent) || !take(' ')) return false;
    if (!take_record() || !take(' ')) return false;
    if (!take_count(&lent->table_length, MOST_NUMBERS) || !take(' ')) return false;
    if (!take_entries(lent) || !take(' ')) return false;
    if (!take_count(&lent->room, MOST_NUMBERS) || *at != 0) return false;
    for (size_t i = 0; i < lent->table_length; i++) table[i] = before[i];
    for (size_t i = 0; i < lent->room; i++) out[i] = FILLER;
    return true;
}

/* ---- writing an answer */

static void put_numbers(const int64_t *numbers, size_t count) {
    if (count == 0) printf("-");
    for (size_t i = 0; i < count; i++) printf(i == 0 ? "%lld" : ",%lld", (long long)numbers[i]);
}

static void put_changes(size_t table_length) {
    size_t changes = 0;
    for (size_t i = 0; i < table_length; i++) {
        if (table[i] == before[i]) continue;
        printf(changes++ == 0 ? "%zu:%lld" : ",%zu:%lld", i, (long long)table[i]);
    }
    if (changes == 0) printf("-");
}

static bool same_from(size_t first, size_t room) {
    for (size_t i = first; i < room; i++) {
        if (out[i] != FILLER) return false;
    }
    return true;
}

static void put_answer(struct rs274_answer answer, const struct lent *lent) {
    uint64_t fit = lent->room / RS274_COMMAND;
    size_t written = RS274_COMMAND * (size_t)(answer.count < fit ? answer.count : fit);
    printf("%lu %llu ", (unsigned long)answer.number, (unsigned long long)answer.count);
    printf("%llu %llu ", (unsigned long long)answer.place, (unsigned long long)answer.work);
    put_numbers(rec, RS274_RECORD);
    printf(" ");
    put_changes(lent->table_length);
    printf(" ");
    put_numbers(out, written);
    printf(same_from(written, lent->room) ? " ok\n" : " changed\n");
}

int main(void) {
    int status = 0;
    while (next_text()) {
        struct lent lent;
        if (!take_case(&lent)) {
            printf("no case\n");
            status = 1;
            continue;
        }
        put_answer(rs274_line(line, lent.line_length, lent.block_delete, rec, RS274_RECORD,
                              table, lent.table_length, out, lent.room), &lent);
    }
    return status;
}
