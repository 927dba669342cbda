/* The line that takes longest: 256-byte lines of many kinds, and every two kinds joined half and half, through the
   library that a control links. For each the least of many turns, in nanoseconds, and the number it is given. */
#define _POSIX_C_SOURCE 199309L
#include "rs274.h"
#include <limits.h>
#include <stdio.h>
#include <stdlib.h>
#include <string.h>
#include <time.h>

enum { LENGTH = 256, TURNS = 50, FINALISTS = 30, ROUNDS = 40, SHOWN = 5 };

/* `start`, then `part` and, at the end, `close`, each as often as fits, with `middle` between them. */
struct kind {
    const char *name, *start, *part, *middle, *close;
};

static const struct kind kinds[] = {
    {"blanks", "", " ", "", ""},
    {"one comment", "(", "a", ")", ""},
    {"empty comments", "", "()", "", ""},
    {"G words of one group", "", "G1", "", ""},
    {"G words not served", "", "G9", "", ""},
    {"G words of many groups", "", "G1G4G17G90G94G21G40G49G54", "", ""},
    {"G59.3", "", "G59.3", "", ""},
    {"M words of one group", "", "M3", "", ""},
    {"M words of many groups", "", "M0M6M3M7", "", ""},
    {"axis words", "", "X1", "", ""},
    {"axis words of three letters", "G1", "X1Y1Z1", "", ""},
    {"all letters", "", "F1G1I1J1K1L1M1P1S1T1X1Y1Z1", "", ""},
    {"one long number", "X", "0", "1", ""},
    {"numbers of nine digits", "", "X99999.9999", "", ""},
    {"settings", "", "#1=1", "", ""},
    {"settings of settings", "", "##1=#1", "", ""},
    {"brackets", "X", "[", "1", "]"},
    {"brackets never closed", "X", "[", "", ""},
    {"nests of 24 in a sum", "X[1", "+[[[[[[[[[[[[[[[[[[[[[[[1]]]]]]]]]]]]]]]]]]]]]]]", "]", ""},
    {"parameters of parameters", "X", "#", "1", ""},
    {"parameters of brackets", "X", "#[", "1", "]"},
    {"functions", "X", "ABS[", "1", "]"},
    {"rounding", "X", "ROUND[", "1", "]"},
    {"sum", "X[1", "+1", "]", ""},
    {"product", "X[1", "*1", "]", ""},
    {"quotient", "X[1", "/3", "]", ""},
    {"remainder", "X[9", "MOD7", "]", ""},
    {"sum of products", "X[1", "+3*3", "]", ""},
    {"sums within sums", "X", "[1+", "1", "]"},
    {"products within sums", "X", "[1+2*", "1", "]"},
    {"parameters in a sum", "X[1", "+#1", "]", ""},
    {"a condition that says yes", "/[1", "+1", "]", ""},
    {"a condition that says no, and words", "/[0]", "X1", "", ""},
    {"an arc and comments", "G2X1I0.5F100", "(a)", "", ""},
    {"a move and blanks", "N1G1X1Y1Z1F100S100T1M3M8", " ", "", ""},
    {"a move and settings", "N1G1X1Y1Z1F100S100T1M3M8", "#1=1", "", ""},
    {"an origin and settings", "G10L2P1X1Y1Z1", "#1=1", "", ""},
    {"an offset and settings", "G92X1Y1Z1F1S1T1M2M6M8", "#1=1", "", ""},
};
enum { KINDS = sizeof kinds / sizeof *kinds };

struct found {
    long time;
    unsigned number;
    size_t first, second;
};

static int64_t table[RS274_TABLE], rec[RS274_RECORD], out[RS274_COMMAND * RS274_COMMANDS];

/* Writes a line of a kind, of at most `room` bytes, and returns its length. */
static size_t lay(const struct kind *kind, char *line, size_t room) {
    size_t start = strlen(kind->start), part = strlen(kind->part);
    size_t middle = strlen(kind->middle), close = strlen(kind->close);
    size_t length = 0, times = (room - start - middle) / (part + close);
    memcpy(line, kind->start, start);
    length += start;
    for (size_t i = 0; i < times; i++, length += part) memcpy(line + length, kind->part, part);
    memcpy(line + length, kind->middle, middle);
    length += middle;
    for (size_t i = 0; i < times; i++, length += close) memcpy(line + length, kind->close, close);
    return length;
}

/* Before each turn: a session that can move, and #1, which names itself. */
static void fresh(void) {
    memset(rec, 0, sizeof rec);
    rec[RS274_MOTION] = 10, rec[RS274_PLANE] = 170, rec[RS274_DISTANCE] = 900;
    rec[RS274_UNITS] = 210, rec[RS274_SYSTEM] = 540, rec[RS274_FEED] = 1000;
    table[1] = 10000;
}

static long now(void) {
    struct timespec time;
    clock_gettime(CLOCK_MONOTONIC, &time);
    return time.tv_sec * 1000000000L + time.tv_nsec;
}

static struct found measure(size_t first, size_t second) {
    char line[LENGTH];
    size_t length = lay(&kinds[first], line, second == KINDS ? LENGTH : LENGTH / 2);
    if (second < KINDS) length += lay(&kinds[second], line + length, LENGTH - length);
    struct found least = {LONG_MAX, 0, first, second};
    for (int turn = 0; turn < TURNS; turn++) {
        fresh();
        long start = now();
        struct rs274_answer answer = rs274_line((const uint8_t *)line, length, false, rec, RS274_RECORD,
                                                table, RS274_TABLE, out, sizeof out / sizeof *out);
        long time = now() - start;
        least.number = answer.number;
        if (time < least.time) least.time = time;
    }
    return least;
}

static int slower_first(const void *one, const void *other) {
    long a = ((const struct found *)one)->time, b = ((const struct found *)other)->time;
    return (a < b) - (a > b);
}

/* The slowest are measured again in rounds, so that none of them stands there only because the machine was busy. */
static void measure_again(struct found *finalists) {
    for (int round = 0; round < ROUNDS; round++)
        for (size_t i = 0; i < FINALISTS; i++) {
            long time = measure(finalists[i].first, finalists[i].second).time;
            if (time < finalists[i].time) finalists[i].time = time;
        }
    qsort(finalists, FINALISTS, sizeof *finalists, slower_first);
}

int main(void) {
    static struct found all[KINDS * (KINDS + 1)];
    size_t count = 0;
    for (size_t first = 0; first < KINDS; first++)
        for (size_t second = 0; second <= KINDS; second++)
            if (first != second) all[count++] = measure(first, second);
    qsort(all, count, sizeof *all, slower_first);
    measure_again(all);
    for (size_t i = 0; i < SHOWN; i++)
        printf("%ld\t%u\t%s%s%s\n", all[i].time, all[i].number, kinds[all[i].first].name,
               all[i].second < KINDS ? ", then " : "", all[i].second < KINDS ? kinds[all[i].second].name : "");
    return 0;
}
