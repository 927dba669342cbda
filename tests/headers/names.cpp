/*
 * Both libraries in one C++ program, and the names of the headers held to what the libraries do: for every refusal a
 * line that carries it, for the record's fields and modes lines that set them, and the fresh record.
 */
#include "rs274_panel.h"
#include "rs274.h"
#include "rs274_panel.h"

#include <stdio.h>
#include <string.h>

namespace {

int64_t rec[RS274_RECORD] = RS274_FRESH;
int64_t table[RS274_TABLE];
int64_t out[RS274_COMMANDS * RS274_COMMAND];
int tried, wrong;

void hold(const char *what, long long got, long long want) {
    tried++;
    if (got == want) return;
    wrong++;
    printf("headers: %s: %lld and not %lld\n", what, got, want);
}

const uint8_t *bytes(const char *line) { return reinterpret_cast<const uint8_t *>(line); }

rs274_answer told(const char *line, size_t room = sizeof out / sizeof *out, bool block_delete = false) {
    return rs274_line(bytes(line), strlen(line), block_delete, rec, RS274_RECORD, table, RS274_TABLE, out, room);
}

uint32_t work(const char *line, size_t room = sizeof out / sizeof *out, bool block_delete = false) {
    return told(line, room, block_delete).number;
}

struct Refused {
    uint32_t number;
    const char *line;
};

const Refused refused[] = {
    {RS274_REFUSED_FORM, "X[1"},          {RS274_REFUSED_RANGE, "X99999.99995"}, {RS274_REFUSED_RANGE, "X100000"},
    {RS274_REFUSED_DIVISOR, "X[1/0]"},    {RS274_REFUSED_PARAMETER, "#5000=1"}, {RS274_REFUSED_CODE, "G59.4"},
    {RS274_REFUSED_TWICE, "G1 G0 X1"},    {RS274_REFUSED_WORDS, "G4"},          {RS274_REFUSED_WORD_VALUE, "G4 P-1"},
    {RS274_REFUSED_MOVE, "X1"},           {RS274_REFUSED_REACH, "G0 X10000.0001"},
    {RS274_REFUSED_ARC, "F1 G2 X1 I0"},
    {RS274_REFUSED_NESTING, "S[[[[[[[[[[[[[[[[[[[[[[[[[1]]]]]]]]]]]]]]]]]]]]]]]]]"},
};

void refusals() {
    static const char spaces[] = "                                                                ";
    char line[RS274_LINE + 2] = "";
    for (const Refused &r : refused) hold(r.line, work(r.line), r.number);
    strcpy(line, "#1=");
    memset(line + 3, '[', RS274_NESTING);
    line[3 + RS274_NESTING] = '1';
    memset(line + 4 + RS274_NESTING, ']', RS274_NESTING);
    hold("the deepest nest", work(line), RS274_ACCEPTED);
    memset(line, 0, sizeof line);
    hold("no room", work("M6", RS274_COMMAND - 1), RS274_REFUSED_ROOM);
    hold("room", work("M6", RS274_COMMAND), RS274_ACCEPTED);
    hold("skipped", work("/M6", 0, true), RS274_SKIPPED);
    hold("skipped, switch off", work("\\M6", 0, false), RS274_SKIPPED);
    hold("run, switch on", work("\\M5", RS274_COMMAND, true), RS274_ACCEPTED);
    hold("skipped by its condition", work("/[0]M6 X[1/0]", 0, false), RS274_SKIPPED);
    hold("run by its condition", work("/[1]M5", RS274_COMMAND, true), RS274_ACCEPTED);
    hold("refused by its condition", work("\\[1/0]M6", 0, false), RS274_REFUSED_DIVISOR);
    while (strlen(line) < RS274_LINE) strcat(line, spaces);
    hold("256 bytes", work(line), RS274_ACCEPTED);
    strcat(line, " ");
    hold("257 bytes", work(line), RS274_REFUSED_LENGTH);
    rec[RS274_COOLANT] = RS274_COOLANT_MIST + RS274_COOLANT_FLOOD + 1;
    hold("out of order", work(""), RS274_REFUSED_OUT_OF_ORDER);
    memset(rec, 0, sizeof rec);
    hold("a record of zeros", work(""), RS274_REFUSED_OUT_OF_ORDER);
}

void texts() {
    for (uint32_t a = 0; a <= RS274_SKIPPED; a++) {
        bool carried = a <= RS274_REFUSED_NESTING || a == RS274_SKIPPED;
        bool remedied = RS274_REFUSED_OUT_OF_ORDER <= a && a <= RS274_REFUSED_NESTING && a != RS274_REFUSED_DECIMALS;
        hold("why", strcmp(rs274_why(a), rs274_why(99)) != 0, carried);
        hold("remedy", strcmp(rs274_remedy(a), rs274_remedy(99)) != 0, remedied);
        for (uint32_t b = 0; carried && b < a; b++) hold("two texts", strcmp(rs274_why(a), rs274_why(b)) != 0, true);
    }
}

struct Set {
    const char *line;
    int field;
    long long number;
};

const Set sets[] = {
    {"", RS274_MOTION, RS274_MODE_G80},       {"", RS274_PLANE, RS274_MODE_G17},
    {"", RS274_DISTANCE, RS274_MODE_G90},     {"", RS274_UNITS, RS274_MODE_G21},
    {"", RS274_SYSTEM, RS274_MODE_G54},       {"G18", RS274_PLANE, RS274_MODE_G18},
    {"G19", RS274_PLANE, RS274_MODE_G19},     {"G17", RS274_PLANE, RS274_MODE_G17},
    {"G91", RS274_DISTANCE, RS274_MODE_G91},  {"G90", RS274_DISTANCE, RS274_MODE_G90},
    {"G20 F2", RS274_UNITS, RS274_MODE_G20},  {"F2", RS274_FEED, 2 * RS274_INCH},
    {"G21", RS274_UNITS, RS274_MODE_G21},     {"F2", RS274_FEED, 2 * RS274_MILLIMETRE},
    {"G55", RS274_SYSTEM, RS274_MODE_G55},    {"G56", RS274_SYSTEM, RS274_MODE_G56},
    {"G57", RS274_SYSTEM, RS274_MODE_G57},    {"G58", RS274_SYSTEM, RS274_MODE_G58},
    {"G59", RS274_SYSTEM, RS274_MODE_G59},    {"G59.1", RS274_SYSTEM, RS274_MODE_G59_1},
    {"G59.2", RS274_SYSTEM, RS274_MODE_G59_2}, {"G59.3", RS274_SYSTEM, RS274_MODE_G59_3},
    {"G0 Y1", RS274_MOTION, RS274_MODE_G0},   {"", RS274_POSITION + 1, RS274_MILLIMETRE},
    {"G1 Z2", RS274_MOTION, RS274_MODE_G1},   {"", RS274_POSITION + 2, 2 * RS274_MILLIMETRE},
    {"G2 X1 I0.5", RS274_MOTION, RS274_MODE_G2}, {"G3 X0 I-0.5", RS274_MOTION, RS274_MODE_G3},
    {"G80", RS274_MOTION, RS274_MODE_G80},    {"G10 L2 P9 Z3", RS274_ORIGINS + 3 * 8 + 2, 3 * RS274_MILLIMETRE},
    {"G92 Z1", RS274_OFFSET + 2, -2 * RS274_MILLIMETRE}, {"S7", RS274_SPEED, 7 * RS274_ONE},
    {"S1.23456", RS274_SPEED, 12346},         {"T9", RS274_TOOL, 9},                    {"M3", RS274_SPINDLE, RS274_SPINDLE_CLOCKWISE},
    {"M4", RS274_SPINDLE, RS274_SPINDLE_COUNTERCLOCKWISE}, {"M5", RS274_SPINDLE, RS274_SPINDLE_OFF},
    {"M7", RS274_COOLANT, RS274_COOLANT_MIST}, {"M8", RS274_COOLANT, RS274_COOLANT_MIST + RS274_COOLANT_FLOOD},
    {"M9", RS274_COOLANT, RS274_COOLANT_OFF}, {"G0 G53 X10000", RS274_POSITION, RS274_REACH},
};

void settings() {
    int64_t again[RS274_RECORD];
    rs274_fresh(rec);
    rs274_fresh(again);
    for (const Set &set : sets) {
        hold(set.line, work(set.line), RS274_ACCEPTED);
        hold(set.line, rec[set.field], set.number);
    }
    hold("fresh once more", memcmp(rec, again, sizeof rec) == 0, false);
    rs274_fresh(rec);
    hold("fresh", memcmp(rec, again, sizeof rec), 0);
    hold("a parameter", work("#3=6"), RS274_ACCEPTED);
    hold("its entry", table[3], 6 * RS274_ONE);
    hold("the fullest line", static_cast<long long>(told("F1 S1 T1 M6 M3 M8 G4 P1 G0 X1 M2").count), RS274_COMMANDS);
}

void report(const char *line, long long place, long long work_done) {
    rs274_answer answer = told(line);
    hold(line, static_cast<long long>(answer.place), place);
    hold(line, static_cast<long long>(answer.work), work_done);
}

void reports() {
    report("N1 (a comment)", 0, 0);
    report("S[1+2*3]", 0, 6);
    report("#[1]=2", 0, 3);
    report("S[1/0]", 0, 0);
    report("X Y1", 2, 0);
    report("/[0] X[1", 8, 0);
    report("\\)", 0, 0); /* skipped, unread */
}

void form(const char *line, uint32_t number, long long place) {
    rs274_form_answer answer = rs274_form(bytes(line), strlen(line));
    hold(line, answer.number, number);
    hold(line, static_cast<long long>(answer.place), place);
}

} // namespace

int main() {
    hold("fresh", work(""), RS274_ACCEPTED);
    refusals();
    texts();
    settings();
    reports();
    form("G59.4", RS274_RIGHT, 0);
    form("\\[0] N5 G0", RS274_RIGHT, 0);
    form("G", RS274_WRONG, 1);
    form("X Y1", RS274_WRONG, 2);
    form(")", RS274_WRONG, 0);
    char line[RS274_LINE + 2] = "";
    memset(line, ')', RS274_LINE + 1);
    form(line, RS274_TOO_LONG, 0);
    printf("headers: %d names held in C++, %d wrong\n", tried, wrong);
    return wrong == 0 ? 0 : 1;
}
