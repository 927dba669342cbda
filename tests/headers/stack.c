/*
 * How much stack the libraries need: each call runs on a stack of its own, all of it painted before, and the
 * deepest byte that has lost its paint tells. The lines are plain ones, the fullest ones, and for each way in which
 * values nest the deepest that is worked out, one level more, and the deepest that 256 bytes can hold, right and wrong.
 * No need may be more than the headers say.
 */
#include <stdio.h>
#include <string.h>

#include "rs274.h"
#include "rs274_index.h"
#include "rs274_mend.h"
#include "rs274_panel.h"
#include "rs274_parameters.h"

enum { ROOM = 1 << 20, PAINT = 0xA5, DEEPEST = 24, ANY = RS274_LINE };

static unsigned char room[ROOM] __attribute__((aligned(16)));
static uint8_t line[RS274_LINE];
static size_t line_length;
static int64_t rec[RS274_RECORD], table[RS274_TABLE], out[RS274_COMMANDS * RS274_COMMAND];
static uint8_t file[RS274_FILE];
static size_t file_length;
static uint32_t number;

static void work(void) {
    number = rs274_line(line, line_length, false, rec, RS274_RECORD, table, RS274_TABLE,
                        out, sizeof out / sizeof *out).number;
}

static void look(void) { number = rs274_form(line, line_length).number; }

static void save(void) {
    struct rs274_file made = rs274_parameters_write(rec, RS274_RECORD, table, RS274_TABLE, file, sizeof file);
    number = made.number;
    file_length = (size_t)made.count;
}

static void load(void) {
    number = rs274_parameters_read(file, file_length, rec, RS274_RECORD, table, RS274_TABLE);
}

static uint8_t mended[2 * RS274_LINE];
static size_t listed[RS274_ENTRY];

static void mend(void) { number = rs274_mend(line, line_length, mended, sizeof mended, listed, RS274_ENTRY).number; }

static void nest(const char *opening, const char *middle, const char *core, const char *closing, size_t most);

static uint8_t text[RS274_TEXT];
static uint32_t entries[RS274_INDEX];
static rs274_indexed indexed;

static void build_index(void) { indexed = rs274_index_build(text, sizeof text, entries); }

static void replace_line(void) {
    indexed = rs274_index_replace(text, sizeof text, entries, indexed.count, 1, (const uint8_t *)"N90000", 6);
}

static void find_number(void) { number = rs274_index_find(entries, indexed.count, 90000).line; }

/* A text with a number on every second line, the others nested as deep as they can be. */
static void fill_text(void) {
    size_t n = 0;
    memset(text, ' ', sizeof text);
    for (unsigned i = 0; n + 6 + RS274_LINE + 2 < sizeof text; i++) {
        char label[8];
        snprintf(label, sizeof label, "N%05u", i);
        memcpy(text + n, label, 6);
        text[n + 6] = '\n';
        nest("/", "[1+", "1", "]", ANY);
        memcpy(text + n + 7, line, line_length);
        n += 7 + line_length;
        text[n++] = '\n';
    }
}

/* The bytes that a call has written to, of a painted stack. */
static size_t depth(void (*call)(void)) {
    size_t kept = 0;
    memset(room, PAINT, ROOM);
    __asm__ volatile("movq %%rsp, %%rbx\n\tmovq %0, %%rsp\n\tcallq *%1\n\tmovq %%rbx, %%rsp"
                     : : "r"(room + ROOM), "r"(call)
                     : "rbx", "rax", "rcx", "rdx", "rsi", "rdi", "r8", "r9", "r10", "r11", "cc", "memory",
                       "xmm0", "xmm1", "xmm2", "xmm3", "xmm4", "xmm5", "xmm6", "xmm7",
                       "xmm8", "xmm9", "xmm10", "xmm11", "xmm12", "xmm13", "xmm14", "xmm15");
    while (kept < ROOM && room[kept] == PAINT) kept++;
    return ROOM - kept;
}

/* A line of opening, then a middle as often as it fits beside its closing, but not more than so many times, then a core
   and the closings. */
static void nest(const char *opening, const char *middle, const char *core, const char *closing, size_t most) {
    size_t m = strlen(middle), c = strlen(closing), used = strlen(opening) + strlen(core);
    size_t times = (RS274_LINE - used) / (m + c);
    if (most < times) times = most;
    uint8_t *to = line;
    memcpy(to, opening, strlen(opening));
    to += strlen(opening);
    for (size_t i = 0; i < times; i++, to += m) memcpy(to, middle, m);
    memcpy(to, core, strlen(core));
    to += strlen(core);
    for (size_t i = 0; i < times; i++, to += c) memcpy(to, closing, c);
    line_length = (size_t)(to - line);
}

static const struct {
    const char *name, *opening, *middle, *core, *closing;
    size_t most;
} lines[] = {
    {"plain", "G1 X12.5 Y-3 F300", " ", "", "", ANY},
    {"every command", "F100 S1 T2 M6 M3 M8 G4 P1 G17 G21 G54 G90 X1 Y1 Z1 M2", " ", "", "", ANY},
    {"arc", "G2 X1 I0.5 F100", " ", "", "", ANY},
    {"most words", "", "X1", "", "", ANY},
    {"most settings", "", "#1=1", "", "", ANY},
    {"brackets", "X", "[", "1", "]", ANY},
    {"parameters", "X", "#", "1", "", ANY},
    {"parameters and brackets", "X", "#[", "1", "]", ANY},
    {"functions", "X", "ABS[", "1", "]", ANY},
    {"sums", "X", "[1+", "1", "]", ANY},
    {"products", "X", "[1*", "1", "]", ANY},
    {"sums of products", "X", "[1+1*", "1", "]", ANY},
    {"left settings", "", "#", "1=1", "", ANY},
    {"right settings", "#1=", "[", "1", "]", ANY},
    {"conditions", "/", "[", "1", "]", ANY},
    {"open brackets", "X", "[", "", "", ANY},
    {"open brackets of a setting", "#", "[", "", "", ANY},
    {"open brackets of a condition", "/", "[", "", "", ANY},
    {"open functions", "X", "ABS[", "", "", ANY},
    {"open sums", "X", "[1+", "", "", ANY},
    {"open parameters and brackets", "X", "#[", "", "", ANY},
    {"parameters of nothing", "X", "#", "", "", ANY},
    {"wrong after blanks", "", " ", ")", "", ANY},
    {"a comment never closed", "(", "a ", "", "", ANY},
    {"24 brackets", "X", "[", "1", "]", DEEPEST},
    {"24 parameters", "X", "#", "1", "", DEEPEST},
    {"24 parameters and brackets", "X", "#[", "1", "]", DEEPEST / 2},
    {"24 functions of sums", "X", "ABS[1+", "1", "]", DEEPEST},
    {"24 sums of products", "X", "[1+1*", "1", "]", DEEPEST},
    {"24 sums of a condition", "/", "[1+", "1", "]", DEEPEST},
    {"25 brackets", "X", "[", "1", "]", DEEPEST + 1},
    {"25 parameters", "X", "#", "1", "", DEEPEST + 1},
    {"25 functions of sums", "X", "ABS[1+", "1", "]", DEEPEST + 1},
    {"a long sum", "X[1", "+1", "]", "", ANY},
    {"nested comments", "X1", "(", "a", ")", ANY},
    {"a remark", "X1;", "(", "a", ")", ANY},
};

static void begin(void) {
    rs274_fresh(rec);
    rec[RS274_MOTION] = RS274_MODE_G0;
    memset(table, 0, sizeof table);
    table[1] = RS274_ONE; /* so that ##..#1 is a value */
}

/* The need of writing and of reading the longest file: neither calls itself, so that no file asks for more. */
static size_t files(void) {
    begin();
    for (size_t i = RS274_ORIGINS; i < RS274_OFFSET + 3; i++) rec[i] = 1 - RS274_REACH;
    for (size_t i = 1; i < RS274_TABLE; i++) table[i] = -999999999;
    size_t write_need = depth(save);
    if (number != RS274_FILE_TAKEN || file_length != RS274_FILE) return ROOM;
    size_t read_need = depth(load);
    if (number != RS274_FILE_TAKEN) return ROOM;
    printf("stack: rs274_parameters_write %zu, rs274_parameters_read %zu of %d bytes\n", write_need, read_need, RS274_FILE_STACK);
    return write_need > read_need ? write_need : read_need;
}

int main(void) {
    size_t most_line = 0, most_form = 0, most_mend = 0;
    for (size_t i = 0; i < sizeof lines / sizeof *lines; i++) {
        nest(lines[i].opening, lines[i].middle, lines[i].core, lines[i].closing, lines[i].most);
        begin();
        size_t line_need = depth(work);
        uint32_t answer = number;
        size_t form_need = depth(look);
        printf("%-28s rs274_line %2u: %5zu bytes, rs274_form %u: %5zu bytes\n", lines[i].name,
               (unsigned)answer, line_need, (unsigned)number, form_need);
        if (line_need > most_line) most_line = line_need;
        if (form_need > most_form) most_form = form_need;
        size_t mend_need = depth(mend);
        if (mend_need > most_mend) most_mend = mend_need;
    }
    fill_text();
    size_t build_need = depth(build_index), replace_need = depth(replace_line), find_need = depth(find_number);
    if (indexed.number != RS274_INDEXED || number != 1) return 1;
    printf("stack: rs274_line %zu of %d bytes, rs274_form %zu of %d bytes, rs274_mend %zu of %d bytes\n", most_line,
           RS274_STACK, most_form, RS274_FORM_STACK, most_mend, RS274_MEND_STACK);
    printf("stack: rs274_index_build %zu, rs274_index_replace %zu, rs274_index_find %zu of %d bytes\n", build_need,
           replace_need, find_need, RS274_INDEX_STACK);
    if (most_line > RS274_STACK || most_form > RS274_FORM_STACK || most_mend > RS274_MEND_STACK) return 1;
    if (build_need > RS274_INDEX_STACK || replace_need > RS274_INDEX_STACK || find_need > RS274_INDEX_STACK) return 1;
    return files() > RS274_FILE_STACK ? 1 : 0;
}
