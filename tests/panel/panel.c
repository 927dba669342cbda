/* Holds rs274_form to documents 01 and 02: first on lines whose answer is written here, then on those lines
   damaged in every place, where the answer is worked out by a recogniser of its own. That recogniser
   tries every way to derive a line: it keeps, for each place, all the places at which a value can end; and
   where the text ends on one of these ways, more of it could have followed. Last come all short lines of a few
   letters, and for each of them every line that goes on from it: the place is the longest beginning that
   becomes a right line so, and that it could go on is not worked out but found.

   Only printf is used, and declared by hand, so that the file compiles without a C library's headers. */
#include "rs274_panel.h"

int printf(const char *, ...);

/* ---- the recogniser */

typedef struct {
    uint8_t at[260]; /* whether that place can be reached */
} Places;

static uint8_t text[260]; /* the prepared line, and a 0 past it */
static size_t text_length;
static Places value_ends[260];
static uint8_t value_known[260];
static int cut_off; /* whether the text ends on some way, so that a right line goes on from it */

static int is_digit(uint8_t b) { return '0' <= b && b <= '9'; }

static void prepare(const uint8_t *line, size_t length) {
    int inside = 0;
    text_length = 0;
    for (size_t i = 0; i < length; i++) {
        uint8_t b = line[i];
        if (!inside && (b == ' ' || b == '\t')) continue;
        if (!inside && 'a' <= b && b <= 'z') b -= 32;
        text[text_length++] = b;
        if (inside) inside = b != ')';
        else inside = b == '(';
    }
    text[text_length] = 0;
}

static void add(Places *to, const Places *more) {
    for (size_t i = 0; i <= text_length; i++) to->at[i] |= more->at[i];
}

/* whether a place that some way leads to is in the text */
static int in_text(size_t i) {
    if (i >= text_length) cut_off = 1;
    return i < text_length;
}

/* the place past a spelling, or 0 where it does not stand at i */
static size_t past(size_t i, const char *spelling) {
    for (; *spelling; spelling++, i++)
        if (!in_text(i) || text[i] != (uint8_t)*spelling) return 0;
    return i;
}

/* optional sign, digits with at most one point, at least one digit */
static void number(size_t i, Places *ends) {
    size_t digits = 0, points = 0;
    if (in_text(i) && (text[i] == '+' || text[i] == '-')) i++;
    for (; in_text(i); i++) {
        if (is_digit(text[i])) digits++;
        else if (text[i] == '.') points++;
        else return;
        if (points > 1) return;
        if (digits > 0) ends->at[i + 1] = 1;
    }
}

static const Places *value(size_t i);

static void expression(size_t i, Places *ends) {
    static const char *operators[] = {"+", "-", "*", "/", "MOD", "AND", "OR", "XOR"};
    Places reached = {{0}};
    size_t p = past(i, "[");
    if (!p) return;
    add(&reached, value(p));
    for (p = 0; p <= text_length; p++) {
        if (!reached.at[p]) continue;
        size_t close = past(p, "]");
        if (close) ends->at[close] = 1;
        for (size_t k = 0; k < sizeof operators / sizeof *operators; k++) {
            size_t next = past(p, operators[k]);
            if (next) add(&reached, value(next));
        }
    }
}

static const Places *value(size_t i) {
    static const char *functions[] = {"ABS", "FIX", "FUP", "ROUND"};
    if (value_known[i]) return &value_ends[i];
    Places ends = {{0}};
    number(i, &ends);
    size_t next = past(i, "#");
    if (next) add(&ends, value(next));
    for (size_t k = 0; k < sizeof functions / sizeof *functions; k++) {
        next = past(i, functions[k]);
        if (next) expression(next, &ends);
    }
    expression(i, &ends);
    value_ends[i] = ends;
    value_known[i] = 1;
    return &value_ends[i];
}

static int is_letter(uint8_t b) {
    for (const char *l = "FGIJKLMPSTXYZ"; *l; l++)
        if (b == (uint8_t)*l) return 1;
    return 0;
}

static void item(size_t i, Places *ends) {
    if (i < text_length && is_letter(text[i])) add(ends, value(i + 1));
    size_t next = past(i, "#");
    if (next) {
        const Places *left = value(next);
        for (size_t p = 0; p <= text_length; p++) {
            size_t right = left->at[p] ? past(p, "=") : 0;
            if (right) add(ends, value(right));
        }
    }
    next = past(i, "(");
    if (next) {
        for (; in_text(next); next++) {
            uint8_t b = text[next];
            if (b == ')') ends->at[next + 1] = 1;
            if (b == '(' || b == ')' || !((32 <= b && b <= 126) || b == '\t')) break;
        }
    }
}

/* no mark, a mark, or a mark and an expression */
static void marks(Places *ends) {
    static const char *spellings[] = {"/", "\\"};
    ends->at[0] = 1;
    for (size_t k = 0; k < sizeof spellings / sizeof *spellings; k++) {
        size_t next = past(0, spellings[k]);
        if (!next) continue;
        ends->at[next] = 1;
        expression(next, ends);
    }
}

/* N and one to five digits */
static void line_number(size_t i, Places *ends) {
    size_t n = past(i, "N");
    for (size_t digits = 1; n && digits <= 5; digits++) {
        if (!in_text(n + digits - 1) || !is_digit(text[n + digits - 1])) break;
        ends->at[n + digits] = 1;
    }
}

static int is_right(const uint8_t *line, size_t length) {
    prepare(line, length);
    cut_off = 0;
    for (size_t i = 0; i <= text_length; i++) value_known[i] = 0;
    Places marked = {{0}}, reached;
    marks(&marked);
    reached = marked;
    for (size_t i = 0; i <= text_length; i++)
        if (marked.at[i]) line_number(i, &reached);
    for (size_t i = 0; i < text_length; i++)
        if (reached.at[i]) item(i, &reached);
    return reached.at[text_length];
}

static int is_beginning(const uint8_t *line, size_t length) { return is_right(line, length) || cut_off; }

static struct rs274_form_answer answer(uint32_t number, size_t place) {
    struct rs274_form_answer both = {number, place};
    return both;
}

static struct rs274_form_answer form(const uint8_t *line, size_t length) {
    size_t place = length;
    if (length > RS274_LINE) return answer(RS274_TOO_LONG, 0);
    if (is_right(line, length)) return answer(RS274_RIGHT, 0);
    while (!is_beginning(line, place)) place--;
    return answer(RS274_WRONG, place);
}

/* ---- the lines */

typedef struct {
    struct rs274_form_answer answer;
    size_t length;
    const char *bytes;
} Line;

#define RIGHT(bytes) {{RS274_RIGHT, 0}, sizeof(bytes) - 1, bytes}
#define WRONG(place, bytes) {{RS274_WRONG, place}, sizeof(bytes) - 1, bytes}

static const Line lines[] = {
    /* document 01's examples */
    RIGHT("G21 G90 F100"), RIGHT("G1 X1 Y-0.5"), RIGHT("M5"), RIGHT("G59.4"), RIGHT("g0x +0. 12 34y 7"),
    RIGHT("X[2+3*4]"), RIGHT("X[10-4-3]"), RIGHT("X[2/3]"), RIGHT("X[-0.5*0.0001]"), RIGHT("X[-7 MOD 3]"),
    RIGHT("XFIX[-2.8]"), RIGHT("XFUP[-2.8]"), RIGHT("XROUND[-2.5]"), RIGHT("XABS[-2.5]"),
    RIGHT("#3=15 #3=6"), RIGHT("G0 #3=15 X#3"), RIGHT("X99999.9999"), RIGHT("X100000"), RIGHT("X1.2345"), RIGHT("X1.23456"),
    RIGHT("#4999=1"), RIGHT("#0=1"), RIGHT("#5000=1"), RIGHT("#1.0001=2"), RIGHT("X[1/0] G99"), RIGHT("G20 G0 X1"),
    RIGHT("G2 X1.002 I0.5"), RIGHT("G1 G0 X1"), RIGHT("G4"), RIGHT("G4 P-1"), RIGHT(""),
    /* its grammar, sentence by sentence */
    RIGHT("/"), RIGHT("/N10"), RIGHT("N12345 G0"), RIGHT("n 1 2"), RIGHT("N00000"), RIGHT(" / X1"),
    WRONG(1, "//"), WRONG(1, "N"), WRONG(6, "N123456"), WRONG(1, "N-1"), WRONG(2, "N1.5"), WRONG(2, "N1N2"), WRONG(2, "N1/"), WRONG(3, "(c)N1"), WRONG(3, "(c)/"), WRONG(4, "/(c)N1"),
    RIGHT("()"), RIGHT("(a comment) X1 (b)"), RIGHT("(lower\tTAB ~)"), RIGHT("G1(c)X1"),
    WRONG(2, "(a(b)"), WRONG(2, "(a"), WRONG(0, "a)"), WRONG(1, "(\x7f)"), WRONG(1, "(\x1f)"), WRONG(1, "(\x80)"), WRONG(1, "(\0)"), WRONG(1, "G(c)1"), WRONG(3, "X[1(c)]"), WRONG(2, "#1(c)=2"), WRONG(1, "N(c)1"),
    RIGHT("X5."), RIGHT("X.5"), RIGHT("X+.5"), RIGHT("X-0"), WRONG(2, "X."), WRONG(3, "X+."), WRONG(4, "X1.2.3"), WRONG(2, "X--1"), WRONG(2, "X1e5"), WRONG(2, "X1,5"), WRONG(1, "X"), WRONG(2, "X+"),
    RIGHT("X[1--2]"), RIGHT("X[1+-2]"), RIGHT("X[-1]"), RIGHT("X#-1"), WRONG(2, "X-#1"), WRONG(2, "X-[1]"), WRONG(2, "X+ABS[1]"), WRONG(3, "X[-#1]"),
    RIGHT("X##1"), RIGHT("#ABS[1]=5"), RIGHT("###[1+1]=5"), RIGHT("##1=5"), RIGHT("#1=#2"), WRONG(2, "#1"), WRONG(1, "#=1"), WRONG(3, "#1="), WRONG(4, "#1=2=3"), WRONG(3, "X[1=1]"),
    RIGHT("XABS[1]"), RIGHT("Xa b s[ 1 ]"), WRONG(4, "XABS1"), WRONG(4, "XABS#1"), WRONG(1, "XSIN[1]"), WRONG(3, "XAB[1]"), WRONG(3, "XFIP[1]"), WRONG(6, "XROUND"),
    RIGHT("X[1 mod 2 and 3 or 4 xor 5]"), RIGHT("X[[1]*[2]]"), RIGHT("X[ABS[1]+FIX[2]-FUP[3]*ROUND[4]/#5]"), WRONG(2, "X[]"), WRONG(3, "X[1"), WRONG(2, "X1]"), WRONG(4, "X[1]]"), WRONG(9, "X[1 2 mo 3]"), WRONG(4, "X[1**2]"), WRONG(4, "X[1+]"), WRONG(3, "X[+]"),
    RIGHT("F1 G1 I1 J1 K1 L1 M1 P1 S1 T1 X1 Y1 Z1"), WRONG(0, "A1"), WRONG(0, "B1"), WRONG(0, "Q1"), WRONG(0, "R1"), WRONG(0, "E1"), WRONG(0, "1"), WRONG(0, "[1]"), WRONG(0, "="),
    RIGHT("\\"), RIGHT(" \t\\ N1"), RIGHT("\\M6"), RIGHT("/[1]"), RIGHT("\\[1]"), RIGHT(" / [ 1 ] n 5 g0"), RIGHT("/[#1-2*[3]]N12345G0X1(c)"), RIGHT("\\[ABS[1] OR 0](c)"),
    WRONG(1, "\\\\"), WRONG(1, "/\\"), WRONG(1, "\\/"), WRONG(4, "/(c)[1]"), WRONG(3, "(c)\\"), WRONG(3, "(c)/[1]"), WRONG(2, "N1\\"), WRONG(2, "N1/[1]"), WRONG(4, "/[1]/"), WRONG(4, "/[1][2]"), WRONG(2, "/[]"), WRONG(3, "/[1"), WRONG(4, "\\[1]]"), WRONG(1, "/1"), WRONG(3, "/#1"), WRONG(1, "/ABS[1]"), WRONG(1, "/-[1]"), WRONG(3, "/[1(c)]"), WRONG(10, "/[1]N123456"), WRONG(2, "X1\\"), WRONG(3, "X[1\\2]"),
    WRONG(2, "X1\r"), WRONG(2, "X1\n"), WRONG(2, "X1\0"), WRONG(2, "X1\xa0"), WRONG(1, "X\v1"), WRONG(0, "\xff"), WRONG(2, "X1;"), WRONG(0, "%"),
};

/* what a byte is changed into, or put before it */
static const uint8_t damages[] = "0.+-#[]=()/\\NXAMODRBS\t a\x7f";

static size_t tried, differences;

static int same(struct rs274_form_answer one, struct rs274_form_answer other) {
    return one.number == other.number && one.place == other.place;
}

static void differs(const uint8_t *bytes, size_t length, struct rs274_form_answer got, struct rs274_form_answer want) {
    differences++;
    printf("rs274_form: %u at %u, and not %u at %u, for", (unsigned)got.number, (unsigned)got.place,
           (unsigned)want.number, (unsigned)want.place);
    for (size_t i = 0; i < length; i++) printf(" %02x", (unsigned)bytes[i]);
    printf("\n");
}

static void hold(const uint8_t *bytes, size_t length, struct rs274_form_answer want) {
    struct rs274_form_answer got = rs274_form(bytes, length);
    tried++;
    if (!same(got, want)) differs(bytes, length, got, want);
}

static void hold_to_recogniser(const uint8_t *bytes, size_t length) { hold(bytes, length, form(bytes, length)); }

/* every byte left out, changed, or with one more before it; and every beginning of the line */
static void damage(const uint8_t *bytes, size_t length) {
    uint8_t copy[260];
    for (size_t i = 0; i <= length; i++) {
        hold_to_recogniser(bytes, i);
        for (size_t k = 0; k < length; k++) copy[k] = bytes[k];
        if (i < length) {
            for (size_t k = i; k + 1 < length; k++) copy[k] = bytes[k + 1];
            hold_to_recogniser(copy, length - 1);
        }
        for (size_t d = 0; d + 1 < sizeof damages; d++) {
            for (size_t k = 0; k < length; k++) copy[k] = bytes[k];
            if (i < length) {
                copy[i] = damages[d];
                hold_to_recogniser(copy, length);
            }
            copy[i] = damages[d];
            for (size_t k = i; k < length; k++) copy[k + 1] = bytes[k];
            hold_to_recogniser(copy, length + 1);
        }
    }
}

/* 256 bytes pass and 257 give 2, whatever is in them */
static void lengths(void) {
    uint8_t bytes[400];
    struct rs274_form_answer right = answer(RS274_RIGHT, 0), too_long = answer(RS274_TOO_LONG, 0);
    for (size_t n = 250; n < 400; n++) {
        for (size_t i = 0; i < n; i++) bytes[i] = ' ';
        hold(bytes, n, n <= RS274_LINE ? right : too_long);
        bytes[n - 1] = ')';
        hold(bytes, n, n <= RS274_LINE ? answer(RS274_WRONG, n - 1) : too_long);
        for (size_t i = 0; i < n; i++) bytes[i] = i % 2 ? '7' : 'X';
        hold(bytes, n, n > RS274_LINE ? too_long : n % 2 ? answer(RS274_WRONG, n) : right);
        for (size_t i = 0; i < n; i++) bytes[i] = i == 0 ? 'X' : i <= n / 2 - 1 ? '[' : i == n / 2 ? '1' : ']';
        if (n <= RS274_LINE) hold_to_recogniser(bytes, n);
        else hold(bytes, n, too_long);
    }
}

/* every line of one byte, and of two */
static void shortest(void) {
    uint8_t bytes[2];
    for (unsigned a = 0; a < 256; a++) {
        bytes[0] = (uint8_t)a;
        hold_to_recogniser(bytes, 1);
        for (unsigned b = 0; b < 256; b++) {
            bytes[1] = (uint8_t)b;
            hold_to_recogniser(bytes, 2);
        }
    }
}

/* ---- every line of a few letters, and every line that goes on from it */

/* All lines that begin so and go on with up to `longest` of these letters are held, and right lines are looked for
   up to `furthest` letters, which is so far that the letters can end whatever they have begun. */
typedef struct {
    const char *beginning, *letters;
    size_t longest, furthest;
} Family;

static const Family families[] = {
    {"", "Y1[]+", 5, 10},    {"", "y1 [].", 4, 8},     {"", "#=1X- ", 5, 8},     {"", "#=1[]", 3, 8},
    {"", "N1/x\t", 7, 8},    {"", "/[1]N\\", 4, 8},    {"", "(x1) b\x7f", 5, 7}, {"X", "ABS[1]", 2, 8},
    {"X", "FIX[1]", 2, 8},   {"X", "fup[1]", 2, 8},    {"XR", "OUND[1]", 3, 7},  {"X[1", "MODXR1]", 2, 6},
    {"X[1M", "OD1 ]", 3, 7}, {"X[1X", "OR1 ]", 2, 6},  {"X[1", "AND1 ]", 3, 7},  {"/[#1", "*/[1]", 3, 7},
};

enum { MOST_LINES = 100000 };

static const Family *family;
static uint8_t going[64]; /* the line that is looked at, */
static size_t begun;      /* and how many bytes of it are its family's beginning */
static uint8_t goes_on[MOST_LINES];

static size_t letters(void) {
    size_t n = 0;
    while (family->letters[n]) n++;
    return n;
}

/* Each line has a number, 0 with no letter, from which those of the lines with one letter more follow. */
static size_t longer(size_t line, size_t letter) { return line * letters() + 1 + letter; }

/* whether this line, or one that goes on from it, is right; kept for those that are held */
static int look(size_t line, size_t many) {
    int right = is_right(going, begun + many);
    for (size_t k = 0; many < family->furthest && family->letters[k]; k++) {
        if (right && many >= family->longest) break;
        going[begun + many] = (uint8_t)family->letters[k];
        right |= look(longer(line, k), many + 1);
    }
    if (many <= family->longest) goes_on[line] = (uint8_t)right;
    return right;
}

/* The line and those with more letters; `place` is how much of what comes before its last letter goes on. */
static void hold_all(size_t line, size_t many, size_t place) {
    size_t length = begun + many;
    if (goes_on[line]) place = length;
    hold(going, length, is_right(going, length) ? answer(RS274_RIGHT, 0) : answer(RS274_WRONG, place));
    for (size_t k = 0; many < family->longest && family->letters[k]; k++) {
        going[length] = (uint8_t)family->letters[k];
        hold_all(longer(line, k), many + 1, place);
    }
}

static int has_room(void) {
    size_t last = 0;
    for (size_t many = 0; many < family->longest; many++) last = longer(last, letters() - 1);
    return last < MOST_LINES;
}

static void every_continuation(void) {
    for (size_t i = 0; i < sizeof families / sizeof *families; i++) {
        family = &families[i];
        if (!has_room()) {
            differences++;
            printf("the lines of %s are too many\n", family->letters);
            continue;
        }
        for (begun = 0; family->beginning[begun]; begun++) going[begun] = (uint8_t)family->beginning[begun];
        look(0, 0);
        hold_all(0, 0, 0);
    }
}

int main(void) {
    for (size_t i = 0; i < sizeof lines / sizeof *lines; i++) {
        const uint8_t *bytes = (const uint8_t *)lines[i].bytes;
        struct rs274_form_answer own = form(bytes, lines[i].length);
        if (!same(own, lines[i].answer)) {
            printf("the recogniser of this test is wrong on the next line\n");
            differs(bytes, lines[i].length, own, lines[i].answer);
        }
        hold(bytes, lines[i].length, lines[i].answer);
        damage(bytes, lines[i].length);
    }
    lengths();
    shortest();
    every_continuation();
    printf("panel: %u lines, %u differences\n", (unsigned)tried, (unsigned)differences);
    return differences ? 1 : 0;
}
