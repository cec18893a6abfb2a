/*
 * The checker's peer in C: reads a file in pieces, in one pass and in constant
 * memory, and says which rule of the rules document it breaks first.
 *
 * It is as good C as we can write for this layout, for the proved checker to
 * be measured by. Whole right lines and fields are passed at once, and their
 * bytes are looked at eight at a time, as whole words: by sums and masks that
 * mark digits and bytes that end a field, with no intrinsics but the count of
 * a word's low zeros. Whatever is unusual, or cut by a piece's end, is judged
 * byte by byte. No byte behind a piece is read.
 *
 *     peer           reads standard input and prints the seven lines
 *     peer pieces    reads commands on standard input and answers each one
 *
 * A command is a letter and a length of 4 bytes, low byte first, that is 0
 * except for P: N new file, P and so many bytes a piece, F finish, C report,
 * S report with room for one count too few. Each answer is followed by the
 * block totals, in the same line.
 */
#include <assert.h>
#include <inttypes.h>
#include <stdbool.h>
#include <stddef.h>
#include <stdio.h>
#include <string.h>

#include "peer_kinds.h"

#define BAR '|'
#define CR 13
#define LF 10

/* Whether the peer is held to one byte a turn, to compare with a checker that steps byte by byte. */
#ifdef BYTE_BY_BYTE
#define STEPS true
#else
#define STEPS false
#endif

/* For what only a refused file comes to: kept out of the loops that all files go through. */
#define RARE __attribute__((cold, noinline))

/* For what is kept apart from its caller, so that each has the registers for its own. */
#define APART __attribute__((noinline))

#define MOST_BYTES UINT64_C(4294967295)
#define LONGEST_PIECE 65536
#define LEVELS 7
#define MOST_PERIODS 64

/* ------------------------------------------------------------ the layout */

enum role { START, OPENING, DATA, CLOSING, END };

/*
 * The rows: block, number, fields, level, most under one parent line (0 is any
 * number), parent, role, kinds of the fields after the first.
 */
#define ROWS(X)                                       \
    X(0, 000, 20, 0, 1, NONE, START, kinds_0000)      \
    X(0, 001, 2, 1, 1, 0000, OPENING, opening)        \
    X(0, 005, 14, 2, 1, 0001, DATA, kinds_0005)       \
    X(0, 025, 3, 2, 0, 0001, DATA, kinds_0025)        \
    X(0, 030, 18, 2, 1, 0001, DATA, kinds_0030)       \
    X(0, 100, 18, 2, 1, 0001, DATA, kinds_0100)       \
    X(0, 150, 13, 2, 0, 0001, DATA, kinds_0150)       \
    X(0, 175, 10, 3, 1, 0150, DATA, kinds_0175)       \
    X(0, 200, 5, 2, 0, 0001, DATA, kinds_0200)        \
    X(0, 205, 5, 3, 0, 0200, DATA, kinds_0205)        \
    X(0, 210, 9, 3, 0, 0200, DATA, kinds_0210)        \
    X(0, 215, 4, 3, 0, 0200, DATA, kinds_0215)        \
    X(0, 400, 4, 2, 0, 0001, DATA, kinds_0400)        \
    X(0, 450, 3, 2, 0, 0001, DATA, kinds_0450)        \
    X(0, 455, 2, 3, 0, 0450, DATA, kinds_0455)        \
    X(0, 460, 16, 3, 0, 0450, DATA, kinds_0460)       \
    X(0, 465, 24, 3, 0, 0450, DATA, kinds_0465)       \
    X(0, 470, 11, 3, 0, 0450, DATA, kinds_0470)       \
    X(0, 990, 2, 1, 1, 0001, CLOSING, closing)        \
    X(C, 001, 2, 1, 1, NONE, OPENING, opening)        \
    X(C, 020, 28, 2, 0, C001, DATA, kinds_C020)       \
    X(C, 040, 6, 3, 1, C020, DATA, kinds_C040)        \
    X(C, 300, 21, 3, 990, C020, DATA, kinds_C300)     \
    X(C, 305, 2, 4, 1, C300, DATA, kinds_C305)        \
    X(C, 310, 4, 4, 1, C300, DATA, kinds_C310)        \
    X(C, 550, 17, 2, 0, C001, DATA, kinds_C550)       \
    X(C, 560, 14, 3, 0, C550, DATA, kinds_C560)       \
    X(C, 600, 22, 2, 0, C001, DATA, kinds_C600)       \
    X(C, 605, 8, 3, 1, C600, DATA, kinds_C605)        \
    X(C, 610, 17, 3, 0, C600, DATA, kinds_C610)       \
    X(C, 615, 6, 4, 1, C610, DATA, kinds_C615)        \
    X(C, 990, 2, 1, 1, C001, CLOSING, closing)        \
    X(E, 001, 2, 1, 1, NONE, OPENING, opening)        \
    X(E, 003, 5, 2, 0, E001, DATA, kinds_E003)        \
    X(E, 020, 30, 2, 0, E001, DATA, kinds_E020)       \
    X(E, 025, 17, 3, 0, E020, DATA, kinds_E025)       \
    X(E, 050, 16, 2, 0, E001, DATA, kinds_E050)       \
    X(E, 055, 9, 3, 0, E050, DATA, kinds_E055)        \
    X(E, 060, 23, 2, 0, E001, DATA, kinds_E060)       \
    X(E, 065, 6, 3, 0, E060, DATA, kinds_E065)        \
    X(E, 080, 18, 2, 0, E001, DATA, kinds_E080)       \
    X(E, 085, 10, 3, 0, E080, DATA, kinds_E085)       \
    X(E, 100, 25, 2, 0, E001, DATA, kinds_E100)       \
    X(E, 105, 11, 3, 0, E100, DATA, kinds_E105)       \
    X(E, 120, 25, 2, 0, E001, DATA, kinds_E120)       \
    X(E, 140, 19, 2, 0, E001, DATA, kinds_E140)       \
    X(E, 300, 3, 2, 0, E001, DATA, kinds_E300)        \
    X(E, 305, 23, 3, 0, E300, DATA, kinds_E305)       \
    X(E, 310, 10, 3, 0, E300, DATA, kinds_E310)       \
    X(E, 330, 14, 3, 0, E300, DATA, kinds_E330)       \
    X(E, 340, 24, 3, 1, E300, DATA, kinds_E340)       \
    X(E, 350, 10, 3, 0, E300, DATA, kinds_E350)       \
    X(E, 360, 11, 3, 0, E300, DATA, kinds_E360)       \
    X(E, 500, 4, 2, 0, E001, DATA, kinds_E500)        \
    X(E, 520, 7, 3, 0, E500, DATA, kinds_E520)        \
    X(E, 525, 7, 3, 0, E500, DATA, kinds_E525)        \
    X(E, 540, 16, 3, 1, E500, DATA, kinds_E540)       \
    X(E, 550, 7, 3, 0, E500, DATA, kinds_E550)        \
    X(E, 560, 10, 3, 0, E500, DATA, kinds_E560)       \
    X(E, 990, 2, 1, 1, E001, CLOSING, closing)        \
    X(F, 001, 2, 1, 1, NONE, OPENING, opening)        \
    X(F, 020, 6, 2, 0, F001, DATA, kinds_F020)        \
    X(F, 025, 6, 3, 0, F020, DATA, kinds_F025)        \
    X(F, 030, 6, 4, 0, F025, DATA, kinds_F030)        \
    X(F, 035, 10, 5, 0, F030, DATA, kinds_F035)       \
    X(F, 200, 4, 2, 0, F001, DATA, kinds_F200)        \
    X(F, 205, 6, 3, 0, F200, DATA, kinds_F205)        \
    X(F, 210, 3, 3, 0, F200, DATA, kinds_F210)        \
    X(F, 215, 12, 4, 0, F210, DATA, kinds_F215)       \
    X(F, 220, 8, 5, 0, F215, DATA, kinds_F220)        \
    X(F, 225, 15, 6, 0, F220, DATA, kinds_F225)       \
    X(F, 230, 6, 6, 0, F220, DATA, kinds_F230)        \
    X(F, 250, 4, 2, 0, F001, DATA, kinds_F250)        \
    X(F, 255, 19, 3, 0, F250, DATA, kinds_F255)       \
    X(F, 990, 2, 1, 1, F001, CLOSING, closing)        \
    X(G, 001, 2, 1, 1, NONE, OPENING, opening)        \
    X(G, 020, 4, 2, 0, G001, DATA, kinds_G020)        \
    X(G, 025, 17, 3, 0, G020, DATA, kinds_G025)       \
    X(G, 030, 11, 3, 0, G020, DATA, kinds_G030)       \
    X(G, 050, 19, 3, 0, G020, DATA, kinds_G050)       \
    X(G, 400, 10, 3, 0, G020, DATA, kinds_G400)       \
    X(G, 410, 14, 3, 0, G020, DATA, kinds_G410)       \
    X(G, 420, 24, 3, 1, G020, DATA, kinds_G420)       \
    X(G, 430, 3, 3, 0, G020, DATA, kinds_G430)        \
    X(G, 440, 7, 3, 0, G020, DATA, kinds_G440)        \
    X(G, 450, 15, 3, 0, G020, DATA, kinds_G450)       \
    X(G, 460, 15, 4, 0, G450, DATA, kinds_G460)       \
    X(G, 990, 2, 1, 1, G001, CLOSING, closing)        \
    X(H, 001, 2, 1, 1, NONE, OPENING, opening)        \
    X(H, 020, 12, 2, 0, H001, DATA, kinds_H020)       \
    X(H, 030, 16, 3, 0, H020, DATA, kinds_H030)       \
    X(H, 040, 3, 3, 0, H020, DATA, kinds_H040)        \
    X(H, 050, 3, 3, 0, H020, DATA, kinds_H050)        \
    X(H, 060, 3, 3, 0, H020, DATA, kinds_H060)        \
    X(H, 990, 2, 1, 1, H001, CLOSING, closing)        \
    X(8, 001, 3, 1, 1, NONE, OPENING, kinds_8001)     \
    X(8, 020, 4, 2, 0, 8001, DATA, kinds_8020)        \
    X(8, 030, 11, 3, 0, 8020, DATA, kinds_8030)       \
    X(8, 040, 8, 3, 0, 8020, DATA, kinds_8040)        \
    X(8, 050, 4, 3, 1, 8020, DATA, kinds_8050)        \
    X(8, 100, 4, 2, 0, 8001, DATA, kinds_8100)        \
    X(8, 110, 6, 3, 0, 8100, DATA, kinds_8110)        \
    X(8, 160, 4, 2, 0, 8001, DATA, kinds_8160)        \
    X(8, 165, 6, 3, 1, 8160, DATA, kinds_8165)        \
    X(8, 170, 7, 4, 0, 8165, DATA, kinds_8170)        \
    X(8, 175, 5, 4, 0, 8165, DATA, kinds_8175)        \
    X(8, 180, 6, 5, 0, 8175, DATA, kinds_8180)        \
    X(8, 300, 4, 2, 0, 8001, DATA, kinds_8300)        \
    X(8, 310, 10, 3, 0, 8300, DATA, kinds_8310)       \
    X(8, 500, 4, 2, 0, 8001, DATA, kinds_8500)        \
    X(8, 505, 6, 3, 0, 8500, DATA, kinds_8505)        \
    X(8, 510, 4, 4, 0, 8505, DATA, kinds_8510)        \
    X(8, 515, 2, 4, 0, 8505, DATA, kinds_8515)        \
    X(8, 525, 7, 5, 0, 8515, DATA, kinds_8525)        \
    X(8, 530, 11, 3, 0, 8500, DATA, kinds_8530)       \
    X(8, 535, 9, 4, 990, 8530, DATA, kinds_8535)      \
    X(8, 540, 8, 4, 0, 8530, DATA, kinds_8540)        \
    X(8, 545, 4, 3, 0, 8500, DATA, kinds_8545)        \
    X(8, 550, 4, 4, 0, 8545, DATA, kinds_8550)        \
    X(8, 555, 4, 4, 0, 8545, DATA, kinds_8555)        \
    X(8, 560, 12, 4, 1, 8545, DATA, kinds_8560)       \
    X(8, 565, 3, 5, 0, 8560, DATA, kinds_8565)        \
    X(8, 570, 12, 4, 1, 8545, DATA, kinds_8570)       \
    X(8, 580, 10, 4, 1, 8545, DATA, kinds_8580)       \
    X(8, 585, 5, 5, 4, 8580, DATA, kinds_8585)        \
    X(8, 590, 15, 4, 1, 8545, DATA, kinds_8590)       \
    X(8, 990, 2, 1, 1, 8001, CLOSING, closing)        \
    X(9, 001, 2, 1, 1, NONE, OPENING, opening)        \
    X(9, 020, 21, 2, 0, 9001, DATA, kinds_9020)       \
    X(9, 030, 3, 3, 0, 9020, DATA, kinds_9030)        \
    X(9, 040, 12, 3, 0, 9020, DATA, kinds_9040)       \
    X(9, 900, 3, 2, 0, 9001, DATA, kinds_9900)        \
    X(9, 990, 2, 1, 1, 9001, CLOSING, closing)        \
    X(9, 999, 2, 0, 1, 9990, END, closing)

#define ROW_NUMBER(block, number, ...) ROW_##block##number,
enum { ROWS(ROW_NUMBER) ROW_NONE };
static_assert(ROW_NONE == 134, "134 rows");

/* The rows that have one line for each period or, H020, for each day. */
#define PERIODIC(X) \
    X(E300) X(E500) X(F020) X(F200) X(F250) X(G020) X(H020) X(8020) X(8100) X(8160) X(8300) X(8500)
#define PERIODIC_NUMBER(code) PERIODIC_##code,
enum { PERIODIC(PERIODIC_NUMBER) PERIODIC_NONE };
static_assert(PERIODIC_NONE == 12, "12 rows with periods");
#define PERIODIC_OF(code) [ROW_##code] = PERIODIC_##code,
static const uint8_t periodic[ROW_NONE] = {PERIODIC(PERIODIC_OF)};

/* The blocks in the order they come in. */
enum { BLOCK_0, BLOCK_C, BLOCK_E, BLOCK_F, BLOCK_G, BLOCK_H, BLOCK_8, BLOCK_9, BLOCK_NONE };
static_assert(BLOCK_NONE == 8, "8 blocks");

/* A code's four bytes as one number, the first lowest; the digits are the number's nibbles. */
enum { AT_0 = '0', AT_C = 'C', AT_E = 'E', AT_F = 'F', AT_G = 'G', AT_H = 'H', AT_8 = '8', AT_9 = '9' };
#define NIBBLES(n) (((n)&0xF00u) | ((n)&0x0F0u) << 12 | ((n)&0x00Fu) << 24)
#define CODE_OF(block, number) ((uint32_t)AT_##block | 0x30303000u | NIBBLES(0x##number##u))

struct row {
    uint32_t code;
    uint16_t most;
    uint8_t number, block, fields, level, parent, role;
    const struct kind *kinds;
};

#define ROW(block, number, fields, level, most, parent, role, kinds)   \
    {CODE_OF(block, number), most, ROW_##block##number, BLOCK_##block, \
     fields, level, ROW_##parent, role, kinds},
static const struct row rows[] = {ROWS(ROW)};

#define HAS_ITS_KINDS(block, number, fields, level, most, parent, role, kinds) \
    static_assert(sizeof kinds == fields * sizeof kinds[0], "a kind for each field but the first, and the stop");
ROWS(HAS_ITS_KINDS)
#define AND_FIELDS(block, number, fields, ...) +fields
static_assert(ROWS(AND_FIELDS) == 1238, "1238 fields");

/*
 * From code to row without a search. No two codes have the same slot: if two
 * had, the compiler would warn of a slot filled twice (-Wextra).
 */
#define SLOT(code) ((uint32_t)((code)*0xCFA412F7u) >> 23)
#define FILL(block, number, ...) [SLOT(CODE_OF(block, number))] = &rows[ROW_##block##number],
static const struct row *const slots[512] = {ROWS(FILL)};

/* Bytes that end the bytes of a field: 0 to 31 and the bar. */
static const bool special[256] = {
    1, 1, 1, 1, 1, 1, 1, 1, 1, 1, 1, 1, 1, 1, 1, 1,
    1, 1, 1, 1, 1, 1, 1, 1, 1, 1, 1, 1, 1, 1, 1, 1,
    [BAR] = 1,
};

static const bool digit[256] = {
    ['0'] = 1, ['1'] = 1, ['2'] = 1, ['3'] = 1, ['4'] = 1,
    ['5'] = 1, ['6'] = 1, ['7'] = 1, ['8'] = 1, ['9'] = 1,
};

/* ------------------------------------------------------------- the state */

/* Where the next byte comes. In a field after the first the stage is its form. */
enum stage {
    IN_AMOUNT = AMOUNT,
    IN_TEXT = TEXT,
    IN_DIGITS = DIGITS,
    IN_DECIMALS = DECIMALS,
    IN_DATE = DATE,
    IN_CHECKED = CHECKED,
    IN_FIXED = FIXED,
    IN_MARK = MARK,
    IN_FIRST_DAY = FIRST_DAY,
    IN_LAST_DAY = LAST_DAY,
    IN_COUNT = COUNT,
    IN_NAMED = NAMED,
    IN_STATED = STATED,
    LINE_END = NO_FIELD,
    LINE_START,
    CODE,
    LINE_FEED,
    FILE_END,
    REFUSED,
};

/* The different ones that a row's lines had: the first day in the upper half, the last day in the lower. */
struct periods {
    uint32_t number;
    uint64_t had[MOST_PERIODS];
};

struct checker {
    enum stage stage;
    bool finished;
    uint64_t bytes; /* judged */
    uint32_t lines; /* ended */

    /* the field in hand */
    const struct kind *kind;
    uint32_t code; /* field 1: its last four bytes */
    uint64_t length;
    uint64_t value; /* of its digits, see VALUE_FULL */
    uint64_t comma; /* the length with the comma, 0 before it comes */
    uint64_t wrong; /* the length with the first byte that may not stand there, likewise */
    uint8_t kept[CNPJ_SIZE]; /* the first bytes of a CNPJ, a CPF or a code stated */

    /* the line in hand, its open lines by level, and its block */
    const struct row *row;
    int level;
    struct { uint32_t row, line; } open[LEVELS];
    uint64_t mark;  /* field 2 of its opening */
    uint64_t count; /* the true one, where the line says one */
    uint64_t first_day; /* of its period, 0 if it has none */

    /* for each row: how often under which parent line, and over the file */
    struct { uint32_t parent, times; } under[ROW_NONE];
    uint32_t counts[ROW_NONE];
    uint32_t totals[BLOCK_NONE]; /* for each block: its lines ended */

    /* for each row, and last for codes that are none: how often they are stated to occur, see UNTRUE */
    uint64_t stated[ROW_NONE + 1];
    unsigned named; /* by the line in hand */

    struct periods periods[PERIODIC_NONE]; /* for each periodic row */

    unsigned refusal, refused_field; /* where the stage is REFUSED */
};

/* Counts and dates are below this; a value that has come so far stays there. */
#define VALUE_FULL UINT64_C(10000000000)

/* Of a code's statements is kept: 0 if there is none, else the number and 1, or this if they can't all be true. */
#define UNTRUE UINT64_MAX

static void start(struct checker *c)
{
    memset(c, 0, sizeof *c);
    c->stage = LINE_START;
    c->level = -1;
}

static enum stage refuse(struct checker *c, unsigned number, uint32_t field)
{
    c->refusal = number;
    c->refused_field = field;
    return REFUSED;
}

/* ------------------------------------------------------------ whole words */

typedef const uint8_t *place;

static_assert(__BYTE_ORDER__ == __ORDER_LITTLE_ENDIAN__, "a word's first byte is its lowest");

static inline uint32_t four_bytes(place at)
{
    uint32_t word;
    memcpy(&word, at, sizeof word);
    return word;
}

static inline uint64_t eight_bytes(place at)
{
    uint64_t word;
    memcpy(&word, at, sizeof word);
    return word;
}

#define EACH(byte) ((byte)*UINT64_C(0x0101010101010101))
#define HIGH_BITS EACH(0x80)

/*
 * A byte is marked by its high bit. The first mark is true: below it no sum or
 * difference goes over from one byte to the next.
 */

static inline uint64_t mark_others(uint64_t digits)
{
    uint64_t values = digits ^ EACH('0');
    return (values | (values + EACH(0x80 - 10))) & HIGH_BITS;
}

/* Bytes from 0 to 31 and bars. */
static inline uint64_t mark_special(uint64_t word)
{
    return ((word - EACH(32)) | ((word ^ EACH(BAR)) - EACH(1))) & ~word & HIGH_BITS;
}

static inline unsigned first_marked(uint64_t marks)
{
    return (unsigned)__builtin_ctzll(marks) / 8;
}

/* ------------------------------------------- field 1: may the line stand? */

static const struct row *find_row(uint32_t code, uint64_t length)
{
    const struct row *row = slots[SLOT(code)];
    return length == 4 && row != NULL && row->code == code ? row : NULL;
}

static inline bool is_open(const struct checker *c, unsigned row, int level)
{
    return c->level >= level && c->open[level].row == row;
}

static bool opening_stands(const struct checker *c, unsigned row)
{
    if (row == ROW_0001)
        return c->level == 0;
    unsigned before = c->open[1].row;
    return c->level == 1 && before < row && rows[before].role == CLOSING;
}

/* A line that is no data. */
static bool frame_stands(const struct checker *c, const struct row *row)
{
    switch (row->role) {
    case START:
        return c->level < 0;
    case OPENING:
        return opening_stands(c, row->number);
    default:
        return is_open(c, row->parent, 1);
    }
}

/* One more of the row under its parent line: more than it allows? */
static bool is_too_many(struct checker *c, const struct row *row)
{
    uint32_t parent = c->open[row->level - 1].line;
    if (c->under[row->number].parent != parent) {
        c->under[row->number].parent = parent;
        c->under[row->number].times = 0;
    }
    return ++c->under[row->number].times > row->most;
}

/* The line now is the last of the open lines. */
static inline void open_line(struct checker *c, const struct row *row)
{
    c->row = row;
    c->level = row->level;
    c->open[row->level].row = row->number;
    c->open[row->level].line = c->lines + 1;
}

/* A block comes only once, so its total is the number of its lines before this one. */
static void set_count(struct checker *c, const struct row *row)
{
    c->count = (row->role == CLOSING ? c->totals[row->block] : c->lines) + 1;
    if (row->number == ROW_9990)
        c->count++;
}

static inline unsigned judge_data(struct checker *c, const struct row *row)
{
    if (!is_open(c, row->parent, row->level - 1))
        return 4;
    if (c->mark == 1)
        return 5;
    if (row->most != 0 && is_too_many(c, row))
        return 6;
    open_line(c, row);
    return 0;
}

static unsigned judge_frame(struct checker *c, const struct row *row)
{
    if (!frame_stands(c, row))
        return 4;
    if (row->role == CLOSING && c->mark == 0 && c->level == 1)
        return 5;
    open_line(c, row);
    set_count(c, row);
    return 0;
}

static unsigned judge_row(struct checker *c, const struct row *row)
{
    if (row == NULL)
        return 3;
    return row->role == DATA ? judge_data(c, row) : judge_frame(c, row);
}

/* ------------------------------------------------- fields after the first */

static bool is_leap(unsigned year)
{
    return year % 4 == 0 && (year % 100 != 0 || year % 400 == 0);
}

static inline bool is_day(unsigned day, unsigned month, unsigned year)
{
    static const uint8_t days[] = {31, 28, 31, 30, 31, 30, 31, 31, 30, 31, 30, 31};
    if (year - 1900 > 199 || month - 1 > 11)
        return false;
    return day - 1 < days[month - 1] || (day == 29 && month == 2 && is_leap(year));
}

/* ddmmyyyy as one number. */
static bool is_date(uint32_t value)
{
    return is_day(value / 1000000, value / 10000 % 100, value % 10000);
}

/* ddmmyyyy as eight digits: two by two they make a number below 100, in a byte with one to be left out between. */
static inline bool is_date_word(uint64_t digits)
{
    uint64_t values = digits ^ EACH('0'), pairs = values * 10 + (values >> 8);
    return is_day(pairs & 0xFF, pairs >> 16 & 0xFF, (pairs >> 32 & 0xFF) * 100 + (pairs >> 48 & 0xFF));
}

/* What the digits before a check digit ask it to be, by their weighted sum. */
static unsigned check_digit(unsigned sum)
{
    unsigned rest = sum % 11;
    return rest < 2 ? 0 : 11 - rest;
}

/*
 * The weights are those for the second check digit, and a 0. A digit's weight
 * for the first one is the weight behind its own. Both sums are made at once,
 * the second 16 bits higher.
 */
static inline bool has_check_digits(const uint8_t *digits, const uint8_t *weights, unsigned size)
{
    uint32_t sums = 0, of_zeros = 0;
    for (unsigned i = 0; i < size - 1; i++) {
        uint32_t both = (uint32_t)weights[i] << 16 | weights[i + 1];
        sums += digits[i] * both;
        of_zeros += '0' * both;
    }
    sums -= of_zeros;
    return digits[size - 2] == '0' + check_digit(sums & 0xFFFF) &&
           digits[size - 1] == '0' + check_digit(sums >> 16);
}

static inline bool is_cnpj(const uint8_t *digits)
{
    static const uint8_t weights[CNPJ_SIZE] = {6, 5, 4, 3, 2, 9, 8, 7, 6, 5, 4, 3, 2, 0};
    return has_check_digits(digits, weights, CNPJ_SIZE);
}

static inline bool is_cpf(const uint8_t *digits)
{
    static const uint8_t weights[CPF_SIZE] = {11, 10, 9, 8, 7, 6, 5, 4, 3, 2, 0};
    return has_check_digits(digits, weights, CPF_SIZE);
}

static inline bool is_checked(const uint8_t *digits, uint32_t size)
{
    return size == CNPJ_SIZE ? is_cnpj(digits) : is_cpf(digits);
}

/* The bar after a field: the number of the rule it breaks, or 0. */

static unsigned judge_text(const struct checker *c)
{
    return c->length > c->kind->size ? 11 : 0;
}

static unsigned judge_fixed(const struct checker *c)
{
    if (c->length > c->kind->size)
        return 11;
    return c->wrong || c->length < c->kind->size ? 12 : 0;
}

static unsigned judge_digits(const struct checker *c)
{
    if (c->length == 0)
        return 0;
    if (c->wrong)
        return 10;
    return c->kind->size != 0 && c->length != c->kind->size ? 11 : 0;
}

static unsigned judge_decimals(const struct checker *c)
{
    if (c->length == 0)
        return 0;
    return c->wrong || c->comma < 2 || c->length - c->comma != c->kind->size ? 10 : 0;
}

static unsigned judge_mark(struct checker *c)
{
    unsigned number = judge_digits(c);
    c->mark = c->value;
    return number == 0 && (c->length == 0 || c->value > 1) ? 12 : number;
}

static unsigned judge_date(const struct checker *c)
{
    unsigned number = judge_digits(c);
    return number == 0 && c->length != 0 && !is_date((uint32_t)c->value) ? 12 : number;
}

static unsigned judge_first_day(struct checker *c)
{
    c->first_day = c->value;
    return judge_date(c);
}

/* A new one is kept before its line has ended: until then no other line is judged. */
static unsigned judge_period(struct periods *before, uint64_t period)
{
    for (uint32_t i = 0; i < before->number; i++)
        if (before->had[i] == period)
            return 20;
    if (before->number == MOST_PERIODS)
        return 21;
    before->had[before->number++] = period;
    return 0;
}

/* An empty field has the value 0, which no date has: so days with the same value have the same bytes. */
static unsigned judge_last_day(struct checker *c)
{
    unsigned number = judge_date(c);
    if (number != 0)
        return number;
    uint64_t period = c->first_day << 32 | c->value;
    c->first_day = 0; /* for H020, where none comes */
    return judge_period(&c->periods[periodic[c->row->number]], period);
}

static unsigned judge_checked(const struct checker *c)
{
    unsigned number = judge_digits(c);
    return number == 0 && c->length != 0 && !is_checked(c->kept, c->kind->size) ? 24 : number;
}

static unsigned judge_named(struct checker *c)
{
    const struct row *row = find_row(four_bytes(c->kept), c->length);
    c->named = row == NULL ? ROW_NONE : row->number;
    return judge_text(c);
}

/* An empty number is never true, and two different ones are not both true. */
static unsigned judge_stated(struct checker *c)
{
    uint64_t stated = c->length == 0 ? UNTRUE : c->value + 1;
    uint64_t *kept = &c->stated[c->named];
    *kept = *kept == 0 || *kept == stated ? stated : UNTRUE;
    return judge_digits(c);
}

static bool is_true(uint64_t kept, uint64_t times)
{
    return kept == 0 || kept == times + 1;
}

/* At the file's last line, which is not ended yet. */
static bool all_stated_is_true(const struct checker *c)
{
    for (unsigned row = 0; row < ROW_NONE; row++)
        if (!is_true(c->stated[row], row == ROW_9999 ? 1 : c->counts[row]))
            return false;
    return is_true(c->stated[ROW_NONE], 0);
}

static unsigned judge_count(const struct checker *c)
{
    if (c->wrong)
        return 10;
    if (c->length == 0 || c->value != c->count)
        return 13;
    return c->row->role == END && !all_stated_is_true(c) ? 23 : 0;
}

static unsigned judge_field(struct checker *c)
{
    switch (c->kind->form) {
    case TEXT:
        return judge_text(c);
    case FIXED:
        return judge_fixed(c);
    case DIGITS:
        return judge_digits(c);
    case AMOUNT:
    case DECIMALS:
        return judge_decimals(c);
    case MARK:
        return judge_mark(c);
    case DATE:
        return judge_date(c);
    case FIRST_DAY:
        return judge_first_day(c);
    case LAST_DAY:
        return judge_last_day(c);
    case CHECKED:
        return judge_checked(c);
    case COUNT:
        return judge_count(c);
    case NAMED:
        return judge_named(c);
    default:
        return judge_stated(c);
    }
}

/* These take in a field's bytes up to a special one, or to the piece's end. */

/* A byte that may not stand behind so many of its field: the place of the first such byte is kept. */
RARE static void take_wrong(struct checker *c, uint64_t before)
{
    if (c->wrong == 0)
        c->wrong = before + 1;
}

static place take_text(place at, place end)
{
    while (at != end && !special[*at])
        at++;
    return at;
}

static place take_fixed(struct checker *c, place at, place end)
{
    uint64_t length = c->length;
    for (; at != end && !special[*at]; at++, length++)
        if (length >= c->kind->size || *at != (uint8_t)c->kind->text[length])
            take_wrong(c, length);
    return at;
}

static place take_digits(struct checker *c, place from, place end)
{
    place at = from;
    for (; at != end; at++) {
        if (digit[*at])
            continue;
        if (special[*at])
            break;
        take_wrong(c, c->length + (uint64_t)(at - from));
    }
    return at;
}

/* The decimals are not counted as they come: the comma's place and the length tell their number. */
static place take_decimals(struct checker *c, place from, place end)
{
    place at = from;
    for (; at != end; at++) {
        if (digit[*at])
            continue;
        if (special[*at])
            break;
        if (*at == ',' && c->comma == 0)
            c->comma = c->length + (uint64_t)(at - from) + 1;
        else
            take_wrong(c, c->length + (uint64_t)(at - from));
    }
    return at;
}

/* A code that is stated may have any bytes. */
static place take_kept(struct checker *c, place at, place end)
{
    uint64_t length = c->length;
    for (; at != end && !special[*at]; at++, length++) {
        if (!digit[*at] && c->kind->form == CHECKED)
            take_wrong(c, length);
        if (length < CNPJ_SIZE)
            c->kept[length] = *at;
    }
    return at;
}

static place take_value(struct checker *c, place from, place end)
{
    place at = from;
    for (; at != end && !special[*at]; at++) {
        if (!digit[*at])
            take_wrong(c, c->length + (uint64_t)(at - from));
        else if (c->value < VALUE_FULL)
            c->value = c->value * 10 + (unsigned)(*at - '0');
    }
    return at;
}

/*
 * These give the place behind the bar of a field that breaks no rule, NULL for
 * any other: that one is for those above. A line's end is known to come in the
 * piece, and a word's bytes behind it, so the piece's end needs no look.
 */

/* Eight digits stand here, and perhaps more. */
static APART place behind_digits(place at)
{
    uint64_t others;
    do
        at += 8;
    while ((others = mark_others(eight_bytes(at))) == 0);
    return at + first_marked(others);
}

static inline place pass_text(place from, uint32_t size)
{
    uint64_t special;
    place at = from;
    while ((special = mark_special(eight_bytes(at))) == 0)
        at += 8;
    at += first_marked(special);
    return *at == BAR && at - from <= size ? at + 1 : NULL;
}

static inline place pass_digits(place from, uint32_t size)
{
    uint64_t others = mark_others(eight_bytes(from));
    place bar = others != 0 ? from + first_marked(others) : behind_digits(from);
    if (*bar != BAR)
        return NULL;
    return bar - from == size || bar == from || size == 0 ? bar + 1 : NULL;
}

/* A comma, so many digits and a bar: bits are left over of any other bytes. */
static inline bool ends_decimals(place comma, unsigned decimals)
{
    uint64_t digits = EACH(1) >> (64 - 8 * decimals) << 8, bar = UINT64_C(256) << 8 * decimals;
    uint64_t word = eight_bytes(comma) ^ (',' | digits * '0' | bar * BAR);
    return ((word | (word + digits * (0x80 - 10))) & (0xFF | digits * 0x80 | bar * 0xFF)) == 0;
}

static inline place pass_empty(place at)
{
    return *at == BAR ? at + 1 : NULL;
}

static inline place pass_decimals(place from, unsigned decimals)
{
    uint64_t others = mark_others(eight_bytes(from));
    if (others & 0x80)
        return pass_empty(from);
    place comma = others != 0 ? from + first_marked(others) : behind_digits(from);
    return ends_decimals(comma, decimals) ? comma + decimals + 2 : NULL;
}

static inline place pass_date(place from)
{
    uint64_t word = eight_bytes(from);
    if (mark_others(word) != 0)
        return pass_empty(from);
    return from[8] == BAR && is_date_word(word) ? from + 9 : NULL;
}

static place pass_checked(place from, uint32_t size)
{
    place next = pass_digits(from, size);
    return next == NULL || next == from + 1 || is_checked(from, size) ? next : NULL;
}

/* Other numbers of decimals than these and an amount's two are not in the layout. */
static inline place pass_more_decimals(place at, unsigned decimals)
{
    switch (decimals) {
    case 3:
        return pass_decimals(at, 3);
    case 4:
        return pass_decimals(at, 4);
    case 6:
        return pass_decimals(at, 6);
    default:
        return NULL;
    }
}

static APART place pass_rarer(const struct kind *kind, place at)
{
    switch (kind->form) {
    case DECIMALS:
        return pass_more_decimals(at, kind->size);
    case DATE:
        return pass_date(at);
    case CHECKED:
        return pass_checked(at, kind->size);
    default:
        return NULL;
    }
}

/* The most frequent forms first; behind the last field there is none to pass. */
static inline place pass_field(const struct kind *kind, place at)
{
    if (kind->form == AMOUNT)
        return pass_decimals(at, 2);
    if (kind->form == TEXT)
        return pass_text(at, kind->size);
    if (kind->form == DIGITS)
        return pass_digits(at, kind->size);
    return kind->form == NO_FIELD ? NULL : pass_rarer(kind, at);
}

/* ------------------------------------------------------------------ lines */

/* A byte from 0 to 31 in a field. */
static unsigned judge_control(const struct checker *c, uint8_t byte)
{
    return c->length == 0 && (byte == CR || byte == LF) ? 7 : 2;
}

/* Here no byte is wrong yet: a field that had one was refused. Behind the last field comes the line's end. */
static enum stage begin_field(struct checker *c, const struct kind *kind)
{
    c->kind = kind;
    c->length = 0;
    c->value = 0;
    c->comma = 0;
    return (enum stage)kind->form;
}

static enum stage begin_row(struct checker *c, const struct row *row)
{
    unsigned number = judge_row(c, row);
    return number != 0 ? refuse(c, number, 1) : begin_field(c, row->kinds);
}

static inline void count_line(struct checker *c, const struct row *row)
{
    c->lines++;
    c->counts[row->number]++;
    c->totals[row->block]++;
}

/* A bar, a row's code and a bar: NULL for anything else. */
static inline const struct row *row_at(place at)
{
    const uint64_t bars = 0xFF | UINT64_C(0xFF) << 40;
    uint64_t word = eight_bytes(at);
    return (word & bars) == (EACH(BAR) & bars) ? find_row((uint32_t)(word >> 8), 4) : NULL;
}

/* Over fields of a line, up to one that breaks a rule or is of a rare form, or to the line's end. */
static inline place pass_fields(const struct kind **kind, place at)
{
    const struct kind *k = *kind;
    place next;
    while ((next = pass_field(k, at)) != NULL) {
        at = next;
        k++;
    }
    *kind = k;
    return at;
}

/*
 * Over whole lines of data, as far as they break no rule; behind `last` no
 * line of the piece ends. What stops it is left to the stages below.
 */
static APART place pass_lines(struct checker *c, place at, place last)
{
    const struct row *row;
    while (at < last && (row = row_at(at)) != NULL && row->role == DATA) {
        const struct kind *kind = row->kinds;
        unsigned number = judge_data(c, row);
        at += 6;
        if (number != 0) {
            c->stage = refuse(c, number, 1);
            return at;
        }
        at = pass_fields(&kind, at);
        if (kind->form != NO_FIELD || at[0] != CR || at[1] != LF) {
            c->stage = begin_field(c, kind);
            return at;
        }
        at += 2;
        count_line(c, row);
    }
    return at;
}

/*
 * Those that give a stage take in bytes, at least one in the stage they are
 * called for, move `at` behind them and say in which stage the next byte
 * comes.
 */

static enum stage code_field(struct checker *c, place *at, place end)
{
    place from = *at;
    uint32_t code = c->code;
    for (; *at != end && !special[**at]; ++*at)
        code = code >> 8 | (uint32_t)**at << 24;
    c->code = code;
    c->length += (uint64_t)(*at - from);
    if (*at == end)
        return CODE;
    uint8_t byte = *(*at)++;
    if (byte != BAR)
        return refuse(c, judge_control(c, byte), 1);
    return begin_row(c, find_row(c->code, c->length));
}

static enum stage line_start(struct checker *c, place *at)
{
    if (*(*at)++ != BAR)
        return refuse(c, 1, 0);
    c->length = 0;
    return CODE;
}

/* Takes in bytes of a field after the first, which stop at `to`. */
static enum stage field(struct checker *c, enum stage stage, place to, place *at, place end)
{
    c->length += (uint64_t)(to - *at);
    *at = to;
    if (to == end)
        return stage;
    ++*at;
    unsigned number = *to == BAR ? judge_field(c) : judge_control(c, *to);
    if (number != 0)
        return refuse(c, number, (uint32_t)(c->kind - c->row->kinds) + 2);
    return begin_field(c, c->kind + 1);
}

static enum stage line_end(struct checker *c, place *at)
{
    uint8_t byte = *(*at)++;
    if (byte == CR)
        return LINE_FEED;
    return byte == LF ? refuse(c, 9, 0) : refuse(c, 8, c->row->fields + 1);
}

static enum stage line_feed(struct checker *c, place *at)
{
    if (*(*at)++ != LF)
        return refuse(c, 9, 0);
    count_line(c, c->row);
    return c->row->role == END ? FILE_END : LINE_START;
}

static enum stage file_end(struct checker *c, place *at)
{
    ++*at;
    return refuse(c, 15, 0);
}

static enum stage go_on(struct checker *c, enum stage stage, place *at, place end)
{
    place to;
    switch (stage) {
    case LINE_START:
        return line_start(c, at);
    case CODE:
        return code_field(c, at, end);
    case IN_TEXT:
        to = take_text(*at, end);
        break;
    case IN_FIXED:
        to = take_fixed(c, *at, end);
        break;
    case IN_DIGITS:
        to = take_digits(c, *at, end);
        break;
    case IN_AMOUNT:
    case IN_DECIMALS:
        to = take_decimals(c, *at, end);
        break;
    case LINE_END:
        return line_end(c, at);
    case LINE_FEED:
        return line_feed(c, at);
    case FILE_END:
        return file_end(c, at);
    case IN_CHECKED:
    case IN_NAMED:
        to = take_kept(c, *at, end);
        break;
    default:
        to = take_value(c, *at, end);
    }
    return field(c, stage, to, at, end);
}

/* Of the lines behind whose end a word's bytes stand in the piece. */
static place behind_last_line(place bytes, place end)
{
    place at = end - bytes > 8 ? end - 8 : bytes;
    while (at != bytes && at[-1] != LF)
        at--;
    return at;
}

static void judge(struct checker *c, place bytes, uint64_t length)
{
    place at = bytes, end = bytes + length, last = STEPS ? bytes : behind_last_line(bytes, end);
    while (at != end && c->stage != REFUSED) {
        if (c->stage == LINE_START)
            at = pass_lines(c, at, last);
        if (at != end && c->stage != REFUSED)
            c->stage = go_on(c, c->stage, &at, STEPS ? at + 1 : end);
    }
    c->bytes += (uint64_t)(at - bytes);
}

/* --------------------------------------------------------------- the calls */

enum result { STILL_OPEN, IS_ACCEPTED, IS_REFUSED, IS_REPORTED };

struct answer {
    enum result result;
    unsigned number, line, field;
    uint64_t byte; /* of the field */
    unsigned lines;
    uint64_t bytes;
};

/* Where a field with decimals leaves its form: behind its end if it is only too short. */
static uint64_t wrong_decimals(const struct checker *c)
{
    if (c->comma == 1)
        return 1;
    uint64_t full = c->comma == 0 ? c->length : c->comma + c->kind->size;
    if (c->wrong != 0 && c->wrong <= full)
        return c->wrong;
    return (c->length < full ? c->length : full) + 1;
}

static uint64_t wrong_byte(const struct checker *c)
{
    return c->kind->form == AMOUNT || c->kind->form == DECIMALS ? wrong_decimals(c) : c->wrong;
}

/* Only 2 and 10 name a byte. It is found when asked for: a refusal leaves the field in hand as it is. */
static uint64_t refused_byte(const struct checker *c)
{
    if (c->refusal == 2)
        return c->length + 1;
    return c->refusal == 10 ? wrong_byte(c) : 0;
}

static struct answer answer(const struct checker *c, enum result result)
{
    struct answer a = {.result = result, .lines = c->lines, .bytes = c->bytes};
    if (c->stage == REFUSED) {
        a.result = IS_REFUSED;
        a.number = c->refusal;
        a.line = c->lines + 1;
        a.field = c->refused_field;
        a.byte = refused_byte(c);
    }
    return a;
}

static const struct answer after_finish = {.result = IS_REFUSED, .number = 17};
static const struct answer too_little_room = {.result = IS_REFUSED, .number = 18};

static struct answer piece(struct checker *c, place bytes, size_t length)
{
    if (c->finished)
        return after_finish;
    if (c->stage != REFUSED) {
        uint64_t room = MOST_BYTES - c->bytes;
        judge(c, bytes, length < room ? length : room);
        if (length > room && c->stage != REFUSED) {
            c->stage = refuse(c, 16, 0);
            c->bytes++;
        }
    }
    return answer(c, STILL_OPEN);
}

static struct answer finish(struct checker *c)
{
    if (c->finished)
        return after_finish;
    c->finished = true;
    if (c->stage != REFUSED && c->stage != FILE_END)
        c->stage = refuse(c, 14, 0);
    return answer(c, IS_ACCEPTED);
}

static struct answer report(const struct checker *c, uint32_t *counts, size_t room)
{
    if (room < ROW_NONE)
        return too_little_room;
    memcpy(counts, c->counts, sizeof c->counts);
    return (struct answer){.result = IS_REPORTED, .lines = c->lines, .bytes = c->bytes};
}

/* ------------------------------------------------------------ the programs */

static uint8_t buffer[LONGEST_PIECE];
static struct checker checker;

static void print_seven_lines(struct answer a)
{
    printf("result=%s\n", a.result == IS_ACCEPTED ? "accepted" : "refused");
    printf("refusal=%u\nline=%u\nfield=%u\n", a.number, a.line, a.field);
    printf("byte=%" PRIu64 "\nlines=%u\nbytes=%" PRIu64 "\n", a.byte, a.lines, a.bytes);
}

static bool check_input(void)
{
    size_t length;
    start(&checker);
    while ((length = fread(buffer, 1, sizeof buffer, stdin)) != 0)
        piece(&checker, buffer, length);
    if (ferror(stdin))
        return false;
    print_seven_lines(finish(&checker));
    return true;
}

/* They are the state's and not the answer's: 17 and 18 say 0 lines and leave the totals as they are. */
static void print_totals(void)
{
    printf(" totals");
    for (size_t i = 0; i < BLOCK_NONE; i++)
        printf(" %" PRIu32, checker.totals[i]);
    printf("\n");
}

static void print_answer(struct answer a)
{
    if (a.result == IS_REFUSED)
        printf("refused %u %u %u %" PRIu64, a.number, a.line, a.field, a.byte);
    else
        printf("%s", a.result == STILL_OPEN ? "open" : "accepted");
    printf(" %u %" PRIu64, a.lines, a.bytes);
    print_totals();
}

static void print_report(size_t room)
{
    uint32_t counts[ROW_NONE];
    struct answer a = report(&checker, counts, room);
    if (a.result == IS_REFUSED) {
        print_answer(a);
        return;
    }
    printf("counts %u %" PRIu64, a.lines, a.bytes);
    for (size_t i = 0; i < ROW_NONE; i++)
        printf(" %" PRIu32, counts[i]);
    print_totals();
}

static bool obey(uint8_t letter, uint32_t length)
{
    if (length > (letter == 'P' ? LONGEST_PIECE : 0) || fread(buffer, 1, length, stdin) != length)
        return false;
    switch (letter) {
    case 'N':
        start(&checker);
        return true;
    case 'P':
        print_answer(piece(&checker, buffer, length));
        return true;
    case 'F':
        print_answer(finish(&checker));
        return true;
    case 'C':
        print_report(ROW_NONE);
        return true;
    case 'S':
        print_report(ROW_NONE - 1);
        return true;
    default:
        return false;
    }
}

static bool obey_input(void)
{
    uint8_t head[5];
    size_t got;
    start(&checker);
    while ((got = fread(head, 1, sizeof head, stdin)) == sizeof head) {
        uint32_t length = (uint32_t)(head[1] | head[2] << 8 | head[3] << 16) | (uint32_t)head[4] << 24;
        if (!obey(head[0], length))
            return false;
    }
    return got == 0 && !ferror(stdin);
}

int main(int argc, char **argv)
{
    if (argc > 2 || (argc == 2 && strcmp(argv[1], "pieces") != 0)) {
        fputs("usage: peer [pieces]\n", stderr);
        return 2;
    }
    bool good = argc == 2 ? obey_input() : check_input();
    if (good && fflush(stdout) == 0)
        return 0;
    fputs("peer: the input cannot be read, or the output not written\n", stderr);
    return 2;
}
