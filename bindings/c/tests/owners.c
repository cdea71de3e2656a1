/*
 * Tables of owners through tuilarder.h: which are refused and with what, and which product line owns a separator. Expected answers are worked
 * out by hand from document 02's sentences about tables. It is meant for valgrind: tables and separators end where their block ends.
 */
#include "tuilarder.h"

#include "lent.h"

#define MAX UINT32_MAX
#define ROW 10

struct row {
    uint32_t first, last;
    uint16_t line;
};

static void put_number(uint8_t *at, uint32_t number)
{
    for (int i = 0; i < 4; i++)
        at[i] = (uint8_t)(number >> (24 - 8 * i));
}

static void put_row(uint8_t *at, struct row row)
{
    put_number(at, row.first);
    put_number(at + 4, row.last);
    at[8] = (uint8_t)(row.line >> 8);
    at[9] = (uint8_t)row.line;
}

/* Says which call it was if a check failed since there were so many failures. */
static void say_call(unsigned long before, size_t table, size_t separator, uint32_t number, uint32_t with)
{
    if (failures != before)
        printf("    table of %zu bytes, separator of %zu; expected %u with %u\n", table, separator, number, with);
}

/* The table is checked, with what comes with the number. */
static void check_table(const void *bytes, size_t length, uint32_t number, uint32_t place)
{
    struct lent table = lend_copy(bytes, length), written = lend(sizeof place, 0);
    unsigned long before = failures;
    CHECK(tuilarder_check_owners(table.part, length, written.part) == number);
    CHECK(holds(&written, &place) && same(&table));
    say_call(before, length, 0, number, place);
    give_back(&written);
    give_back(&table);
}

/* The table is asked about a separator. */
static void check_asked(const void *bytes, size_t length, const void *asked, size_t asked_length, uint32_t number, uint32_t value)
{
    struct lent table = lend_copy(bytes, length), separator = lend_copy(asked, asked_length), written = lend(sizeof value, 0);
    unsigned long before = failures;
    CHECK(tuilarder_owner(table.part, length, separator.part, asked_length, written.part) == number);
    CHECK(holds(&written, &value) && same(&table) && same(&separator));
    say_call(before, length, asked_length, number, value);
    give_back(&written);
    give_back(&separator);
    give_back(&table);
}

/* A refused table, asked about separators that are too short and others: the table's number comes before 17, with its place. */
static void check_refused(const void *bytes, size_t length, uint32_t number, uint32_t place)
{
    const size_t lengths[] = {0, 3, 4, 300};
    uint8_t asked[300] = {0};
    check_table(bytes, length, number, place);
    for (size_t i = 0; i < sizeof lengths / sizeof *lengths; i++)
        check_asked(bytes, length, asked, lengths[i], number, place);
}

/* An accepted table, asked about a number: by its four bytes alone, with one byte behind them, and with 296. */
static void check_owned(const void *bytes, size_t length, uint32_t asked, uint16_t line)
{
    uint8_t separator[300];
    memset(separator, 0xff, sizeof separator);
    put_number(separator, asked);
    check_table(bytes, length, TUILARDER_ACCEPTED, 0);
    check_asked(bytes, length, separator, 4, TUILARDER_ACCEPTED, line);
    check_asked(bytes, length, separator, 5, TUILARDER_ACCEPTED, line);
    check_asked(bytes, length, separator, 300, TUILARDER_ACCEPTED, line);
}

/* An accepted table, asked about separators of 0 to 3 bytes. */
static void check_too_short(const void *bytes, size_t length)
{
    for (size_t short_length = 0; short_length < 4; short_length++)
        check_asked(bytes, length, "abc", short_length, TUILARDER_SEPARATOR_TOO_SHORT, 0);
}

/* ---- tables of a few rows */

/* Lines are 1, 2, 3 .. with every bit of the upper byte set. */
static const struct example {
    size_t count;
    uint32_t rows[4][2];
    uint32_t number, place;
} examples[] = {
    /* the empty table */
    {0, {{0}}, TUILARDER_OWNERS_GAP, 0},
    /* one row that holds every number, and one number too few at either end */
    {1, {{0, MAX}}, TUILARDER_ACCEPTED, 0},
    {1, {{1, MAX}}, TUILARDER_OWNERS_GAP, 0},
    {1, {{0, MAX - 1}}, TUILARDER_OWNERS_GAP, MAX},
    {1, {{0, 0}}, TUILARDER_OWNERS_GAP, 1},
    {1, {{MAX, MAX}}, TUILARDER_OWNERS_GAP, 0},
    /* first above last */
    {1, {{1, 0}}, TUILARDER_OWNERS_ROW_INVALID, 1},
    {1, {{MAX, MAX - 1}}, TUILARDER_OWNERS_ROW_INVALID, 1},
    {1, {{0x01000000, 0x00ffffff}}, TUILARDER_OWNERS_ROW_INVALID, 1},
    {3, {{0, 9}, {20, 10}, {21, MAX}}, TUILARDER_OWNERS_ROW_INVALID, 2},
    /* first equal to last */
    {3, {{0, 0}, {1, MAX - 1}, {MAX, MAX}}, TUILARDER_ACCEPTED, 0},
    {3, {{0, 6}, {7, 7}, {8, MAX}}, TUILARDER_ACCEPTED, 0},
    /* a gap in the middle, and two gaps */
    {2, {{0, 5}, {7, MAX}}, TUILARDER_OWNERS_GAP, 6},
    {2, {{0, 0x7fffffff}, {0x80000001, MAX}}, TUILARDER_OWNERS_GAP, 0x80000000},
    {3, {{0, 5}, {8, 9}, {12, MAX}}, TUILARDER_OWNERS_GAP, 6},
    {3, {{0, 5}, {6, 9}, {12, MAX}}, TUILARDER_OWNERS_GAP, 10},
    {2, {{0, 5}, {6, 9}}, TUILARDER_OWNERS_GAP, 10},
    /* rows that share a number, overlap, are equal, lie within one another, or fall */
    {2, {{0, 5}, {5, MAX}}, TUILARDER_OWNERS_ROW_INVALID, 2},
    {2, {{0, 9}, {5, MAX}}, TUILARDER_OWNERS_ROW_INVALID, 2},
    {2, {{0, MAX}, {0, MAX}}, TUILARDER_OWNERS_ROW_INVALID, 2},
    {3, {{0, 99}, {10, 20}, {100, MAX}}, TUILARDER_OWNERS_ROW_INVALID, 2},
    {2, {{6, MAX}, {0, 5}}, TUILARDER_OWNERS_ROW_INVALID, 2},
    {3, {{0, 5}, {6, 9}, {9, MAX}}, TUILARDER_OWNERS_ROW_INVALID, 3},
    /* no row comes behind one that ends at the largest number */
    {2, {{0, MAX}, {MAX, MAX}}, TUILARDER_OWNERS_ROW_INVALID, 2},
    {3, {{0, MAX}, {0, 0}, {1, MAX}}, TUILARDER_OWNERS_ROW_INVALID, 2},
    /* a bad row counts before a gap, wherever the gap is, and the first of two bad rows counts */
    {3, {{1, 5}, {6, 9}, {9, MAX}}, TUILARDER_OWNERS_ROW_INVALID, 3},
    {4, {{0, 5}, {5, 9}, {20, 10}, {21, MAX}}, TUILARDER_OWNERS_ROW_INVALID, 2},
    {2, {{7, 6}, {0, MAX}}, TUILARDER_OWNERS_ROW_INVALID, 1},
};

static void test_example(const struct example *example)
{
    uint8_t table[4 * ROW];
    size_t length = example->count * ROW;
    for (size_t k = 0; k < example->count; k++)
        put_row(table + k * ROW, (struct row){example->rows[k][0], example->rows[k][1], (uint16_t)(0xff01 + k)});
    if (example->number != TUILARDER_ACCEPTED) {
        check_refused(table, length, example->number, example->place);
        return;
    }
    check_too_short(table, length);
    for (size_t k = 0; k < example->count; k++) {
        check_owned(table, length, example->rows[k][0], (uint16_t)(0xff01 + k));
        check_owned(table, length, example->rows[k][1], (uint16_t)(0xff01 + k));
    }
}

/* A table in bytes, so that their order is seen: 0 to 0x01020303 of line 0x0a0b, 0x01020304 to 0xfffffffe of 0, and the rest of 0xffff. */
static void test_bytes(void)
{
    const uint8_t table[3 * ROW] = {
        0, 0, 0, 0, 0x01, 0x02, 0x03, 0x03, 0x0a, 0x0b,
        0x01, 0x02, 0x03, 0x04, 0xff, 0xff, 0xff, 0xfe, 0, 0,
        0xff, 0xff, 0xff, 0xff, 0xff, 0xff, 0xff, 0xff, 0xff, 0xff};
    check_owned(table, sizeof table, 0, 0x0a0b);
    check_owned(table, sizeof table, 0x01020303, 0x0a0b);
    check_owned(table, sizeof table, 0x01020304, 0);
    check_owned(table, sizeof table, 0x04030201, 0);
    check_owned(table, sizeof table, MAX - 1, 0);
    check_owned(table, sizeof table, MAX, 0xffff);
}

/* The first bytes of four good rows: a row that is cut short is bad, and without the rows behind it there is a gap. */
static void test_cut(void)
{
    const struct row rows[4] = {{0, 99, 1}, {100, 199, 2}, {200, 299, 3}, {300, MAX, 4}};
    const uint32_t gaps[4] = {0, 100, 200, 300};
    uint8_t table[4 * ROW];
    for (size_t k = 0; k < 4; k++)
        put_row(table + k * ROW, rows[k]);
    for (uint32_t length = 0; length < sizeof table; length++) {
        if (length % ROW != 0)
            check_refused(table, length, TUILARDER_OWNERS_ROW_INVALID, length / ROW + 1);
        else
            check_refused(table, length, TUILARDER_OWNERS_GAP, gaps[length / ROW]);
    }
    check_owned(table, sizeof table, 299, 3);
}

/* ---- the most rows */

/* Fills a table with so many rows of equal width, the last of which ends at the largest number. Gives the width. */
static uint32_t fill_equal(uint8_t *table, uint32_t count)
{
    uint32_t width = MAX / count + 1;
    for (uint32_t k = 0; k < count; k++)
        put_row(table + k * ROW, (struct row){k * width, k + 1 < count ? (k + 1) * width - 1 : MAX, (uint16_t)(k * 257 + 3)});
    return width;
}

static void test_128_rows(void)
{
    uint8_t table[128 * ROW];
    uint32_t width = fill_equal(table, 128);
    check_too_short(table, sizeof table);
    for (uint32_t k = 0; k < 128; k++) {
        check_owned(table, sizeof table, k * width, (uint16_t)(k * 257 + 3));
        check_owned(table, sizeof table, (k + 1) * width - 1, (uint16_t)(k * 257 + 3));
    }
    check_refused(table, sizeof table - ROW, TUILARDER_OWNERS_GAP, 127 * width);
    check_refused(table, sizeof table - 1, TUILARDER_OWNERS_ROW_INVALID, 128);
    put_row(table + 127 * ROW, (struct row){127 * width - 1, MAX, 0});
    check_refused(table, sizeof table, TUILARDER_OWNERS_ROW_INVALID, 128);
}

/* Row 129 is bad though it is whole and rises, and so is a part of it; a bad row before it counts first. */
static void test_129_rows(void)
{
    uint8_t table[140 * ROW];
    uint32_t width = fill_equal(table, 129);
    check_refused(table, 128 * ROW, TUILARDER_OWNERS_GAP, 128 * width);
    for (size_t behind = 1; behind <= ROW; behind++)
        check_refused(table, 128 * ROW + behind, TUILARDER_OWNERS_ROW_INVALID, 129);
    put_row(table + 5 * ROW, (struct row){5 * width, 5 * width - 1, 0});
    check_refused(table, 129 * ROW, TUILARDER_OWNERS_ROW_INVALID, 6);
    fill_equal(table, 140);
    check_refused(table, 140 * ROW, TUILARDER_OWNERS_ROW_INVALID, 129);
}

/* ---- empty lists */

/* Each list with length 0 at this place, which is NULL or where a block ends. */
static void test_empty(void *place)
{
    uint8_t table[ROW];
    uint32_t written = 1;
    put_row(table, (struct row){0, MAX, 7});
    CHECK(tuilarder_check_owners(place, 0, &written) == TUILARDER_OWNERS_GAP && written == 0);
    written = 1;
    CHECK(tuilarder_owner(place, 0, place, 0, &written) == TUILARDER_OWNERS_GAP && written == 0);
    written = 1;
    CHECK(tuilarder_owner(place, 0, (const uint8_t *)"abcd", 4, &written) == TUILARDER_OWNERS_GAP && written == 0);
    written = 1;
    CHECK(tuilarder_owner(table, ROW, place, 0, &written) == TUILARDER_SEPARATOR_TOO_SHORT && written == 0);
}

int main(void)
{
    struct lent empty = lend(0, 0);
    for (size_t i = 0; i < sizeof examples / sizeof *examples; i++)
        test_example(&examples[i]);
    test_bytes();
    test_cut();
    test_128_rows();
    test_129_rows();
    test_empty(NULL);
    test_empty(empty.part);
    CHECK(same(&empty));
    give_back(&empty);
    return report("owners");
}
