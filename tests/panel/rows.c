/*
 * Tests of rows to the end in C: descriptors whose last group has the repetition factor 0, blocks of them with as many rows
 * as the data have, and what is refused of both. What holds of any descriptor is in calls.c. The last line printed is
 * "N passed, M failed", and the exit status is 0 if none failed.
 */
#include "support.h"

/* SDAs of 12 bytes: of any id; of id B1, a whole number of two bytes and a string without bytes; of id B2, strings of a byte
 * and without bytes. */
#define F(id, type, mode, length) "0C70" id type "0000000000" mode length
#define W S("23", "0002")
#define E S("01", "0000")
#define BYTE F("B2", "01", "00", "0001")
#define EMPTY F("B2", "01", "00", "0000")

/* An SDA of 16 bytes: 4,096 strings of so many bytes, of which a group can take 255 times as many. */
#define LONG(length) "1070B101000000000000" length "00011000"

/* ---- descriptors: the check counts the items before the rows */

static const struct check_case accepted[] = {
    {"an SDA", W "0671A1B10000", 0, 0, 0},
    {"an SDA behind itself", W "0971A1B10003B10000", 0, 0, 3},
    {"ISD before", "057E000100" W "0671A1B10000", 0, 0, 0},
    {"extents", "1070B123000000000000000200020003" "0671A1B10000", 0, 0, 0},
    {"elements taken", "0E70B12300000000000000020003" "0671A1B10500", 0, 0, 0},
    {"a row", W "0671A1B10002" "0671A2A10000", 0, 0, 0},
    {"a row behind itself", W "0671A1B10002" "0971A2A10003A10000", 0, 0, 6},
    {"a GDA", W "0975D1B10004B10000" "0671A1D10000", 0, 0, 0},
    {"a GDA behind itself", W "0975D1B10004B10000" "0971A1D10003D10000", 0, 0, 6},
    {"in a CPT", W "0671A1B10002" "067F00B10000", 0, 0, 2},
    {"in the second CPT", W "0671A1B10002" "067F00B10001" "097F00B10003B10000", 0, 0, 6},
    {"behind an unused row", W "0671A1B10005" "0671A2B10000", 0, 0, 0},
    {"behind 4,096 items", W "0671A1B10040" "0671A2A10040" "0971A3A20001B10000", 0, 0, 4096},
    {"1,044,480 items", LONG("0001") "0671A1B1FF00", 0, 0, 0},
    {"1,044,480 items behind 4,096", LONG("0001") "0971A1B10001B1FF00", 0, 0, 4096},
    {"an SDA that ends in 0", E, 0, 0, 1},
    {"a GDA that ends in 0", W "0675D1B10000", 0, 0, 1},
};

/* What is repeated takes bytes, or is not repeated to the end. */
static const struct check_case with_bytes[] = {
    {"a byte", S("01", "0001") "0671A1B10000", 0, 0, 0},
    {"nullable", S("81", "0000") "0671A1B10000", 0, 0, 0},
    {"variable", M("02", "01", "0000") "0671A1B10000", 0, 0, 0},
    {"terminated", M("03", "01", "0000") "0671A1B10000", 0, 0, 0},
    {"short", M("07", "01", "0000") "0671A1B10000", 0, 0, 0},
    {"float with zero parameters", S("40", "0000") "0671A1B10000", 0, 0, 0},
    {"bytes first", E BYTE "0971A1B20001B10001" "0671A2A10000", 0, 0, 0},
    {"bytes last", E BYTE "0971A1B10001B20001" "0671A2A10000", 0, 0, 0},
    {"bytes in a lower row", E BYTE "0971A1B10001B20001" "0971A2B10002A10001" "0671A3A20000", 0, 0, 0},
    {"length of a GDA", E "0675D1B10001" "0671A1D10000", 0, 0, 0},
    {"length of a GDA's last column", E "0975D1B10000B10001" "0671A1D10000", 0, 0, 0},
    {"behind items without bytes", E BYTE "0971A1B10002B20000", 0, 0, 2},
    {"255 items without bytes", E "0671A1B100FF", 0, 0, 255},
};

static const struct check_case without_bytes[] = {
    {"an SDA", E "0671A1B10000", 22, 12, 0},
    {"extents", "0E70B10100000000000000000003" "0671A1B10000", 22, 14, 0},
    {"elements taken", "0E70B10100000000000000000003" "0671A1B10200", 22, 14, 0},
    {"1,044,480 items", LONG("0000") "0671A1B1FF00", 22, 16, 0},
    {"a row", E "0671A1B10002" "0671A2A10000", 22, 18, 0},
    {"a row of two SDAs", E EMPTY "0971A1B10001B20001" "0671A2A10000", 22, 33, 0},
    {"a row of a row", E "0671A1B10002" "0971A2B10001A10001" "0671A3A20000", 22, 27, 0},
    {"a GDA", E "0975D1B10000B10000" "0671A1D10000", 22, 21, 0},
    {"a row of a GDA", E "0675D1B10000" "0671A1D10002" "0671A2A10000", 22, 24, 0},
    {"in a CPT", E "0671A1B10002" "067F00B10000", 22, 18, 0},
    {"behind items with bytes", E BYTE "0971A1B20002B10000", 22, 24, 0},
    {"behind 4,096 items", E "0671A1B10040" "0671A2A10040" "0971A3A20001B10000", 22, 24, 0},
};

static const struct check_case refused[] = {
    {"first of two groups", W "0971A1B10000B10001", 9, 12, 0},
    {"both of two groups", W "0971A1B10000B10000", 9, 12, 0},
    {"before a CPT", W "0671A1B10000" "067F00B10001", 9, 12, 0},
    {"before a CPT to the end", W "0671A1B10000" "067F00B10000", 9, 12, 0},
    {"in a CPT before a CPT", W "0671A1B10001" "067F00B10000" "067F00B10001", 9, 18, 0},
    {"before a row", W "0671A1B10000" "0671A2B10001", 9, 12, 0},
    {"before an SDA", W "0671A1B10000" BYTE, 9, 12, 0},
    {"before a GDA", W "0671A1B10000" "0675D1B10002", 9, 12, 0},
    {"before an ISD", W "0671A1B10000" "057E000100", 9, 12, 0},
    {"before a torn triplet", W "0671A1B10000" "0671", 9, 12, 0},
    {"before a byte", W "0671A1B10000" "00", 9, 12, 0},
    {"elements of an SDA without extents", W "0671A1B10100", 9, 12, 0},
    {"elements of a row", W "0671A1B10002" "0671A2A10100", 9, 18, 0},
    {"elements of a GDA", W "0675D1B10002" "0671A1D10100", 9, 18, 0},
};

static const struct check_case turns[] = {
    {"LENGTH past the end", W "0971A1B10000", 2, 12, 0},
    {"LENGTH of no RLO", W "0771A1B1000000", 5, 12, 0},
    {"own id 0", W "067100B10000", 6, 12, 0},
    {"id of the SDA", W "0671B1B10000", 7, 12, 0},
    {"reference to itself", W "0671A1A10000", 8, 12, 0},
    {"8, then 9", W "0671A1B20000" "0671A2B10001", 8, 12, 0},
    {"9 of elements, then 22", E "0671A1B10100", 9, 12, 0},
    {"9 before a row, not 22", E "0671A1B10000" "0671A2B10001", 9, 12, 0},
    {"10 in the group before", W "0671A1B10040" "0671A2A10040" "0C71A3A20001B10001B10000", 10, 24, 0},
    {"10 in the group before, not 22", E "0671A1B10040" "0671A2A10040" "0C71A3A20001B10001B10000", 10, 24, 0},
};

/* ---- blocks, item by item: how many items stand before the rows, and how many a row has */

struct block_case {
    const char *name;
    const char *descriptor;
    const char *data;
    uint32_t before, row;
    struct item items[MOST];
};

/* A row of a dish, portions and a room, and two such rows, of 10 bytes and of 6. */
#define ORDER                                                                                                          \
    F("B1", "02", "01", "0008") F("B2", "B0", "00", "0301") F("B3", "24", "00", "0002") "0C71A1B10001B20001B30001"
#define TEA "0003546561" "00125C" "0100"
#define RICE "000141" "80" "FEFF"

static const struct block_case orders[] = {
    {"no row", ORDER "0671A2A10000", "", 0, 3, {{0}}},
    {"a row",
     ORDER "0671A2A10000",
     TEA,
     0,
     3,
     {{0xB1, 0, 0, 0x02, 2, 3, 0, 0}, {0xB2, 5, 0, 0xB0, 6, 2, 125, 1}, {0xB3, 8, 0, 0x24, 8, 2, 1, 0}}},
    {"two rows",
     ORDER "0671A2A10000",
     TEA RICE,
     0,
     3,
     {{0xB1, 0, 0, 0x02, 2, 3, 0, 0},
      {0xB2, 5, 0, 0xB0, 6, 2, 125, 1},
      {0xB3, 8, 0, 0x24, 8, 2, 1, 0},
      {0xB1, 10, 0, 0x02, 12, 1, 0, 0},
      {0xB2, 13, 1, 0xB0, 14, 0, 0, 1},
      {0xB3, 14, 0, 0x24, 14, 2, -2, 0}}},
    {"no row behind items",
     ORDER "0971A2B30002A10000",
     "0700" "0800",
     2,
     3,
     {{0xB3, 0, 0, 0x24, 0, 2, 7, 0}, {0xB3, 2, 0, 0x24, 2, 2, 8, 0}}},
    {"rows behind items",
     ORDER "0971A2B30002A10000",
     "0700" "0800" RICE RICE,
     2,
     3,
     {{0xB3, 0, 0, 0x24, 0, 2, 7, 0},
      {0xB3, 2, 0, 0x24, 2, 2, 8, 0},
      {0xB1, 4, 0, 0x02, 6, 1, 0, 0},
      {0xB2, 7, 1, 0xB0, 8, 0, 0, 1},
      {0xB3, 8, 0, 0x24, 8, 2, -2, 0},
      {0xB1, 10, 0, 0x02, 12, 1, 0, 0},
      {0xB2, 13, 1, 0xB0, 14, 0, 0, 1},
      {0xB3, 14, 0, 0x24, 14, 2, -2, 0}}},
    {"rows in a CPT",
     ORDER "0671A2A10001" "097F00B30001A10000",
     RICE "0700" RICE,
     4,
     3,
     {{0xB1, 0, 0, 0x02, 2, 1, 0, 0},
      {0xB2, 3, 1, 0xB0, 4, 0, 0, 1},
      {0xB3, 4, 0, 0x24, 4, 2, -2, 0},
      {0xB3, 6, 0, 0x24, 6, 2, 7, 0},
      {0xB1, 8, 0, 0x02, 10, 1, 0, 0},
      {0xB2, 11, 1, 0xB0, 12, 0, 0, 1},
      {0xB3, 12, 0, 0x24, 12, 2, -2, 0}}},
};

static const struct block_case layouts[] = {
    {"an SDA of indicators",
     S("81", "0000") "0671A1B10000",
     "800080",
     0,
     1,
     {{0xB1, 0, 1, 0x81, 1, 0, 0, 0}, {0xB1, 1, 0, 0x81, 2, 0, 0, 0}, {0xB1, 2, 1, 0x81, 3, 0, 0, 0}}},
    {"a terminated SDA",
     M("03", "01", "0000") "0671A1B10000",
     "4100" "00" "424300",
     0,
     1,
     {{0xB1, 0, 0, 0x03, 0, 1, 0, 0}, {0xB1, 2, 0, 0x03, 2, 0, 0, 0}, {0xB1, 3, 0, 0x03, 3, 2, 0, 0}}},
    {"elements taken",
     "0E70B12300000000000000020003" "0671A1B10200",
     "0001000200030004",
     0,
     2,
     {{0xB1, 0, 0, 0x23, 0, 2, 1, 0},
      {0xB1, 2, 0, 0x23, 2, 2, 2, 0},
      {0xB1, 4, 0, 0x23, 4, 2, 3, 0},
      {0xB1, 6, 0, 0x23, 6, 2, 4, 0}}},
    {"columns of a GDA",
     S("23", "0008") "0975D1B10002B10004" "0671A1D10000",
     "FFFE" "00000001" "0003" "FFFFFFFC",
     0,
     2,
     {{0xB1, 0, 0, 0x23, 0, 2, -2, 0},
      {0xB1, 2, 0, 0x23, 2, 4, 1, 0},
      {0xB1, 6, 0, 0x23, 6, 2, 3, 0},
      {0xB1, 8, 0, 0x23, 8, 4, -4, 0}}},
    {"columns of a GDA behind its SDA",
     S("30", "0302") "0675D1B10100" "0971A1B10001D10000",
     "125D" "7C" "8C",
     1,
     1,
     {{0xB1, 0, 0, 0x30, 0, 2, -125, 2}, {0xB1, 2, 0, 0x30, 2, 1, 7, 0}, {0xB1, 3, 0, 0x30, 3, 1, 8, 0}}},
    {"rows of a row",
     W F("B2", "07", "01", "0000") "0671A1B10002" "0971A2A10001B20001" "0671A3A20000",
     "00010002" "0141" "00030004" "00",
     0,
     3,
     {{0xB1, 0, 0, 0x23, 0, 2, 1, 0},
      {0xB1, 2, 0, 0x23, 2, 2, 2, 0},
      {0xB2, 4, 0, 0x07, 5, 1, 0, 0},
      {0xB1, 6, 0, 0x23, 6, 2, 3, 0},
      {0xB1, 8, 0, 0x23, 8, 2, 4, 0},
      {0xB2, 10, 0, 0x07, 11, 0, 0, 0}}},
};

static const struct block_case empty_items[] = {
    {"no bytes at the end of a row",
     W EMPTY "0971A1B10001B20002" "0671A2A10000",
     "00010002",
     0,
     3,
     {{0xB1, 0, 0, 0x23, 0, 2, 1, 0},
      {0xB2, 2, 0, 0x01, 2, 0, 0, 0},
      {0xB2, 2, 0, 0x01, 2, 0, 0, 0},
      {0xB1, 2, 0, 0x23, 2, 2, 2, 0},
      {0xB2, 4, 0, 0x01, 4, 0, 0, 0},
      {0xB2, 4, 0, 0x01, 4, 0, 0, 0}}},
    {"no bytes at the beginning of a row",
     W EMPTY "0971A1B20001B10001" "0671A2A10000",
     "00010002",
     0,
     2,
     {{0xB2, 0, 0, 0x01, 0, 0, 0, 0},
      {0xB1, 0, 0, 0x23, 0, 2, 1, 0},
      {0xB2, 2, 0, 0x01, 2, 0, 0, 0},
      {0xB1, 2, 0, 0x23, 2, 2, 2, 0}}},
    {"no bytes before no row",
     W EMPTY "0971A1B20002B10000",
     "",
     2,
     1,
     {{0xB2, 0, 0, 0x01, 0, 0, 0, 0}, {0xB2, 0, 0, 0x01, 0, 0, 0, 0}}},
    {"no bytes before a row",
     W EMPTY "0971A1B20002B10000",
     "0007",
     2,
     1,
     {{0xB2, 0, 0, 0x01, 0, 0, 0, 0}, {0xB2, 0, 0, 0x01, 0, 0, 0, 0}, {0xB1, 0, 0, 0x23, 0, 2, 7, 0}}},
};

/* Whether the data may end before item k. */
static bool is_row_start(const struct block_case *c, uint32_t k)
{
    return k >= c->before && (k - c->before) % c->row == 0;
}

/* Data that end at a row's end have the items before it, and those that end elsewhere are refused at the item that they cut;
 * a list that is too small comes after both. */
static bool cut_gives(const struct block_case *c, struct bytes d, struct bytes s, size_t size)
{
    struct bytes cut = {s.at, size};
    uint32_t k = 0;

    while (start_of(c->items, k + 1, s) <= size && !(is_row_start(c, k) && start_of(c->items, k, s) == size))
        k++;

    uint32_t start = start_of(c->items, k, s);

    if (is_row_start(c, k) && start == size)
        return items_listed(d, cut, c->items, k) && list_refuses(d, cut, 1, 12, 0) && state_refuses(d, cut, k, 17, 0);
    return list_refuses(d, cut, 0, 13, start) && list_refuses(d, cut, FDOCA_MAX_LIST, 13, start) &&
           state_refuses(d, cut, 0, 13, start);
}

static void test_cuts(const struct block_case *c, struct bytes d, struct bytes s)
{
    bool good = true;

    for (size_t size = 0; size < s.size; size++)
        good = good && cut_gives(c, d, s, size);
    expect(good, "data cut", c->name);
}

static void test_small_lists(const struct block_case *c, struct bytes d, struct bytes s, uint32_t count)
{
    bool good = true;

    for (size_t size = 0; size < FDOCA_LIST_SIZE(count); size++)
        good = good && list_refuses(d, s, size, 12, 0);
    expect(good, "list too small", c->name);
}

static void test_blocks(const struct block_case *cases, size_t case_count)
{
    for (size_t i = 0; i < case_count; i++) {
        const struct block_case *c = &cases[i];
        struct bytes d = hex(c->descriptor), s = hex(c->data);
        uint32_t count = count_of(c->items);

        expect(check_gives(d, 0, 0, c->before), "check of a block", c->name);
        expect(items_listed(d, s, c->items, count), "list", c->name);
        test_small_lists(c, d, s, count);
        for (uint32_t k = 0; k < count; k++)
            test_item(d, s, k, c->items, c->name);
        expect_refused(d, s, count, 17, 0, c->name);
        expect_refused(d, s, UINT32_MAX, 17, 0, c->name);
        test_cuts(c, d, s);
        free(d.at);
        free(s.at);
    }
}

/* ---- data that are refused, whatever list there is */

static const struct refusal_case broken[] = {
    {"a byte left", W "0671A1B10000", "000100", 13, 2},
    {"a row without its second item", W "0671A1B10002" "0671A2A10000", "000100020003", 13, 6},
    {"an item before the rows", W "0971A1B10002B10000", "000100", 13, 2},
    {"no item before the rows", W "0971A1B10002B10000", "", 13, 0},
    {"an item behind one without bytes", W EMPTY "0971A1B20001B10001" "0671A2A10000", "000100", 13, 2},
    {"bytes behind a null", S("81", "0003") "0671A1B10000", "800041", 13, 1},
    {"odd indicator", S("81", "0003") "0671A1B10000", "8001414243", 24, 1},
    {"L above F", M("02", "01", "0004") "0671A1B10000", "0001410005", 14, 3},
    {"L negative", M("02", "01", "0000") "0671A1B10000", "000141FFFF41", 14, 3},
    {"short, L above F", M("07", "01", "0002") "0671A1B10000", "014103414243", 14, 2},
    {"no zero byte", M("03", "01", "0002") "0671A1B10000", "4100414243", 15, 2},
    {"no zero byte yet", M("03", "01", "0002") "0671A1B10000", "41004142", 13, 2},
    {"bad digits, then a byte left", S("30", "0300") "0671A1B10000", "FFFF12", 13, 2},
    {"1,044,480 items", LONG("0001") "0671A1B1FF00", "616263", 13, 3},
    {"1,044,480 items of two bytes", LONG("0002") "0671A1B1FF00", "616263", 13, 2},
};

static const size_t list_sizes[] = {0, 1, 2, 4, FDOCA_MAX_LIST};

static void expect_broken(struct bytes d, struct bytes s, uint32_t number, uint32_t place, const char *name)
{
    for (size_t i = 0; i < COUNT(list_sizes); i++)
        expect(list_refuses(d, s, list_sizes[i], number, place), "list refused", name);
    expect_refused(d, s, 0, number, place, name);
    expect_refused(d, s, FDOCA_MAX_ITEMS, number, place, name);
}

static void test_broken(void)
{
    for (size_t i = 0; i < COUNT(broken); i++) {
        const struct refusal_case *c = &broken[i];
        struct bytes d = hex(c->descriptor), s = hex(c->data);

        expect_broken(d, s, c->number, c->place, c->name);
        free(d.at);
        free(s.at);
    }
}

/* Only the call that reads a packed decimal looks at its digits. */
static void test_bad_digits(void)
{
    struct bytes d = hex(S("30", "0300") "0671A1B10000"), s = hex("123C" "FFFF");

    expect(list_refuses(d, s, 5, 12, 0), "bad digits", "list too small");
    expect(state_gives(d, s, 1, 0, 0x30, 0, 2, 0), "bad digits", "state");
    expect(packed_gives(d, s, 0, 0, 0, 0, 123, 0), "bad digits", "beside a value");
    expect(packed_gives(d, s, 1, 20, 2, 0, 0, 0), "bad digits", "packed decimal");
    expect(packed_gives(d, s, 2, 17, 0, 0, 0, 0), "bad digits", "item that is not there");
    free(d.at);
    free(s.at);
}

/* ---- many rows */

/* A list of items of id B1 that follow one another, each of so many bytes. */
static void write_list(uint32_t *list, uint32_t count, uint32_t length)
{
    list[0] = count;
    list[1] = count * length;
    for (uint32_t k = 0; k < count; k++) {
        list[2 + k] = k * length;
        list[2 + count + k] = 0xB1;
    }
}

/* A block of such items, whole numbers of which the last is 7, before the rows or in them. */
static void expect_items(struct bytes d, uint32_t count, uint32_t length, const char *name)
{
    static uint32_t list[FDOCA_MAX_LIST];
    struct bytes s = zeros((size_t)count * length);
    size_t size = FDOCA_LIST_SIZE(count);

    write_list(list, count, length);
    s.at[s.size - 1] = 7;
    expect(list_gives(d, s, size, list, size), "list that just fits", name);
    expect(list_gives(d, s, size + 5, list, size), "list with room to spare", name);
    expect(list_refuses(d, s, size - 1, 12, 0), "list one entry short", name);
    expect(state_gives(d, s, count - 1, 0, 0x23, 0, length, 0), "state of the last item", name);
    expect(lend_gives(d, s, count - 1, 0, 0, (count - 1) * length, length), "value of the last item", name);
    expect(whole_gives(d, s, count - 1, 0, 0, 0, 7), "the last item", name);
    expect_refused(d, s, count, 17, 0, name);
    free(s.at);
}

static void test_counts(void)
{
    static const uint32_t counts[] = {1, 2, 254, 255, 256, 257, 1000, 4095, 4096};
    struct bytes narrow = hex(W "0671A1B10000"), wide = hex(S("23", "0008") "0671A1B10000");
    struct bytes behind = hex(W "0971A1B10001B10000");

    for (size_t i = 0; i < COUNT(counts); i++) {
        char name[32];

        snprintf(name, sizeof name, "%u items", (unsigned)counts[i]);
        expect_items(narrow, counts[i], 2, name);
        expect_items(wide, counts[i], 8, name);
        expect_items(behind, counts[i], 2, name);
    }
    free(narrow.at);
    free(wide.at);
    free(behind.at);
}

/* 4,096 items before the rows, and no row. */
static void test_no_room_for_rows(void)
{
    struct bytes d = hex(W "0671A1B10040" "0671A2A10040" "0971A3A20001B10000");

    expect_items(d, FDOCA_MAX_ITEMS, 2, "4,096 items before the rows");
    free(d.at);
}

/* 1,024 rows of a byte and three items without bytes. */
static void test_most_empty_items(void)
{
    static uint32_t list[FDOCA_MAX_LIST] = {FDOCA_MAX_ITEMS, 1024};
    struct bytes d = hex(S("01", "0001") EMPTY "0971A1B10001B20003" "0671A2A10000");
    struct bytes s = zeros(1024);

    for (uint32_t k = 0; k < FDOCA_MAX_ITEMS; k++) {
        list[2 + k] = (k + 3) / 4;
        list[2 + FDOCA_MAX_ITEMS + k] = k % 4 == 0 ? 0xB1 : 0xB2;
    }
    expect(list_gives(d, s, FDOCA_MAX_LIST, list, FDOCA_MAX_LIST), "limits", "4,096 items in 1,024 bytes");
    expect(list_refuses(d, s, FDOCA_MAX_LIST - 1, 12, 0), "limits", "list one entry short");
    expect(lend_gives(d, s, FDOCA_MAX_ITEMS - 1, 0, 0, 1024, 0), "limits", "the last item, without bytes");
    expect_refused(d, s, FDOCA_MAX_ITEMS, 17, 0, "4,096 items in 1,024 bytes");
    free(d.at);
    free(s.at);
}

/* Zero bytes that have a 4,097th item: it is refused before it is measured. */
struct surplus_case {
    const char *name;
    const char *descriptor;
    size_t size;
    uint32_t place;
};

/* Rows of three bytes, each an item. */
#define THREE S("01", "0001") "0671A1B10003" "0671A2A10000"

static const struct surplus_case too_many[] = {
    {"a row more", W "0671A1B10000", 8194, 8192},
    {"a byte more", W "0671A1B10000", 8193, 8192},
    {"data to the limit", W "0671A1B10000", FDOCA_MAX_DATA, 8192},
    {"two rows more behind an item", W "0971A1B10001B10000", 8196, 8192},
    {"a byte behind 4,096 items", W "0671A1B10040" "0671A2A10040" "0971A3A20001B10000", 8193, 8192},
    {"second item of a row", THREE, 4098, 4096},
    {"second item of a row, without a byte", THREE, 4096, 4096},
    {"second item of a row, of no bytes",
     S("01", "0001") EMPTY "0971A1B10001B20002" "0671A2A10000",
     1366,
     1366},
    {"first item of a row, of no bytes",
     S("01", "0001") EMPTY "0971A1B20003B10001" "0671A2A10000",
     1025,
     1024},
    {"of 1,044,480 items", LONG("0001") "0671A1B1FF00", 4096, 4096},
    {"of 1,044,480 items behind 4,096", LONG("0001") "0971A1B10001B1FF00", 4097, 4096},
};

static void test_too_many(void)
{
    for (size_t i = 0; i < COUNT(too_many); i++) {
        const struct surplus_case *c = &too_many[i];
        struct bytes d = hex(c->descriptor), s = zeros(c->size);

        expect_broken(d, s, 10, c->place, c->name);
        expect(list_refuses(d, s, FDOCA_MAX_LIST - 1, 10, c->place), "list one entry short", c->name);
        free(d.at);
        free(s.at);
    }
}

/* As many rows of three items as there may be; and data over their limit. */
static void test_rows_of_three(void)
{
    struct bytes d = hex(THREE), s = zeros(4095), longest = zeros(FDOCA_MAX_DATA + 1);

    expect(state_gives(d, s, 4094, 0, 0x01, 0, 1, 0), "limits", "the last of 1,365 rows");
    expect_refused(d, s, 4095, 17, 0, "1,365 rows");
    expect_broken(d, longest, 1, 0, "data of 32,769 bytes");
    free(d.at);
    free(s.at);
    free(longest.at);
}

/* In a descriptor of 4,096 bytes: an SDA of 16 bytes, an RLO and 15 CPTs with 84 groups each, the last one to the end. */
static void test_largest_descriptor(void)
{
    enum { BEFORE = 16 * 84 - 1, ROWS = 100 };
    uint32_t list[FDOCA_LIST_SIZE(BEFORE + ROWS)];
    struct bytes sda = hex("1070B101000000000000000100010001"), d = zeros(FDOCA_MAX_DESCRIPTOR), s = zeros(BEFORE + ROWS);

    memcpy(d.at, sda.at, sda.size);
    for (size_t at = sda.size; at < d.size; at += 255) {
        bool is_first = at == sda.size;

        memcpy(d.at + at, is_first ? "\xFF\x71\xA1" : "\xFF\x7F\x00", 3);
        for (size_t group = 3; group < 255; group += 3)
            memcpy(d.at + at + group, "\xB1\x00\x01", 3);
    }
    d.at[d.size - 1] = 0;
    write_list(list, BEFORE + ROWS, 1);
    expect(check_gives(d, 0, 0, BEFORE), "limits", "check of a descriptor of 4,096 bytes");
    expect(list_gives(d, s, COUNT(list), list, COUNT(list)), "limits", "list of a descriptor of 4,096 bytes");
    expect(list_refuses(d, s, FDOCA_LIST_SIZE(BEFORE), 12, 0), "limits", "list of the items before the rows");
    expect_refused(d, s, BEFORE + ROWS, 17, 0, "descriptor of 4,096 bytes");
    free(sda.at);
    free(d.at);
    free(s.at);
}

/* ---- no data and no list, by the header's own functions */

static void test_null_pointers(void)
{
    struct bytes d = hex(W "0671A1B10000");
    uint32_t place = OLD, list[2] = {OLD, OLD};
    uint32_t got = fdoca_list_null_ok(d.at, d.size, NULL, 0, NULL, 0, &place);

    expect(got == 12 && place == 0, "null", "no list");
    place = OLD;
    got = fdoca_list_null_ok(d.at, d.size, NULL, 0, list, 2, &place);
    expect(got == 0 && place == 0 && list[0] == 0 && list[1] == 0, "null", "list of no data");
    expect(same_state(state_null_ok(d, (struct bytes){NULL, 0}), (struct state){17, 0, 0, 0, 0, 0, 0}), "null",
           "state of no data");
    free(d.at);
}

int main(void)
{
    test_checks(accepted, COUNT(accepted));
    test_checks(with_bytes, COUNT(with_bytes));
    test_checks(without_bytes, COUNT(without_bytes));
    test_checks(refused, COUNT(refused));
    test_checks(turns, COUNT(turns));
    test_blocks(orders, COUNT(orders));
    test_blocks(layouts, COUNT(layouts));
    test_blocks(empty_items, COUNT(empty_items));
    test_broken();
    test_bad_digits();
    test_counts();
    test_no_room_for_rows();
    test_most_empty_items();
    test_too_many();
    test_rows_of_three();
    test_largest_descriptor();
    test_null_pointers();
    return finish();
}
