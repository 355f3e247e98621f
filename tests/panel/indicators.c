/*
 * Tests of null indicators in C: each of the 256 with every nullable type, where X'00' means a value, X'80' to X'FF' a null,
 * and the odd ones, X'01' to X'7F', are refused by 24; the turn of that number; and that every call that measures items gives
 * it, whatever item is asked for. What the calls refuse alike is in calls.c. The last line printed is "N passed, M failed",
 * and the exit status is 0 if none failed.
 */
#include "support.h"

/* Enough entries for the blocks that are written out. */
enum { ENTRIES = FDOCA_LIST_SIZE(MOST) };

static bool is_odd(uint32_t indicator)
{
    return indicator >= 0x01 && indicator <= 0x7F;
}

/* ---- what every call gives */

static bool item_refuses(struct bytes d, struct bytes s, uint32_t item, uint32_t number, uint32_t place)
{
    return state_refuses(d, s, item, number, place) && lend_gives(d, s, item, number, place, 0, 0) &&
           whole_gives(d, s, item, number, place, 0, 0) && packed_gives(d, s, item, number, place, 0, 0, 0) &&
           value_gives(d, s, item, (struct value)REFUSED(number, place));
}

/* The list and the calls for an item, whatever item is asked for. */
static bool all_refuse(struct bytes d, struct bytes s, uint32_t number, uint32_t place)
{
    static const uint32_t asked[] = {0, 1, 2, 3, 4, UINT32_MAX};
    bool good = list_refuses(d, s, ENTRIES, number, place);

    for (size_t i = 0; i < COUNT(asked); i++)
        good = good && item_refuses(d, s, asked[i], number, place);
    return good;
}

/* ---- every indicator, with every nullable type: behind a byte, as the last item or before a whole number */

/* An SDA of id B1; what follows the indicator of a value, the lengths of the item's parts, and what the value call gives. */
struct field {
    const char *name;
    const char *sda;
    const char *body;
    uint32_t lead, value, spare;
    struct value read;
};

static const struct field fields[] = {
    {"fixed", S("81", "0003"), "616263", 1, 3, 0, REFUSED(18, 1)},
    {"fixed, no bytes", S("81", "0000"), "", 1, 0, 0, REFUSED(18, 1)},
    {"variable, mode 0", M("82", "00", "0004"), "000241422020", 3, 2, 2, REFUSED(18, 1)},
    {"variable, mode 1", M("82", "01", "0004"), "00024142", 3, 2, 0, REFUSED(18, 1)},
    {"variable, F 0", M("82", "00", "0000"), "0003414243", 3, 3, 0, REFUSED(18, 1)},
    {"terminated, mode 0", M("83", "00", "0003"), "41004243", 1, 1, 3, REFUSED(18, 1)},
    {"terminated, mode 1", M("83", "01", "0003"), "4100", 1, 1, 1, REFUSED(18, 1)},
    {"terminated, F 0", M("83", "00", "0000"), "414200", 1, 2, 1, REFUSED(18, 1)},
    {"short, mode 0", M("87", "00", "0003"), "01412020", 2, 1, 2, REFUSED(18, 1)},
    {"short, mode 1", M("87", "01", "0003"), "0141", 2, 1, 0, REFUSED(18, 1)},
    {"short, F 0", M("87", "01", "0000"), "03414243", 2, 3, 0, REFUSED(18, 1)},
    {"whole", S("A3", "0002"), "FFFE", 1, 2, 0, WHOLE(-2)},
    {"whole reversed", S("A4", "0008"), "FEFFFFFFFFFFFFFF", 1, 8, 0, WHOLE(-2)},
    {"packed", S("B0", "0301"), "125D", 1, 2, 0, REFUSED(18, 1)},
    {"hexadecimal float", S("C0", "0008"), "C110000000000000", 1, 8, 0, REAL(-1.0)},
    {"hexadecimal float, 16 bytes", S("C0", "0010"), "C1100000000000003300000000000000", 1, 16, 0, REFUSED(18, 1)},
    {"reversed float", S("C7", "0004"), "000080BF", 1, 4, 0, REAL(-1.0)},
    {"float", S("C8", "0008"), "BFF0000000000000", 1, 8, 0, REAL(-1.0)},
    {"float, bias indicator 1", "0C70B1C80000000100000004", "BF800000", 1, 4, 0, REFUSED(18, 1)},
};

/* A byte of id B2 and a whole number of id B3, behind the field's SDA; rows that end in the field or in the number. */
#define AROUND "0C70B2010000000000000001" "0C70B3230000000000000002"
#define LAST "0971A1B20001B10001"
#define BETWEEN "0C71A1B20001B10001B30001"
#define NUMBER "0007"

static struct bytes descriptor_of(const struct field *f, const char *row)
{
    char text[128];

    snprintf(text, sizeof text, "%s" AROUND "%s", f->sda, row);
    return hex(text);
}

static struct bytes data_of(uint32_t indicator, const char *body, const char *behind)
{
    char text[64];

    snprintf(text, sizeof text, "41%02X%s%s", (unsigned)indicator, body, behind);
    return hex(text);
}

/* The list of the block whose second item goes from 1 to `end`. */
static bool is_listed(struct bytes d, struct bytes s, uint32_t end)
{
    const uint32_t two[] = {2, (uint32_t)s.size, 0, 1, 0xB2, 0xB1};
    const uint32_t three[] = {3, (uint32_t)s.size, 0, 1, end, 0xB2, 0xB1, 0xB3};

    return end == s.size ? list_gives(d, s, COUNT(two), two, COUNT(two))
                         : list_gives(d, s, COUNT(three), three, COUNT(three));
}

/* What is read as a whole number and as a packed decimal: the value of the field's body, or of a null 0. */
static bool is_read(struct bytes d, struct bytes s, uint32_t is_null)
{
    uint32_t type = fdoca_plain_type(d.at[3]);
    bool whole = is_whole(type) ? whole_gives(d, s, 1, 0, 0, is_null, is_null ? 0 : -2)
                                : whole_gives(d, s, 1, 18, 1, 0, 0);
    bool packed = type == FDOCA_TYPE_PACKED ? packed_gives(d, s, 1, 0, 0, is_null, is_null ? 0 : -125, 1)
                                            : packed_gives(d, s, 1, 18, 1, 0, 0, 0);

    return whole && packed;
}

static bool is_value(const struct field *f, struct bytes d, struct bytes s)
{
    return is_listed(d, s, 1 + f->lead + f->value + f->spare) &&
           state_gives(d, s, 1, 0, d.at[3], f->lead, f->value, f->spare) &&
           lend_gives(d, s, 1, 0, 0, 1 + f->lead, f->value) && is_read(d, s, 0) && value_gives(d, s, 1, f->read);
}

static bool is_null(const struct field *f, struct bytes d, struct bytes s)
{
    return is_listed(d, s, 2) && state_gives(d, s, 1, 1, d.at[3], 1, 0, 0) && lend_gives(d, s, 1, 0, 0, 2, 0) &&
           is_read(d, s, 1) && value_gives(d, s, 1, f->read.number == 0 ? (struct value)NO_VALUE : f->read);
}

/* Of data that end with the item: behind a null a body is left over, and a value that has one lacks it. */
static bool last_gives(const struct field *f, struct bytes d, uint32_t indicator, const char *body)
{
    struct bytes s = data_of(indicator, body, "");
    bool good;

    if (is_odd(indicator))
        good = all_refuse(d, s, 24, 1);
    else if (indicator != 0)
        good = body[0] == '\0' ? is_null(f, d, s) : all_refuse(d, s, 16, 2);
    else
        good = strcmp(body, f->body) == 0 ? is_value(f, d, s) : all_refuse(d, s, 13, 1);
    free(s.at);
    return good;
}

/* Of data that go on with the number. */
static bool between_gives(const struct field *f, struct bytes d, uint32_t indicator, const char *body)
{
    struct bytes s = data_of(indicator, body, NUMBER);
    bool good;

    if (is_odd(indicator))
        good = all_refuse(d, s, 24, 1);
    else
        good = (indicator == 0 ? is_value(f, d, s) : is_null(f, d, s)) && whole_gives(d, s, 2, 0, 0, 0, 7);
    free(s.at);
    return good;
}

/* Names the first indicator that is taken wrong. */
static void expect_all(uint32_t right, const char *group, const struct field *f)
{
    char name[64];

    snprintf(name, sizeof name, "%s, X'%02X'", f->name, (unsigned)right);
    expect(right == 256, group, name);
}

/* With the body of a value, and without. */
static void test_last(const struct field *f)
{
    struct bytes d = descriptor_of(f, LAST);
    uint32_t i = 0;

    while (i < 256 && last_gives(f, d, i, f->body) && last_gives(f, d, i, ""))
        i++;
    expect_all(i, "every indicator, last item", f);
    free(d.at);
}

/* A value has its body, a null has none, and an odd indicator is refused either way. */
static void test_between(const struct field *f)
{
    struct bytes d = descriptor_of(f, BETWEEN);
    uint32_t i = 0;

    while (i < 256 && (i >= 0x80 || between_gives(f, d, i, f->body)) && (i == 0 || between_gives(f, d, i, "")))
        i++;
    expect_all(i, "every indicator, between items", f);
    free(d.at);
}

static void test_fields(void)
{
    for (size_t i = 0; i < COUNT(fields); i++) {
        test_last(&fields[i]);
        test_between(&fields[i]);
    }
}

/* The first byte of a plain item is no indicator. */
static void test_plain(void)
{
    struct bytes d = hex(S("01", "0002")), number = hex(S("23", "0002")), s = hex("0007");
    bool good = true;

    for (uint32_t first = 0; first < 256; first++) {
        s.at[0] = (uint8_t)first;
        good = good && state_gives(d, s, 0, 0, 0x01, 0, 2, 0) && state_gives(number, s, 0, 0, 0x23, 0, 2, 0);
    }
    expect(good, "every first byte", "plain types");
    free(d.at);
    free(number.at);
    free(s.at);
}

/* ---- blocks with nulls, item by item */

struct block_case {
    const char *name;
    const char *descriptor;
    const char *data;
    struct item items[MOST];
};

static const struct block_case blocks[] = {
    {"numbers",
     S("A3", "0002") "0671A1B10005",
     "80" "81" "000102" "FF" "007F7F",
     {{0xB1, 0, 1, 0xA3, 1, 0, 0, 0},
      {0xB1, 1, 1, 0xA3, 2, 0, 0, 0},
      {0xB1, 2, 0, 0xA3, 3, 2, 258, 0},
      {0xB1, 5, 1, 0xA3, 6, 0, 0, 0},
      {0xB1, 6, 0, 0xA3, 7, 2, 0x7F7F, 0}}},
    {"strings to the end",
     M("82", "01", "0004") "0671A1B10000",
     "C0" "00000101" "FE" "000000" "82",
     {{0xB1, 0, 1, 0x82, 1, 0, 0, 0},
      {0xB1, 1, 0, 0x82, 4, 1, 0, 0},
      {0xB1, 5, 1, 0x82, 6, 0, 0, 0},
      {0xB1, 6, 0, 0x82, 9, 0, 0, 0},
      {0xB1, 9, 1, 0x82, 10, 0, 0, 0}}},
    {"columns",
     S("B0", "1200") "0C75D1B10301B10100B10502",
     "8F" "007C" "F0",
     {{0xB1, 0, 1, 0xB0, 1, 0, 0, 1}, {0xB1, 1, 0, 0xB0, 2, 1, 7, 0}, {0xB1, 3, 1, 0xB0, 4, 0, 0, 2}}},
};

static void test_blocks(void)
{
    for (size_t i = 0; i < COUNT(blocks); i++) {
        const struct block_case *c = &blocks[i];
        struct bytes d = hex(c->descriptor), s = hex(c->data);
        uint32_t count = count_of(c->items);

        expect(items_listed(d, s, c->items, count), "list", c->name);
        for (uint32_t k = 0; k < count; k++)
            test_item(d, s, k, c->items, c->name);
        free(d.at);
        free(s.at);
    }
}

/* ---- the turn within an item: what follows an indicator, and by which number it is refused behind X'00' */

static const struct refusal_case spoiled[] = {
    {"no body", S("81", "0003"), "", 13, 0},
    {"body cut", S("81", "0003"), "6162", 13, 0},
    {"variable, no L", M("82", "01", "0004"), "", 13, 0},
    {"variable, a byte of L", M("82", "01", "0004"), "00", 13, 0},
    {"variable, L negative", M("82", "01", "0000"), "FFFF", 14, 0},
    {"variable, L negative and a body", M("82", "00", "0004"), "800041424344", 14, 0},
    {"variable, L above F", M("82", "01", "0004"), "0005", 14, 0},
    {"variable, L above F and a body", M("82", "00", "0004"), "00054142434445", 14, 0},
    {"variable, no body", M("82", "01", "0004"), "0002", 13, 0},
    {"variable, body cut", M("82", "01", "0000"), "000241", 13, 0},
    {"variable, reserved space cut", M("82", "00", "0004"), "0002414200", 13, 0},
    {"short, no L", M("87", "01", "0004"), "", 13, 0},
    {"short, L above F", M("87", "01", "0004"), "05", 14, 0},
    {"short, body cut", M("87", "01", "0004"), "0241", 13, 0},
    {"terminated, no bytes", M("83", "01", "0002"), "", 13, 0},
    {"terminated, no zero byte yet", M("83", "01", "0002"), "4142", 13, 0},
    {"terminated, no zero byte", M("83", "01", "0002"), "414243", 15, 0},
    {"terminated, no zero byte, mode 0", M("83", "00", "0002"), "414243", 15, 0},
    {"terminated, no zero byte, F 0", M("83", "01", "0000"), "4142", 13, 0},
    {"terminated, reserved space cut", M("83", "00", "0002"), "4100", 13, 0},
    {"whole number cut", S("A3", "0004"), "000000", 13, 0},
    {"packed decimal cut", S("B0", "0301"), "12", 13, 0},
    {"float cut", S("C8", "0008"), "3FF00000000000", 13, 0},
    {"a byte behind", S("81", "0003"), "61626300", 16, 4},
    {"a second item missing", S("81", "0003") "0671A1B10002", "616263", 13, 4},
};

static bool spoiled_gives(const struct refusal_case *c, struct bytes d, uint32_t indicator)
{
    char text[64];

    snprintf(text, sizeof text, "%02X%s", (unsigned)indicator, c->data);

    struct bytes s = hex(text);
    bool good = indicator == 0 ? all_refuse(d, s, c->number, c->place) : all_refuse(d, s, 24, 0);

    free(s.at);
    return good;
}

static void test_spoiled(void)
{
    for (size_t i = 0; i < COUNT(spoiled); i++) {
        struct bytes d = hex(spoiled[i].descriptor);

        expect(spoiled_gives(&spoiled[i], d, 0x00), "behind X'00'", spoiled[i].name);
        expect(spoiled_gives(&spoiled[i], d, 0x01), "behind X'01'", spoiled[i].name);
        expect(spoiled_gives(&spoiled[i], d, 0x40), "behind X'40'", spoiled[i].name);
        expect(spoiled_gives(&spoiled[i], d, 0x7F), "behind X'7F'", spoiled[i].name);
        free(d.at);
    }
}

/* ---- the turn among the items, and beside the other numbers */

/* An SDA of id B2. */
#define F(type, mode, length) "0C70B2" type "0000000000" mode length

#define TWICE "0671A1B10002"
#define TO_THE_END "0671A1B10000"

static const struct refusal_case turns[] = {
    {"first of two", S("81", "0001") TWICE, "01410041", 24, 0},
    {"second of two", S("81", "0001") TWICE, "00410141", 24, 2},
    {"both of two", S("81", "0001") TWICE, "7F410141", 24, 0},
    {"behind a null", S("81", "0001") TWICE, "807F41", 24, 1},
    {"behind a null with low bits", S("81", "0001") TWICE, "FF01", 24, 1},
    {"L above F before it", M("82", "01", "0004") TWICE, "00000501", 14, 0},
    {"L negative before it", M("82", "01", "0004") TWICE, "00FFFF01", 14, 0},
    {"no zero byte before it", M("83", "01", "0002") TWICE, "0041424301", 15, 0},
    {"cut before it", S("81", "0003") F("81", "00", "0001") "0971A1B10001B20001", "000101", 13, 0},
    {"L above F behind it", M("82", "01", "0004") TWICE, "01000141000005", 24, 0},
    {"no zero byte behind it", M("83", "01", "0002") TWICE, "01410000414243", 24, 0},
    {"no item behind it", S("81", "0001") TWICE, "0141", 24, 0},
    {"a byte behind it", S("81", "0001"), "014100", 24, 0},
    {"behind reserved space", M("02", "00", "0002") F("81", "00", "0001") "0971A1B10001B20001", "000141010141", 24, 4},
    {"behind bad digits", S("B0", "0300") TWICE, "00FFFF01123C", 24, 3},
    {"behind an infinity", S("C8", "0004") TWICE, "007F800000017F800000", 24, 5},
    {"an element of an array", "0E70B18100000000000000010003", "004100410141", 24, 4},
    {"a column", S("A3", "0008") "0975D1B10002B10004", "000007" "0200000008", 24, 3},
    {"a column of no such length", S("A3", "0008") "0675D1B10003", "010000", 21, 12},
    {"rows of no bytes behind it", S("81", "0000") F("01", "00", "0000") "0971A1B10001B20000", "01", 22, 24},
    {"torn triplet", S("81", "0000") "0671A1B100", "01", 2, 12},
    {"nothing described", "", "01", 11, 0},
};

/* Rows to the end of a name and a number, and such a row of five bytes. */
#define ROWS M("82", "01", "0004") F("A3", "00", "0002") "0971A1B10001B20001" "0671A2A10000"
#define ROW "00000141" "80"

static const struct refusal_case rows[] = {
    {"first row", S("81", "0003") TO_THE_END, "01616263", 24, 0},
    {"first row, its indicator alone", S("81", "0003") TO_THE_END, "01", 24, 0},
    {"second row", S("81", "0003") TO_THE_END, "0061626301616263", 24, 4},
    {"second row, its indicator alone", S("81", "0003") TO_THE_END, "006162637F", 24, 4},
    {"a name of the second row", ROWS, ROW "0100014180", 24, 5},
    {"a number of the second row", ROWS, ROW "8001", 24, 6},
    {"a number of the first row", ROWS, "00000141" "40" "0007" ROW, 24, 4},
    {"behind L above F in the second row", ROWS, ROW "000005" "01", 14, 5},
    {"before the rows", S("A3", "0002") "0971A1B10001B10000", "020007", 24, 0},
    {"behind an item before the rows", S("A3", "0002") "0971A1B10001B10000", "0000077F0008", 24, 3},
};

static void test_turns(const char *group, const struct refusal_case *cases, size_t count)
{
    for (size_t i = 0; i < count; i++) {
        const struct refusal_case *c = &cases[i];
        struct bytes d = hex(c->descriptor), s = hex(c->data);

        expect(list_refuses(d, s, FDOCA_MAX_LIST, c->number, c->place), group, c->name);
        expect(all_refuse(d, s, c->number, c->place), group, c->name);
        free(d.at);
        free(s.at);
    }
}

/* Four numbers, of which one in turn has an odd indicator: it refuses the calls for the others too. */
static void test_positions(void)
{
    struct bytes d = hex(S("A3", "0002") "0671A1B10004"), s = hex("000001" "000002" "000003" "000004");

    for (uint32_t k = 0; k < 4; k++) {
        char name[16];

        snprintf(name, sizeof name, "item %u of 4", (unsigned)k);
        expect(whole_gives(d, s, k, 0, 0, 0, k + 1), "not odd", name);
        s.at[3 * k] = 0x10;
        expect(all_refuse(d, s, 24, 3 * k), "odd", name);
        s.at[3 * k] = 0;
    }
    free(d.at);
    free(s.at);
}

/* ---- a list that is too small: told before the items, with rows to the end after them */

static void test_small_lists(void)
{
    struct bytes d = hex(S("81", "0003") TWICE), to_the_end = hex(S("81", "0003") TO_THE_END), s = hex("0061626301");
    size_t needed = FDOCA_LIST_SIZE(2);
    bool before = true, after = true;

    for (size_t size = 0; size < needed; size++) {
        before = before && list_refuses(d, s, size, 12, 0);
        after = after && list_refuses(to_the_end, s, size, 24, 4);
    }
    expect(before, "list too small", "12 before 24");
    expect(after, "list too small", "24 before 12 with rows to the end");
    expect(list_refuses(d, s, needed, 24, 4), "list that would fit", "24");
    s.at[4] = 0x80;
    expect(list_refuses(to_the_end, s, needed - 1, 12, 0), "list too small", "a null in place of 24");
    free(d.at);
    free(to_the_end.at);
    free(s.at);
}

/* ---- limits */

/* As many nulls as there may be and one more, with an odd indicator in place of the last or of the one before. */
static void test_most_rows(void)
{
    struct bytes d = hex(S("81", "0003") TO_THE_END), s = zeros(FDOCA_MAX_ITEMS + 1);
    struct bytes longest = zeros(FDOCA_MAX_DATA + 1);

    memset(s.at, 0x80, s.size);
    s.at[FDOCA_MAX_ITEMS] = 0x01;
    expect(all_refuse(d, s, 10, FDOCA_MAX_ITEMS), "limits", "4,097th item");
    s.size--;
    expect(state_gives(d, s, FDOCA_MAX_ITEMS - 1, 1, 0x81, 1, 0, 0), "limits", "4,096 nulls");
    s.at[FDOCA_MAX_ITEMS - 1] = 0x01;
    expect(list_refuses(d, s, FDOCA_MAX_LIST, 24, FDOCA_MAX_ITEMS - 1), "limits", "list, 4,096th item");
    expect(all_refuse(d, s, 24, FDOCA_MAX_ITEMS - 1), "limits", "4,096th item");
    memset(longest.at, 0x01, longest.size);
    expect(all_refuse(d, longest, 1, 0), "limits", "data of 32,769 bytes");
    longest.size--;
    expect(all_refuse(d, longest, 24, 0), "limits", "data of 32,768 bytes");
    free(d.at);
    free(s.at);
    free(longest.at);
}

/* The last byte of a block of 32,768. */
static void test_last_byte(void)
{
    struct bytes d = hex(S("01", "7FFF") F("81", "00", "0000") "0971A1B10001B20001"), s = zeros(FDOCA_MAX_DATA);

    expect(state_gives(d, s, 1, 0, 0x81, 1, 0, 0), "limits", "a value in the last byte");
    s.at[FDOCA_MAX_DATA - 1] = 0x7F;
    expect(all_refuse(d, s, 24, FDOCA_MAX_DATA - 1), "limits", "an odd indicator in the last byte");
    s.at[FDOCA_MAX_DATA - 1] = 0xFF;
    expect(state_gives(d, s, 1, 1, 0x81, 1, 0, 0), "limits", "a null in the last byte");
    free(d.at);
    free(s.at);
}

int main(void)
{
    test_fields();
    test_plain();
    test_blocks();
    test_spoiled();
    test_turns("turn", turns, COUNT(turns));
    test_turns("rows to the end", rows, COUNT(rows));
    test_positions();
    test_small_lists();
    test_most_rows();
    test_last_byte();
    return finish();
}
