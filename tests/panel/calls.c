/*
 * Tests of the C calls: checks and lists, refusals of every call, limits. GDAs are in columns.c, rows to the end in rows.c,
 * null indicators in indicators.c. The last line printed is "N passed, M failed", and the exit status is 0 if none failed.
 */
#include "support.h"

/* SDAs of id B1 of variable and of null-terminated bytes. */
#define V(mode, length) M("02", mode, length)
#define Z(mode, length) M("03", mode, length)

/* ---- descriptors */

static const struct check_case checks[] = {
    {"one field", S("01", "0003"), 0, 0, 1},
    {"a row of two", S("01", "0003") "0671A1B10002", 0, 0, 2},
    {"ISD before a field", "057E000100" S("01", "0003"), 0, 0, 1},
    {"row and continuation", S("01", "0003") "0671A1B10002" "067F00B10003", 0, 0, 5},
    {"three extents", "1270B1010000000000000001000200030002", 0, 0, 12},
    {"more elements than the extent", "0E70B10100000000000000010003" "0671A1B10502", 0, 0, 10},
    {"64 times 64", S("01", "0003") "0671A1B10040" "0671A2A10040", 0, 0, 4096},
    {"LENGTH 1", "0170", 2, 0, 0},
    {"LENGTH past the end", S("01", "0003") "0671A1B100", 2, 12, 0},
    {"unknown construct", S("01", "0003") "0672A1B10001", 3, 12, 0},
    {"CPT first", "067F00B10001", 4, 0, 0},
    {"ISD after a field", S("01", "0003") "057E000100", 4, 12, 0},
    {"short SDA", "0470B101", 5, 0, 0},
    {"RLO without a group", S("01", "0003") "0371A1", 5, 12, 0},
    {"SDA id 0", "0C7000010000000000000003", 6, 0, 0},
    {"type without a rule", S("22", "0002"), 6, 0, 0},
    {"whole number of no bytes", S("23", "0000"), 6, 0, 0},
    {"whole number of 3 bytes", S("23", "0003"), 6, 0, 0},
    {"packed decimal without digits", S("30", "0000"), 6, 0, 0},
    {"packed decimal of 19 digits", S("30", "1300"), 6, 0, 0},
    {"packed decimal of 3 digits, 4 of them a fraction", S("B0", "0304"), 6, 0, 0},
    {"packed decimal of mode 1", M("30", "01", "0300"), 6, 0, 0},
    {"binary float of 16 bytes", S("47", "0010"), 6, 0, 0},
    {"nullable binary float of 16 bytes", S("C8", "0010"), 6, 0, 0},
    {"float of mode 1", M("40", "01", "0000"), 6, 0, 0},
    {"float of bias indicator 2", "0C70B1480000000200000000", 6, 0, 0},
    {"extent 0", "0E70B10100000000000000010000", 6, 0, 0},
    {"id twice", S("01", "0003") S("01", "0004"), 7, 12, 0},
    {"reference to itself", "0671A1A10001", 8, 0, 0},
    {"later id", "0671A1B10001" S("01", "0003"), 8, 0, 0},
    {"repetition 0 before a row", S("01", "0003") "0671A1B10000" "0671A2B10001", 9, 12, 0},
    {"elements of an SDA without extents", S("01", "0003") "0671A1B10101", 9, 12, 0},
    {"65 times 64", S("01", "0003") "0671A1B10040" "0671A2A10041", 10, 18, 0},
    {"extent 4097", "0E70B10100000000000000011001", 10, 0, 0},
    {"nothing", "", 11, 0, 0},
    {"ISD only", "057E000100", 11, 5, 0},
};

/* ---- blocks that are accepted: their items as runs of an id, a length and a count */

struct run {
    uint32_t id, length, count;
};

struct block_case {
    const char *name;
    const char *descriptor;
    const char *data;
    struct run runs[4];
};

static const struct block_case blocks[] = {
    {"the dump's block", S("81", "0003") "0671A1B10002", "0061626380", {{0xB1, 4, 1}, {0xB1, 1, 1}}},
    {"no bytes", S("01", "0000"), "", {{0xB1, 0, 1}}},
    {"variable, L bytes", V("01", "0004"), "00024142", {{0xB1, 4, 1}}},
    {"variable, F bytes", V("00", "0004"), "000241420000", {{0xB1, 6, 1}}},
    {"null-terminated", Z("01", "0002"), "4100", {{0xB1, 2, 1}}},
    {"whole number", S("23", "0002"), "FFFE", {{0xB1, 2, 1}}},
    {"packed decimals, with bad digits",
     S("B0", "0402") "0C70B2300000000000000501" "0971A1B10002B20002",
     "00FFFFFF8012345CAAAAAA",
     {{0xB1, 4, 1}, {0xB1, 1, 1}, {0xB2, 3, 2}}},
    {"floats with zero parameters",
     "0E70B14000000000000000000003" "0C70B2C80000000000000000" "0971A1B10201B20002",
     "4168000000000000" "C1A4000000000000" "003FC00000" "80",
     {{0xB1, 8, 2}, {0xB2, 5, 1}, {0xB2, 1, 1}}},
};

static const struct block_case figures[] = {
    {"figure 3-6",
     S("01", "0003") "0E70B20100000000000000010009" "0C71A1B10004B20401B20A02" "0671A2A10002",
     "123456111476TEX2TEXXXXXXXXXXXXXXXXXX765234000238TEX5TEXXXXXXXXXXXXXXXXXX",
     {{0xB1, 3, 4}, {0xB2, 1, 24}, {0xB1, 3, 4}, {0xB2, 1, 24}}},
    {"figure 3-7",
     "0E70B10100000000000000040007" "0C71A1B10801B10501B10703",
     "7745122919472345123556813947123423711257127856811257237512372947234515375681494768141237124712344237548159475437"
     "568123451237568119476234",
     {{0xB1, 4, 34}}},
    {"figure 3-8",
     "0E70B10100000000000000010003" "0971A1B10101B10001" "0971A2B10001B10401" "0971A3B10201B10001" "0671A4B10002"
     "0C71A5A10001A20001A30001" "0671A6A40003" "0971A7A50001A60001",
     "abbbcccddddeefffggghhhiiijjjkkklll",
     {{0xB1, 1, 34}}},
};

static uint32_t items_of(const struct run *runs)
{
    uint32_t items = 0;

    for (size_t i = 0; i < 4; i++)
        items += runs[i].count;
    return items;
}

static uint32_t *list_of(const struct run *runs)
{
    uint32_t items = items_of(runs), item = 0, start = 0;
    uint32_t *list = room(FDOCA_LIST_SIZE(items) * sizeof *list);

    for (size_t i = 0; i < 4; i++) {
        for (uint32_t k = 0; k < runs[i].count; k++) {
            list[2 + item] = start;
            list[2 + items + item] = runs[i].id;
            start += runs[i].length;
            item++;
        }
    }
    list[0] = items;
    list[1] = start;
    return list;
}

static bool list_reads(const uint32_t *list)
{
    for (uint32_t k = 0; k < list[0]; k++)
        if (fdoca_item_start(list, k) != list[2 + k] || fdoca_item_id(list, k) != list[2 + list[0] + k])
            return false;
    return true;
}

static void test_block(const char *name, struct bytes d, struct bytes s, const struct run *runs)
{
    uint32_t items = items_of(runs);
    uint32_t *list = list_of(runs);
    size_t size = FDOCA_LIST_SIZE(items);

    expect(list[1] == s.size, "bytes", name);
    expect(check_gives(d, 0, 0, items), "check of a block", name);
    expect(list_gives(d, s, size, list, size), "list that just fits", name);
    expect(list_gives(d, s, size + 5, list, size), "list with room to spare", name);
    expect(list_refuses(d, s, size - 1, 12, 0), "list one entry short", name);
    expect(list_refuses(d, s, 0, 12, 0), "list of no entries", name);
    expect(list_reads(list), "start and id", name);
    expect_refused(d, s, items, 17, 0, name);
    expect_refused(d, s, UINT32_MAX, 17, 0, name);
    free(list);
}

static void test_blocks(void)
{
    for (size_t i = 0; i < COUNT(blocks); i++) {
        struct bytes d = hex(blocks[i].descriptor), s = hex(blocks[i].data);

        test_block(blocks[i].name, d, s, blocks[i].runs);
        free(d.at);
        free(s.at);
    }
}

static void test_figures(void)
{
    for (size_t i = 0; i < COUNT(figures); i++) {
        struct bytes d = hex(figures[i].descriptor), s = zeros(strlen(figures[i].data));

        memcpy(s.at, figures[i].data, s.size);
        test_block(figures[i].name, d, s, figures[i].runs);
        free(d.at);
        free(s.at);
    }
}

/* ---- data that are refused */

static const struct refusal_case refusals[] = {
    {"the dump's block cut", S("81", "0003") "0671A1B10002", "00616263", 13, 4},
    {"the dump's block and one byte", S("81", "0003") "0671A1B10002", "006162638000", 16, 5},
    {"variable, F bytes, cut", V("00", "0004"), "00024142", 13, 0},
    {"L above F", V("01", "0004"), "0005", 14, 0},
    {"L negative", V("00", "0000"), "FFFF", 14, 0},
    {"no zero byte", Z("01", "0002"), "414243", 15, 0},
    {"no zero byte yet", Z("01", "0002"), "4142", 13, 0},
    {"second item without an end", Z("01", "0002") "0671A1B10002", "4100414243", 15, 2},
    {"no data", S("23", "0002"), "", 13, 0},
    {"surplus", S("01", "0000"), "00", 16, 0},
    {"odd indicator", S("81", "0003"), "01616263", 24, 0},
    {"odd indicator of the dump's block", S("81", "0003") "0671A1B10002", "006162637F", 24, 4},
    {"packed decimal, cut", S("30", "0400"), "0123", 13, 0},
    {"nullable packed decimal, cut", S("B0", "0400"), "000123", 13, 0},
    {"bad digits, then a cut item", S("30", "0300") "0671A1B10002", "FFFF12", 13, 2},
    {"bad digits and one byte", S("30", "0300"), "FFFF00", 16, 2},
    {"null packed decimal and a body", S("B0", "0300"), "80123C", 16, 1},
    {"hexadecimal float with zero parameters, cut", S("40", "0000") "0671A1B10002", "41680000000000004168", 13, 8},
    {"binary float with zero parameters, and one byte", S("C7", "0000"), "000000C03F00", 16, 5},
};

static void test_refusals(void)
{
    for (size_t i = 0; i < COUNT(refusals); i++) {
        const struct refusal_case *c = &refusals[i];
        struct bytes d = hex(c->descriptor), s = hex(c->data);

        expect(list_refuses(d, s, FDOCA_MAX_LIST, c->number, c->place), "list", c->name);
        expect(list_refuses(d, s, 0, 12, 0), "list too small before the data", c->name);
        expect_refused(d, s, 0, c->number, c->place, c->name);
        expect_refused(d, s, 9, c->number, c->place, c->name); /* bad data come before an item that is not there */
        free(d.at);
        free(s.at);
    }
}

/* ---- limits */

static void test_largest_list(void)
{
    static const struct run runs[4] = {{0xB1, 8, 4096}};
    struct bytes d = hex(S("23", "0008") "0671A1B10040" "0671A2A10040"), s = zeros(FDOCA_MAX_DATA);

    s.at[FDOCA_MAX_DATA - 1] = 7;
    expect(FDOCA_LIST_SIZE(items_of(runs)) == FDOCA_MAX_LIST, "limits", "entries of the largest list");
    test_block("4,096 items in 32,768 bytes", d, s, runs);
    expect(state_gives(d, s, 4095, 0, 0x23, 0, 8, 0), "limits", "state of the last of 4,096 items");
    expect(lend_gives(d, s, 4095, 0, 0, FDOCA_MAX_DATA - 8, 8), "limits", "value of the last of 4,096 items");
    expect(whole_gives(d, s, 4095, 0, 0, 0, 7), "limits", "last of 4,096 items");
    free(d.at);
    free(s.at);
}

static void test_oversize(void)
{
    struct bytes d = hex(S("01", "0000")), no_data = zeros(0), data = zeros(FDOCA_MAX_DATA + 1);
    struct bytes largest = zeros(FDOCA_MAX_DESCRIPTOR), larger = zeros(FDOCA_MAX_DESCRIPTOR + 1);

    expect(check_gives(largest, 2, 0, 0), "limits", "descriptor of 4,096 bytes");
    expect(check_gives(larger, 1, 0, 0), "limits", "descriptor of 4,097 bytes");
    expect(list_refuses(larger, no_data, FDOCA_MAX_LIST, 1, 0), "limits", "list, descriptor of 4,097 bytes");
    expect_refused(larger, no_data, 0, 1, 0, "descriptor of 4,097 bytes");
    expect(list_refuses(d, data, FDOCA_MAX_LIST, 1, 0), "limits", "list, data of 32,769 bytes");
    expect(list_refuses(largest, data, 0, 1, 0), "limits", "data of 32,769 bytes before a bad descriptor");
    expect_refused(d, data, 0, 1, 0, "data of 32,769 bytes");
    free(d.at);
    free(no_data.at);
    free(data.at);
    free(largest.at);
    free(larger.at);
}

/* ---- the header's own functions */

static void test_null_pointers(void)
{
    struct bytes d = hex(S("01", "0000"));
    uint32_t place = OLD, items = OLD, list[4] = {OLD, OLD, OLD, OLD};
    uint32_t got = fdoca_check_null_ok(NULL, 0, &place, &items);

    expect(got == 11 && place == 0 && items == 0, "null", "check of no descriptor");
    got = fdoca_check_null_ok(d.at, d.size, &place, &items);
    expect(got == 0 && place == 0 && items == 1, "null", "check of a descriptor");

    place = OLD;
    got = fdoca_list_null_ok(NULL, 0, NULL, 0, NULL, 0, &place);
    expect(got == 11 && place == 0, "null", "list of nothing");
    got = fdoca_list_null_ok(d.at, d.size, NULL, 0, NULL, 0, &place);
    expect(got == 12 && place == 0, "null", "no list");
    got = fdoca_list_null_ok(d.at, d.size, NULL, 0, list, 4, &place);
    expect(got == 0 && place == 0 && list[0] == 1 && list[1] == 0 && list[2] == 0 && list[3] == 0xB1, "null",
           "list of no data");
    free(d.at);
}

static const uint32_t numbers[] = {
    FDOCA_ACCEPTED,
    FDOCA_SIZE_LIMIT,
    FDOCA_TRIPLET_TRUNCATED,
    FDOCA_UNRECOGNIZED_TYPE,
    FDOCA_WRONG_POSITION,
    FDOCA_INVALID_LENGTH,
    FDOCA_PARAMETER_NOT_ACCEPTABLE,
    FDOCA_DUPLICATE_ID,
    FDOCA_UNDEFINED_ID,
    FDOCA_UNSUPPORTED_GROUP,
    FDOCA_TOO_MANY_ITEMS,
    FDOCA_DESCRIPTOR_MISSING,
    FDOCA_LIST_TOO_SMALL,
    FDOCA_DATA_TRUNCATED,
    FDOCA_LENGTH_OUT_OF_RANGE,
    FDOCA_UNTERMINATED,
    FDOCA_TRAILING_DATA,
    FDOCA_NO_SUCH_ITEM,
    FDOCA_WRONG_TYPE,
    FDOCA_BAD_FILE,
    FDOCA_INVALID_DIGIT,
    FDOCA_COLUMN_MISFIT,
    FDOCA_ZERO_WIDTH_REPEAT,
    FDOCA_NO_EXACT_FLOAT,
    FDOCA_INVALID_INDICATOR,
};

/* Each name has its number, and each number words of its own; those past the last share words that no other has. */
static void test_words(void)
{
    const uint32_t unknown = COUNT(numbers);

    expect(unknown == 25, "words", "25 numbers");
    for (uint32_t n = 0; n < unknown; n++) {
        bool own = fdoca_text(n)[0] != '\0';

        for (uint32_t m = 0; m < n; m++)
            own = own && strcmp(fdoca_text(n), fdoca_text(m)) != 0;
        expect(numbers[n] == n, "the number of", fdoca_text(n));
        expect(own && strcmp(fdoca_text(n), fdoca_text(unknown)) != 0, "words", fdoca_text(n));
    }
    expect(strcmp(fdoca_text(unknown), fdoca_text(UINT32_MAX)) == 0, "words", "unknown numbers");
}

int main(void)
{
    test_checks(checks, COUNT(checks));
    test_blocks();
    test_figures();
    test_refusals();
    test_largest_list();
    test_oversize();
    test_null_pointers();
    test_words();
    return finish();
}
