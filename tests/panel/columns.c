/*
 * Tests of GDAs in C: items whose field length, or digits, a GDA gives, and what is refused of a GDA and of its groups. What
 * holds of any descriptor is in calls.c. The last line printed is "N passed, M failed", and the exit status is 0 if none
 * failed.
 */
#include "support.h"

/* A whole number of 8 bytes, 12 bytes long. */
#define W S("23", "0008")

/* ---- descriptors */

static const struct check_case accepted[] = {
    {"one column", W "0675D1B10002", 0, 0, 1},
    {"an SDA twice", W "0975D1B10002B10004", 0, 0, 2},
    {"length 0", W "0675D1B10000", 0, 0, 1},
    {"GDA and CPTs", W "0675D1B10002" "067F00B10004" "097F00B10008B10000", 0, 0, 4},
    {"ISD before", "057E000100" W "0675D1B10002", 0, 0, 1},
    {"GDA in a row", W "0975D1B10002B10004" "0671A1D10003", 0, 0, 6},
    {"GDA and SDA in a row", W "0975D1B10002B10004" "0971A1D10002B10003", 0, 0, 7},
    {"CPT of a row over a GDA", W "0675D1B10002" "0671A1D10001" "067F00B10002", 0, 0, 3},
    {"GDA behind a row", W "0671A1B10005" "0675D1B10002", 0, 0, 1},
    {"GDA behind a GDA", W "0975D1B10002B10002" "0675D2B10002", 0, 0, 1},
    {"SDA behind a GDA", W "0675D1B10002" "0E70B20100000000000000010005", 0, 0, 5},
    {"rows of a row over a GDA", W "0975D1B10002B10004" "0671A1D10040" "0671A2A10020", 0, 0, 4096},
};

static const struct check_case refused[] = {
    {"nullable GDA", W "0676D1B10002", 3, 12, 0},
    {"CPT behind the SDA behind a GDA", W "0675D1B10002" "0C70B2230000000000000002" "067F00B10002", 4, 30, 0},
    {"no group", W "0375D1", 5, 12, 0},
    {"group of one byte", W "0475D1B1", 5, 12, 0},
    {"group of two bytes", W "0575D1B100", 5, 12, 0},
    {"second group of one byte", W "0775D1B10002B1", 5, 12, 0},
    {"CPT with a group of one byte", W "0675D1B10002" "047F00B1", 5, 18, 0},
    {"own id 0", W "067500B10003", 6, 12, 0},
    {"CPT with an id", W "0675D1B10002" "067FD1B10003", 6, 18, 0},
    {"id of an SDA", W "0675B1B10003", 7, 12, 0},
    {"id of a row", W "0671A1B10001" "0675A1B10003", 7, 18, 0},
    {"SDA with a GDA's id", W "0675D1B10002" "0C70D1230000000000000002", 7, 18, 0},
    {"row with a GDA's id", W "0675D1B10002" "0671D1B10001", 7, 18, 0},
    {"GDA with a GDA's id", W "0675D1B10002" "0675D1B10002", 7, 18, 0},
    {"reference to itself", W "0675D1D10002", 8, 12, 0},
    {"reference to itself in a CPT", W "0675D1B10002" "067F00D10002", 8, 18, 0},
    {"later id", "0675D1B10002" W, 8, 0, 0},
    {"later GDA", W "0671A1D10001" "0675D1B10002", 8, 12, 0},
    {"reference to id 0", W "0675D1000002", 8, 12, 0},
    {"elements of a GDA", W "0675D1B10002" "0671A1D10101", 9, 18, 0},
    {"repetition 0 of a GDA before a row", W "0675D1B10002" "0671A1D10000" "0671A2B10001", 9, 18, 0},
    {"too many items of a GDA in a row", W "0975D1B10002B10004" "0671A1D10040" "0671A2A10021", 10, 27, 0},
};

/* An SDA of whole numbers with extents. */
#define X(length, extents) length "70B1230000000000000008" extents

static const struct check_case misfits[] = {
    {"row", W "0671A1B10001" "0675D1A10002", 21, 18, 0},
    {"row, length 0", W "0671A1B10001" "0675D1A10000", 21, 18, 0},
    {"GDA", W "0675D1B10002" "0675D2D10002", 21, 18, 0},
    {"GDA, length 0", W "0675D1B10002" "0675D2D10000", 21, 18, 0},
    {"extent 1", X("0E", "0001") "0675D1B10008", 21, 14, 0},
    {"extent 1, length 0", X("0E", "0001") "0675D1B10000", 21, 14, 0},
    {"three extents", X("12", "000200030004") "0675D1B10002", 21, 18, 0},
    {"fixed", S("01", "0004") "0675D1B18000", 21, 12, 0},
    {"variable", M("02", "01", "0004") "0675D1B1FFFF", 21, 12, 0},
    {"terminated", S("83", "0004") "0675D1B18000", 21, 12, 0},
    {"short", S("07", "0004") "0675D1B10100", 21, 12, 0},
    {"whole number", W "0675D1B10003", 21, 12, 0},
    {"whole number reversed", S("A4", "0002") "0675D1B10010", 21, 12, 0},
    {"packed decimal without digits", S("30", "0503") "0675D1B10002", 21, 12, 0},
    {"packed decimal of 19 digits", S("30", "0503") "0675D1B11300", 21, 12, 0},
    {"packed decimal of 3 digits, 4 of them a fraction", S("B0", "0503") "0675D1B10304", 21, 12, 0},
    {"hexadecimal float without a default", S("40", "0008") "0675D1B10005", 21, 12, 0},
    {"binary float without a default", S("48", "0000") "0675D1B10005", 21, 12, 0},
    {"binary float of 16 bytes", S("47", "0004") "0675D1B10010", 21, 12, 0},
};

static const struct check_case turns[] = {
    {"8, then 21, in a group", W "0675D1B2FFFF", 8, 12, 0},
    {"8 in the first group", W "0975D1B20002B10003", 8, 12, 0},
    {"21 in the first group", W "0975D1B10003B20002", 21, 12, 0},
    {"21 in the last group", W "0C75D1B10002B10004B10005", 21, 12, 0},
    {"21 in a CPT", W "0675D1B10002" "067F00B10003", 21, 18, 0},
    {"21 in the second CPT", W "0675D1B10002" "067F00B10004" "097F00B10008B10001", 21, 24, 0},
    {"21 before a CPT with a length that no CPT has", W "0675D1B10003" "047F00B1", 21, 12, 0},
    {"21 before a torn triplet", W "0675D1B10003" "01", 21, 12, 0},
    {"21 of a GDA that is not used", W "0675D1B10003" "0C70B2230000000000000002", 21, 12, 0},
};

/* ---- blocks, item by item */

struct block_case {
    const char *name;
    const char *descriptor;
    const char *data;
    struct item items[MOST];
};

/* A row of table 5-29 of DRDA Volume 1, its group without a null indicator and its text a string of bytes. */
#define TABLE_5_29                                                                                                     \
    "0C7005A40000000000000002" "0C700BC70000000000000008" "0C7033820000000000017FFF" "0C75D00500020B0008330014"

/* Two rows of a string with reserved space, whole numbers, a packed decimal, floats. */
#define ROWS                                                                                                           \
    "0C70B1020000000000000028" "0C70B2230000000000000008" "0C70B3B00000000000001200" "0C70B4C80000000000000000"        \
    "0C70B5A40000000000000002" "1275D1B10006B20002B20000B30402B40000" "097F00B40008B50008" "0671A1D10002"
#define FIRST "0002414200000000" "FFFE" "0000000100000000" "0001250C" "003FC00000" "003FF8000000000000" "00FEFFFFFFFFFFFFFF"
#define SECOND "0006414243444546" "8000" "8000000000000000" "80808080"

static const struct block_case rows[] = {
    {"table 5-29",
     TABLE_5_29,
     "FF" "000AD7A3703DE26540" "000004C6D9C5C4",
     {{0x05, 0, 1, 0xA4, 1, 0, 0, 0}, {0x0B, 1, 0, 0xC7, 2, 8, 0, 0}, {0x33, 10, 0, 0x82, 13, 4, 0, 0}}},
    {"two rows",
     ROWS,
     FIRST SECOND,
     {{0xB1, 0, 0, 0x02, 2, 2, 0, 0},
      {0xB2, 8, 0, 0x23, 8, 2, -2, 0},
      {0xB2, 10, 0, 0x23, 10, 8, INT64_C(4294967296), 0},
      {0xB3, 18, 0, 0xB0, 19, 3, 1250, 2},
      {0xB4, 22, 0, 0xC8, 23, 4, 0, 0},
      {0xB4, 27, 0, 0xC8, 28, 8, 0, 0},
      {0xB5, 36, 0, 0xA4, 37, 8, -2, 0},
      {0xB1, 45, 0, 0x02, 47, 6, 0, 0},
      {0xB2, 53, 0, 0x23, 53, 2, INT16_MIN, 0},
      {0xB2, 55, 0, 0x23, 55, 8, INT64_MIN, 0},
      {0xB3, 63, 1, 0xB0, 64, 0, 0, 2},
      {0xB4, 64, 1, 0xC8, 65, 0, 0, 0},
      {0xB4, 65, 1, 0xC8, 66, 0, 0, 0},
      {0xB5, 66, 1, 0xA4, 67, 0, 0, 0}}},
};

static const struct block_case numbers[] = {
    {"whole numbers",
     S("23", "0004") "0F75D1B10002B10004B10008B10000",
     "FFFE" "80000000" "7FFFFFFFFFFFFFFF" "00000102",
     {{0xB1, 0, 0, 0x23, 0, 2, -2, 0},
      {0xB1, 2, 0, 0x23, 2, 4, INT32_MIN, 0},
      {0xB1, 6, 0, 0x23, 6, 8, INT64_MAX, 0},
      {0xB1, 14, 0, 0x23, 14, 4, 258, 0}}},
    {"whole numbers reversed",
     S("A4", "0008") "0F75D1B10002B10004B10008B10000",
     "00FEFF" "0001020000" "80" "00FFFFFFFFFFFFFF7F",
     {{0xB1, 0, 0, 0xA4, 1, 2, -2, 0},
      {0xB1, 3, 0, 0xA4, 4, 4, 513, 0},
      {0xB1, 8, 1, 0xA4, 9, 0, 0, 0},
      {0xB1, 9, 0, 0xA4, 10, 8, INT64_MAX, 0}}},
    {"packed decimals",
     S("30", "0201") "1575D1B10100B10101B10503B11212B10000B11100",
     "7D" "5C" "12345C" "0999999999999999999D" "012C" "12345678901234567C",
     {{0xB1, 0, 0, 0x30, 0, 1, -7, 0},
      {0xB1, 1, 0, 0x30, 1, 1, 5, 1},
      {0xB1, 2, 0, 0x30, 2, 3, 12345, 3},
      {0xB1, 5, 0, 0x30, 5, 10, INT64_C(-999999999999999999), 18},
      {0xB1, 15, 0, 0x30, 15, 2, 12, 1},
      {0xB1, 17, 0, 0x30, 17, 9, INT64_C(12345678901234567), 0}}},
    {"null packed decimals",
     S("B0", "1203") "0C75D1B10100B10504B10000",
     "80FF80",
     {{0xB1, 0, 1, 0xB0, 1, 0, 0, 0}, {0xB1, 1, 1, 0xB0, 2, 0, 0, 4}, {0xB1, 2, 1, 0xB0, 3, 0, 0, 3}}},
    {"floats that keep their default",
     S("40", "0000") "0C70B247000000000000FFFF" "0F75D1B10000B10010B20000B20008",
     "4110000000000000" "41100000000000003300000000000000" "0000C03F" "000000000000F83F",
     {{0xB1, 0, 0, 0x40, 0, 8, 0, 0},
      {0xB1, 8, 0, 0x40, 8, 16, 0, 0},
      {0xB2, 24, 0, 0x47, 24, 4, 0, 0},
      {0xB2, 28, 0, 0x47, 28, 8, 0, 0}}},
};

static const struct block_case strings[] = {
    {"fixed",
     S("81", "0000") "0C75D1B10003B10000B10001",
     "00616263" "00" "80",
     {{0xB1, 0, 0, 0x81, 1, 3, 0, 0}, {0xB1, 4, 0, 0x81, 5, 0, 0, 0}, {0xB1, 5, 1, 0x81, 6, 0, 0, 0}}},
    {"variable, mode 0, free at first",
     M("02", "00", "0000") "0C75D1B10003B10000B10001",
     "0001410000" "000441424344" "000000",
     {{0xB1, 0, 0, 0x02, 2, 1, 0, 0}, {0xB1, 5, 0, 0x02, 7, 4, 0, 0}, {0xB1, 11, 0, 0x02, 13, 0, 0, 0}}},
    {"variable, mode 1",
     M("82", "01", "0001") "0C75D1B10003B10000B10002",
     "000003414243" "00000141" "80",
     {{0xB1, 0, 0, 0x82, 3, 3, 0, 0}, {0xB1, 6, 0, 0x82, 9, 1, 0, 0}, {0xB1, 10, 1, 0x82, 11, 0, 0, 0}}},
    {"terminated, mode 0",
     M("03", "00", "0000") "0C75D1B10003B10000B10001",
     "41004344" "414243444500" "0041",
     {{0xB1, 0, 0, 0x03, 0, 1, 0, 0}, {0xB1, 4, 0, 0x03, 4, 5, 0, 0}, {0xB1, 10, 0, 0x03, 10, 0, 0, 0}}},
    {"terminated, mode 1",
     M("83", "01", "0001") "0C75D1B10003B10000B17FFF",
     "0041424300" "004100" "00414200",
     {{0xB1, 0, 0, 0x83, 1, 3, 0, 0}, {0xB1, 5, 0, 0x83, 6, 1, 0, 0}, {0xB1, 8, 0, 0x83, 9, 2, 0, 0}}},
    {"short, mode 0, free at first",
     M("07", "00", "0000") "0C75D1B10003B10000B10002",
     "01410000" "0441424344" "024142",
     {{0xB1, 0, 0, 0x07, 1, 1, 0, 0}, {0xB1, 4, 0, 0x07, 5, 4, 0, 0}, {0xB1, 9, 0, 0x07, 10, 2, 0, 0}}},
};

static const struct block_case nests[] = {
    {"an SDA keeps its length outside of the GDA",
     S("23", "0002") "0675D1B10004" "0C71A1B10001D10001B10001",
     "0001" "00000002" "0003",
     {{0xB1, 0, 0, 0x23, 0, 2, 1, 0}, {0xB1, 2, 0, 0x23, 2, 4, 2, 0}, {0xB1, 6, 0, 0x23, 6, 2, 3, 0}}},
    {"two GDAs over an SDA",
     S("23", "0002") "0675D1B10004" "0675D2B10008" "0971A1D20001D10002",
     "0000000000000001" "00000002" "00000003",
     {{0xB1, 0, 0, 0x23, 0, 8, 1, 0}, {0xB1, 8, 0, 0x23, 8, 4, 2, 0}, {0xB1, 12, 0, 0x23, 12, 4, 3, 0}}},
    {"elements of an SDA beside a GDA",
     S("30", "0302") "0E70B224000000000000000200010675D1B10100" "0C71A1B20201D10001B20001",
     "0100" "0200" "3D" "0400",
     {{0xB2, 0, 0, 0x24, 0, 2, 1, 0},
      {0xB2, 2, 0, 0x24, 2, 2, 2, 0},
      {0xB1, 4, 0, 0x30, 4, 1, -3, 0},
      {0xB2, 5, 0, 0x24, 5, 2, 4, 0}}},
};

/* Data that end before the block does are refused at the item that they cut, and data that go on at its end. */
static void test_sizes(struct bytes d, const char *data, const struct item *items, uint32_t count, const char *name)
{
    struct bytes s = hex(data), longer = zeros(s.size + 1);
    uint32_t cut = 0;
    bool good = true;

    memcpy(longer.at, s.at, s.size);
    for (size_t size = 0; size < s.size; size++) {
        while (cut + 1 < count && items[cut + 1].start <= size)
            cut++;
        good = good && list_refuses(d, (struct bytes){s.at, size}, FDOCA_MAX_LIST, 13, items[cut].start) &&
               state_refuses(d, (struct bytes){s.at, size}, 0, 13, items[cut].start);
    }
    expect(good, "data cut", name);
    expect(list_refuses(d, longer, FDOCA_MAX_LIST, 16, (uint32_t)s.size), "list of one byte more", name);
    expect_refused(d, longer, 0, 16, (uint32_t)s.size, name);
    free(s.at);
    free(longer.at);
}

static void test_blocks(const struct block_case *cases, size_t case_count)
{
    for (size_t i = 0; i < case_count; i++) {
        const struct block_case *c = &cases[i];
        struct bytes d = hex(c->descriptor), s = hex(c->data);
        uint32_t count = count_of(c->items);

        expect(check_gives(d, 0, 0, count), "check of a block", c->name);
        expect(items_listed(d, s, c->items, count), "list", c->name);
        expect(list_refuses(d, s, FDOCA_LIST_SIZE(count) - 1, 12, 0), "list one entry short", c->name);
        for (uint32_t k = 0; k < count; k++)
            test_item(d, s, k, c->items, c->name);
        expect_refused(d, s, count, 17, 0, c->name);
        test_sizes(d, c->data, c->items, count, c->name);
        free(d.at);
        free(s.at);
    }
}

/* ---- data that are refused by the length given */

static const struct refusal_case refusals[] = {
    {"variable, L above the length", M("02", "01", "0004") "0675D1B10002", "0003414243", 14, 0},
    {"variable, free at first", M("02", "00", "0000") "0975D1B10002B10001", "000241420002414200", 14, 4},
    {"short, L above the length", M("07", "01", "0000") "0675D1B10002", "03414243", 14, 0},
    {"terminated, no zero byte", M("03", "01", "0004") "0675D1B10002", "41424300", 15, 0},
    {"terminated, free at first", M("83", "01", "0000") "0975D1B10002B10001", "0041420000414200", 15, 4},
    {"terminated, mode 0, cut", M("03", "00", "0001") "0675D1B10003", "410000", 13, 0},
    {"odd indicator, L above the length", M("82", "01", "0004") "0675D1B10002", "010003414243", 24, 0},
};

static void test_refusals(void)
{
    for (size_t i = 0; i < COUNT(refusals); i++) {
        const struct refusal_case *c = &refusals[i];
        struct bytes d = hex(c->descriptor), s = hex(c->data);

        expect(list_refuses(d, s, FDOCA_MAX_LIST, c->number, c->place), "list refused", c->name);
        expect_refused(d, s, 0, c->number, c->place, c->name);
        free(d.at);
        free(s.at);
    }
}

/* A packed decimal is judged by the digits given. */
static void test_bad_digits(void)
{
    struct bytes d = hex(S("30", "0500") "0975D1B10300B10402"), s = hex("123C" "11234C");

    expect(packed_gives(d, s, 0, 0, 0, 0, 123, 0), "bad digits", "beside a value");
    expect(packed_gives(d, s, 1, 20, 2, 0, 0, 0), "bad digits", "unused half-byte");
    free(d.at);
    free(s.at);
}

/* ---- every length, with every type */

static const uint32_t types[] = {0x01, 0x02, 0x03, 0x07, 0x23, 0x24, 0x30, 0x40, 0x47, 0x48};

static bool suits(uint32_t type, uint32_t length)
{
    uint32_t digits = length >> 8, fraction_digits = length & 0xFF;

    switch (type) {
    case FDOCA_TYPE_SHORT:
        return length <= 255;
    case FDOCA_TYPE_WHOLE:
    case FDOCA_TYPE_WHOLE_REVERSED:
        return length == 2 || length == 4 || length == 8;
    case FDOCA_TYPE_PACKED:
        return digits >= 1 && digits <= 18 && fraction_digits <= digits;
    case FDOCA_TYPE_HEX_FLOAT:
        return length == 4 || length == 8 || length == 16;
    case FDOCA_TYPE_FLOAT:
    case FDOCA_TYPE_FLOAT_REVERSED:
        return length == 4 || length == 8;
    default:
        return length <= 32767;
    }
}

/* Of 65,536 lengths those that suit the type are accepted, and 0, which keeps the SDA's own. */
static void test_lengths(uint32_t code, uint32_t mode)
{
    struct bytes d = hex(S("00", "0404") "0675D1B10000");
    uint32_t type = fdoca_plain_type(code);
    char name[32];
    bool good = true;

    d.at[3] = (uint8_t)code;
    d.at[9] = (uint8_t)mode;
    if (type != FDOCA_TYPE_PACKED)
        d.at[10] = 0;
    for (uint32_t length = 0; length <= UINT16_MAX; length++) {
        d.at[16] = (uint8_t)(length >> 8);
        d.at[17] = (uint8_t)length;
        good = good && (length == 0 || suits(type, length) ? check_gives(d, 0, 0, 1) : check_gives(d, 21, 12, 0));
    }
    snprintf(name, sizeof name, "X'%02X', mode %u", (unsigned)code, (unsigned)mode);
    expect(good, "every length", name);
    free(d.at);
}

static void test_every_length(void)
{
    for (size_t i = 0; i < COUNT(types); i++) {
        for (uint32_t nullable = 0; nullable <= 0x80; nullable += 0x80) {
            test_lengths(types[i] + nullable, 0);
            if (types[i] == FDOCA_TYPE_VARIABLE || types[i] == FDOCA_TYPE_TERMINATED || types[i] == FDOCA_TYPE_SHORT)
                test_lengths(types[i] + nullable, 1);
        }
    }
}

/* ---- limits */

/* In a descriptor of 4,096 bytes: SDAs of 16 and 12 bytes, a GDA and 15 CPTs with 84 groups each, the last one with 80. */
enum { COLUMNS = 1340, GROUPS = 84, GDA_AT = 28, LAST_CPT = 3853 };

/* The lengths given, in turns; the SDA has 8. */
static const uint8_t given[4] = {2, 4, 8, 0};

static uint32_t length_of(uint32_t column)
{
    return given[column % 4] == 0 ? 8 : given[column % 4];
}

static struct bytes largest_descriptor(void)
{
    struct bytes fields = hex("1070B101000000000000000100010001" "0C70B2230000000000000008"), d = zeros(4096);
    size_t at = GDA_AT;

    memcpy(d.at, fields.at, fields.size);
    for (size_t k = 0; k < COLUMNS; k++) {
        size_t left = COLUMNS - k;

        if (k % GROUPS == 0) {
            d.at[at++] = (uint8_t)(3 + 3 * (left < GROUPS ? left : GROUPS));
            d.at[at++] = k == 0 ? 0x75 : 0x7F;
            d.at[at++] = k == 0 ? 0xD1 : 0;
        }
        d.at[at++] = 0xB2;
        d.at[at++] = 0;
        d.at[at++] = given[k % 4];
    }
    expect(at == d.size && d.at[LAST_CPT] == 3 + 3 * 80, "limits", "descriptor of 4,096 bytes");
    free(fields.at);
    return d;
}

/* Whole numbers, each that of its item. */
static struct bytes largest_data(uint32_t *list)
{
    struct bytes s = zeros(COLUMNS / 4 * (2 + 4 + 8 + 8));
    uint32_t start = 0;

    list[0] = COLUMNS;
    list[1] = (uint32_t)s.size;
    for (uint32_t k = 0; k < COLUMNS; k++) {
        list[2 + k] = start;
        list[2 + COLUMNS + k] = 0xB2;
        start += length_of(k);
        s.at[start - 2] = (uint8_t)(k >> 8);
        s.at[start - 1] = (uint8_t)k;
    }
    return s;
}

static void test_largest_descriptor(void)
{
    uint32_t list[FDOCA_LIST_SIZE(COLUMNS)];
    struct bytes d = largest_descriptor(), s = largest_data(list);
    bool good = true;

    expect(check_gives(d, 0, 0, COLUMNS), "limits", "check of 1,340 columns");
    expect(list_gives(d, s, COUNT(list), list, COUNT(list)), "limits", "list of 1,340 columns");
    for (uint32_t k = 0; k < COLUMNS; k++)
        good = good && whole_gives(d, s, k, 0, 0, 0, k) && state_gives(d, s, k, 0, 0x23, 0, length_of(k), 0);
    expect(good, "limits", "each of 1,340 columns");
    expect_refused(d, s, COLUMNS, 17, 0, "1,340 columns");
    d.at[d.size - 1] = 3;
    expect(check_gives(d, 21, LAST_CPT, 0), "limits", "the last of 1,340 columns");
    expect(list_refuses(d, s, COUNT(list), 21, LAST_CPT), "limits", "list, the last of 1,340 columns");
    expect_refused(d, s, 0, 21, LAST_CPT, "the last of 1,340 columns");
    d.at[LAST_CPT - 1] = 3;
    expect(check_gives(d, 21, LAST_CPT - 255, 0), "limits", "the last column of the CPT before");
    free(d.at);
    free(s.at);
}

/* A packed decimal of 18 digits, made one digit in 64 columns, 64 times: as many items as there may be. */
static void test_most_items(void)
{
    struct bytes fields = hex("0C70B1300000000000001200" "C375D1"), row = hex("0671A1D10040");
    struct bytes d = zeros(fields.size + 3 * 64 + row.size), s = zeros(FDOCA_MAX_ITEMS);

    memcpy(d.at, fields.at, fields.size);
    for (size_t k = 0; k < 64; k++)
        memcpy(d.at + fields.size + 3 * k, "\xB1\x01\x00", 3);
    memcpy(d.at + d.size - row.size, row.at, row.size);
    memset(s.at, 0x7D, s.size);
    expect(check_gives(d, 0, 0, FDOCA_MAX_ITEMS), "limits", "check of 64 rows of 64 columns");
    expect(packed_gives(d, s, FDOCA_MAX_ITEMS - 1, 0, 0, 0, -7, 0), "limits", "last of 4,096 columns");
    expect(lend_gives(d, s, FDOCA_MAX_ITEMS - 1, 0, 0, FDOCA_MAX_ITEMS - 1, 1), "limits", "value of the last column");
    expect_refused(d, s, FDOCA_MAX_ITEMS, 17, 0, "64 rows of 64 columns");
    d.at[d.size - 1] = 65;
    expect(check_gives(d, 10, (uint32_t)(d.size - row.size), 0), "limits", "check of 65 rows of 64 columns");
    free(fields.at);
    free(row.at);
    free(d.at);
    free(s.at);
}

int main(void)
{
    test_checks(accepted, COUNT(accepted));
    test_checks(refused, COUNT(refused));
    test_checks(misfits, COUNT(misfits));
    test_checks(turns, COUNT(turns));
    test_blocks(rows, COUNT(rows));
    test_blocks(numbers, COUNT(numbers));
    test_blocks(strings, COUNT(strings));
    test_blocks(nests, COUNT(nests));
    test_refusals();
    test_bad_digits();
    test_every_length();
    test_largest_descriptor();
    test_most_items();
    return finish();
}
