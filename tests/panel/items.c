/*
 * Tests of the C calls that tell of one item: its state, where its value lies, its whole number. What these calls refuse
 * alike is in calls.c, the reading of packed decimals in packed.c and of floats in values.c, every length of floats in
 * floats.c, every null indicator in indicators.c, items whose length a GDA gives in columns.c. The last line printed is
 * "N passed, M failed", and the exit status is 0 if none failed.
 */
#include "support.h"

/* ---- state and value: of every type, and item by item */

struct item_case {
    const char *name;
    const char *descriptor;
    const char *data;
    uint32_t item, start, is_null, type_code, lead, value, spare;
};

static const struct item_case strings[] = {
    {"fixed", S("01", "0003"), "616263", 0, 0, 0, 0x01, 0, 3, 0},
    {"fixed, no bytes", S("01", "0000"), "", 0, 0, 0, 0x01, 0, 0, 0},
    {"fixed, nullable", S("81", "0003"), "00616263", 0, 0, 0, 0x81, 1, 3, 0},
    {"fixed, nullable, a byte", S("81", "0001"), "0061", 0, 0, 0, 0x81, 1, 1, 0},
    {"fixed, nullable, no bytes", S("81", "0000"), "00", 0, 0, 0, 0x81, 1, 0, 0},
    {"fixed, null", S("81", "0003"), "80", 0, 0, 1, 0x81, 1, 0, 0},
    {"fixed, null with low bits", S("81", "0003"), "FF", 0, 0, 1, 0x81, 1, 0, 0},
    {"variable, mode 0", M("02", "00", "0004"), "000241420000", 0, 0, 0, 0x02, 2, 2, 2},
    {"variable, mode 1", M("02", "01", "0004"), "00024142", 0, 0, 0, 0x02, 2, 2, 0},
    {"variable, mode 0, F bytes", M("02", "00", "0002"), "00024142", 0, 0, 0, 0x02, 2, 2, 0},
    {"variable, mode 0, no bytes", M("02", "00", "0002"), "00004142", 0, 0, 0, 0x02, 2, 0, 2},
    {"variable, mode 1, no bytes", M("02", "01", "0002"), "0000", 0, 0, 0, 0x02, 2, 0, 0},
    {"variable, mode 0, F 0", M("02", "00", "0000"), "0003414243", 0, 0, 0, 0x02, 2, 3, 0},
    {"variable, mode 1, F 0", M("02", "01", "0000"), "0003414243", 0, 0, 0, 0x02, 2, 3, 0},
    {"variable, nullable", M("82", "00", "0004"), "00000241420000", 0, 0, 0, 0x82, 3, 2, 2},
    {"variable, null", M("82", "00", "0004"), "80", 0, 0, 1, 0x82, 1, 0, 0},
    {"terminated, mode 0", M("03", "00", "0003"), "41004344", 0, 0, 0, 0x03, 0, 1, 3},
    {"terminated, mode 1", M("03", "01", "0003"), "4100", 0, 0, 0, 0x03, 0, 1, 1},
    {"terminated, mode 0, F bytes", M("03", "00", "0002"), "414200", 0, 0, 0, 0x03, 0, 2, 1},
    {"terminated, mode 0, no bytes", M("03", "00", "0001"), "0041", 0, 0, 0, 0x03, 0, 0, 2},
    {"terminated, mode 1, no bytes", M("03", "01", "0001"), "00", 0, 0, 0, 0x03, 0, 0, 1},
    {"terminated, mode 0, F 0", M("03", "00", "0000"), "41424300", 0, 0, 0, 0x03, 0, 3, 1},
    {"terminated, mode 1, F 0", M("03", "01", "0000"), "41424300", 0, 0, 0, 0x03, 0, 3, 1},
    {"terminated, nullable", M("83", "00", "0003"), "0041004344", 0, 0, 0, 0x83, 1, 1, 3},
    {"terminated, null", M("83", "01", "0003"), "80", 0, 0, 1, 0x83, 1, 0, 0},
    {"short, mode 0", M("07", "00", "0004"), "0241420000", 0, 0, 0, 0x07, 1, 2, 2},
    {"short, mode 1", M("07", "01", "0004"), "024142", 0, 0, 0, 0x07, 1, 2, 0},
    {"short, mode 0, no bytes", M("07", "00", "0002"), "004142", 0, 0, 0, 0x07, 1, 0, 2},
    {"short, mode 0, F 0", M("07", "00", "0000"), "03414243", 0, 0, 0, 0x07, 1, 3, 0},
    {"short, mode 1, F 0", M("07", "01", "0000"), "03414243", 0, 0, 0, 0x07, 1, 3, 0},
    {"short, nullable", M("87", "01", "0004"), "00024142", 0, 0, 0, 0x87, 2, 2, 0},
    {"short, null", M("87", "00", "0004"), "80", 0, 0, 1, 0x87, 1, 0, 0},
};

#define PI "40091EB851EB851F"

static const struct item_case numbers[] = {
    {"whole, 2 bytes", S("23", "0002"), "0102", 0, 0, 0, 0x23, 0, 2, 0},
    {"whole, 4 bytes", S("23", "0004"), "01020304", 0, 0, 0, 0x23, 0, 4, 0},
    {"whole, 8 bytes", S("23", "0008"), "0102030405060708", 0, 0, 0, 0x23, 0, 8, 0},
    {"whole, nullable", S("A3", "0002"), "000102", 0, 0, 0, 0xA3, 1, 2, 0},
    {"whole, null", S("A3", "0002"), "80", 0, 0, 1, 0xA3, 1, 0, 0},
    {"reversed, 2 bytes", S("24", "0002"), "0201", 0, 0, 0, 0x24, 0, 2, 0},
    {"reversed, 4 bytes", S("24", "0004"), "04030201", 0, 0, 0, 0x24, 0, 4, 0},
    {"reversed, 8 bytes", S("24", "0008"), "0807060504030201", 0, 0, 0, 0x24, 0, 8, 0},
    {"reversed, nullable", S("A4", "0008"), "000807060504030201", 0, 0, 0, 0xA4, 1, 8, 0},
    {"reversed, null", S("A4", "0008"), "80", 0, 0, 1, 0xA4, 1, 0, 0},
    {"packed, 1 digit", S("30", "0100"), "7C", 0, 0, 0, 0x30, 0, 1, 0},
    {"packed, 2 digits", S("30", "0201"), "012C", 0, 0, 0, 0x30, 0, 2, 0},
    {"packed, 17 digits", S("30", "1100"), "12345678901234567C", 0, 0, 0, 0x30, 0, 9, 0},
    {"packed, 18 digits", S("30", "1212"), "0123456789012345678C", 0, 0, 0, 0x30, 0, 10, 0},
    {"packed, bad digits", S("30", "0402"), "FFFFF0", 0, 0, 0, 0x30, 0, 3, 0},
    {"packed, nullable", S("B0", "0503"), "0012345D", 0, 0, 0, 0xB0, 1, 3, 0},
    {"packed, nullable, bad digits", S("B0", "0503"), "00ABCDE9", 0, 0, 0, 0xB0, 1, 3, 0},
    {"packed, null", S("B0", "0503"), "80", 0, 0, 1, 0xB0, 1, 0, 0},
    {"hexadecimal float, 4 bytes", S("40", "0004"), "41100000", 0, 0, 0, 0x40, 0, 4, 0},
    {"hexadecimal float, 8 bytes", S("40", "0008"), "4110000000000000", 0, 0, 0, 0x40, 0, 8, 0},
    {"hexadecimal float, 16 bytes", S("40", "0010"), PI PI, 0, 0, 0, 0x40, 0, 16, 0},
    {"hexadecimal float, nullable", S("C0", "0010"), "00" PI PI, 0, 0, 0, 0xC0, 1, 16, 0},
    {"hexadecimal float, null", S("C0", "0010"), "80", 0, 0, 1, 0xC0, 1, 0, 0},
    {"reversed float, 4 bytes", S("47", "0004"), "C3F54840", 0, 0, 0, 0x47, 0, 4, 0},
    {"reversed float, 8 bytes", S("47", "0008"), PI, 0, 0, 0, 0x47, 0, 8, 0},
    {"reversed float, nullable", S("C7", "0004"), "00C3F54840", 0, 0, 0, 0xC7, 1, 4, 0},
    {"reversed float, null", S("C7", "0004"), "80", 0, 0, 1, 0xC7, 1, 0, 0},
    {"float, 4 bytes", S("48", "0004"), "4048F5C3", 0, 0, 0, 0x48, 0, 4, 0},
    {"float, 8 bytes", S("48", "0008"), PI, 0, 0, 0, 0x48, 0, 8, 0},
    {"float, bias indicator 1", "0C70B1480000000100000004", "4048F5C3", 0, 0, 0, 0x48, 0, 4, 0},
    {"float, nullable", S("C8", "0008"), "00" PI, 0, 0, 0, 0xC8, 1, 8, 0},
    {"float, null", S("C8", "0008"), "80", 0, 0, 1, 0xC8, 1, 0, 0},
};

/* Two rows of the example's menu: a dish of up to 24 bytes and its calories, both nullable, and its grams. */
#define MENU                                                                                                           \
    "0C70B1820000000000010018" "0C70B2A30000000000000002" "0C70B3230000000000000004" "0C71A1B10001B20001B30001"        \
    "0671A2A10002"
#define ROWS "0000094C65656B20736F7570" "000091" "000001C2" "80" "80" "0000017C"

/* Two rows of floats with zero parameters: a hexadecimal one of 8 bytes, a nullable and a plain binary one of 4. */
#define FLOATS                                                                                                         \
    "0C70B1400000000000000000" "0C70B2C70000000000000000" "0C70B3480000000000000000" "0C71A1B10001B20001B30001"        \
    "0671A2A10002"
#define FLOAT_ROWS "4168000000000000" "000000C03F" "41C40000" "C1A4000000000000" "80" "BFC00000"

static const struct item_case rows[] = {
    {"a dish", MENU, ROWS, 0, 0, 0, 0x82, 3, 9, 0},
    {"its calories", MENU, ROWS, 1, 12, 0, 0xA3, 1, 2, 0},
    {"its grams", MENU, ROWS, 2, 15, 0, 0x23, 0, 4, 0},
    {"a null dish", MENU, ROWS, 3, 19, 1, 0x82, 1, 0, 0},
    {"null calories", MENU, ROWS, 4, 20, 1, 0xA3, 1, 0, 0},
    {"grams behind nulls", MENU, ROWS, 5, 21, 0, 0x23, 0, 4, 0},
    {"a hexadecimal float", FLOATS, FLOAT_ROWS, 0, 0, 0, 0x40, 0, 8, 0},
    {"a nullable float", FLOATS, FLOAT_ROWS, 1, 8, 0, 0xC7, 1, 4, 0},
    {"a binary float", FLOATS, FLOAT_ROWS, 2, 13, 0, 0x48, 0, 4, 0},
    {"a negative hexadecimal float", FLOATS, FLOAT_ROWS, 3, 17, 0, 0x40, 0, 8, 0},
    {"a null float", FLOATS, FLOAT_ROWS, 4, 25, 1, 0xC7, 1, 0, 0},
    {"a binary float behind a null", FLOATS, FLOAT_ROWS, 5, 26, 0, 0x48, 0, 4, 0},
    {"reserved space before", M("02", "00", "0003") "0671A1B10002", "00014100000002424300", 1, 5, 0, 0x02, 2, 2, 1},
    {"no bytes, at the end", M("02", "01", "0003") "0671A1B10002", "0001410000", 1, 3, 0, 0x02, 2, 0, 0},
};

/* The calls that read numbers refuse a first item of another type, null or not. */
static void test_wrong_type(const struct item_case *c, struct bytes d, struct bytes s)
{
    uint32_t type = fdoca_plain_type(c->type_code);

    if (!is_whole(type))
        expect(whole_gives(d, s, 0, 18, 0, 0, 0), "no whole number", c->name);
    if (type != FDOCA_TYPE_PACKED)
        expect(packed_gives(d, s, 0, 18, 0, 0, 0, 0), "no packed decimal", c->name);
    if (!is_whole(type) && !is_float(type))
        expect(value_gives(d, s, 0, (struct value)REFUSED(18, 0)), "no value", c->name);
}

static void test_items(const struct item_case *cases, size_t count)
{
    for (size_t i = 0; i < count; i++) {
        const struct item_case *c = &cases[i];
        struct bytes d = hex(c->descriptor), s = hex(c->data);

        expect(state_gives(d, s, c->item, c->is_null, c->type_code, c->lead, c->value, c->spare), "state", c->name);
        expect(lend_gives(d, s, c->item, 0, 0, c->start + c->lead, c->value), "lend", c->name);
        if (c->item == 0)
            test_wrong_type(c, d, s);
        free(d.at);
        free(s.at);
    }
}

/* ---- whole numbers */

struct whole_case {
    const char *name;
    const char *descriptor;
    const char *data;
    uint32_t item, number, place, is_null;
    int64_t value;
};

static const struct whole_case wholes[] = {
    {"-2", S("23", "0002"), "FFFE", 0, 0, 0, 0, -2},
    {"-2 reversed", S("24", "0002"), "FEFF", 0, 0, 0, 0, -2},
    {"258", S("23", "0002"), "0102", 0, 0, 0, 0, 258},
    {"258 reversed", S("24", "0002"), "0201", 0, 0, 0, 0, 258},
    {"2 bytes, least", S("23", "0002"), "8000", 0, 0, 0, 0, INT16_MIN},
    {"2 bytes, most", S("23", "0002"), "7FFF", 0, 0, 0, 0, INT16_MAX},
    {"2 bytes reversed, least", S("24", "0002"), "0080", 0, 0, 0, 0, INT16_MIN},
    {"2 bytes reversed, most", S("24", "0002"), "FF7F", 0, 0, 0, 0, INT16_MAX},
    {"4 bytes, least", S("23", "0004"), "80000000", 0, 0, 0, 0, INT32_MIN},
    {"4 bytes, most", S("23", "0004"), "7FFFFFFF", 0, 0, 0, 0, INT32_MAX},
    {"4 bytes, -1", S("23", "0004"), "FFFFFFFF", 0, 0, 0, 0, -1},
    {"4 bytes reversed, least", S("24", "0004"), "00000080", 0, 0, 0, 0, INT32_MIN},
    {"4 bytes reversed, most", S("24", "0004"), "FFFFFF7F", 0, 0, 0, 0, INT32_MAX},
    {"8 bytes, least", S("23", "0008"), "8000000000000000", 0, 0, 0, 0, INT64_MIN},
    {"8 bytes, most", S("23", "0008"), "7FFFFFFFFFFFFFFF", 0, 0, 0, 0, INT64_MAX},
    {"8 bytes, 2 to the 32", S("23", "0008"), "0000000100000000", 0, 0, 0, 0, INT64_C(4294967296)},
    {"8 bytes reversed, least", S("24", "0008"), "0000000000000080", 0, 0, 0, 0, INT64_MIN},
    {"8 bytes reversed, most", S("24", "0008"), "FFFFFFFFFFFFFF7F", 0, 0, 0, 0, INT64_MAX},
    {"8 bytes reversed, -1", S("24", "0008"), "FFFFFFFFFFFFFFFF", 0, 0, 0, 0, -1},
    {"0", S("23", "0008"), "0000000000000000", 0, 0, 0, 0, 0},
    {"nullable", S("A3", "0002"), "00FFFE", 0, 0, 0, 0, -2},
    {"null", S("A3", "0002"), "80", 0, 0, 0, 1, 0},
    {"null reversed", S("A4", "0008"), "FF", 0, 0, 0, 1, 0},
    {"first of two", S("A3", "0002") "0671A1B10002", "00000780", 0, 0, 0, 0, 7},
    {"second of two", S("A3", "0002") "0671A1B10002", "00000780", 1, 0, 0, 1, 0},
    {"third of two", S("A3", "0002") "0671A1B10002", "00000780", 2, 17, 0, 0, 0},
    {"bytes", S("01", "0002") "0671A1B10002", "00000000", 1, 18, 2, 0, 0},
    {"null bytes", S("81", "0002") "0671A1B10002", "8080", 1, 18, 1, 0, 0},
    {"float", S("48", "0008"), "4065E23D70A3D70A", 0, 18, 0, 0, 0},
    {"packed decimal", S("30", "0300") "0671A1B10002", "123C123C", 1, 18, 2, 0, 0},
    {"packed decimal with bad digits", S("30", "0300") "0671A1B10002", "123CFFFF", 1, 18, 2, 0, 0},
    {"null packed decimal", S("B0", "0300") "0671A1B10002", "00123C80", 1, 18, 3, 0, 0},
    {"behind bad digits", S("30", "0300") "0C70B2230000000000000002" "0971A1B10001B20001", "FFFF0007", 1, 0, 0, 0, 7},
};

static void test_wholes(void)
{
    for (size_t i = 0; i < COUNT(wholes); i++) {
        const struct whole_case *c = &wholes[i];
        struct bytes d = hex(c->descriptor), s = hex(c->data);

        expect(whole_gives(d, s, c->item, c->number, c->place, c->is_null, c->value), "whole number", c->name);
        if (c->number == 0)
            expect(value_gives(d, s, c->item, whole_value(c->is_null, c->value)), "value", c->name);
        free(d.at);
        free(s.at);
    }
}

/* ---- the header's own functions */

static void test_state_of_null(void)
{
    const struct bytes nothing = {NULL, 0};
    struct bytes d = hex(S("01", "0000")), name = hex(M("87", "00", "0003")), s = hex("0001414243");

    expect(same_state(state_null_ok(nothing, nothing), (struct state){11, 0, 0, 0, 0, 0, 0}), "null", "state of nothing");
    expect(same_state(state_null_ok(d, nothing), (struct state){0, 0, 0, 0x01, 0, 0, 0}), "null", "state of no data");
    expect(same_state(state_null_ok(name, s), (struct state){0, 0, 0, 0x87, 2, 1, 2}), "null", "state");
    free(d.at);
    free(name.at);
    free(s.at);
}

static void test_lend_of_null(void)
{
    struct bytes d = hex(S("01", "0000")), number = hex(S("A3", "0002")), s = hex("000007");
    uint32_t place = OLD, offset = OLD, length = OLD;
    uint32_t got = fdoca_lend_null_ok(NULL, 0, NULL, 0, 0, &place, &offset, &length);

    expect(got == 11 && place == 0 && offset == 0 && length == 0, "null", "value of nothing");
    offset = length = OLD;
    got = fdoca_lend_null_ok(d.at, d.size, NULL, 0, 0, &place, &offset, &length);
    expect(got == 0 && place == 0 && offset == 0 && length == 0, "null", "value of no data");
    got = fdoca_lend_null_ok(number.at, number.size, s.at, s.size, 0, &place, &offset, &length);
    expect(got == 0 && place == 0 && offset == 1 && length == 2, "null", "value");
    free(d.at);
    free(number.at);
    free(s.at);
}

static void test_whole_of_null(void)
{
    struct bytes number = hex(S("23", "0002")), s = hex("0007");
    uint32_t place = OLD, is_null = OLD;
    int64_t value = OLD_VALUE;
    uint32_t got = fdoca_whole_number_null_ok(NULL, 0, NULL, 0, 0, &place, &is_null, &value);

    expect(got == 11 && place == 0 && is_null == 0 && value == 0, "null", "whole number of nothing");
    got = fdoca_whole_number_null_ok(number.at, number.size, NULL, 0, 0, &place, &is_null, &value);
    expect(got == 13 && place == 0 && is_null == 0 && value == 0, "null", "whole number of no data");
    got = fdoca_whole_number_null_ok(number.at, number.size, s.at, s.size, 0, &place, &is_null, &value);
    expect(got == 0 && place == 0 && is_null == 0 && value == 7, "null", "whole number");
    free(number.at);
    free(s.at);
}

static bool is_named(uint32_t type)
{
    static const uint32_t types[] = {
        FDOCA_TYPE_FIXED, FDOCA_TYPE_VARIABLE,       FDOCA_TYPE_TERMINATED, FDOCA_TYPE_SHORT,
        FDOCA_TYPE_WHOLE, FDOCA_TYPE_WHOLE_REVERSED, FDOCA_TYPE_PACKED,     FDOCA_TYPE_HEX_FLOAT,
        FDOCA_TYPE_FLOAT, FDOCA_TYPE_FLOAT_REVERSED,
    };

    for (size_t i = 0; i < COUNT(types); i++)
        if (types[i] == type)
            return true;
    return false;
}

/* The types with a name are those that a field of four bytes or one of four digits may have, plain and nullable. */
static void test_types(void)
{
    struct bytes bytes = hex(S("00", "0004")), digits = hex(S("00", "0400"));

    for (uint32_t code = 0; code < 256; code++) {
        char name[8];

        bytes.at[3] = digits.at[3] = (uint8_t)code;
        snprintf(name, sizeof name, "X'%02X'", (unsigned)code);
        expect((check_gives(bytes, 0, 0, 1) || check_gives(digits, 0, 0, 1)) == is_named(fdoca_plain_type(code)), "type",
               name);
        expect(fdoca_is_nullable(code) == (code > 127), "nullable type", name);
    }
    free(bytes.at);
    free(digits.at);
}

int main(void)
{
    test_items(strings, COUNT(strings));
    test_items(numbers, COUNT(numbers));
    test_items(rows, COUNT(rows));
    test_wholes();
    test_state_of_null();
    test_lend_of_null();
    test_whole_of_null();
    test_types();
    return finish();
}
