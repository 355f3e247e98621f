/*
 * Tests of floats in C: how long they are by the field length F of their SDA, where a type's default stands for every F but
 * 4, 8 and 16. What the calls refuse alike is in calls.c, rows with floats are in items.c, the values of floats in values.c.
 * The last line printed is "N passed, M failed", and the exit status is 0 if none failed.
 */
#include "support.h"

static const uint32_t codes[] = {0x40, 0x47, 0x48, 0xC0, 0xC7, 0xC8};

/* F, and how many bytes a hexadecimal and a binary float then have: none if the SDA is refused. */
struct length_case {
    uint32_t given, hexadecimal, binary;
};

static const struct length_case lengths[] = {
    {0x0000, 8, 4}, {0x0001, 8, 4}, {0x0003, 8, 4}, {0x0004, 4, 4},  {0x0005, 8, 4}, {0x0007, 8, 4},
    {0x0008, 8, 8}, {0x0009, 8, 4}, {0x000F, 8, 4}, {0x0010, 16, 0}, {0x0011, 8, 4}, {0x0020, 8, 4},
    {0x0104, 8, 4}, {0x0110, 8, 4}, {0x0400, 8, 4}, {0x0800, 8, 4},  {0x1000, 8, 4}, {0x7FFF, 8, 4},
    {0x8000, 8, 4}, {0x8004, 8, 4}, {0xFFFF, 8, 4},
};

/* A float as an SDA describes it, and how many bytes its value has. */
struct column {
    struct bytes sda;
    uint32_t code, length;
    char name[32];
};

static bool is_hexadecimal(uint32_t code)
{
    return fdoca_plain_type(code) == FDOCA_TYPE_HEX_FLOAT;
}

static void set_given(struct bytes sda, uint32_t given)
{
    sda.at[10] = (uint8_t)(given >> 8);
    sda.at[11] = (uint8_t)given;
}

static struct column column(uint32_t code, const struct length_case *c)
{
    struct column column = {hex(S("00", "0000")), code, is_hexadecimal(code) ? c->hexadecimal : c->binary, ""};

    column.sda.at[3] = (uint8_t)code;
    set_given(column.sda, c->given);
    snprintf(column.name, sizeof column.name, "X'%02X', F %u", (unsigned)code, (unsigned)c->given);
    return column;
}

/* The bytes before the value. */
static uint32_t lead(const struct column *c)
{
    return fdoca_is_nullable(c->code) ? 1 : 0;
}

/* ---- every call, on data that fit the length and on others */

/* What the value call gives of a zero, or of a null: one of 16 bytes is refused. */
static struct value zero_value(const struct column *c, uint32_t is_null)
{
    if (c->length == 16)
        return (struct value)REFUSED(18, 0);
    return is_null ? (struct value)NO_VALUE : (struct value)REAL(0.0);
}

static void expect_item(const struct column *c, struct bytes s, uint32_t is_null, uint32_t length, const char *name)
{
    const uint32_t list[] = {1, (uint32_t)s.size, 0, 0xB1};

    expect(list_gives(c->sda, s, COUNT(list), list, COUNT(list)), "list", name);
    expect(state_gives(c->sda, s, 0, is_null, c->code, lead(c), length, 0), "state", name);
    expect(lend_gives(c->sda, s, 0, 0, 0, lead(c), length), "lend", name);
    expect(whole_gives(c->sda, s, 0, 18, 0, 0, 0), "no whole number", name);
    expect(packed_gives(c->sda, s, 0, 18, 0, 0, 0, 0), "no packed decimal", name);
    expect(value_gives(c->sda, s, 0, zero_value(c, is_null)), "value", name);
}

static void test_null(const struct column *c)
{
    struct bytes s = hex("80");
    char name[48];

    snprintf(name, sizeof name, "%s, null", c->name);
    expect_item(c, s, 1, 0, name);
    free(s.at);
}

static void test_refused(const struct column *c, uint32_t size, uint32_t number, uint32_t place)
{
    struct bytes s = zeros(size);
    char name[48];

    snprintf(name, sizeof name, "%s, %u bytes", c->name, (unsigned)size);
    expect(list_refuses(c->sda, s, FDOCA_LIST_SIZE(1), number, place), "list refused", name);
    expect_refused(c->sda, s, 0, number, place, name);
    free(s.at);
}

static void test_length(const struct column *c)
{
    uint32_t size = lead(c) + c->length;
    struct bytes s = zeros(size);

    expect(check_gives(c->sda, 0, 0, 1), "check", c->name);
    expect_item(c, s, 0, c->length, c->name);
    test_refused(c, size - 1, 13, 0);
    test_refused(c, size + 1, 16, size);
    if (fdoca_is_nullable(c->code))
        test_null(c);
    free(s.at);
}

/* Parameters other than F have no default. They are 0, but the bias indicator of a binary float, in bytes 2 and 3, may
 * be 1. */
static void test_other_parameters(const struct column *c)
{
    bool good = true;

    for (size_t byte = 0; byte < 6; byte++) {
        for (unsigned value = 1; value < 256; value++) {
            bool is_bias = !is_hexadecimal(c->code) && byte == 3 && value == 1;

            c->sda.at[4 + byte] = (uint8_t)value;
            good = good && (is_bias ? check_gives(c->sda, 0, 0, 1) : check_gives(c->sda, 6, 0, 0));
        }
        c->sda.at[4 + byte] = 0;
    }
    expect(good, "other parameters", c->name);
}

static void test_lengths(uint32_t code)
{
    for (size_t i = 0; i < COUNT(lengths); i++) {
        struct column c = column(code, &lengths[i]);

        if (c.length == 0) {
            expect(check_gives(c.sda, 6, 0, 0), "check", c.name);
            test_refused(&c, lead(&c) + 16, 6, 0);
        } else {
            test_length(&c);
            test_other_parameters(&c);
        }
        free(c.sda.at);
    }
}

/* ---- every F that is replaced */

static void test_defaults(uint32_t code)
{
    struct column c = column(code, &(const struct length_case){0, 8, 4});
    struct bytes s = zeros(lead(&c) + c.length);
    bool good = true;

    for (uint32_t given = 0; given <= UINT16_MAX; given++) {
        set_given(c.sda, given);
        if (given != 4 && given != 8 && given != 16)
            good = good && state_gives(c.sda, s, 0, 0, code, lead(&c), c.length, 0);
    }
    expect(good, "every other F", c.name);
    free(c.sda.at);
    free(s.at);
}

/* ---- no other type has a default */

static void test_other_types(void)
{
    static const char *const descriptors[] = {
        S("01", "8000"), S("02", "8000"), S("03", "FFFF"), S("07", "0100"), S("23", "0000"), S("24", "0010"),
        S("30", "0000"), S("81", "8000"), S("A3", "0000"), S("A4", "0003"), S("B0", "0000"), S("49", "0000"),
    };

    for (size_t i = 0; i < COUNT(descriptors); i++) {
        struct bytes d = hex(descriptors[i]);

        expect(check_gives(d, 6, 0, 0), "no default", descriptors[i]);
        free(d.at);
    }
}

int main(void)
{
    for (size_t i = 0; i < COUNT(codes); i++) {
        test_lengths(codes[i]);
        test_defaults(codes[i]);
    }
    test_other_types();
    return finish();
}
