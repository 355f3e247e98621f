/*
 * Tests of the C call that reads a packed decimal: digits, signs, fraction digits, nulls, and what it refuses beyond the
 * state call. What the calls refuse alike is in calls.c, items of every other type are in items.c. The last line printed is
 * "N passed, M failed", and the exit status is 0 if none failed.
 */
#include "support.h"

enum { MOST_DIGITS = 18 };

/* ---- blocks written out */

struct packed_case {
    const char *name;
    const char *descriptor;
    const char *data;
    uint32_t item, number, place, is_null;
    int64_t value;
    uint32_t fraction_digits;
};

static const struct packed_case values[] = {
    {"1 digit", S("30", "0100"), "7C", 0, 0, 0, 0, 7, 0},
    {"1 digit, minus", S("30", "0100"), "9D", 0, 0, 0, 0, -9, 0},
    {"1 digit, a fraction", S("30", "0101"), "5C", 0, 0, 0, 0, 5, 1},
    {"2 digits", S("30", "0200"), "012C", 0, 0, 0, 0, 12, 0},
    {"2 digits, minus", S("30", "0201"), "099B", 0, 0, 0, 0, -99, 1},
    {"2 digits, all a fraction", S("30", "0202"), "005A", 0, 0, 0, 0, 5, 2},
    {"17 digits", S("30", "1100"), "12345678901234567C", 0, 0, 0, 0, INT64_C(12345678901234567), 0},
    {"17 digits, minus", S("30", "1110"), "98765432109876543D", 0, 0, 0, 0, INT64_C(-98765432109876543), 16},
    {"17 digits, the least", S("30", "1111"), "99999999999999999D", 0, 0, 0, 0, INT64_C(-99999999999999999), 17},
    {"18 digits", S("30", "1203"), "0123456789012345678F", 0, 0, 0, 0, INT64_C(123456789012345678), 3},
    {"18 digits, the most", S("30", "1200"), "0999999999999999999E", 0, 0, 0, 0, INT64_C(999999999999999999), 0},
    {"18 digits, the least", S("30", "1212"), "0999999999999999999D", 0, 0, 0, 0, INT64_C(-999999999999999999), 18},
    {"minus zero", S("30", "0100"), "0D", 0, 0, 0, 0, 0, 0},
    {"minus zero, sign B", S("30", "0202"), "000B", 0, 0, 0, 0, 0, 2},
    {"minus zero, 18 digits", S("30", "1212"), "0000000000000000000D", 0, 0, 0, 0, 0, 18},
    {"nullable", S("B0", "0302"), "00125D", 0, 0, 0, 0, -125, 2},
    {"nullable, 4 digits", S("B0", "0403"), "0001250C", 0, 0, 0, 0, 1250, 3},
    {"null", S("B0", "0302"), "80", 0, 0, 0, 1, 0, 2},
    {"null, low bits of the indicator", S("B0", "1212"), "FF", 0, 0, 0, 1, 0, 18},
    {"null without fraction digits", S("B0", "0300"), "80", 0, 0, 0, 1, 0, 0},
};

static const struct packed_case spoiled[] = {
    {"first digit", S("30", "0301"), "A23C", 0, 20, 0, 0, 0, 0},
    {"last digit", S("30", "0301"), "12FC", 0, 20, 0, 0, 0, 0},
    {"sign", S("30", "0301"), "1239", 0, 20, 0, 0, 0, 0},
    {"unused half-byte", S("30", "0201"), "112C", 0, 20, 0, 0, 0, 0},
    {"unused half-byte of 18 digits", S("30", "1200"), "1123456789012345678C", 0, 20, 0, 0, 0, 0},
    {"nullable, at its indicator", S("B0", "0301") "0671A1B10003", "00123C0012AC80", 1, 20, 3, 0, 0, 0},
    {"nullable, its sign", S("B0", "0301") "0671A1B10002", "80001230", 1, 20, 1, 0, 0, 0},
    {"beside a value", S("B0", "0301") "0671A1B10003", "00123C0012AC80", 0, 0, 0, 0, 123, 1},
    {"beside a null", S("B0", "0301") "0671A1B10003", "00123C0012AC80", 2, 0, 0, 1, 0, 1},
    {"odd indicator", S("B0", "0403"), "7F01250C", 0, 24, 0, 0, 0, 0},
    {"odd indicator before bad digits", S("B0", "0301"), "01FFFF", 0, 24, 0, 0, 0, 0},
    {"odd indicator behind bad digits", S("B0", "0301") "0671A1B10002", "00FFFF40123C", 0, 24, 3, 0, 0, 0},
};

/* Three rows of a name, a packed decimal and a whole number: a value, a null, bad digits. They start at 0, 5, 9; 11, 14, 15;
 * 17, 19, 23. */
#define ORDERS                                                                                                         \
    "0C70B1020000000000010008" "0C70B2B00000000000000401" "0C70B3230000000000000002" "0C71A1B10001B20001B30001"        \
    "0671A2A10003"
#define ROWS "0003546561" "0000125C" "0064" "000141" "80" "FFFF" "0000" "0010125C" "0064"

static const struct packed_case rows[] = {
    {"a value", ORDERS, ROWS, 1, 0, 0, 0, 125, 1},
    {"a null", ORDERS, ROWS, 4, 0, 0, 1, 0, 1},
    {"bad digits", ORDERS, ROWS, 7, 20, 19, 0, 0, 0},
    {"a name", ORDERS, ROWS, 3, 18, 11, 0, 0, 0},
    {"a whole number that would be bad digits", ORDERS, ROWS, 5, 18, 15, 0, 0, 0},
    {"a whole number behind bad digits", ORDERS, ROWS, 8, 18, 23, 0, 0, 0},
    {"an item that is not there", ORDERS, ROWS, 9, 17, 0, 0, 0, 0},
    {"a null whole number", S("A3", "0002") "0671A1B10002", "00FFFF80", 1, 18, 3, 0, 0, 0},
    {"a null string", S("81", "0002") "0671A1B10002", "8080", 1, 18, 1, 0, 0, 0},
};

static void test_cases(const char *group, const struct packed_case *cases, size_t count)
{
    for (size_t i = 0; i < count; i++) {
        const struct packed_case *c = &cases[i];
        struct bytes d = hex(c->descriptor), s = hex(c->data);

        expect(packed_gives(d, s, c->item, c->number, c->place, c->is_null, c->value, c->fraction_digits), group, c->name);
        free(d.at);
        free(s.at);
    }
}

/* ---- every count of digits, and every half-byte of an item */

/* The bytes of an item, by the count of its digits. */
static const size_t sizes[MOST_DIGITS + 1] = {0, 1, 2, 2, 3, 3, 4, 4, 5, 5, 6, 6, 7, 7, 8, 8, 9, 9, 10};

static struct bytes field(unsigned digits, unsigned fraction_digits)
{
    struct bytes d = hex(S("30", "0000"));

    d.at[10] = (uint8_t)digits;
    d.at[11] = (uint8_t)fraction_digits;
    return d;
}

static void set_half(struct bytes s, size_t half, unsigned value)
{
    uint8_t *byte = &s.at[half / 2];

    *byte = (uint8_t)(half % 2 == 0 ? value << 4 | (*byte & 0x0F) : (*byte & 0xF0) | value);
}

static size_t sign_of(struct bytes s)
{
    return 2 * s.size - 1;
}

/* An item of so many digits, the last as told and all others 0, with the sign C. */
static struct bytes small_value(unsigned digits, unsigned last)
{
    struct bytes s = zeros(sizes[digits]);

    set_half(s, sign_of(s) - 1, last);
    set_half(s, sign_of(s), 0xC);
    return s;
}

static int64_t ten_to(size_t power)
{
    return power == 0 ? 1 : 10 * ten_to(power - 1);
}

/* A good item reads as the value, without fraction digits; another one has a bad digit. */
static bool reads(struct bytes d, struct bytes s, bool good, int64_t value)
{
    return good ? packed_gives(d, s, 0, 0, 0, 0, value, 0) : packed_gives(d, s, 0, 20, 0, 0, 0, 0);
}

static void test_digits(unsigned digits, const char *name)
{
    struct bytes d = field(digits, 0), s = small_value(digits, 0);
    size_t sign = sign_of(s);
    bool good = true;

    for (size_t half = 0; half < sign; half++) {
        bool unused = half == 0 && digits % 2 == 0;

        for (unsigned v = 0; v < 16; v++) {
            set_half(s, half, v);
            good = good && (unused ? reads(d, s, v == 0, 0) : reads(d, s, v <= 9, v * ten_to(sign - 1 - half)));
        }
        set_half(s, half, 0);
    }
    expect(good, "each half-byte before the sign", name);
    free(d.at);
    free(s.at);
}

static void test_signs(unsigned digits, const char *name)
{
    static const char signs[] = "..........+-+-++"; /* of 0 to F */
    struct bytes d = field(digits, 0), s = small_value(digits, 1);
    bool good = true;

    for (unsigned v = 0; v < 16; v++) {
        set_half(s, sign_of(s), v);
        good = good && reads(d, s, signs[v] != '.', signs[v] == '-' ? -1 : 1);
    }
    expect(good, "each sign", name);
    free(d.at);
    free(s.at);
}

/* Cutting a block looks at no digit. */
static void test_sizes(unsigned digits, const char *name)
{
    struct bytes d = field(digits, 0), s = zeros(sizes[digits]);
    uint32_t size = (uint32_t)s.size, list[4], place = OLD;

    memset(s.at, 0xFF, s.size);
    expect(fdoca_list(d.at, d.size, s.at, s.size, list, 4, &place) == 0 && place == 0 && list[1] == size,
           "list of bad digits", name);
    expect(state_gives(d, s, 0, 0, FDOCA_TYPE_PACKED, 0, size, 0), "state of bad digits", name);
    expect(lend_gives(d, s, 0, 0, 0, 0, size), "value of bad digits", name);
    expect(whole_gives(d, s, 0, 18, 0, 0, 0), "whole number of bad digits", name);
    expect(packed_gives(d, s, 0, 20, 0, 0, 0, 0), "packed decimal of bad digits", name);
    s.size--;
    expect(packed_gives(d, s, 0, 13, 0, 0, 0, 0), "one byte short", name);
    free(d.at);
    free(s.at);
}

static void test_every_count(void)
{
    for (unsigned digits = 1; digits <= MOST_DIGITS; digits++) {
        char name[16];

        snprintf(name, sizeof name, "%u digits", digits);
        test_digits(digits, name);
        test_signs(digits, name);
        test_sizes(digits, name);
    }
}

/* ---- parameters */

/* Digits from 1 to 18 and fraction digits up to as many are accepted, and given back. */
static void test_parameters(void)
{
    for (unsigned digits = 0; digits < 256; digits++) {
        bool carried = digits >= 1 && digits <= MOST_DIGITS, good = true;
        struct bytes s = carried ? small_value(digits, 7) : zeros(1);
        char name[16];

        for (unsigned fraction = 0; fraction < 256; fraction++) {
            struct bytes d = field(digits, fraction);

            good = good && (carried && fraction <= digits ? packed_gives(d, s, 0, 0, 0, 0, 7, fraction)
                                                          : packed_gives(d, s, 0, 6, 0, 0, 0, 0));
            free(d.at);
        }
        snprintf(name, sizeof name, "%u digits", digits);
        expect(good, "each count of fraction digits", name);
        free(s.at);
    }
}

static void test_other_parameters(void)
{
    struct bytes s = small_value(3, 7);

    for (size_t byte = 0; byte < 6; byte++) {
        char name[16];
        struct bytes d = field(3, 0);

        d.at[4 + byte] = 1;
        snprintf(name, sizeof name, "byte %zu", byte);
        expect(packed_gives(d, s, 0, 6, 0, 0, 0, 0), "parameter that is not 0", name);
        free(d.at);
    }
    free(s.at);
}

/* ---- the header's own function */

static void test_null_pointers(void)
{
    struct bytes d = hex(S("30", "0302")), s = hex("125D");
    uint32_t place = OLD, is_null = OLD, fraction = OLD;
    int64_t value = OLD_VALUE;
    uint32_t got = fdoca_packed_null_ok(NULL, 0, NULL, 0, 0, &place, &is_null, &value, &fraction);

    expect(got == 11 && place == 0 && is_null == 0 && value == 0 && fraction == 0, "null", "packed decimal of nothing");
    fraction = OLD;
    got = fdoca_packed_null_ok(d.at, d.size, NULL, 0, 0, &place, &is_null, &value, &fraction);
    expect(got == 13 && place == 0 && is_null == 0 && value == 0 && fraction == 0, "null", "packed decimal of no data");
    got = fdoca_packed_null_ok(d.at, d.size, s.at, s.size, 0, &place, &is_null, &value, &fraction);
    expect(got == 0 && place == 0 && is_null == 0 && value == -125 && fraction == 2, "null", "packed decimal");
    free(d.at);
    free(s.at);
}

int main(void)
{
    test_cases("value", values, COUNT(values));
    test_cases("spoiled", spoiled, COUNT(spoiled));
    test_cases("row", rows, COUNT(rows));
    test_every_count();
    test_parameters();
    test_other_parameters();
    test_null_pointers();
    return finish();
}
