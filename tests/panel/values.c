/*
 * Tests of the C call that reads a number, whether whole or a float: floats written out, and many more beside the compiler's
 * own; whole numbers, nulls, and what the call refuses. Floats are compared by their bits. What the calls refuse alike is in
 * calls.c, every field length of a float in floats.c. The last line printed is "N passed, M failed", and the exit status is 0
 * if none failed.
 */
#include "support.h"

_Static_assert(sizeof(float) == 4 && FLT_MANT_DIG == 24 && FLT_MIN_EXP == -125 && FLT_MAX_EXP == 128,
               "a float is IEEE 754's binary32");
_Static_assert(FDOCA_KIND_NULL == 0 && FDOCA_KIND_WHOLE == 1 && FDOCA_KIND_REAL == 2, "the kinds have their numbers");

/* ---- floats written out: the bits of one that is not negative, and the equal float, or the number that refuses it */

struct float_case {
    const char *name;
    uint64_t bits;
    uint32_t number;
    double real;
};

static const struct float_case short_hexes[] = {
    {"zero", 0x00000000, 0, 0.0},
    {"zero, characteristic 1", 0x01000000, 0, 0.0},
    {"zero, characteristic 64", 0x40000000, 0, 0.0},
    {"zero, characteristic 127", 0x7F000000, 0, 0.0},
    {"least", 0x00000001, 0, 0x1p-280},
    {"least normalized of characteristic 0", 0x00100000, 0, 0x1p-260},
    {"greatest of characteristic 0", 0x00FFFFFF, 0, 0x0.FFFFFFp-256},
    {"least of characteristic 127", 0x7F000001, 0, 0x1p228},
    {"greatest", 0x7FFFFFFF, 0, 0x0.FFFFFFp252},
    {"0.1", 0x4019999A, 0, 0x0.19999Ap0},
    {"0.5", 0x40800000, 0, 0.5},
    {"1", 0x41100000, 0, 1.0},
    {"1 with a leading zero digit", 0x42010000, 0, 1.0},
    {"1 with five leading zero digits", 0x46000001, 0, 1.0},
    {"118.625", 0x4276A000, 0, 118.625},
    {"first and last bit", 0x46800001, 0, 8388609.0},
};

static const struct float_case long_hexes[] = {
    {"zero", 0x0000000000000000, 0, 0.0},
    {"zero, characteristic 1", 0x0100000000000000, 0, 0.0},
    {"zero, characteristic 127", 0x7F00000000000000, 0, 0.0},
    {"least", 0x0000000000000001, 0, 0x1p-312},
    {"least normalized of characteristic 0", 0x0010000000000000, 0, 0x1p-260},
    {"least of characteristic 127", 0x7F00000000000001, 0, 0x1p196},
    {"0.1", 0x401999999999999A, 0, 0.1},
    {"1", 0x4110000000000000, 0, 1.0},
    {"1 with 13 leading zero digits", 0x4E00000000000001, 0, 1.0},
    {"10.25", 0x41A4000000000000, 0, 10.25},
    {"175.07", 0x42AF11EB851EB850, 0, 175.07},
    {"53 bits from the first", 0x40FFFFFFFFFFFFF8, 0, 0x0.FFFFFFFFFFFFF8p0},
    {"53 bits from the second", 0x407FFFFFFFFFFFFC, 0, 0x0.7FFFFFFFFFFFFCp0},
    {"53 bits to the last but one", 0x403FFFFFFFFFFFFE, 0, 0x0.3FFFFFFFFFFFFEp0},
    {"53 bits to the last", 0x401FFFFFFFFFFFFF, 0, 0x0.1FFFFFFFFFFFFFp0},
    {"first and 53rd bit", 0x4E80000000000008, 0, 0x1.0000000000001p55},
    {"fourth and last bit", 0x4E10000000000001, 0, 0x1.0000000000001p52},
    {"53 bits, characteristic 0", 0x00FFFFFFFFFFFFF8, 0, 0x0.FFFFFFFFFFFFF8p-256},
    {"53 bits, characteristic 127", 0x7FFFFFFFFFFFFFF8, 0, 0x0.FFFFFFFFFFFFF8p252},
    {"54 bits from the first", 0x40FFFFFFFFFFFFFC, 23, 0.0},
    {"54 bits to the last", 0x403FFFFFFFFFFFFF, 23, 0.0},
    {"first and 54th bit", 0x4E80000000000004, 23, 0.0},
    {"third and last bit", 0x4E20000000000001, 23, 0.0},
    {"first and last bit", 0x4E80000000000001, 23, 0.0},
    {"56 bits", 0x40FFFFFFFFFFFFFF, 23, 0.0},
    {"56 bits, characteristic 0", 0x00FFFFFFFFFFFFFF, 23, 0.0},
    {"56 bits, characteristic 127", 0x7FFFFFFFFFFFFFFF, 23, 0.0},
};

static const struct float_case short_binaries[] = {
    {"zero", 0x00000000, 0, 0.0},
    {"least denormal", 0x00000001, 0, 0x1p-149},
    {"denormal of the first bit", 0x00400000, 0, 0x1p-127},
    {"greatest denormal", 0x007FFFFF, 0, 0x0.FFFFFEp-126},
    {"least normal", 0x00800000, 0, 0x1p-126},
    {"least normal but one", 0x00800001, 0, 0x1.000002p-126},
    {"0.1", 0x3DCCCCCD, 0, 0x1.99999Ap-4},
    {"1", 0x3F800000, 0, 1.0},
    {"next to 1", 0x3F800001, 0, 0x1.000002p0},
    {"24.5", 0x41C40000, 0, 24.5},
    {"characteristic 254", 0x7F000000, 0, 0x1p127},
    {"greatest", 0x7F7FFFFF, 0, 0x1.FFFFFEp127},
    {"infinity", 0x7F800000, 23, 0.0},
    {"NaN, the last bit", 0x7F800001, 23, 0.0},
    {"NaN, the first bit", 0x7FC00000, 23, 0.0},
    {"NaN, all bits", 0x7FFFFFFF, 23, 0.0},
};

static const struct float_case long_binaries[] = {
    {"zero", 0x0000000000000000, 0, 0.0},
    {"least denormal", 0x0000000000000001, 0, 0x1p-1074},
    {"denormal of the first bit", 0x0008000000000000, 0, 0x1p-1023},
    {"greatest denormal", 0x000FFFFFFFFFFFFF, 0, 0x0.FFFFFFFFFFFFFp-1022},
    {"least normal", 0x0010000000000000, 0, 0x1p-1022},
    {"least normal but one", 0x0010000000000001, 0, 0x1.0000000000001p-1022},
    {"0.1", 0x3FB999999999999A, 0, 0.1},
    {"1", 0x3FF0000000000000, 0, 1.0},
    {"next to 1", 0x3FF0000000000001, 0, 0x1.0000000000001p0},
    {"175.07", 0x4065E23D70A3D70A, 0, 175.07},
    {"characteristic 2046", 0x7FE0000000000000, 0, 0x1p1023},
    {"greatest", 0x7FEFFFFFFFFFFFFF, 0, 0x1.FFFFFFFFFFFFFp1023},
    {"infinity", 0x7FF0000000000000, 23, 0.0},
    {"NaN, the last bit", 0x7FF0000000000001, 23, 0.0},
    {"NaN, the first bit", 0x7FF8000000000000, 23, 0.0},
    {"NaN, all bits", 0x7FFFFFFFFFFFFFFF, 23, 0.0},
};

/* The formats of floats: type, bytes, and how many bits the fraction has. */
struct format {
    uint32_t type, size, fraction;
    const struct float_case *cases;
    size_t count;
};

static const struct format formats[] = {
    {FDOCA_TYPE_HEX_FLOAT, 4, 24, short_hexes, COUNT(short_hexes)},
    {FDOCA_TYPE_HEX_FLOAT, 8, 56, long_hexes, COUNT(long_hexes)},
    {FDOCA_TYPE_FLOAT_REVERSED, 4, 23, short_binaries, COUNT(short_binaries)},
    {FDOCA_TYPE_FLOAT_REVERSED, 8, 52, long_binaries, COUNT(long_binaries)},
    {FDOCA_TYPE_FLOAT, 4, 23, short_binaries, COUNT(short_binaries)},
    {FDOCA_TYPE_FLOAT, 8, 52, long_binaries, COUNT(long_binaries)},
};

static uint64_t sign_bit(const struct format *f)
{
    return UINT64_C(1) << (8 * f->size - 1);
}

/* Whether a float of these bits is read so, as the one item of an SDA of the type, or of its nullable form. */
static bool reads(const struct format *f, bool nullable, uint64_t bits, struct value expected)
{
    uint8_t sda[12] = {12, 0x70, 0xB1, (uint8_t)f->type, [11] = (uint8_t)f->size}, item[9] = {0};
    size_t lead = nullable ? 1 : 0;

    if (nullable)
        sda[3] |= 0x80;
    for (size_t i = 0; i < f->size; i++)
        item[lead + (f->type == FDOCA_TYPE_FLOAT_REVERSED ? i : f->size - 1 - i)] = (uint8_t)(bits >> 8 * i);
    return value_gives((struct bytes){sda, sizeof sda}, (struct bytes){item, lead + f->size}, 0, expected);
}

static struct value with_sign(const struct float_case *c, bool minus)
{
    if (c->number != 0)
        return (struct value)REFUSED(c->number, 0);
    return (struct value)REAL(minus ? -c->real : c->real);
}

static void test_float(const struct format *f, const struct float_case *c)
{
    uint64_t plus = c->bits, minus = plus | sign_bit(f);
    char name[80];

    snprintf(name, sizeof name, "X'%02X' of %u bytes, %s", (unsigned)f->type, (unsigned)f->size, c->name);
    expect(reads(f, false, plus, with_sign(c, false)), "float", name);
    expect(reads(f, false, minus, with_sign(c, true)), "float with the sign bit", name);
    expect(reads(f, true, plus, with_sign(c, false)), "nullable float", name);
    expect(reads(f, true, minus, with_sign(c, true)), "nullable float with the sign bit", name);
}

static void test_floats(void)
{
    for (size_t i = 0; i < COUNT(formats); i++)
        for (size_t k = 0; k < formats[i].count; k++)
            test_float(&formats[i], &formats[i].cases[k]);
}

/* ---- many floats, beside the compiler's own and its arithmetic, which is exact where it is used here */

static uint64_t fraction_of(const struct format *f, uint64_t bits)
{
    return bits & ((UINT64_C(1) << f->fraction) - 1);
}

static uint32_t characteristic_of(const struct format *f, uint64_t bits)
{
    return (uint32_t)((bits & (sign_bit(f) - 1)) >> f->fraction);
}

static uint32_t highest_characteristic(const struct format *f)
{
    return characteristic_of(f, UINT64_MAX);
}

static struct value binary_value(const struct format *f, uint64_t bits)
{
    uint32_t low = (uint32_t)bits;
    float narrow;
    double wide;

    if (characteristic_of(f, bits) == highest_characteristic(f))
        return (struct value)REFUSED(23, 0);
    memcpy(&narrow, &low, sizeof narrow);
    memcpy(&wide, &bits, sizeof wide);
    return (struct value)REAL(f->size == 4 ? (double)narrow : wide);
}

/* The fraction is a whole number of so many hexadecimal digits, times 16 to the characteristic less 64 and less those. */
static struct value hex_value(const struct format *f, uint64_t bits)
{
    int power = (int)characteristic_of(f, bits) - 64 - (int)f->fraction / 4;
    uint64_t fraction = fraction_of(f, bits), odd = fraction;

    while (odd != 0 && odd % 2 == 0)
        odd /= 2;
    if (odd >> 53 != 0)
        return (struct value)REFUSED(23, 0);

    double real = (double)fraction;

    for (; power > 0; power--)
        real *= 16;
    for (; power < 0; power++)
        real /= 16;
    return (struct value)REAL((bits & sign_bit(f)) == 0 ? real : -real);
}

static struct value value_by_bits(const struct format *f, uint64_t bits)
{
    return f->type == FDOCA_TYPE_HEX_FLOAT ? hex_value(f, bits) : binary_value(f, bits);
}

/* Runs of ones, from every first bit of the fraction to every last one. */
static bool runs_read(const struct format *f, uint64_t before)
{
    for (uint32_t first = 0; first < f->fraction; first++) {
        for (uint32_t last = 0; last <= first; last++) {
            uint64_t bits = before | ((UINT64_C(2) << first) - (UINT64_C(1) << last));
            uint64_t ends = before | UINT64_C(1) << first | UINT64_C(1) << last;

            if (!reads(f, false, bits, value_by_bits(f, bits)) || !reads(f, true, ends, value_by_bits(f, ends)))
                return false;
        }
    }
    return true;
}

/* Every characteristic with either sign: a fraction of zero, and runs of ones with the first two, the last two and each
 * 37th. */
static bool characteristics_read(const struct format *f)
{
    uint32_t highest = highest_characteristic(f);

    for (uint32_t c = 0; c <= highest; c++) {
        uint64_t plus = (uint64_t)c << f->fraction, minus = plus | sign_bit(f);
        bool with_runs = c < 2 || c > highest - 2 || c % 37 == 0;

        if (!reads(f, false, plus, value_by_bits(f, plus)) || !reads(f, false, minus, value_by_bits(f, minus)))
            return false;
        if (with_runs && !(runs_read(f, plus) && runs_read(f, minus)))
            return false;
    }
    return true;
}

static uint64_t next_random(uint64_t *state)
{
    *state ^= *state << 13;
    *state ^= *state >> 7;
    *state ^= *state << 17;
    return *state;
}

/* Random bits, of which some at the end of the fraction are zeros. */
static bool random_read(const struct format *f)
{
    uint64_t state = UINT64_C(0x9E3779B97F4A7C15);

    for (unsigned k = 0; k < 50000; k++) {
        uint64_t zeros = next_random(&state) % f->fraction, bits = next_random(&state) >> zeros << zeros;

        bits &= sign_bit(f) | (sign_bit(f) - 1);
        if (!reads(f, k % 2 == 0, bits, value_by_bits(f, bits)))
            return false;
    }
    return true;
}

static void test_many_floats(void)
{
    for (size_t i = 0; i < COUNT(formats); i++) {
        const struct format *f = &formats[i];
        char name[32];

        snprintf(name, sizeof name, "X'%02X' of %u bytes", (unsigned)f->type, (unsigned)f->size);
        expect(characteristics_read(f), "every characteristic", name);
        expect(random_read(f), "random floats", name);
    }
}

/* ---- fields: what is read of a value and of a null, and what is refused of both */

/* A plain SDA of id B1, the bytes of a value, and what the call gives of it behind a byte. */
struct field_case {
    const char *name;
    const char *sda;
    const char *data;
    struct value value;
};

/* SDAs of binary floats with the bias indicator 1. */
#define BIAS(type, length) "0C70B1" type "000000010000" length

static const struct field_case read_fields[] = {
    {"whole, 2 bytes", S("23", "0002"), "FFFE", WHOLE(-2)},
    {"whole, 4 bytes", S("23", "0004"), "FFFFFFFE", WHOLE(-2)},
    {"whole, 8 bytes", S("23", "0008"), "FFFFFFFFFFFFFFFE", WHOLE(-2)},
    {"whole reversed, 2 bytes", S("24", "0002"), "0102", WHOLE(513)},
    {"whole reversed, 4 bytes", S("24", "0004"), "FEFFFFFF", WHOLE(-2)},
    {"whole reversed, 8 bytes", S("24", "0008"), "0000000001000000", WHOLE(INT64_C(4294967296))},
    {"whole, least of 2 bytes", S("23", "0002"), "8000", WHOLE(INT16_MIN)},
    {"whole, most of 4 bytes", S("23", "0004"), "7FFFFFFF", WHOLE(INT32_MAX)},
    {"whole, least", S("23", "0008"), "8000000000000000", WHOLE(INT64_MIN)},
    {"whole, most", S("23", "0008"), "7FFFFFFFFFFFFFFF", WHOLE(INT64_MAX)},
    {"whole reversed, least", S("24", "0008"), "0000000000000080", WHOLE(INT64_MIN)},
    {"whole reversed, most", S("24", "0008"), "FFFFFFFFFFFFFF7F", WHOLE(INT64_MAX)},
    {"whole, zero", S("23", "0004"), "00000000", WHOLE(0)},
    {"hexadecimal float, 4 bytes", S("40", "0004"), "C1100000", REAL(-1.0)},
    {"hexadecimal float, 8 bytes", S("40", "0008"), "C110000000000000", REAL(-1.0)},
    {"hexadecimal float, F 0", S("40", "0000"), "8000000000000000", REAL(-0.0)},
    {"hexadecimal float, F 5", S("40", "0005"), "4168000000000000", REAL(6.5)},
    {"reversed float, 4 bytes", S("47", "0004"), "000080BF", REAL(-1.0)},
    {"reversed float, 8 bytes", S("47", "0008"), "000000000000F0BF", REAL(-1.0)},
    {"reversed float, F 0", S("47", "0000"), "00000080", REAL(-0.0)},
    {"float, 4 bytes", S("48", "0004"), "BF800000", REAL(-1.0)},
    {"float, 8 bytes", S("48", "0008"), "BFF0000000000000", REAL(-1.0)},
    {"float, F 0", S("48", "0000"), "80000000", REAL(-0.0)},
    {"float, F 65,535", S("48", "FFFF"), "3FC00000", REAL(1.5)},
};

static const struct field_case inexact_fields[] = {
    {"hexadecimal float of 54 bits", S("40", "0008"), "C03FFFFFFFFFFFFF", REFUSED(23, 1)},
    {"hexadecimal float of 56 bits, F 0", S("40", "0000"), "FFFFFFFFFFFFFFFF", REFUSED(23, 1)},
    {"reversed infinity", S("47", "0004"), "0000807F", REFUSED(23, 1)},
    {"reversed NaN, 8 bytes", S("47", "0008"), "010000000000F0FF", REFUSED(23, 1)},
    {"reversed infinity, F 0", S("47", "0000"), "000080FF", REFUSED(23, 1)},
    {"NaN", S("48", "0004"), "FFC00000", REFUSED(23, 1)},
    {"infinity, 8 bytes", S("48", "0008"), "FFF0000000000000", REFUSED(23, 1)},
    {"NaN, F 0", S("48", "0000"), "7FFFFFFF", REFUSED(23, 1)},
};

static const struct field_case other_fields[] = {
    {"fixed", S("01", "0004"), "3F800000", REFUSED(18, 1)},
    {"fixed, no bytes", S("01", "0000"), "", REFUSED(18, 1)},
    {"variable, mode 0", M("02", "00", "0004"), "000131202020", REFUSED(18, 1)},
    {"variable, mode 1", M("02", "01", "0004"), "000131", REFUSED(18, 1)},
    {"terminated, mode 0", M("03", "00", "0002"), "310000", REFUSED(18, 1)},
    {"terminated, mode 1", M("03", "01", "0002"), "3100", REFUSED(18, 1)},
    {"short, mode 0", M("07", "00", "0002"), "013120", REFUSED(18, 1)},
    {"short, mode 1", M("07", "01", "0002"), "0131", REFUSED(18, 1)},
    {"packed", S("30", "0302"), "125C", REFUSED(18, 1)},
    {"packed, no fraction digits", S("30", "0300"), "125C", REFUSED(18, 1)},
    {"packed, bad digits", S("30", "0302"), "FFFF", REFUSED(18, 1)},
    {"hexadecimal float, 16 bytes", S("40", "0010"), "41100000000000003300000000000000", REFUSED(18, 1)},
    {"hexadecimal zero, 16 bytes", S("40", "0010"), "00000000000000000000000000000000", REFUSED(18, 1)},
    {"hexadecimal float of 112 bits", S("40", "0010"), "41FFFFFFFFFFFFFF33FFFFFFFFFFFFFF", REFUSED(18, 1)},
    {"reversed float, bias indicator 1", BIAS("47", "0004"), "0000803F", REFUSED(18, 1)},
    {"reversed float of 8 bytes, bias indicator 1", BIAS("47", "0008"), "000000000000F03F", REFUSED(18, 1)},
    {"float, bias indicator 1", BIAS("48", "0004"), "3F800000", REFUSED(18, 1)},
    {"float of 8 bytes, bias indicator 1", BIAS("48", "0008"), "3FF0000000000000", REFUSED(18, 1)},
    {"float of F 0, bias indicator 1", BIAS("48", "0000"), "3F800000", REFUSED(18, 1)},
    {"zero, bias indicator 1", BIAS("48", "0008"), "0000000000000000", REFUSED(18, 1)},
    {"characteristic 255, bias indicator 1", BIAS("48", "0004"), "7F800000", REFUSED(18, 1)},
};

/* An item of the field, in a row behind a string of a byte: its bytes stand behind that and what else is given. With an odd
 * indicator there is no block, whatever item is asked for. */
static void expect_field(const struct field_case *c, uint8_t nullable, const char *before, const char *data,
                         struct value expected, const char *group)
{
    char descriptor[96], block[64];

    snprintf(descriptor, sizeof descriptor, "0C70B2010000000000000001%s0971A1B20001B10001", c->sda);
    snprintf(block, sizeof block, "41%s%s", before, data);

    struct bytes d = hex(descriptor), s = hex(block);
    bool is_block = expected.number != 24;

    d.at[12 + 3] |= nullable;
    expect(value_gives(d, s, 1, expected), group, c->name);
    expect(value_gives(d, s, 0, is_block ? (struct value)REFUSED(18, 0) : expected), "the byte before", c->name);
    expect(value_gives(d, s, 2, is_block ? (struct value)REFUSED(17, 0) : expected), "no item behind", c->name);
    free(d.at);
    free(s.at);
}

/* 18 goes by the field alone, so a null of a field that is read is a null whatever its values are. */
static void test_fields(const struct field_case *cases, size_t count)
{
    for (size_t i = 0; i < count; i++) {
        const struct field_case *c = &cases[i];
        const struct value null = NO_VALUE, value_of_null = c->value.number == 18 ? c->value : null;
        const struct value odd = REFUSED(24, 1);

        expect_field(c, 0, "", c->data, c->value, "field");
        expect_field(c, 0x80, "00", c->data, c->value, "nullable field");
        expect_field(c, 0x80, "01", c->data, odd, "odd indicator");
        expect_field(c, 0x80, "7F", c->data, odd, "odd indicator, all low bits");
        expect_field(c, 0x80, "80", "", value_of_null, "null");
        expect_field(c, 0x80, "FF", "", value_of_null, "null with low bits");
    }
}

/* ---- blocks */

struct value_case {
    const char *name;
    const char *descriptor;
    const char *data;
    uint32_t item;
    struct value value;
};

/* Two rows of floats with zero parameters. */
#define ZERO_PARAMETERS                                                                                                \
    "0C70B1400000000000000000" "0C70B2C70000000000000000" "0C70B3480000000000000000" "0C71A1B10001B20001B30001"        \
    "0671A2A10002"
#define ZERO_ROWS "4168000000000000" "000000C03F" "41C40000" "C1A4000000000000" "80" "BFC00000"

/* Rows to the end of a name, kilocalories, grams of protein and of salt, a price. Of two rows the items start at 0, 5, 8, 17,
 * 25; 28, 30, 31, 32, 40. */
#define NUTRIENTS                                                                                                      \
    "0C70B1020000000000010008" "0C70B2A30000000000000002" "0C70B3C70000000000000008" "0C70B4400000000000000008"        \
    "0C70B5300000000000000502" "1271A1B10001B20001B30001B40001B50001" "0671A2A10000"
#define NUTRIENT_ROWS                                                                                                  \
    "0003546561" "000001" "009A99999999992640" "80FFFFFFFFFFFFFF" "00350C" "0000" "80" "80" "4113333333333333" "00275C"

static const struct value_case blocks[] = {
    {"table 5-29's number", "0C700BC70000000000000008", "000AD7A3703DE26540", 0, REAL(175.07)},
    {"zero parameters, item 0", ZERO_PARAMETERS, ZERO_ROWS, 0, REAL(6.5)},
    {"zero parameters, item 1", ZERO_PARAMETERS, ZERO_ROWS, 1, REAL(1.5)},
    {"zero parameters, item 2", ZERO_PARAMETERS, ZERO_ROWS, 2, REAL(24.5)},
    {"zero parameters, item 3", ZERO_PARAMETERS, ZERO_ROWS, 3, REAL(-10.25)},
    {"zero parameters, item 4", ZERO_PARAMETERS, ZERO_ROWS, 4, NO_VALUE},
    {"zero parameters, item 5", ZERO_PARAMETERS, ZERO_ROWS, 5, REAL(-1.5)},
    {"rows to the end, a name", NUTRIENTS, NUTRIENT_ROWS, 0, REFUSED(18, 0)},
    {"rows to the end, a whole number", NUTRIENTS, NUTRIENT_ROWS, 1, WHOLE(1)},
    {"rows to the end, a float", NUTRIENTS, NUTRIENT_ROWS, 2, REAL(11.3)},
    {"rows to the end, 56 bits", NUTRIENTS, NUTRIENT_ROWS, 3, REFUSED(23, 17)},
    {"rows to the end, a packed decimal", NUTRIENTS, NUTRIENT_ROWS, 4, REFUSED(18, 25)},
    {"rows to the end, a second name", NUTRIENTS, NUTRIENT_ROWS, 5, REFUSED(18, 28)},
    {"rows to the end, a null whole number", NUTRIENTS, NUTRIENT_ROWS, 6, NO_VALUE},
    {"rows to the end, a null float", NUTRIENTS, NUTRIENT_ROWS, 7, NO_VALUE},
    {"rows to the end, 53 bits", NUTRIENTS, NUTRIENT_ROWS, 8, REAL(1.2)},
    {"rows to the end, a last packed decimal", NUTRIENTS, NUTRIENT_ROWS, 9, REFUSED(18, 40)},
    {"rows to the end, behind the last", NUTRIENTS, NUTRIENT_ROWS, 10, REFUSED(17, 0)},
    {"no rows", NUTRIENTS, "", 0, REFUSED(17, 0)},
    {"an element of an array", "0E70B14800000000000000040003", "3F80000040000000C0400000", 2, REAL(-3.0)},
    {"beside an infinity", S("48", "0004") "0671A1B10003", "7F800000BF800000FFC00000", 1, REAL(-1.0)},
    {"a NaN behind it", S("48", "0004") "0671A1B10003", "7F800000BF800000FFC00000", 2, REFUSED(23, 8)},
};

/* A row of table 5-29 of DRDA Volume 1, its group without a null indicator and its text a string of bytes. */
#define TABLE_5_29                                                                                                     \
    "0C7005A40000000000000002" "0C700BC70000000000000008" "0C7033820000000000017FFF" "0C75D00500020B0008330014"
#define FRED "FF" "000AD7A3703DE26540" "000004C6D9C5C4"

/* Columns of 8, 16, 4 and 8 bytes over floats of 16. */
#define WIDE S("C0", "0010") "0F75D1B10008B10000B10004B10008"
#define WIDE_ROW "004110000000000000" "0042100000000000003400000000000000" "00C2100000" "80"

/* Columns of 16 and of 8 bytes over floats of 8. */
#define NARROW S("C0", "0000") "0C75D1B10010B10000B10010"
#define NARROW_ROW "0041100000000000003300000000000000" "80" "80"

static const struct value_case columns[] = {
    {"table 5-29, a null", TABLE_5_29, FRED, 0, NO_VALUE},
    {"table 5-29, 175.07", TABLE_5_29, FRED, 1, REAL(175.07)},
    {"table 5-29, a string", TABLE_5_29, FRED, 2, REFUSED(18, 10)},
    {"8 bytes for 16", WIDE, WIDE_ROW, 0, REAL(1.0)},
    {"16 bytes as they were", WIDE, WIDE_ROW, 1, REFUSED(18, 9)},
    {"4 bytes for 16", WIDE, WIDE_ROW, 2, REAL(-16.0)},
    {"8 bytes for 16, null", WIDE, WIDE_ROW, 3, NO_VALUE},
    {"16 bytes for 8", NARROW, NARROW_ROW, 0, REFUSED(18, 0)},
    {"8 bytes as they were, null", NARROW, NARROW_ROW, 1, NO_VALUE},
    {"16 bytes for 8, null", NARROW, NARROW_ROW, 2, REFUSED(18, 18)},
    {"binary, 8 bytes for 4", S("47", "0004") "0675D1B10008", "000000000000F8BF", 0, REAL(-1.5)},
    {"binary, 4 bytes for 8", S("48", "0008") "0675D1B10004", "00000001", 0, REAL(0x1p-149)},
    {"binary, 8 bytes for the default", S("48", "0000") "0675D1B10008", "0000000000000001", 0, REAL(0x1p-1074)},
    {"binary, an infinity of 4 bytes for 8", S("48", "0008") "0675D1B10004", "7F800000", 0, REFUSED(23, 0)},
    {"bias indicator 1, 8 bytes for 4", BIAS("C8", "0004") "0675D1B10008", "00BFF8000000000000", 0, REFUSED(18, 0)},
    {"bias indicator 1, 8 bytes for 4, null", BIAS("C8", "0004") "0675D1B10008", "80", 0, REFUSED(18, 0)},
    {"whole, 2 bytes for 8", S("24", "0008") "0975D1B10008B10002", "0700000000000000FEFF", 1, WHOLE(-2)},
};

/* ---- what is refused before an item is looked at: an infinity that would be refused by 23 */

#define INFINITE S("48", "0004")

static const struct value_case before[] = {
    {"torn triplet", INFINITE "0671A1B100", "7F800000", 0, REFUSED(2, 12)},
    {"unknown construct", INFINITE "0676D1B10004", "7F800000", 0, REFUSED(3, 12)},
    {"CPT behind an SDA", INFINITE "067F00B10001", "7F800000", 0, REFUSED(4, 12)},
    {"LENGTH of no RLO", INFINITE "0571A1B100", "7F800000", 0, REFUSED(5, 12)},
    {"bias indicator 2", "0C70B1480000000200000004", "7F800000", 0, REFUSED(6, 0)},
    {"binary float of 16 bytes", S("48", "0010"), "7F800000", 0, REFUSED(6, 0)},
    {"id described before", INFINITE INFINITE, "7F800000", 0, REFUSED(7, 12)},
    {"id not described", INFINITE "0671A1B20001", "7F800000", 0, REFUSED(8, 12)},
    {"elements of an SDA without extents", INFINITE "0671A1B10101", "7F800000", 0, REFUSED(9, 12)},
    {"4,160 items", INFINITE "0671A1B10040" "0671A2A10041", "7F800000", 0, REFUSED(10, 18)},
    {"nothing described", "", "7F800000", 0, REFUSED(11, 0)},
    {"column misfit", INFINITE "0675D1B10010", "7F800000", 0, REFUSED(21, 12)},
    {"rows of no bytes", S("01", "0000") "0671A1B10000", "7F800000", 0, REFUSED(22, 12)},
    {"cut", INFINITE, "7F8000", 0, REFUSED(13, 0)},
    {"no data", INFINITE, "", 0, REFUSED(13, 0)},
    {"second item cut", INFINITE "0671A1B10002", "7F8000007F80", 0, REFUSED(13, 4)},
    {"second row cut", INFINITE "0671A1B10000", "7F8000007F80", 0, REFUSED(13, 4)},
    {"L above F behind it", INFINITE "0C70B20200000000000100010971A1B10001B20001", "7F8000000002", 0, REFUSED(14, 4)},
    {"no zero byte behind it", INFINITE "0C70B20300000000000100010971A1B10001B20001", "7F8000004141", 0, REFUSED(15, 4)},
    {"odd indicator behind it", INFINITE "0C70B28100000000000000000971A1B10001B20001", "7F80000001", 0, REFUSED(24, 4)},
    {"a byte behind it", INFINITE, "7F80000000", 0, REFUSED(16, 4)},
    {"no such item", INFINITE, "7F800000", 1, REFUSED(17, 0)},
    {"the highest number", INFINITE, "7F800000", UINT32_MAX, REFUSED(17, 0)},
    {"16 before 17", INFINITE, "7F80000000", 1, REFUSED(16, 4)},
    {"16 before 18", S("01", "0001"), "4141", 0, REFUSED(16, 1)},
};

static void test_cases(const char *group, const struct value_case *cases, size_t count)
{
    for (size_t i = 0; i < count; i++) {
        const struct value_case *c = &cases[i];
        struct bytes d = hex(c->descriptor), s = hex(c->data);

        expect(value_gives(d, s, c->item, c->value), group, c->name);
        free(d.at);
        free(s.at);
    }
}

/* ---- limits */

/* As many rows as there may be and one more, all zeros but for an infinity before the last, and sizes over their limits. */
static void test_limits(void)
{
    struct bytes d = hex(INFINITE "0671A1B10000"), s = zeros(4 * (FDOCA_MAX_ITEMS + 1));
    struct bytes larger = zeros(FDOCA_MAX_DESCRIPTOR + 1), data = zeros(FDOCA_MAX_DATA + 1);

    memcpy(s.at + 4 * (FDOCA_MAX_ITEMS - 2), "\x7F\x80\x00\x00\x80\x00\x00\x00", 8);
    expect(value_gives(d, s, 0, (struct value)REFUSED(10, 4 * FDOCA_MAX_ITEMS)), "limits", "4,097 rows");
    s.size -= 4;
    expect(value_gives(d, s, 0, (struct value)REAL(0.0)), "limits", "the first of 4,096 rows");
    expect(value_gives(d, s, 4094, (struct value)REFUSED(23, 4 * 4094)), "limits", "the last but one of 4,096 rows");
    expect(value_gives(d, s, 4095, (struct value)REAL(-0.0)), "limits", "the last of 4,096 rows");
    expect(value_gives(d, s, 4096, (struct value)REFUSED(17, 0)), "limits", "behind 4,096 rows");
    expect(value_gives(larger, s, 0, (struct value)REFUSED(1, 0)), "limits", "descriptor of 4,097 bytes");
    expect(value_gives(d, data, 0, (struct value)REFUSED(1, 0)), "limits", "data of 32,769 bytes");
    free(d.at);
    free(s.at);
    free(larger.at);
    free(data.at);
}

/* ---- the header's own function */

static bool null_ok_gives(struct bytes d, struct bytes s, struct value expected)
{
    struct value got = {OLD, OLD, OLD, OLD_VALUE, OLD_REAL};

    got.number = fdoca_value_null_ok(d.at, d.size, s.at, s.size, 0, &got.place, &got.kind, &got.whole, &got.real);
    return same_value(got, expected);
}

static void test_null_pointers(void)
{
    const struct bytes nothing = {NULL, 0};
    struct bytes d = hex(INFINITE), s = hex("BFC00000");

    expect(null_ok_gives(nothing, nothing, (struct value)REFUSED(11, 0)), "null", "value of nothing");
    expect(null_ok_gives(d, nothing, (struct value)REFUSED(13, 0)), "null", "value of no data");
    expect(null_ok_gives(d, s, (struct value)REAL(-1.5)), "null", "value");
    free(d.at);
    free(s.at);
}

int main(void)
{
    test_floats();
    test_many_floats();
    test_fields(read_fields, COUNT(read_fields));
    test_fields(inexact_fields, COUNT(inexact_fields));
    test_fields(other_fields, COUNT(other_fields));
    test_cases("block", blocks, COUNT(blocks));
    test_cases("column", columns, COUNT(columns));
    test_cases("before", before, COUNT(before));
    test_limits();
    test_null_pointers();
    return finish();
}
