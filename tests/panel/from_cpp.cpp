// A C++ program links the calls.
#include "fdoca.h"

static bool checks()
{
    uint32_t place = 1, items = 1;

    return fdoca_check_null_ok(nullptr, 0, &place, &items) == FDOCA_DESCRIPTOR_MISSING && place == 0 && items == 0;
}

static bool reads_a_packed_decimal()
{
    const uint8_t descriptor[] = {12, 0x70, 0xB1, FDOCA_TYPE_PACKED, 0, 0, 0, 0, 0, 0, 3, 1}, data[] = {0x12, 0x5D};
    uint32_t place = 1, is_null = 1, fraction_digits = 0;
    int64_t value = 0;
    uint32_t number = fdoca_packed_null_ok(descriptor, sizeof descriptor, data, sizeof data, 0, &place, &is_null, &value,
                                           &fraction_digits);

    return number == FDOCA_ACCEPTED && place == 0 && is_null == 0 && value == -125 && fraction_digits == 1;
}

static bool reads_a_float()
{
    const uint8_t descriptor[] = {12, 0x70, 0xB1, FDOCA_TYPE_FLOAT, 0, 0, 0, 0, 0, 0, 0, 4}, data[] = {0xBF, 0xC0, 0, 0};
    uint32_t place = 1, kind = FDOCA_KIND_NULL;
    int64_t whole = 1;
    double real = 0;
    uint32_t number = fdoca_value_null_ok(descriptor, sizeof descriptor, data, sizeof data, 0, &place, &kind, &whole, &real);

    return number == FDOCA_ACCEPTED && place == 0 && kind == FDOCA_KIND_REAL && whole == 0 && real == -1.5;
}

int main()
{
    return checks() && reads_a_packed_decimal() && reads_a_float() ? 0 : 1;
}
