/*
 * What the C tests share: descriptors and data written in hexadecimal, calls that are compared with all that they give, and
 * a count of cases.
 */
#ifndef SUPPORT_H
#define SUPPORT_H

#include <stdbool.h>
#include <stdint.h>
#include <stdio.h>
#include <stdlib.h>
#include <string.h>

#include "fdoca.h"

#define COUNT(array) (sizeof(array) / sizeof *(array))

/* SDAs of id B1 without extents, of a field type, a mode and a field length; S has mode 0. */
#define M(type, mode, length) "0C70B1" type "0000000000" mode length
#define S(type, length) M(type, "00", length)

/* What is behind every pointer before a call. */
#define OLD 0xA5A5A5A5u
#define OLD_VALUE INT64_C(-0x5A5A5A5A5A5A5A5B)
#define OLD_REAL (-0x1.5A5A5A5A5A5A5p-7)

/* Entries behind the list that a call is not told of. */
#define GUARD 64

struct bytes {
    uint8_t *at;
    size_t size;
};

static unsigned passed, failed;

static inline void expect(bool good, const char *group, const char *name)
{
    if (good) {
        passed++;
    } else {
        failed++;
        printf("failed: %s: %s\n", group, name);
    }
}

/* Prints the last line and gives the exit status, 0 if none failed. */
static inline int finish(void)
{
    printf("%u passed, %u failed\n", passed, failed);
    return failed == 0 && passed > 0 ? 0 : 1;
}

static inline void *room(size_t size)
{
    void *at = malloc(size == 0 ? 1 : size);

    if (at == NULL) {
        printf("out of memory\n");
        exit(1);
    }
    return at;
}

static inline struct bytes zeros(size_t size)
{
    struct bytes bytes = {room(size), size};

    memset(bytes.at, 0, size);
    return bytes;
}

static inline unsigned digit(char c)
{
    return c <= '9' ? (unsigned)(c - '0') : (unsigned)(c - 'A') + 10;
}

static inline bool is_whole(uint32_t type)
{
    return type == FDOCA_TYPE_WHOLE || type == FDOCA_TYPE_WHOLE_REVERSED;
}

static inline bool is_float(uint32_t type)
{
    return type == FDOCA_TYPE_HEX_FLOAT || type == FDOCA_TYPE_FLOAT || type == FDOCA_TYPE_FLOAT_REVERSED;
}

static inline struct bytes hex(const char *text)
{
    struct bytes bytes = zeros(strlen(text) / 2);

    for (size_t i = 0; i < bytes.size; i++)
        bytes.at[i] = (uint8_t)(16 * digit(text[2 * i]) + digit(text[2 * i + 1]));
    return bytes;
}

static inline bool check_gives(struct bytes d, uint32_t number, uint32_t place, uint32_t items)
{
    uint32_t got_place = OLD, got_items = OLD;
    uint32_t got = fdoca_check(d.at, d.size, &got_place, &got_items);

    return got == number && got_place == place && got_items == items;
}

static inline uint32_t *old_list(size_t size)
{
    uint32_t *list = room((size + GUARD) * sizeof *list);

    for (size_t i = 0; i < size + GUARD; i++)
        list[i] = OLD;
    return list;
}

static inline bool still_old(const uint32_t *list, size_t from, size_t size)
{
    for (size_t i = from; i < size + GUARD; i++)
        if (list[i] != OLD)
            return false;
    return true;
}

/* Data that are refused: the number and the place. */
struct refusal_case {
    const char *name;
    const char *descriptor;
    const char *data;
    uint32_t number, place;
};

static inline bool list_refuses(struct bytes d, struct bytes s, size_t list_size, uint32_t number, uint32_t place)
{
    uint32_t got_place = OLD;
    uint32_t *list = old_list(list_size);
    uint32_t got = fdoca_list(d.at, d.size, s.at, s.size, list, list_size, &got_place);
    bool good = got == number && got_place == place && still_old(list, 0, list_size);

    free(list);
    return good;
}

/* The list of `size` entries holds `expected` of them, and its old contents beyond. */
static inline bool list_gives(struct bytes d, struct bytes s, size_t size, const uint32_t *expected,
                              size_t expected_size)
{
    uint32_t got_place = OLD;
    uint32_t *list = old_list(size);
    uint32_t got = fdoca_list(d.at, d.size, s.at, s.size, list, size, &got_place);
    bool good = got == 0 && got_place == 0 && memcmp(list, expected, expected_size * sizeof *list) == 0 &&
                still_old(list, expected_size, size);

    free(list);
    return good;
}

/* All that the state call gives. */
struct state {
    uint32_t number, place, is_null, type_code, lead, value, spare;
};

static inline struct state state_of(struct bytes d, struct bytes s, uint32_t item)
{
    struct state got = {OLD, OLD, OLD, OLD, OLD, OLD, OLD};

    got.number = fdoca_state(d.at, d.size, s.at, s.size, item, &got.place, &got.is_null, &got.type_code, &got.lead,
                             &got.value, &got.spare);
    return got;
}

/* The same by the header's own function: bytes may be at NULL. */
static inline struct state state_null_ok(struct bytes d, struct bytes s)
{
    struct state got = {OLD, OLD, OLD, OLD, OLD, OLD, OLD};

    got.number = fdoca_state_null_ok(d.at, d.size, s.at, s.size, 0, &got.place, &got.is_null, &got.type_code, &got.lead,
                                     &got.value, &got.spare);
    return got;
}

static inline bool same_state(struct state one, struct state other)
{
    return one.number == other.number && one.place == other.place && one.is_null == other.is_null &&
           one.type_code == other.type_code && one.lead == other.lead && one.value == other.value &&
           one.spare == other.spare;
}

static inline bool state_gives(struct bytes d, struct bytes s, uint32_t item, uint32_t is_null, uint32_t type_code,
                               uint32_t lead, uint32_t value, uint32_t spare)
{
    return same_state(state_of(d, s, item), (struct state){0, 0, is_null, type_code, lead, value, spare});
}

/* A refusal gives zeros behind its number and place. */
static inline bool state_refuses(struct bytes d, struct bytes s, uint32_t item, uint32_t number, uint32_t place)
{
    return same_state(state_of(d, s, item), (struct state){number, place, 0, 0, 0, 0, 0});
}

static inline bool lend_gives(struct bytes d, struct bytes s, uint32_t item, uint32_t number, uint32_t place,
                              uint32_t offset, uint32_t length)
{
    uint32_t got_place = OLD, got_offset = OLD, got_length = OLD;
    uint32_t got = fdoca_lend(d.at, d.size, s.at, s.size, item, &got_place, &got_offset, &got_length);

    return got == number && got_place == place && got_offset == offset && got_length == length;
}

static inline bool whole_gives(struct bytes d, struct bytes s, uint32_t item, uint32_t number, uint32_t place,
                               uint32_t is_null, int64_t value)
{
    uint32_t got_place = OLD, got_null = OLD;
    int64_t got_value = OLD_VALUE;
    uint32_t got = fdoca_whole_number(d.at, d.size, s.at, s.size, item, &got_place, &got_null, &got_value);

    return got == number && got_place == place && got_null == is_null && got_value == value;
}

static inline bool packed_gives(struct bytes d, struct bytes s, uint32_t item, uint32_t number, uint32_t place,
                                uint32_t is_null, int64_t value, uint32_t fraction_digits)
{
    uint32_t got_place = OLD, got_null = OLD, got_fraction = OLD;
    int64_t got_value = OLD_VALUE;
    uint32_t got = fdoca_packed(d.at, d.size, s.at, s.size, item, &got_place, &got_null, &got_value, &got_fraction);

    return got == number && got_place == place && got_null == is_null && got_value == value &&
           got_fraction == fraction_digits;
}

/* All that the value call gives, and what it can be. */
struct value {
    uint32_t number, place, kind;
    int64_t whole;
    double real;
};

#define NO_VALUE {0, 0, FDOCA_KIND_NULL, 0, 0.0}
#define WHOLE(value) {0, 0, FDOCA_KIND_WHOLE, value, 0.0}
#define REAL(value) {0, 0, FDOCA_KIND_REAL, 0, value}
#define REFUSED(number, place) {number, place, FDOCA_KIND_WHOLE, 0, 0.0}

/* What the value call gives of a whole number, null or not. */
static inline struct value whole_value(uint32_t is_null, int64_t value)
{
    return is_null ? (struct value)NO_VALUE : (struct value)WHOLE(value);
}

static inline uint64_t bits_of(double real)
{
    uint64_t bits;

    memcpy(&bits, &real, sizeof bits);
    return bits;
}

/* Floats are the same if their bits are, so that zeros of unlike sign are not. */
static inline bool same_value(struct value one, struct value other)
{
    return one.number == other.number && one.place == other.place && one.kind == other.kind &&
           one.whole == other.whole && bits_of(one.real) == bits_of(other.real);
}

static inline bool value_gives(struct bytes d, struct bytes s, uint32_t item, struct value expected)
{
    struct value got = {OLD, OLD, OLD, OLD_VALUE, OLD_REAL};

    got.number = fdoca_value(d.at, d.size, s.at, s.size, item, &got.place, &got.kind, &got.whole, &got.real);
    return same_value(got, expected);
}

/* What the calls for one item refuse alike. */
static inline void expect_refused(struct bytes d, struct bytes s, uint32_t item, uint32_t number, uint32_t place,
                                  const char *name)
{
    expect(state_refuses(d, s, item, number, place), "state refused", name);
    expect(lend_gives(d, s, item, number, place, 0, 0), "lend refused", name);
    expect(whole_gives(d, s, item, number, place, 0, 0), "whole number refused", name);
    expect(packed_gives(d, s, item, number, place, 0, 0, 0), "packed decimal refused", name);
    expect(value_gives(d, s, item, (struct value)REFUSED(number, place)), "value refused", name);
}

/* An item: its SDA's id, its start, and what the calls for one item give. The value is that of a number. */
struct item {
    uint32_t id, start, is_null, type_code, offset, length;
    int64_t value;
    uint32_t fraction_digits;
};

/* The most items of a block that is written out. */
enum { MOST = 14 };

static inline uint32_t count_of(const struct item *items)
{
    uint32_t count = 0;

    while (count < MOST && items[count].id != 0)
        count++;
    return count;
}

/* Where item k starts, and an item behind the last where the data end. */
static inline uint32_t start_of(const struct item *items, uint32_t k, struct bytes s)
{
    return k < count_of(items) ? items[k].start : (uint32_t)s.size;
}

/* What the value call gives of an item that is no float. */
static inline struct value value_of(const struct item *item)
{
    return is_whole(fdoca_plain_type(item->type_code)) ? whole_value(item->is_null, item->value)
                                                       : (struct value)REFUSED(18, item->start);
}

static inline void test_item(struct bytes d, struct bytes s, uint32_t k, const struct item *items, const char *block)
{
    const struct item *item = &items[k];
    uint32_t type = fdoca_plain_type(item->type_code);
    uint32_t lead = item->offset - item->start, spare = start_of(items, k + 1, s) - item->offset - item->length;
    char name[80];

    snprintf(name, sizeof name, "%s, item %u", block, (unsigned)k);
    expect(state_gives(d, s, k, item->is_null, item->type_code, lead, item->length, spare), "state", name);
    expect(lend_gives(d, s, k, 0, 0, item->offset, item->length), "lend", name);
    expect(is_whole(type) ? whole_gives(d, s, k, 0, 0, item->is_null, item->value)
                          : whole_gives(d, s, k, 18, item->start, 0, 0),
           "whole number", name);
    expect(type == FDOCA_TYPE_PACKED
               ? packed_gives(d, s, k, 0, 0, item->is_null, item->value, item->fraction_digits)
               : packed_gives(d, s, k, 18, item->start, 0, 0, 0),
           "packed decimal", name);
    if (!is_float(type))
        expect(value_gives(d, s, k, value_of(item)), "value", name);
}

/* The list of so many items that take all of the data is given, whatever room there is beyond it. */
static inline bool items_listed(struct bytes d, struct bytes s, const struct item *items, uint32_t count)
{
    uint32_t list[FDOCA_LIST_SIZE(MOST)] = {count, (uint32_t)s.size};

    for (uint32_t k = 0; k < count; k++) {
        list[2 + k] = items[k].start;
        list[2 + count + k] = items[k].id;
    }
    return list_gives(d, s, FDOCA_LIST_SIZE(count), list, FDOCA_LIST_SIZE(count)) &&
           list_gives(d, s, FDOCA_MAX_LIST, list, FDOCA_LIST_SIZE(count));
}

/* A descriptor: number, place and items of the check. */
struct check_case {
    const char *name;
    const char *descriptor;
    uint32_t number, place, items;
};

/* What the check refuses, the other calls refuse too. */
static inline void test_checks(const struct check_case *cases, size_t count)
{
    struct bytes none = zeros(0);

    for (size_t i = 0; i < count; i++) {
        const struct check_case *c = &cases[i];
        struct bytes d = hex(c->descriptor);

        expect(check_gives(d, c->number, c->place, c->items), "check", c->name);
        if (c->number != 0) {
            expect(list_refuses(d, none, FDOCA_MAX_LIST, c->number, c->place), "list, bad descriptor", c->name);
            expect(list_refuses(d, none, 0, c->number, c->place), "empty list, bad descriptor", c->name);
            expect_refused(d, none, 0, c->number, c->place, c->name);
        }
        free(d.at);
    }
    free(none.at);
}

#endif
