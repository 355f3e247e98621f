/*
 * Tests of the lengths of an item's parts, which the state call gives: what stands before the value, the value, and what
 * stands behind it. They are told of every type, mode and size of a value, they add up to the distance to the next item, the
 * value is lent from behind the first of them, and a refusal gives zeros. Items written out, each with its parts, are in
 * items.c too. The last line printed is "N passed, M failed", and the exit status is 0 if none failed.
 */
#include "support.h"

struct parts {
    uint32_t is_null, type_code, lead, value, spare;
};

static uint32_t length_of(struct parts parts)
{
    return parts.lead + parts.value + parts.spare;
}

/* Items in turn, as the list, the state call and the lending call tell of them. */
static void test_items(struct bytes d, struct bytes s, const struct parts *items, uint32_t count, const char *block)
{
    static uint32_t list[FDOCA_MAX_LIST];
    uint32_t place = OLD, start = 0;
    uint32_t number = fdoca_list(d.at, d.size, s.at, s.size, list, FDOCA_MAX_LIST, &place);

    expect(number == 0 && place == 0 && list[0] == count && list[1] == s.size, "list", block);
    if (number != 0 || list[0] != count)
        return;
    for (uint32_t k = 0; k < count; k++) {
        struct parts item = items[k];
        uint32_t end = k + 1 < count ? fdoca_item_start(list, k + 1) : list[1];
        char name[96];

        snprintf(name, sizeof name, "%s, item %u", block, (unsigned)k);
        expect(state_gives(d, s, k, item.is_null, item.type_code, item.lead, item.value, item.spare), "parts", name);
        expect(lend_gives(d, s, k, 0, 0, start + item.lead, item.value), "value behind the lead", name);
        expect(fdoca_item_start(list, k) == start && end - start == length_of(item), "distance to the next item", name);
        start = end;
    }
}

/* ---- blocks written out */

struct block_case {
    const char *name;
    const char *descriptor;
    const char *data;
    uint32_t count;
    struct parts items[MOST];
};

#define F(id, type, mode, length) "0C70" id type "0000000000" mode length

/* Labels: a dish of up to 12 bytes, which may be null, its ward of up to 4 bytes behind which a zero byte stands, and its
 * room. */
#define LABELS                                                                                                         \
    F("B1", "82", "00", "000C") F("B2", "03", "00", "0004") F("B3", "23", "00", "0002") "0C71A1B10001B20001B30001"

static const struct block_case blocks[] = {
    {"the dump's block", S("81", "0003") "0671A1B10002", "0061626380", 2, {{0, 0x81, 1, 3, 0}, {1, 0x81, 1, 0, 0}}},
    {"01's string with reserved space", M("02", "00", "0004"), "000241420000", 1, {{0, 0x02, 2, 2, 2}}},
    {"01's string without", M("02", "01", "0004"), "00024142", 1, {{0, 0x02, 2, 2, 0}}},
    {"no bytes", S("01", "0000"), "", 1, {{0, 0x01, 0, 0, 0}}},
    {"zero bytes behind the one that ends", M("03", "00", "0004"), "4100004200", 1, {{0, 0x03, 0, 1, 4}}},
    {"zero bytes alone", M("03", "00", "0004"), "0000000000", 1, {{0, 0x03, 0, 0, 5}}},
    {"labels",
     LABELS "0671A2A10003",
     "000004536F7570" "2020202020202020" "4235000000" "0065" "80" "4131320000" "0066" "00000C506C756D2063616B65205858"
     "0000000000" "0067",
     9,
     {{0, 0x82, 3, 4, 8},
      {0, 0x03, 0, 2, 3},
      {0, 0x23, 0, 2, 0},
      {1, 0x82, 1, 0, 0},
      {0, 0x03, 0, 3, 2},
      {0, 0x23, 0, 2, 0},
      {0, 0x82, 3, 12, 0},
      {0, 0x03, 0, 0, 5},
      {0, 0x23, 0, 2, 0}}},
    {"labels, rows to the end",
     LABELS "0671A2A10000",
     "80" "4100000000" "0001" "000001582020202020202020202020" "4142434400" "0002",
     6,
     {{1, 0x82, 1, 0, 0},
      {0, 0x03, 0, 1, 4},
      {0, 0x23, 0, 2, 0},
      {0, 0x82, 3, 1, 11},
      {0, 0x03, 0, 4, 1},
      {0, 0x23, 0, 2, 0}}},
    {"lengths of a GDA",
     M("02", "00", "0000") "0C75D1B10003B10000B10001",
     "0001410000" "000441424344" "000041",
     3,
     {{0, 0x02, 2, 1, 2}, {0, 0x02, 2, 4, 0}, {0, 0x02, 2, 0, 1}}},
};

static void test_blocks(void)
{
    for (size_t i = 0; i < COUNT(blocks); i++) {
        const struct block_case *c = &blocks[i];
        struct bytes d = hex(c->descriptor), s = hex(c->data);

        test_items(d, s, c->items, c->count, c->name);
        free(d.at);
        free(s.at);
    }
}

/* ---- every type and mode: values from empty to full, and a null */

/* The two bytes of the length are given; a value has so many bytes, a string at most so many, or any number if that is 0. */
struct field {
    uint32_t type, mode, given, size;
};

static const struct field fields[] = {
    {0x01, 0, 0, 0},      {0x01, 0, 1, 1},      {0x01, 0, 9, 9},       {0x02, 0, 0, 0},        {0x02, 1, 0, 0},
    {0x02, 0, 1, 1},      {0x02, 1, 1, 1},      {0x02, 0, 9, 9},       {0x02, 1, 9, 9},        {0x02, 0, 300, 300},
    {0x02, 1, 300, 300},  {0x03, 0, 0, 0},      {0x03, 1, 0, 0},       {0x03, 0, 1, 1},        {0x03, 1, 1, 1},
    {0x03, 0, 9, 9},      {0x03, 1, 9, 9},      {0x03, 0, 300, 300},   {0x03, 1, 300, 300},    {0x07, 0, 0, 0},
    {0x07, 1, 0, 0},      {0x07, 0, 1, 1},      {0x07, 1, 1, 1},       {0x07, 0, 9, 9},        {0x07, 1, 9, 9},
    {0x07, 0, 255, 255},  {0x07, 1, 255, 255},  {0x23, 0, 2, 2},       {0x23, 0, 4, 4},        {0x23, 0, 8, 8},
    {0x24, 0, 2, 2},      {0x24, 0, 4, 4},      {0x24, 0, 8, 8},       {0x30, 0, 0x0100, 1},   {0x30, 0, 0x0201, 2},
    {0x30, 0, 0x0300, 2}, {0x30, 0, 0x1100, 9}, {0x30, 0, 0x1212, 10}, {0x40, 0, 0, 8},        {0x40, 0, 4, 4},
    {0x40, 0, 8, 8},      {0x40, 0, 16, 16},    {0x47, 0, 0, 4},       {0x47, 0, 8, 8},        {0x48, 0, 4, 4},
    {0x48, 0, 0xFFFF, 4},
};

static bool is_string(uint32_t type)
{
    return type == FDOCA_TYPE_VARIABLE || type == FDOCA_TYPE_TERMINATED || type == FDOCA_TYPE_SHORT;
}

static void push(struct bytes *s, uint32_t byte, size_t count)
{
    memset(s->at + s->size, (int)byte, count);
    s->size += count;
}

/* Adds an item behind the bytes, of a value of so many bytes and with such bytes in its reserved space. */
static struct parts add_item(struct bytes *s, const struct field *f, uint32_t code, uint32_t value, uint32_t fill)
{
    size_t start = s->size;

    push(s, 0, fdoca_is_nullable(code) ? 1 : 0);
    push(s, value >> 8, f->type == FDOCA_TYPE_VARIABLE ? 1 : 0);
    push(s, value, f->type == FDOCA_TYPE_VARIABLE || f->type == FDOCA_TYPE_SHORT ? 1 : 0);

    size_t lead = s->size - start;

    push(s, 'A', value);
    push(s, 0, f->type == FDOCA_TYPE_TERMINATED ? 1 : 0);
    push(s, fill, is_string(f->type) && f->mode == 0 && f->size > 0 ? f->size - value : 0);
    return (struct parts){0, code, (uint32_t)lead, value, (uint32_t)(s->size - start - lead) - value};
}

static struct parts add_null(struct bytes *s, uint32_t code)
{
    push(s, 0x80, 1);
    return (struct parts){1, code, 1, 0, 0};
}

/* Adds items of values from empty to full, and behind the first a null if there can be one; gives their count. */
static uint32_t add_items(struct bytes *s, const struct field *f, uint32_t code, uint32_t fill, struct parts *items)
{
    const uint32_t any[] = {0, 1, 5, 4}, limited[] = {0, 1, f->size - 1, f->size};
    const uint32_t all[] = {f->size, f->size, f->size, f->size};
    const uint32_t *values = !is_string(f->type) ? all : f->size == 0 ? any : limited;
    uint32_t count = 0;

    for (size_t i = 0; i < 4; i++) {
        items[count++] = add_item(s, f, code, values[i], fill);
        if (i == 0 && fdoca_is_nullable(code))
            items[count++] = add_null(s, code);
    }
    return count;
}

/* Data that end earlier are refused at the item that they cut, and data that go on at their end. */
static void test_sizes(struct bytes d, struct bytes s, const struct parts *items, uint32_t count, const char *name)
{
    uint32_t cut = 0, start = 0, full = (uint32_t)s.size;
    bool good = true;

    for (s.size = 0; s.size < full; s.size++) {
        while (start + length_of(items[cut]) <= s.size)
            start += length_of(items[cut++]);
        good = good && state_refuses(d, s, 0, 13, start) && state_refuses(d, s, count - 1, 13, start);
    }
    expect(good, "data cut", name);
    s.at[full] = 0;
    s.size = full + 1;
    expect(state_refuses(d, s, 0, 16, full), "a byte behind", name);
    s.size = full;
    expect(state_refuses(d, s, count, 17, 0), "an item behind", name);
}

static void test_field(const struct field *f, uint32_t code, uint32_t fill)
{
    struct bytes d = hex(M("00", "00", "0000") "0671A1B10000"), s = {room(FDOCA_MAX_DATA), 0};
    struct parts items[MOST];
    uint32_t count = add_items(&s, f, code, fill, items);
    char name[64];

    d.at[3] = (uint8_t)code;
    d.at[9] = (uint8_t)f->mode;
    d.at[10] = (uint8_t)(f->given >> 8);
    d.at[11] = (uint8_t)f->given;
    d.at[17] = (uint8_t)count;
    snprintf(name, sizeof name, "X'%02X', mode %u, F %u, filled with %u", (unsigned)code, (unsigned)f->mode,
             (unsigned)f->given, (unsigned)fill);
    test_items(d, s, items, count, name);
    if (s.size > 0)
        test_sizes(d, s, items, count, name);
    free(d.at);
    free(s.at);
}

static void test_fields(void)
{
    for (size_t i = 0; i < COUNT(fields); i++) {
        for (uint32_t nullable = 0; nullable <= 0x80; nullable += 0x80) {
            test_field(&fields[i], fields[i].type + nullable, 0);
            test_field(&fields[i], fields[i].type + nullable, 'B');
        }
    }
}

/* ---- items that fill a block */

static void test_longest(void)
{
    static const struct field longest[] = {{0x02, 0, 32766, 32766}, {0x03, 0, 32767, 32767}};
    static const uint32_t values[] = {0, 1, 255, 256, 32765, 32766};

    for (size_t i = 0; i < COUNT(longest); i++) {
        for (size_t k = 0; k < COUNT(values); k++) {
            struct bytes d = hex(S("00", "0000")), s = {room(FDOCA_MAX_DATA), 0};
            struct parts item = add_item(&s, &longest[i], longest[i].type, values[k], 0);
            char name[32];

            d.at[3] = (uint8_t)longest[i].type;
            d.at[10] = (uint8_t)(longest[i].given >> 8);
            d.at[11] = (uint8_t)longest[i].given;
            snprintf(name, sizeof name, "X'%02X', %u of %u bytes", (unsigned)longest[i].type, (unsigned)values[k],
                     (unsigned)longest[i].given);
            expect(s.size == FDOCA_MAX_DATA, "longest", name);
            test_items(d, s, &item, 1, name);
            free(d.at);
            free(s.at);
        }
    }
}

/* ---- refusals: behind a good first item, which has three parts */

#define NAME M("82", "00", "0004")
#define ITEM "00000141000000"
#define TWICE NAME "0671A1B10002"

static const struct refusal_case refusals[] = {
    {"torn triplet", NAME "0671A1B100", ITEM, 2, 12},
    {"unknown construct", NAME "0672A1B10001", ITEM, 3, 12},
    {"CPT behind an SDA", NAME "067F00B10001", ITEM, 4, 12},
    {"LENGTH of no RLO", NAME "0571A1B100", ITEM, 5, 12},
    {"own id 0", NAME "067100B10001", ITEM, 6, 12},
    {"id described before", NAME "0671B1B10001", ITEM, 7, 12},
    {"id not described", NAME "0671A1B20001", ITEM, 8, 12},
    {"elements of an SDA without extents", NAME "0671A1B10101", ITEM, 9, 12},
    {"4,160 items", NAME "0671A1B10040" "0671A2A10041", ITEM, 10, 18},
    {"nothing described", "", ITEM, 11, 0},
    {"no second item", TWICE, ITEM, 13, 7},
    {"indicator of the second item alone", TWICE, ITEM "00", 13, 7},
    {"reserved space of the second item cut", TWICE, ITEM "000001410000", 13, 7},
    {"L above F in the second item", TWICE, ITEM "00000541424344", 14, 7},
    {"L negative in the second item", TWICE, ITEM "00FFFF41424344", 14, 7},
    {"odd indicator of the second item", TWICE, ITEM "01000141000000", 24, 7},
    {"no zero byte in the second item", NAME F("B2", "03", "00", "0002") "0971A1B10001B20001", ITEM "414243", 15, 7},
    {"a byte behind two items", TWICE, ITEM "80" "00", 16, 8},
    {"second row cut", NAME "0671A1B10000", ITEM "0000", 13, 7},
    {"length that does not suit", NAME "0675D1B18000", ITEM, 21, 12},
    {"rows of no bytes behind it", NAME F("B2", "01", "00", "0000") "0971A1B10001B20000", ITEM, 22, 24},
};

static const uint32_t asked[] = {0, 1, 4095, UINT32_MAX};

static void expect_zeros(struct bytes d, struct bytes s, uint32_t number, uint32_t place, const char *name)
{
    for (size_t i = 0; i < COUNT(asked); i++)
        expect(state_refuses(d, s, asked[i], number, place), "zeros", name);
}

static void test_refusals(void)
{
    for (size_t i = 0; i < COUNT(refusals); i++) {
        const struct refusal_case *c = &refusals[i];
        struct bytes d = hex(c->descriptor), s = hex(c->data);

        expect_zeros(d, s, c->number, c->place, c->name);
        free(d.at);
        free(s.at);
    }
}

static void test_no_such_item(void)
{
    struct bytes d = hex(TWICE), s = hex(ITEM "80");

    expect(state_gives(d, s, 0, 0, 0x82, 3, 1, 3), "parts", "first of two");
    expect(state_gives(d, s, 1, 1, 0x82, 1, 0, 0), "parts", "second of two, null");
    expect(state_refuses(d, s, 2, 17, 0), "zeros", "third of two");
    expect(state_refuses(d, s, UINT32_MAX, 17, 0), "zeros", "the highest number");
    free(d.at);
    free(s.at);
}

/* As many rows as there may be and one more, and sizes over their limits. */
static void test_limits(void)
{
    struct bytes d = hex(NAME "0671A1B10000"), row = hex(ITEM), s = zeros(row.size * (FDOCA_MAX_ITEMS + 1));
    struct bytes larger = zeros(FDOCA_MAX_DESCRIPTOR + 1), data = zeros(FDOCA_MAX_DATA + 1);

    for (size_t k = 0; k <= FDOCA_MAX_ITEMS; k++)
        memcpy(s.at + k * row.size, row.at, row.size);
    expect_zeros(d, s, 10, (uint32_t)(row.size * FDOCA_MAX_ITEMS), "4,097 rows");
    s.size -= row.size;
    expect(state_gives(d, s, FDOCA_MAX_ITEMS - 1, 0, 0x82, 3, 1, 3), "parts", "the last of 4,096 rows");
    expect_zeros(larger, s, 1, 0, "descriptor of 4,097 bytes");
    expect_zeros(d, data, 1, 0, "data of 32,769 bytes");
    free(d.at);
    free(row.at);
    free(s.at);
    free(larger.at);
    free(data.at);
}

int main(void)
{
    test_blocks();
    test_fields();
    test_longest();
    test_refusals();
    test_no_such_item();
    test_limits();
    return finish();
}
