/*
 * The calls at protected pages. Cases come on standard input, one behind the other, each in the form of a block file:
 * descriptor size and data size, four bytes each, most significant byte first, descriptor, data. Descriptor, data and list
 * are put flush against protected pages, first all with their ends and then all with their beginnings, and every call is
 * made there. What goes wrong is told with the case in hexadecimal.
 *
 *     guard COUNT
 *
 * There must be COUNT cases at least. The last line printed is "N passed, M failed", and the exit status is 0 if none failed.
 */
#define _DEFAULT_SOURCE
#include "faults.h"
#include "support.h"

/* Bytes between protected pages: enough for any case, and for any list. */
#define ROOM ((size_t)65536)

/* How many entries more than it needs a list may have. */
#define MORE 7

/* How many cases of one kind are told. */
#define MOST_TOLD 3

enum { LISTS = 5, ITEMS = 4, ITEM_CALLS = 5, ANSWERS = 1 + LISTS + ITEM_CALLS * ITEMS };

/* What is looked at: that a call makes no fault, and what it gives. */
enum kind { CHECK, LIST, STATE, LEND, WHOLE_NUMBER, PACKED, VALUE, SAME, KEPT, BEYOND, WITHIN, PARTS, AGREED, KINDS };

struct tally {
    const char *name;
    unsigned long tried, failed;
};

static struct tally tallies[KINDS] = {
    [CHECK] = {"fdoca_check stays within its bytes", 0, 0},
    [LIST] = {"fdoca_list stays within its bytes", 0, 0},
    [STATE] = {"fdoca_state stays within its bytes", 0, 0},
    [LEND] = {"fdoca_lend stays within its bytes", 0, 0},
    [WHOLE_NUMBER] = {"fdoca_whole_number stays within its bytes", 0, 0},
    [PACKED] = {"fdoca_packed stays within its bytes", 0, 0},
    [VALUE] = {"fdoca_value stays within its bytes", 0, 0},
    [SAME] = {"the answers are the same at both placements", 0, 0},
    [KEPT] = {"a refused list is as before", 0, 0},
    [BEYOND] = {"the entries beyond the list's are as before", 0, 0},
    [WITHIN] = {"a lent part lies within the data", 0, 0},
    [PARTS] = {"an item's parts go from its start to the next item's, around the lent value", 0, 0},
    [AGREED] = {"a value is what the state and the whole number say, and what it has not is 0", 0, 0},
};

/* All that a call can give. */
struct answer {
    uint32_t number, place;
    uint32_t results[6]; /* one more than any call gives: answers are compared byte by byte, with none unused */
    int64_t value;
    double real;
};

/* All that the calls give at one placement. */
struct view {
    struct answer answers[ANSWERS];
    size_t list_sizes[LISTS];
    uint32_t lists[LISTS][FDOCA_MAX_LIST + MORE];
};

/* The case as it was read, and the bytes between protected pages. */
static uint8_t descriptor[ROOM], data[ROOM];
static uint8_t *descriptors, *blocks, *lists;

static struct view at_end, at_beginning;
static const char *placement;
static unsigned long cases, large_descriptors, large_blocks, met[FDOCA_INVALID_INDICATOR + 1];

/* What the next call is given, and what it gave. */
static const uint8_t *d, *s;
static size_t d_size, s_size, list_size;
static uint32_t *list;
static uint32_t item;
static struct answer got;

static void check(void)
{
    got.number = fdoca_check(d, d_size, &got.place, &got.results[0]);
}

static void list_items(void)
{
    got.number = fdoca_list(d, d_size, s, s_size, list, list_size, &got.place);
}

static void state(void)
{
    got.number = fdoca_state(d, d_size, s, s_size, item, &got.place, &got.results[0], &got.results[1], &got.results[2],
                             &got.results[3], &got.results[4]);
}

static void lend(void)
{
    got.number = fdoca_lend(d, d_size, s, s_size, item, &got.place, &got.results[0], &got.results[1]);
}

static void whole_number(void)
{
    got.number = fdoca_whole_number(d, d_size, s, s_size, item, &got.place, &got.results[0], &got.value);
}

static void packed(void)
{
    got.number = fdoca_packed(d, d_size, s, s_size, item, &got.place, &got.results[0], &got.value, &got.results[1]);
}

static void value(void)
{
    got.number = fdoca_value(d, d_size, s, s_size, item, &got.place, &got.results[0], &got.value, &got.real);
}

static void (*const calls[])(void) = {check, list_items, state, lend, whole_number, packed, value};

static void print_hex(const uint8_t *bytes, size_t size)
{
    for (size_t i = 0; i < size; i++)
        printf("%02X", bytes[i]);
}

static void tell(enum kind kind, bool good)
{
    struct tally *tally = &tallies[kind];

    tally->tried++;
    if (good || tally->failed++ >= MOST_TOLD)
        return;
    printf("not so: %s: %s, list of %zu, item %u, file %08zX%08zX", tally->name, placement, list_size, (unsigned)item,
           d_size, s_size);
    print_hex(descriptor, d_size);
    print_hex(data, s_size);
    printf("\n");
}

static void make(enum kind call, struct answer *answer)
{
    got = (struct answer){OLD, OLD, {OLD, OLD, OLD, OLD, OLD, OLD}, OLD_VALUE, OLD_REAL};
    tell(call, survives(calls[call]));
    if (got.number < COUNT(met))
        met[got.number]++;
    *answer = got;
}

static uint32_t old_entry(size_t i)
{
    return OLD + (uint32_t)i;
}

static bool is_old(size_t from)
{
    for (size_t i = from; i < list_size; i++)
        if (list[i] != old_entry(i))
            return false;
    return true;
}

/* Makes the list call with a list of such a size, and copies what it holds afterwards. */
static void make_list(bool ends, size_t size, struct answer *answer, uint32_t *copy)
{
    list_size = size;
    list = (uint32_t *)(void *)(ends ? lists + ROOM - size * sizeof *list : lists);
    for (size_t i = 0; i < size; i++)
        list[i] = old_entry(i);
    make(LIST, answer);
    if (got.number != FDOCA_ACCEPTED)
        tell(KEPT, is_old(0));
    memcpy(copy, list, size * sizeof *list);
}

/* Makes the list call with the largest list, then with lists of about the size needed. Gives the count of items: that of the
 * largest list, or what the descriptor describes if the block is refused. */
static uint32_t make_lists(bool ends, uint32_t described, struct view *view)
{
    make_list(ends, FDOCA_MAX_LIST, &view->answers[1], view->lists[0]);

    uint32_t count = got.number == FDOCA_ACCEPTED ? list[0] : described, n = count <= FDOCA_MAX_ITEMS ? count : 0;
    const size_t needed = FDOCA_LIST_SIZE(n), sizes[LISTS] = {FDOCA_MAX_LIST, needed, needed - 1, 0, needed + MORE};

    memcpy(view->list_sizes, sizes, sizeof sizes);
    for (size_t i = 1; i < LISTS; i++) {
        make_list(ends, sizes[i], &view->answers[1 + i], view->lists[i]);
        if (got.number == FDOCA_ACCEPTED && sizes[i] > needed)
            tell(BEYOND, is_old(needed));
    }
    return n;
}

/* What the state and the lending call gave of item k, beside the list of all items. */
static bool parts_fit(const uint32_t *all, uint32_t k, const struct answer *state, const struct answer *lent)
{
    uint32_t start = fdoca_item_start(all, k), end = k + 1 < all[0] ? fdoca_item_start(all, k + 1) : all[1];
    uint32_t lead = state->results[2], value = state->results[3], spare = state->results[4];

    return lent->results[0] == start + lead && lent->results[1] == value && lead + value + spare == end - start;
}

/* What the value call gave, beside the item's state and whole number: it may refuse what is accepted there only if that is no
 * whole number. */
static bool value_agrees(const struct answer *state, const struct answer *whole, const struct answer *value)
{
    bool is_read = value->number == FDOCA_ACCEPTED, is_whole = whole->number == FDOCA_ACCEPTED;
    bool is_judged = value->number == FDOCA_WRONG_TYPE || value->number == FDOCA_NO_EXACT_FLOAT;
    uint32_t kind = FDOCA_KIND_WHOLE;

    if (state->number != FDOCA_ACCEPTED ? value->number != state->number || value->place != state->place
                                        : !is_read && (is_whole || !is_judged))
        return false;
    if (is_read && state->results[0] == 1)
        kind = FDOCA_KIND_NULL;
    else if (is_read && !is_whole)
        kind = FDOCA_KIND_REAL;
    return value->results[0] == kind && value->value == whole->value &&
           (kind == FDOCA_KIND_REAL || bits_of(value->real) == 0);
}

static void make_item_calls(uint32_t number, const uint32_t *all, struct answer *answers)
{
    item = number;
    make(STATE, &answers[0]);
    make(LEND, &answers[1]);
    tell(WITHIN, got.results[0] <= s_size && got.results[1] <= s_size - got.results[0]);
    if (answers[0].number == FDOCA_ACCEPTED)
        tell(PARTS, number < all[0] && parts_fit(all, number, &answers[0], &answers[1]));
    make(WHOLE_NUMBER, &answers[2]);
    make(PACKED, &answers[3]);
    make(VALUE, &answers[4]);
    tell(AGREED, value_agrees(&answers[0], &answers[2], &answers[4]));
}

/* Makes every call on the case, with its bytes at the end or at the beginning of their room. */
static void make_calls(bool ends, struct view *view)
{
    placement = ends ? "at the end" : "at the beginning";
    d = memcpy(ends ? descriptors + ROOM - d_size : descriptors, descriptor, d_size);
    s = memcpy(ends ? blocks + ROOM - s_size : blocks, data, s_size);
    make(CHECK, &view->answers[0]);

    uint32_t n = make_lists(ends, got.results[0], view);
    const uint32_t numbers[ITEMS] = {0, n - 1, n, UINT32_MAX};

    for (size_t i = 0; i < ITEMS; i++)
        make_item_calls(numbers[i], view->lists[0], &view->answers[1 + LISTS + ITEM_CALLS * i]);
}

static bool is_same(const struct view *one, const struct view *other)
{
    if (memcmp(one->answers, other->answers, sizeof one->answers) != 0 ||
        memcmp(one->list_sizes, other->list_sizes, sizeof one->list_sizes) != 0)
        return false;
    for (size_t i = 0; i < LISTS; i++)
        if (memcmp(one->lists[i], other->lists[i], one->list_sizes[i] * sizeof(uint32_t)) != 0)
            return false;
    return true;
}

static void try_case(void)
{
    cases++;
    large_descriptors += d_size > FDOCA_MAX_DESCRIPTOR;
    large_blocks += s_size > FDOCA_MAX_DATA;
    make_calls(true, &at_end);
    make_calls(false, &at_beginning);
    placement = "at both";
    tell(SAME, is_same(&at_end, &at_beginning));
}

static size_t big_endian(const uint8_t *bytes)
{
    return (size_t)bytes[0] << 24 | (size_t)bytes[1] << 16 | (size_t)bytes[2] << 8 | bytes[3];
}

static bool read_case(void)
{
    uint8_t head[8];
    size_t size = fread(head, 1, sizeof head, stdin);

    if (size == 0)
        return false;
    d_size = big_endian(head);
    s_size = big_endian(head + 4);
    if (size < sizeof head || d_size > ROOM || s_size > ROOM || fread(descriptor, 1, d_size, stdin) != d_size ||
        fread(data, 1, s_size, stdin) != s_size) {
        printf("what comes in is no run of cases\n");
        exit(1);
    }
    return true;
}

/* ---- the test can fail: the pages are protected, and there are cases of every sort */

static const volatile uint8_t *beside;

static void touch(void)
{
    (void)*beside;
}

static bool is_protected(const uint8_t *at)
{
    beside = at;
    return !survives(touch);
}

static void expect_protection(const uint8_t *room, const char *name)
{
    expect(is_protected(room - 1) && !is_protected(room), "protected page before", name);
    expect(is_protected(room + ROOM) && !is_protected(room + ROOM - 1), "protected page behind", name);
}

static void expect_variety(unsigned long wanted)
{
    bool all_met = true;

    for (size_t i = 0; i < COUNT(met); i++)
        all_met = all_met && (met[i] > 0) == (i != FDOCA_BAD_FILE);
    expect(cases >= wanted, "cases", "as many as there must be");
    expect(large_descriptors > 0 && large_blocks > 0, "cases", "sizes over the limits");
    expect(all_met, "cases", "every number but 19, which no call gives");
}

int main(int argc, char **argv)
{
    unsigned long wanted = argc == 2 ? strtoul(argv[1], NULL, 10) : 0;

    if (wanted == 0) {
        printf("usage: guard COUNT\n");
        return 1;
    }
    descriptors = between_protected(ROOM);
    blocks = between_protected(ROOM);
    lists = between_protected(ROOM);
    catch_faults();
    expect_protection(descriptors, "descriptor");
    expect_protection(blocks, "data");
    expect_protection(lists, "list");
    while (read_case())
        try_case();
    for (size_t i = 0; i < KINDS; i++)
        expect(tallies[i].tried > 0 && tallies[i].failed == 0, "at protected pages", tallies[i].name);
    expect_variety(wanted);
    return finish();
}
