/*
 * How much stack the calls take on the deepest nests. Each call is made by a thread with room to spare, whose stack is
 * painted before, so that what it took is seen; and by a thread whose stack has FDOCA_STACK bytes and ends at a protected
 * page. The last line printed is "N passed, M failed", and the exit status is 0 if none failed.
 */
#define _DEFAULT_SOURCE
#include <pthread.h>

#include "faults.h"
#include "support.h"

#define SPACIOUS ((size_t)1 << 20)
#define PAINT 0xA5

static struct bytes descriptor, data;
static uint32_t described; /* what the check counts */
static uint32_t list[FDOCA_MAX_LIST];
static bool answered; /* the last call gave what it has to give */

static void add(struct bytes *bytes, const uint8_t *triplet)
{
    memcpy(bytes->at + bytes->size, triplet, triplet[0]);
    bytes->size += triplet[0];
}

/* SDAs of id 1 whose items have 8 bytes: whole numbers, packed decimals of 15 digits, and floats. */
static const uint8_t wholes[] = {12, 0x70, 1, 0x23, 0, 0, 0, 0, 0, 0, 0, 8};
static const uint8_t decimals[] = {12, 0x70, 1, 0x30, 0, 0, 0, 0, 0, 0, 15, 2};
static const uint8_t hex_floats[] = {12, 0x70, 1, 0x40, 0, 0, 0, 0, 0, 0, 0, 8};
static const uint8_t floats[] = {12, 0x70, 1, 0x48, 0, 0, 0, 0, 0, 0, 0, 8};

/* What lies over the SDA of id 1, where in its groups a row refers to the lower one, and whether the last row does so to the
 * end. */
struct form {
    const char *name;
    bool over_columns, lower_first, to_the_end;
};

static const struct form forms[] = {
    {"lower row last", false, false, false},
    {"lower row first", false, true, false},
    {"over columns, lower row last", true, false, false},
    {"over columns, lower row first", true, true, false},
    {"lower row last, to the end", false, false, true},
    {"lower row first, to the end", false, true, true},
    {"over columns, lower row last, to the end", true, false, true},
    {"over columns, lower row first, to the end", true, true, true},
};

/* What the last row has: so many items, and the row before it so many times. That makes 4,096 items. */
enum { MORE = 32, TIMES = 16 };

/* An SDA of id 1 and 254 rows, each of them the row before it and one item more: 255 levels. Over columns, the first of the
 * rows is a GDA. The last row repeats them, or has them as often as the data do. A row that is only another row once would be
 * no level: the library enters the other at once. */
static struct bytes nest(const uint8_t *sda, const struct form *form)
{
    struct bytes bytes = {room(FDOCA_MAX_DESCRIPTOR), 0};
    const uint8_t *given = sda + 10; /* the length, or the digits */

    add(&bytes, sda);
    for (unsigned id = 2; id <= 255; id++) {
        uint8_t own = (uint8_t)id, lower = (uint8_t)(id - 1);
        uint8_t times = id < 255 ? 1 : TIMES, more = id < 255 ? 1 : MORE;

        if (id == 2 && form->over_columns)
            add(&bytes, (const uint8_t[]){9, 0x75, own, 1, given[0], given[1], 1, given[0], given[1]});
        else if (id == 255 && form->to_the_end)
            add(&bytes, (const uint8_t[]){9, 0x71, own, 1, 0, more, lower, 0, 0});
        else if (form->lower_first)
            add(&bytes, (const uint8_t[]){9, 0x71, own, lower, 0, times, 1, 0, more});
        else
            add(&bytes, (const uint8_t[]){9, 0x71, own, 1, 0, more, lower, 0, times});
    }
    return bytes;
}

static void check(void)
{
    answered = check_gives(descriptor, 0, 0, described);
}

static void list_all(void)
{
    uint32_t place = OLD;
    uint32_t number = fdoca_list(descriptor.at, descriptor.size, data.at, data.size, list, FDOCA_MAX_LIST, &place);

    answered = number == 0 && place == 0 && fdoca_item_start(list, FDOCA_MAX_ITEMS - 1) == FDOCA_MAX_DATA - 8;
}

static void state(void)
{
    answered = state_gives(descriptor, data, FDOCA_MAX_ITEMS - 1, 0, FDOCA_TYPE_WHOLE, 0, 8, 0);
}

static void lend(void)
{
    answered = lend_gives(descriptor, data, FDOCA_MAX_ITEMS - 1, 0, 0, FDOCA_MAX_DATA - 8, 8);
}

static void whole_number(void)
{
    answered = whole_gives(descriptor, data, FDOCA_MAX_ITEMS - 1, 0, 0, 0, 0x7D);
}

static void packed(void)
{
    answered = packed_gives(descriptor, data, FDOCA_MAX_ITEMS - 1, 0, 0, 0, -7, 2);
}

static void whole_as_value(void)
{
    answered = value_gives(descriptor, data, FDOCA_MAX_ITEMS - 1, (struct value)WHOLE(0x7D));
}

static void hex_float(void)
{
    answered = value_gives(descriptor, data, FDOCA_MAX_ITEMS - 1, (struct value)REAL(0x7Dp-312));
}

static void binary_float(void)
{
    answered = value_gives(descriptor, data, FDOCA_MAX_ITEMS - 1, (struct value)REAL(0x7Dp-1074));
}

struct call {
    const char *name;
    const uint8_t *sda;
    void (*make)(void);
};

static const struct call calls[] = {
    {"fdoca_check", wholes, check},
    {"fdoca_list", wholes, list_all},
    {"fdoca_state", wholes, state},
    {"fdoca_lend", wholes, lend},
    {"fdoca_whole_number", wholes, whole_number},
    {"fdoca_packed", decimals, packed},
    {"fdoca_value, whole", wholes, whole_as_value},
    {"fdoca_value, X'40'", hex_floats, hex_float},
    {"fdoca_value, X'48'", floats, binary_float},
};

/* One call on a thread: the lowest byte of its stack, whether all went well, and what the call took. */
struct job {
    void (*make)(void);
    uint8_t *stack;
    bool good;
    size_t taken;
};

static size_t still_painted(const uint8_t *stack)
{
    size_t i = 0;

    while (stack[i] == PAINT)
        i++;
    return i;
}

static void *work(void *given)
{
    struct job *job = given;
    uint8_t here;

    catch_faults();
    answered = false;
    job->good = survives(job->make) && answered;
    job->taken = (size_t)(&here - (job->stack + still_painted(job->stack)));
    return NULL;
}

/* Makes a call on a thread with such a stack, and tells what the thread took of it. */
static size_t on_thread(struct job *job, size_t size)
{
    pthread_t thread;
    pthread_attr_t attributes;

    memset(job->stack, PAINT, size);
    if (pthread_attr_init(&attributes) != 0 || pthread_attr_setstack(&attributes, job->stack, size) != 0 ||
        pthread_create(&thread, &attributes, work, job) != 0 || pthread_join(thread, NULL) != 0) {
        printf("no thread\n");
        exit(1);
    }
    pthread_attr_destroy(&attributes);
    return size - still_painted(job->stack);
}

/* Makes a call on one of the nests; tells in words how much stack it took. */
static void test_call(const struct call *call, const struct form *form, uint8_t *spacious, uint8_t *stated)
{
    char name[80];
    struct job job = {call->make, spacious, false, 0};

    descriptor = nest(call->sda, form);
    described = form->to_the_end ? MORE : FDOCA_MAX_ITEMS;

    size_t thread = on_thread(&job, SPACIOUS);

    snprintf(name, sizeof name, "%s, %s", call->name, form->name);
    printf("%s: %zu bytes of stack, with the thread's own %zu of %d\n", name, job.taken, thread, FDOCA_STACK);
    expect(job.good, "call on the deepest nest", name);
    expect(thread <= FDOCA_STACK, "takes no more stack than stated", name);
    job.stack = stated;
    on_thread(&job, FDOCA_STACK);
    expect(job.good, "call with the stated stack", name);
    free(descriptor.at);
}

int main(void)
{
    uint8_t *spacious = between_protected(SPACIOUS), *stated = between_protected(FDOCA_STACK);

    data = zeros(FDOCA_MAX_DATA);
    data.at[FDOCA_MAX_DATA - 1] = 0x7D;
    for (size_t form = 0; form < COUNT(forms); form++)
        for (size_t i = 0; i < COUNT(calls); i++)
            test_call(&calls[i], &forms[form], spacious, stated);
    free(data.at);
    return finish();
}
