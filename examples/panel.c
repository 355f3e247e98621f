/*
 * The kiosk's panel: reads a block file, prints the rows of its block, and sums a column of numbers.
 *
 *     panel FILE [ID]
 *
 * A block file holds the descriptor's size and the data's size, four bytes each, most significant byte first, then the
 * descriptor, then the data. Each item is printed as its SDA's id and its value: text in quotes, a whole number, a packed
 * decimal with its point, a float in as few digits as tell it from any other, or null; of a float that no call reads, its
 * bytes in hexadecimal. Behind a text stands how many bytes its field has left for more text, if there are any: a label
 * printer needs that. The column is every item whose SDA has the id ID, 1 to 255, written as 177 or 0xB1; there must be one,
 * and all must be whole numbers or packed decimals with the same count of fraction digits. A refusal is told in words, with
 * its number and place, on standard error. A packed decimal with bad digits and a float without an equal double are printed
 * as refused, and the rows go on, but no column is summed. Exit status: 0 all accepted; 1 a refusal; 2 anything else that
 * went wrong.
 */
#include <inttypes.h>
#include <stdbool.h>
#include <stdint.h>
#include <stdio.h>
#include <stdlib.h>

#include "fdoca.h"

enum { ACCEPTED = 0, REFUSED = 1, UNUSABLE = 2 };

/* The data lie right behind the descriptor, in the same allocation. */
struct block {
    uint8_t *descriptor;
    size_t descriptor_size;
    uint8_t *data;
    size_t data_size;
};

/* A number without its decimal point, and how many digits stand behind that. */
struct decimal {
    int64_t digits;
    uint32_t fraction_digits;
};

/* How a value is printed. */
enum form { DECIMAL, REAL, TEXT, HEXADECIMAL };

/* What the calls tell of one item: the number if they read it, else where its value lies in the data; and how many bytes
 * follow the value. */
struct item {
    uint32_t is_null, type_code, spare;
    enum form form;
    struct decimal number;
    double real;
    uint32_t offset, length;
};

struct column {
    uint32_t items;
    uint32_t nulls;
    struct decimal sum;
};

static int refused_file(uint32_t number)
{
    fprintf(stderr, "file refused: %s (number %" PRIu32 ")\n", fdoca_text(number), number);
    return REFUSED;
}

/* The place is an offset in the part: in the descriptor for what the check refuses, in the data for what is refused once the
 * descriptor is known to be good. */
static int refused(const char *what, uint32_t number, uint32_t place, const char *part)
{
    fprintf(stderr, "%s refused: %s (number %" PRIu32 "), at byte %" PRIu32 " of the %s\n", what, fdoca_text(number),
            number, place, part);
    return REFUSED;
}

static int unusable(const char *why)
{
    fprintf(stderr, "%s\n", why);
    return UNUSABLE;
}

static uint32_t big_endian(const uint8_t bytes[4])
{
    return (uint32_t)bytes[0] << 24 | (uint32_t)bytes[1] << 16 | (uint32_t)bytes[2] << 8 | bytes[3];
}

static int bad_file(FILE *file)
{
    return ferror(file) ? unusable("the file cannot be read") : refused_file(FDOCA_BAD_FILE);
}

/* Reads what follows the sizes, which are within their limits. One byte more is asked for, to see a file that goes on. */
static int read_parts(FILE *file, size_t descriptor_size, size_t data_size, struct block *block)
{
    size_t size = descriptor_size + data_size;
    uint8_t *bytes = malloc(size + 1);

    if (bytes == NULL)
        return unusable("out of memory");
    if (fread(bytes, 1, size + 1, file) != size) {
        free(bytes);
        return bad_file(file);
    }
    *block = (struct block){bytes, descriptor_size, bytes + descriptor_size, data_size};
    return ACCEPTED;
}

static int read_block(FILE *file, struct block *block)
{
    uint8_t head[8];

    if (fread(head, 1, sizeof head, file) != sizeof head)
        return bad_file(file);

    uint32_t descriptor_size = big_endian(head);
    uint32_t data_size = big_endian(head + 4);

    if (descriptor_size > FDOCA_MAX_DESCRIPTOR || data_size > FDOCA_MAX_DATA)
        return refused_file(FDOCA_SIZE_LIMIT);
    return read_parts(file, descriptor_size, data_size, block);
}

static int load(const char *name, struct block *block)
{
    FILE *file = fopen(name, "rb");

    if (file == NULL) {
        perror(name);
        return UNUSABLE;
    }

    int status = read_block(file, block);

    fclose(file);
    return status;
}

static uint32_t ask_state(const struct block *block, uint32_t k, uint32_t *place, struct item *item)
{
    uint32_t lead, value;

    return fdoca_state(block->descriptor, block->descriptor_size, block->data, block->data_size, k, place,
                       &item->is_null, &item->type_code, &lead, &value, &item->spare);
}

static uint32_t ask_packed(const struct block *block, uint32_t k, uint32_t *place, struct item *item)
{
    item->form = DECIMAL;
    return fdoca_packed(block->descriptor, block->descriptor_size, block->data, block->data_size, k, place,
                        &item->is_null, &item->number.digits, &item->number.fraction_digits);
}

static uint32_t ask_part(const struct block *block, uint32_t k, uint32_t *place, enum form form, struct item *item)
{
    item->form = form;
    return fdoca_lend(block->descriptor, block->descriptor_size, block->data, block->data_size, k, place, &item->offset,
                      &item->length);
}

/* A whole number or a float; where the call does not read the float, its bytes. */
static uint32_t ask_value(const struct block *block, uint32_t k, uint32_t *place, struct item *item)
{
    uint32_t kind;
    uint32_t number = fdoca_value(block->descriptor, block->descriptor_size, block->data, block->data_size, k, place,
                                  &kind, &item->number.digits, &item->real);

    item->form = kind == FDOCA_KIND_REAL ? REAL : DECIMAL;
    item->number.fraction_digits = 0;
    return number == FDOCA_WRONG_TYPE ? ask_part(block, k, place, HEXADECIMAL, item) : number;
}

static uint32_t ask_by_type(const struct block *block, uint32_t k, uint32_t *place, struct item *item)
{
    switch (fdoca_plain_type(item->type_code)) {
    case FDOCA_TYPE_PACKED:
        return ask_packed(block, k, place, item);
    case FDOCA_TYPE_FIXED:
    case FDOCA_TYPE_VARIABLE:
    case FDOCA_TYPE_TERMINATED:
    case FDOCA_TYPE_SHORT:
        return ask_part(block, k, place, TEXT, item);
    default:
        return ask_value(block, k, place, item);
    }
}

/* Asks for an item's state, then for its number or where its value lies. Each is a walk over the block, which is little for
 * what a screen shows. */
static int ask(const struct block *block, uint32_t k, struct item *item)
{
    uint32_t place;
    uint32_t number = ask_state(block, k, &place, item);

    if (number == FDOCA_ACCEPTED)
        number = ask_by_type(block, k, &place, item);
    return number == FDOCA_ACCEPTED ? ACCEPTED : refused("item", number, place, "data");
}

static void print_decimal(struct decimal number)
{
    uint64_t size = number.digits < 0 ? 0 - (uint64_t)number.digits : (uint64_t)number.digits;
    uint64_t one = 1;

    for (uint32_t i = 0; i < number.fraction_digits; i++)
        one *= 10;
    printf("%s%" PRIu64, number.digits < 0 ? "-" : "", size / one);
    if (number.fraction_digits > 0)
        printf(".%0*" PRIu64, (int)number.fraction_digits, size % one);
}

/* With 17 digits every double reads back as itself, and most do with fewer. */
static void print_real(double real)
{
    char text[32];
    int digits = 0;

    do {
        digits++;
        snprintf(text, sizeof text, "%.*g", digits, real);
    } while (strtod(text, NULL) != real);
    printf("%s", text);
}

/* Printable ASCII as it is, all other bytes, the quote and the backslash as \xNN. */
static void print_text(const uint8_t *bytes, uint32_t length)
{
    printf("\"");
    for (uint32_t i = 0; i < length; i++) {
        bool as_it_is = bytes[i] >= ' ' && bytes[i] <= '~' && bytes[i] != '"' && bytes[i] != '\\';

        printf(as_it_is ? "%c" : "\\x%02X", bytes[i]);
    }
    printf("\"");
}

/* The text, and how many more bytes of text its field could hold: the spare bytes behind it, but for the zero byte that ends
 * a terminated string. A field without reserved space has none in the block, whatever its length. */
static void print_string(const struct block *block, const struct item *item)
{
    bool terminated = fdoca_plain_type(item->type_code) == FDOCA_TYPE_TERMINATED;
    uint32_t left = terminated ? item->spare - 1 : item->spare;

    print_text(block->data + item->offset, item->length);
    if (left > 0)
        printf(" (%" PRIu32 " left)", left);
}

static void print_hexadecimal(const uint8_t *bytes, uint32_t length)
{
    printf("X'");
    for (uint32_t i = 0; i < length; i++)
        printf("%02X", bytes[i]);
    printf("'");
}

static void print_value(const struct block *block, const struct item *item)
{
    if (item->is_null)
        printf("null");
    else if (item->form == DECIMAL)
        print_decimal(item->number);
    else if (item->form == REAL)
        print_real(item->real);
    else if (item->form == TEXT)
        print_string(block, item);
    else
        print_hexadecimal(block->data + item->offset, item->length);
}

static int print_item(const struct block *block, uint32_t k)
{
    struct item item;
    int status = ask(block, k, &item);

    if (status == ACCEPTED)
        print_value(block, &item);
    else
        printf("refused");
    return status;
}

/* The calls tell of items, not of rows. To this example a row begins wherever the first item's id comes again, which is so
 * in a flat table whose first column has an SDA of its own. */
static int print_rows(const struct block *block, const uint32_t *list)
{
    int status = ACCEPTED;

    printf("items %" PRIu32 " bytes %" PRIu32, list[0], list[1]);
    for (uint32_t k = 0; k < list[0]; k++) {
        uint32_t id = fdoca_item_id(list, k);

        printf("%s%" PRIu32 " ", id == fdoca_item_id(list, 0) ? "\n" : "  ", id);
        if (print_item(block, k) != ACCEPTED)
            status = REFUSED;
    }
    printf("\n");
    return status;
}

static bool add(int64_t *sum, int64_t value)
{
    if (value > 0 ? *sum > INT64_MAX - value : *sum < INT64_MIN - value)
        return false;
    *sum += value;
    return true;
}

/* Asks by the item's type code for a number that can be summed without rounding. Any other item is refused. */
static uint32_t ask_exact(const struct block *block, uint32_t k, uint32_t *place, struct item *item)
{
    if (fdoca_plain_type(item->type_code) == FDOCA_TYPE_PACKED)
        return ask_packed(block, k, place, item);
    item->number.fraction_digits = 0;
    return fdoca_whole_number(block->descriptor, block->descriptor_size, block->data, block->data_size, k, place,
                              &item->is_null, &item->number.digits);
}

/* The items of a column have one SDA, but a GDA may give them other fraction digits: such a column has no sum. */
static int add_item(const struct block *block, uint32_t k, struct column *column)
{
    struct item item;
    uint32_t place;
    uint32_t number = ask_state(block, k, &place, &item);

    if (number == FDOCA_ACCEPTED)
        number = ask_exact(block, k, &place, &item);
    if (number != FDOCA_ACCEPTED)
        return refused("column", number, place, "data");
    if (column->items > 0 && column->sum.fraction_digits != item.number.fraction_digits)
        return unusable("the numbers of this id differ in their fraction digits");
    if (!add(&column->sum.digits, item.number.digits))
        return unusable("the sum does not fit 64 bits");
    column->sum.fraction_digits = item.number.fraction_digits;
    column->items++;
    column->nulls += item.is_null;
    return ACCEPTED;
}

static int print_sum(const struct block *block, const uint32_t *list, uint32_t id)
{
    struct column column = {0, 0, {0, 0}};

    for (uint32_t k = 0; k < list[0]; k++) {
        if (fdoca_item_id(list, k) != id)
            continue;

        int status = add_item(block, k, &column);

        if (status != ACCEPTED)
            return status;
    }
    if (column.items == 0) {
        fprintf(stderr, "no item has the id %" PRIu32 "\n", id);
        return UNUSABLE;
    }
    printf("id %" PRIu32 " items %" PRIu32 " nulls %" PRIu32 " sum ", id, column.items, column.nulls);
    print_decimal(column.sum);
    printf("\n");
    return ACCEPTED;
}

/* The list has room for any block: how many items rows to the end have is not known before. */
static int show_items(const struct block *block, uint32_t id)
{
    static uint32_t list[FDOCA_MAX_LIST];
    uint32_t place;
    uint32_t number = fdoca_list(block->descriptor, block->descriptor_size, block->data, block->data_size, list,
                                 FDOCA_MAX_LIST, &place);

    if (number != FDOCA_ACCEPTED)
        return refused("block", number, place, "data");

    int status = print_rows(block, list);

    return status == ACCEPTED && id != 0 ? print_sum(block, list, id) : status;
}

static int show(const struct block *block, uint32_t id)
{
    uint32_t place, items;
    uint32_t number = fdoca_check(block->descriptor, block->descriptor_size, &place, &items);

    if (number != FDOCA_ACCEPTED)
        return refused("descriptor", number, place, "descriptor");
    return show_items(block, id);
}

static bool parse_id(const char *word, uint32_t *id)
{
    char *end;
    bool hexadecimal = word[0] == '0' && word[1] == 'x';
    unsigned long value = strtoul(word, &end, hexadecimal ? 16 : 10);

    if (word[0] < '0' || word[0] > '9' || *end != '\0' || value < 1 || value > 255)
        return false;
    *id = (uint32_t)value;
    return true;
}

int main(int argc, char **argv)
{
    uint32_t id = 0; /* no item has it: no column is asked for */
    struct block block = {NULL, 0, NULL, 0};

    if (argc < 2 || argc > 3 || (argc == 3 && !parse_id(argv[2], &id)))
        return unusable("usage: panel FILE [ID], with ID from 1 to 255");

    int status = load(argv[1], &block);

    if (status == ACCEPTED)
        status = show(&block, id);
    free(block.descriptor);
    if (fflush(stdout) != 0 || ferror(stdout))
        return unusable("the listing cannot be written");
    return status;
}
