/*
 * Reads FD:OCA data blocks: checks a descriptor, lists the items of a block that it describes, tells an item's state and
 * where its value lies, reads a whole number, a packed decimal or a float.
 *
 * For C99 or later. The library is proved and made by `tools/build panel`, and a program links it by
 *
 *     cc -std=c99 -Iinclude program.c target/staticlib/libpanel.a
 *
 * Every call returns a number: 0 if it accepts what it was given, else the first reason to refuse it (enum fdoca_number).
 * With a refusal goes a place, an offset in the descriptor or in the data, as told there. Every result is written, also on
 * a refusal: then all but number and place are 0, and the kind that fdoca_value gives is that of a whole number. Only a list
 * keeps its old contents on a refusal.
 *
 * A call takes any bytes, allocates nothing and keeps nothing for the next call. Several threads may make calls at once.
 *
 * What a call costs: fdoca_check goes once over the descriptor. Every other call goes over the descriptor and the whole
 * block, also if it tells of one item: to ask for each of n items is to walk over the block n times. So read many items by
 * one list, and ask for single items only where needed.
 *
 * What must hold of the pointers:
 *   - Each is valid for its size, also if the size is 0: NULL is not. A caller that may have NULL where a size is 0 makes
 *     the calls fdoca_.._null_ok at the end of this file.
 *   - Those that a call writes through, which are all that are not const, overlap neither each other nor anything else that
 *     the call is given. What they point to need not be initialized.
 */
#ifndef FDOCA_H
#define FDOCA_H

#include <float.h>
#include <stddef.h>
#include <stdint.h>

/* The library gives a float as IEEE 754's binary64, so a double has to be that. */
#if FLT_RADIX != 2 || DBL_MANT_DIG != 53 || DBL_MIN_EXP != -1021 || DBL_MAX_EXP != 1024
#error "fdoca.h needs a double that is IEEE 754's binary64"
#endif

#ifdef __cplusplus
extern "C" {
#endif

/* The limits: bytes of a descriptor, bytes of a data block, items of a block. */
#define FDOCA_MAX_DESCRIPTOR 4096
#define FDOCA_MAX_DATA 32768
#define FDOCA_MAX_ITEMS 4096

/* A thread with a stack of so many bytes can make any call: this is measured. The deepest nest takes the most, 255 levels:
 * an SDA, then an RLO or a GDA, then 253 RLOs, each with a group that refers to the one before. */
#define FDOCA_STACK 98304

/* The entries that a list of n items takes, and those of the largest list: 8,194. */
#define FDOCA_LIST_SIZE(n) (2 + 2 * (size_t)(n))
#define FDOCA_MAX_LIST FDOCA_LIST_SIZE(FDOCA_MAX_ITEMS)

/*
 * The numbers, and the place that goes with each. A descriptor is a run of triplets: SDA (Simple Data Array, X'70'),
 * RLO (Row Layout, X'71'), GDA (Group Data Array, X'75'), ISD (Implementation Support Data, X'7E') and CPT (Continue
 * Preceding Triplet, X'7F'). An RLO and its CPTs hold groups: an id, elements taken, a repetition factor. A GDA and its CPTs
 * hold groups of one item each: the id of an SDA without extents, and two bytes that replace the SDA's field length, or its
 * digits and fraction digits; 0 replaces nothing. A triplet's place is its offset in the descriptor, an item's is its offset
 * in the data. "Exception" is the standard's exception-id.
 *
 * Rows to the end: a group of an RLO or of its CPT may have the repetition factor 0 if its three bytes are the descriptor's
 * last. What it stands for then comes over and over, as often as the data have it, possibly never: the block ends where it
 * would come again and no data are left. So descriptor and data together tell how many items the block has.
 *
 * The reasons are tried in this order: 1; the triplets from left to right, each by rising number from 2 to 10, with 8, 9
 * and 10 taken group by group, 21 right after 8, and 22 right after 9; 11; 12; the items in order, by 13 to 15, and by 24 as
 * soon as the null indicator is there, before anything behind it; 16; 17; 18; 20 or 23. With rows to the end 12 comes only
 * after the items, 16 never, and an item past FDOCA_MAX_ITEMS is refused by 10 before it is measured.
 */
enum fdoca_number {
    /* Nothing is wrong. Place: 0. */
    FDOCA_ACCEPTED = 0,

    /* The descriptor or the data are over their limit. Place: 0. */
    FDOCA_SIZE_LIMIT = 1,

    /* A triplet's LENGTH is below 2 or goes past the end of the descriptor. Place: the triplet. */
    FDOCA_TRIPLET_TRUNCATED = 2,

    /* A triplet is no SDA, RLO, GDA, ISD or CPT (exception 02); a nullable GDA, X'76', is none. Place: the triplet. */
    FDOCA_UNRECOGNIZED_TYPE = 3,

    /* A CPT follows no RLO, GDA or CPT, or an ISD is not the first triplet (exception 13). Place: the triplet. */
    FDOCA_WRONG_POSITION = 4,

    /* A triplet's LENGTH is none that its form has. Place: the triplet. */
    FDOCA_INVALID_LENGTH = 5,

    /* An SDA's, RLO's or GDA's own id is 0, a field type has no rule, its parameters do not fit the rule, an extent is 0,
     * or a CPT or an ISD has wrong contents. Most field lengths that do not fit a float are replaced instead: see enum
     * fdoca_type. Place: the triplet. */
    FDOCA_PARAMETER_NOT_ACCEPTABLE = 6,

    /* An SDA's, RLO's or GDA's id was described before. Place: the triplet. */
    FDOCA_DUPLICATE_ID = 7,

    /* A group refers to an id that is not described yet (exception 03). Place: the group's triplet. */
    FDOCA_UNDEFINED_ID = 8,

    /* An RLO's group has a repetition factor of 0 and does not end the descriptor, or takes elements of an RLO, a GDA or an
     * SDA without extents. Place: the group's triplet. */
    FDOCA_UNSUPPORTED_GROUP = 9,

    /* An SDA, or an RLO up to a group, has over FDOCA_MAX_ITEMS items. Place: the SDA, or the group's triplet. Or, where
     * fdoca_check accepts the descriptor, a block of rows to the end has. Place: the first item too many. */
    FDOCA_TOO_MANY_ITEMS = 10,

    /* The descriptor has no SDA, RLO or GDA. Place: the descriptor's length. */
    FDOCA_DESCRIPTOR_MISSING = 11,

    /* The list has fewer than FDOCA_LIST_SIZE(n) entries for n items. With rows to the end n is what the data have, and all
     * that is wrong with the block comes before. Place: 0. */
    FDOCA_LIST_TOO_SMALL = 12,

    /* The data end before an item does. Place: the item. */
    FDOCA_DATA_TRUNCATED = 13,

    /* An item's length is negative, or over its field length where that is above 0. Place: the item. */
    FDOCA_LENGTH_OUT_OF_RANGE = 14,

    /* A null-terminated item of a field length F above 0 has no zero byte among its first F + 1. Place: the item. */
    FDOCA_UNTERMINATED = 15,

    /* Bytes follow the last item. Place: the first of them in the data. */
    FDOCA_TRAILING_DATA = 16,

    /* The block has no item of that number. Place: 0. */
    FDOCA_NO_SUCH_ITEM = 17,

    /* The item, null or not, is of no type that the call reads, or is a float whose length or bias indicator the call does
     * not read. Place: the item. */
    FDOCA_WRONG_TYPE = 18,

    /* For programs that read a block from a file: the file does not fit the sizes that it starts with. No call gives
     * this number. Place: 0. */
    FDOCA_BAD_FILE = 19,

    /* A packed decimal has a digit above 9, a sign below X'A', or an unused first half-byte other than 0. fdoca_packed alone
     * looks at these, in the one item that it reads. Place: the item. */
    FDOCA_INVALID_DIGIT = 20,

    /* A GDA's group refers to an RLO, a GDA or an SDA with extents, or what replaces the SDA's field length or digits does
     * not fit the type; a float has no default here. Place: the group's triplet. */
    FDOCA_COLUMN_MISFIT = 21,

    /* Rows to the end would take no bytes: every item of what is repeated is a fixed string of the field length 0 that is
     * not nullable. Place: the group's triplet. */
    FDOCA_ZERO_WIDTH_REPEAT = 22,

    /* A float has no equal double: it is an infinity or a NaN, which a binary float is by its characteristic, 255 of 4 bytes
     * or 2047 of 8; or it is a hexadecimal one of 8 bytes with more than 53 bits from its first 1 to its last. fdoca_value
     * alone looks at these, in the one item that it reads. Place: the item. */
    FDOCA_NO_EXACT_FLOAT = 23,

    /* An item's null indicator is X'01' to X'7F', which is neither that of a value, X'00', nor one of a null, X'80' to
     * X'FF'. Before this number came, only the high bit was looked at, and such items were values. Place: the item. */
    FDOCA_INVALID_INDICATOR = 24
};

/*
 * The field types: the type code, in decimal with that of the nullable form behind it, and what the value of an item is. A
 * nullable form has the code plus X'80'; its items begin with a null indicator of one byte, and only they can be null. The
 * indicator X'00' means that a value follows, X'80' to X'FF' that the item is null, and the others are refused by 24. Which
 * characters the bytes of a string stand for is not told.
 *
 * A float whose SDA gives a field length other than 4, 8 or 16 has the default of its type: 8 bytes if it is hexadecimal,
 * 4 if it is binary. So all eight parameter bytes may be 0. A binary float of 16 bytes is refused, by 6, or by 21 where a GDA
 * gives the length. The SDA of a binary float has a bias indicator too, 0 or 1, in bytes 2 and 3 of its parameters; with 0
 * the floats are those of IEEE 754. Which floats fdoca_value reads is told there.
 */
enum fdoca_type {
    FDOCA_TYPE_FIXED = 0x01,          /* 1, 129: a string of bytes, as long as its field */
    FDOCA_TYPE_VARIABLE = 0x02,       /* 2, 130: a string of bytes, with a length of two bytes before it */
    FDOCA_TYPE_TERMINATED = 0x03,     /* 3, 131: a string of bytes, with a zero byte behind it */
    FDOCA_TYPE_SHORT = 0x07,          /* 7, 135: a string of bytes, with a length of one byte before it */
    FDOCA_TYPE_WHOLE = 0x23,          /* 35, 163: a signed whole number, most significant byte first */
    FDOCA_TYPE_WHOLE_REVERSED = 0x24, /* 36, 164: a signed whole number, least significant byte first */
    FDOCA_TYPE_PACKED = 0x30,         /* 48, 176: a packed decimal: 1 to 18 digits, two to a byte, and a sign */
    FDOCA_TYPE_HEX_FLOAT = 0x40,      /* 64, 192: a hexadecimal float of 4, 8 or 16 bytes */
    FDOCA_TYPE_FLOAT_REVERSED = 0x47, /* 71, 199: a binary float of 4 or 8 bytes, least significant first */
    FDOCA_TYPE_FLOAT = 0x48           /* 72, 200: a binary float of 4 or 8 bytes, most significant first */
};

/* The kinds of value that fdoca_value gives. */
enum fdoca_kind {
    FDOCA_KIND_NULL = 0,  /* the item is null */
    FDOCA_KIND_WHOLE = 1, /* a whole number */
    FDOCA_KIND_REAL = 2   /* a float */
};

/*
 * Checks a descriptor.
 *
 * items: how many items it describes; with rows to the end, how many there are before these rows, possibly 0.
 * Refuses by 1 to 11, 21 and 22.
 */
uint32_t fdoca_check(const uint8_t *descriptor, size_t descriptor_size, uint32_t *place, uint32_t *items);

/*
 * Lists the items of a block.
 *
 * list: for a block of n items, numbered from 0, the call writes
 *     list[0]              n
 *     list[1]              the block's length in bytes
 *     list[2 + k]          the start of item k, an offset in the data
 *     list[2 + n + k]      the id of item k's SDA
 * and leaves every entry beyond as it is. An item ends where the next one starts, the last item at list[1]. On a refusal the
 * call leaves the whole list as it is.
 * list_size: how many entries of 32 bits the list has, at least FDOCA_LIST_SIZE(n). FDOCA_MAX_LIST is enough for any block.
 * What fdoca_check gives is n, but with rows to the end no call tells n before this one: have FDOCA_MAX_LIST entries then.
 * Refuses by 1 to 16, 21, 22 and 24.
 */
uint32_t fdoca_list(const uint8_t *descriptor, size_t descriptor_size, const uint8_t *data, size_t data_size,
                    uint32_t *list, size_t list_size, uint32_t *place);

/*
 * Tells an item's state, and the lengths of its three parts.
 *
 * item: the item's number, from 0.
 * is_null: 1 if the item is null, else 0.
 * type_code: the code of its field type or of the nullable form (enum fdoca_type).
 * lead: how many bytes stand before the value: the null indicator of a nullable form, and the length field of a variable or
 * a short string, of two bytes or one.
 * value: how many bytes the value has.
 * spare: how many bytes stand behind the value: the zero byte behind a terminated string, which is no room for text, and what
 * a string leaves of the space that is reserved for it.
 * The three add up to the item's length. A null is its indicator alone: 1, 0 and 0. A refusal gives three zeros.
 * Refuses by 1 to 11, 13 to 17, 21, 22 and 24.
 */
uint32_t fdoca_state(const uint8_t *descriptor, size_t descriptor_size, const uint8_t *data, size_t data_size,
                     uint32_t item, uint32_t *place, uint32_t *is_null, uint32_t *type_code, uint32_t *lead,
                     uint32_t *value, uint32_t *spare);

/*
 * Tells where in the data an item's value lies.
 *
 * item: the item's number, from 0.
 * offset: where the value begins, behind the item's lead; that of a null is right behind its null indicator.
 * length: how many bytes it has, as fdoca_state tells; 0 if the item is null.
 * Neither offset nor offset + length is over data_size, also on a refusal.
 * Refuses by 1 to 11, 13 to 17, 21, 22 and 24, as fdoca_state does.
 */
uint32_t fdoca_lend(const uint8_t *descriptor, size_t descriptor_size, const uint8_t *data, size_t data_size,
                    uint32_t item, uint32_t *place, uint32_t *offset, uint32_t *length);

/*
 * Reads a whole number.
 *
 * item: the item's number, from 0.
 * is_null: 1 if the item is null, else 0.
 * value: the item's value, 0 if it is null.
 * Refuses by 1 to 11, 13 to 18, 21, 22 and 24.
 */
uint32_t fdoca_whole_number(const uint8_t *descriptor, size_t descriptor_size, const uint8_t *data, size_t data_size,
                            uint32_t item, uint32_t *place, uint32_t *is_null, int64_t *value);

/*
 * Reads a packed decimal: digits of half a byte, and in the last half-byte the sign, where A, C, E and F are plus, B and D
 * minus. If the count of digits is even, an unused half-byte goes before them.
 *
 * item: the item's number, from 0.
 * is_null: 1 if the item is null, else 0.
 * value: the whole number of its digits and sign, 0 if it is null. Minus zero is 0.
 * fraction_digits: how many of the digits, counted from the last, are a fraction; told of a null too. The quantity is the
 * value divided by 10 to the power of fraction_digits.
 * Refuses by 1 to 11, 13 to 18, 20 to 22 and 24.
 */
uint32_t fdoca_packed(const uint8_t *descriptor, size_t descriptor_size, const uint8_t *data, size_t data_size,
                      uint32_t item, uint32_t *place, uint32_t *is_null, int64_t *value, uint32_t *fraction_digits);

/*
 * Reads a number that is whole or a float.
 *
 * item: the item's number, from 0.
 * kind: whether the item is null, a whole number or a float (enum fdoca_kind). A refusal gives the whole number 0.
 * whole: the value of a whole number, else 0.
 * real: the value of a float, else +0.0. The double is exactly equal to the item's value, never rounded, and never an
 * infinity or a NaN: what has no equal double is refused by 23. A zero keeps its sign, so it may be -0.0.
 * Of the floats the call reads the binary ones with the bias indicator 0 and the hexadecimal ones of 4 or 8 bytes. Those with
 * the bias indicator 1 or of 16 bytes, strings and packed decimals are refused by 18, null or not.
 * Refuses by 1 to 11, 13 to 18 and 21 to 24.
 */
uint32_t fdoca_value(const uint8_t *descriptor, size_t descriptor_size, const uint8_t *data, size_t data_size,
                     uint32_t item, uint32_t *place, uint32_t *kind, int64_t *whole, double *real);

/* The start of item k in a list that a call wrote, and the id of the item's SDA. k is below list[0]. */
static inline uint32_t fdoca_item_start(const uint32_t *list, uint32_t k)
{
    return list[2 + (size_t)k];
}

static inline uint32_t fdoca_item_id(const uint32_t *list, uint32_t k)
{
    return list[2 + (size_t)list[0] + k];
}

/* The plain type of a type code, and whether the code is that of a nullable form. */
static inline uint32_t fdoca_plain_type(uint32_t type_code)
{
    return type_code & 0x7F;
}

static inline int fdoca_is_nullable(uint32_t type_code)
{
    return (type_code & 0x80) != 0;
}

/* A number in words. */
static inline const char *fdoca_text(uint32_t number)
{
    switch (number) {
    case FDOCA_ACCEPTED:
        return "accepted";
    case FDOCA_SIZE_LIMIT:
        return "descriptor or data over the size limit";
    case FDOCA_TRIPLET_TRUNCATED:
        return "triplet truncated";
    case FDOCA_UNRECOGNIZED_TYPE:
        return "triplet type not recognized";
    case FDOCA_WRONG_POSITION:
        return "triplet at the wrong position";
    case FDOCA_INVALID_LENGTH:
        return "triplet length not valid";
    case FDOCA_PARAMETER_NOT_ACCEPTABLE:
        return "parameter value not acceptable";
    case FDOCA_DUPLICATE_ID:
        return "id described twice";
    case FDOCA_UNDEFINED_ID:
        return "reference to an id that is not described yet";
    case FDOCA_UNSUPPORTED_GROUP:
        return "row layout group not supported";
    case FDOCA_TOO_MANY_ITEMS:
        return "too many items";
    case FDOCA_DESCRIPTOR_MISSING:
        return "descriptor describes nothing";
    case FDOCA_LIST_TOO_SMALL:
        return "item list too small";
    case FDOCA_DATA_TRUNCATED:
        return "data end within an item";
    case FDOCA_LENGTH_OUT_OF_RANGE:
        return "item length out of range";
    case FDOCA_UNTERMINATED:
        return "item not terminated";
    case FDOCA_TRAILING_DATA:
        return "data go on after the last item";
    case FDOCA_NO_SUCH_ITEM:
        return "no such item";
    case FDOCA_WRONG_TYPE:
        return "item is of the wrong type";
    case FDOCA_BAD_FILE:
        return "file does not fit its sizes";
    case FDOCA_INVALID_DIGIT:
        return "digit or sign not valid";
    case FDOCA_COLUMN_MISFIT:
        return "column does not fit what it refers to";
    case FDOCA_ZERO_WIDTH_REPEAT:
        return "rows to the end take no bytes";
    case FDOCA_NO_EXACT_FLOAT:
        return "value has no equal 64-bit float";
    case FDOCA_INVALID_INDICATOR:
        return "null indicator not valid";
    default:
        return "unknown number";
    }
}

/*
 * The same calls, for a caller whose descriptor, data or list may be NULL, or point to nothing, where its size is 0.
 */
static inline uint32_t fdoca_check_null_ok(const uint8_t *descriptor, size_t descriptor_size, uint32_t *place,
                                           uint32_t *items)
{
    const uint8_t none = 0;

    return fdoca_check(descriptor_size == 0 ? &none : descriptor, descriptor_size, place, items);
}

static inline uint32_t fdoca_list_null_ok(const uint8_t *descriptor, size_t descriptor_size, const uint8_t *data,
                                          size_t data_size, uint32_t *list, size_t list_size, uint32_t *place)
{
    const uint8_t none = 0;
    uint32_t no_entry = 0;

    return fdoca_list(descriptor_size == 0 ? &none : descriptor, descriptor_size, data_size == 0 ? &none : data,
                      data_size, list_size == 0 ? &no_entry : list, list_size, place);
}

static inline uint32_t fdoca_state_null_ok(const uint8_t *descriptor, size_t descriptor_size, const uint8_t *data,
                                           size_t data_size, uint32_t item, uint32_t *place, uint32_t *is_null,
                                           uint32_t *type_code, uint32_t *lead, uint32_t *value, uint32_t *spare)
{
    const uint8_t none = 0;

    return fdoca_state(descriptor_size == 0 ? &none : descriptor, descriptor_size, data_size == 0 ? &none : data,
                       data_size, item, place, is_null, type_code, lead, value, spare);
}

static inline uint32_t fdoca_lend_null_ok(const uint8_t *descriptor, size_t descriptor_size, const uint8_t *data,
                                          size_t data_size, uint32_t item, uint32_t *place, uint32_t *offset,
                                          uint32_t *length)
{
    const uint8_t none = 0;

    return fdoca_lend(descriptor_size == 0 ? &none : descriptor, descriptor_size, data_size == 0 ? &none : data,
                      data_size, item, place, offset, length);
}

static inline uint32_t fdoca_whole_number_null_ok(const uint8_t *descriptor, size_t descriptor_size,
                                                  const uint8_t *data, size_t data_size, uint32_t item,
                                                  uint32_t *place, uint32_t *is_null, int64_t *value)
{
    const uint8_t none = 0;

    return fdoca_whole_number(descriptor_size == 0 ? &none : descriptor, descriptor_size,
                              data_size == 0 ? &none : data, data_size, item, place, is_null, value);
}

static inline uint32_t fdoca_packed_null_ok(const uint8_t *descriptor, size_t descriptor_size, const uint8_t *data,
                                            size_t data_size, uint32_t item, uint32_t *place, uint32_t *is_null,
                                            int64_t *value, uint32_t *fraction_digits)
{
    const uint8_t none = 0;

    return fdoca_packed(descriptor_size == 0 ? &none : descriptor, descriptor_size, data_size == 0 ? &none : data,
                        data_size, item, place, is_null, value, fraction_digits);
}

static inline uint32_t fdoca_value_null_ok(const uint8_t *descriptor, size_t descriptor_size, const uint8_t *data,
                                           size_t data_size, uint32_t item, uint32_t *place, uint32_t *kind,
                                           int64_t *whole, double *real)
{
    const uint8_t none = 0;

    return fdoca_value(descriptor_size == 0 ? &none : descriptor, descriptor_size, data_size == 0 ? &none : data,
                       data_size, item, place, kind, whole, real);
}

#ifdef __cplusplus
}
#endif

#endif
