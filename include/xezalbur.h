/*
 * The SRT protocol's loss lists, data packets and key material, for a C or C++ program: expand a list that came in a
 * loss report into the numbers that it names, ask which of its items names a number, merge two lists into one, and
 * compress numbers into such a list; read and write data packets, and say how many bytes they are on the wire; read key
 * material.
 *
 *     static uint8_t numbers[4 * XEZ_LIST_LIMIT];          // 256 KiB
 *     uint64_t answer = xez_expand(report, report_bytes, numbers, sizeof numbers);
 *     if (xez_accepted(answer))
 *         use(numbers, xez_value(answer));             // that many words of four bytes
 *     else
 *         log("%s (%u)", xez_sentence(xez_refusal(answer)), xez_value(answer));
 *
 * Link with librelay.a. Nothing is kept between calls, nothing is allocated, and a call needs a few hundred bytes
 * of stack, xez_merge a kilobyte and a half, so every function may be called from any thread and from an interrupt. No
 * instruction divides.
 *
 * Any input gets an answer. A refusal leaves every buffer as it was; an accepted call writes from the start of the
 * buffer, and leaves the rest of it as it was. The buffers of a call must not overlap, each must be valid for its
 * whole length, and any may be a null pointer where its length is 0. What is `const` is only read.
 *
 * Words. The lists hold 32-bit words, each as four bytes, most significant first, as they stand on the wire
 * (xez_get_word and xez_put_word read and write one). No alignment is asked of a buffer of bytes.
 *
 * Numbers. A sequence number is 0 to 2^31 - 1 and the next after 2^31 - 1 is 0. A number b comes after a number a
 * where b is 1 to 2^30 - 1 steps after a, going up and past the wrap. Of two numbers 2^30 apart neither comes after the
 * other.
 *
 * Lists. A word whose top bit (XEZ_RANGE_START) is clear is one number. A word whose top bit is set is the first
 * number of a range, and the word after it is the last one, which comes after the first. A range of two numbers is
 * taken, and never written.
 */
#ifndef XEZALBUR_H
#define XEZALBUR_H

#include <stddef.h>
#include <stdint.h>

#ifdef __cplusplus
extern "C" {
#endif

/*
 * The most words that a list may have, and the most numbers that it may name. It was 8,192 once: a program that was
 * compiled then, and lends room for as many, is answered XEZ_NO_ROOM where a list names more.
 */
#define XEZ_LIST_LIMIT 65536u

/* The bit that marks the first word of a range. */
#define XEZ_RANGE_START 0x80000000u

/*
 * Expands the list in `in` (in_len bytes) into the numbers that it names, in the list's order, in `out`, which has
 * room for out_len / 4 words (rounded down). 4 * XEZ_LIST_LIMIT bytes are always enough.
 *
 * Accepted: the value is how many numbers were written.
 * Refused: where several refusals hold, the one given is the first of these:
 *     XEZ_NOT_ENOUGH_DATA, XEZ_TOO_LONG, the one at the lowest place among XEZ_OPEN_RANGE, XEZ_FLAGGED_END and
 *     XEZ_BACKWARD_RANGE, XEZ_TOO_MANY_NUMBERS, XEZ_NO_ROOM.
 *
 * A long range costs nothing to refuse: the time is that of the words given and the numbers written.
 */
uint64_t xez_expand(const uint8_t *in, size_t in_len, uint8_t *out, size_t out_len);

/*
 * Compresses the numbers in `in` (in_len bytes), each of which must come after the one before it, into the
 * shortest list that names them in that order: three neighbours and more are a range, two words; every other number
 * is a word, so that two neighbours stand as they are. That is how the Internet-Draft has such lists.
 * Room for as many words as there are numbers is always enough, and xez_expand gives the numbers back.
 *
 * Accepted: the value is how many words were written.
 * Refused: where several refusals hold, the one given is the first of these:
 *     XEZ_NOT_ENOUGH_DATA, XEZ_TOO_LONG, the one at the lowest place among XEZ_NOT_SEQUENCE and
 *     XEZ_NOT_INCREASING (in this order at one place), XEZ_NO_ROOM.
 */
uint64_t xez_compress(const uint8_t *in, size_t in_len, uint8_t *out, size_t out_len);

/* What xez_why_lost answers where no item names the number. It is no place: every place is below XEZ_LIST_LIMIT. */
#define XEZ_NOT_LOST 0xFFFFFFFFu

/*
 * Says why a number is lost: which item of the list in `list` (list_len bytes) names it. Nothing is written.
 *
 * Accepted: the value is the place of the first item that names the number, and of a range that of its first word; or it is
 *     XEZ_NOT_LOST, exactly where the number is none of those that xez_expand gives for the list.
 * Refused: first as xez_expand refuses the list, whatever the room; then XEZ_NOT_SEQUENCE with 0, where the number is
 *     2^31 or more.
 *
 * The time is that of the words given, however long the ranges are.
 */
uint64_t xez_why_lost(const uint8_t *list, size_t list_len, uint32_t number);

/*
 * Merges the lists in `first` (first_len bytes) and `second` (second_len bytes): writes to `out`, which has room for
 * out_len / 4 words (rounded down), the list of every number that either names, once, in order from `oldest` and past
 * the wrap, as xez_compress codes it. Every number must be in the window, 0 to 2^30 - 1 steps after the oldest. Neither
 * list need stand in that order, and with the two exchanged the same words are written. 4 * XEZ_LIST_LIMIT bytes are
 * always enough.
 *
 * Accepted: the value is how many words were written.
 * Refused: where several refusals hold, the one given is the first of these:
 *     XEZ_NOT_SEQUENCE with 0, where the oldest is 2^31 or more; as xez_expand refuses the first list, whatever the
 *     room; then the second; XEZ_OUTSIDE_WINDOW, for an item of the first list before any of the second;
 *     XEZ_TOO_MANY_NUMBERS with 0, where the numbers of both, each counted once, are more than XEZ_LIST_LIMIT;
 *     XEZ_NO_ROOM.
 * The answer does not say which list a place is of. xez_why_lost tells whether one of them is refused on its own.
 *
 * Where the items of both lists stand in order from the oldest, as they do in what xez_compress and this function
 * write, the time is that of the words given. All items of a list in disorder are looked at again for each run of the
 * result, and for each few hundred numbers of a run, which takes long where both are many: a full list of lone numbers
 * in disorder takes many seconds.
 */
uint64_t xez_merge(uint32_t oldest, const uint8_t *first, size_t first_len, const uint8_t *second, size_t second_len,
                   uint8_t *out, size_t out_len);

/* The bytes of a data packet before its payload. */
#define XEZ_DATA_HEADER 16u

/* The longest payload. */
#define XEZ_PAYLOAD_LIMIT 65535u

/* The fields of a data packet, each a word. A flag is read as 0 or 1, and written as up where it is not 0. */
enum xez_data_field {
    XEZ_SEQUENCE,      /* the sequence number, 0 to 2^31 - 1 */
    XEZ_BEGINS,        /* flag: the packet is the first of its message */
    XEZ_ENDS,          /* flag: the packet is the last of its message (a whole message has both) */
    XEZ_IN_ORDER,      /* flag: the message is to be delivered in order */
    XEZ_ODD_KEY,       /* flag: the payload is encrypted with the odd key */
    XEZ_EVEN_KEY,      /* flag: .. with the even key */
    XEZ_RETRANSMITTED, /* flag: the packet was sent again */
    XEZ_MESSAGE,       /* the message number, 0 to 2^26 - 1 */
    XEZ_TIMESTAMP,     /* microseconds */
    XEZ_SOCKET,        /* the destination socket */
    XEZ_FAMILY,        /* the internet protocol that carries the packet, XEZ_IPV4 or XEZ_IPV6 */
    XEZ_DATA_FIELDS    /* how many fields there are */
};

/*
 * The family is in none of the packet's bytes. The program gives it, to read a packet too, and every call leaves it as
 * it is. It is the version in the first four bits of an IP header, and any number but 6 counts as IPv4. No answer
 * depends on it but that of xez_wire_size.
 */
#define XEZ_IPV4 4u
#define XEZ_IPV6 6u

/*
 * How many fields come before the family. There was none once: a program that was compiled then, and lends or gives
 * so many words, is answered as it was, its packets being those of IPv4.
 */
#define XEZ_PACKET_FIELDS 10u

/*
 * Reads the data packet in `packet` (packet_len bytes, all of them) into `fields`, which has room for fields_len
 * words; XEZ_PACKET_FIELDS are enough. The payload stays where it is, at packet + XEZ_DATA_HEADER.
 *
 * Accepted: the value is the payload's length in bytes.
 * Refused: the first of XEZ_NOT_ENOUGH_DATA (under 16 bytes), XEZ_TOO_LONG, XEZ_CONTROL_BIT,
 *     XEZ_BAD_DATA_ENCRYPTION, XEZ_NO_ROOM (in words).
 */
uint64_t xez_read_data(const uint8_t *packet, size_t packet_len, uint32_t *fields, size_t fields_len);

/*
 * Writes the data packet of these fields (fields_len words, of which XEZ_PACKET_FIELDS are enough) and this payload to
 * `packet`. What xez_read_data gives is written as the bytes that were read.
 *
 * Accepted: the value is how many bytes were written.
 * Refused: the first of XEZ_NOT_ENOUGH_DATA (under XEZ_PACKET_FIELDS words), XEZ_BAD_DATA_ENCRYPTION (both keys),
 *     XEZ_TOO_LONG, XEZ_FIELD_TOO_WIDE (the sequence number, then the message number), XEZ_NO_ROOM (in bytes).
 */
uint64_t xez_write_data(const uint32_t *fields, size_t fields_len, const uint8_t *payload, size_t payload_len,
                        uint8_t *packet, size_t packet_len);

/*
 * Says how many bytes a data packet of this family (as its field has it) with a payload of payload_len bytes is on the
 * wire: 20 of IPv4 or 40 of IPv6, 8 of UDP, XEZ_DATA_HEADER, and the payload.
 *
 * Accepted: the value is that number.
 * Refused: XEZ_TOO_LONG.
 */
uint64_t xez_wire_size(uint32_t family, size_t payload_len);

/* The bytes of a key message before its salt. */
#define XEZ_KEY_HEADER 16u

/* The fields of a key message, each a word. */
enum xez_key_field {
    XEZ_PACKET_TYPE,    /* 1 media stream, 2 keying material */
    XEZ_KEY_FLAGS,      /* 1 even key, 2 odd key, 3 both */
    XEZ_KEKI,           /* the number of the key that wraps the keys */
    XEZ_CIPHER,         /* 0 none, 1 ECB, 2 CTR, 3 CBC */
    XEZ_SALT_LENGTH,    /* the salt's length in bytes; it stands at XEZ_KEY_HEADER */
    XEZ_WRAPPED_LENGTH, /* the wrapped keys' length in bytes; they stand after the salt */
    XEZ_KEY_FIELDS      /* how many fields there are */
};

/*
 * Reads the key message at the start of `message` (message_len bytes) into `fields`, which has room for fields_len
 * words; XEZ_KEY_FIELDS are enough. Salt and wrapped keys stay where they are.
 *
 * Accepted: the value is how many bytes of `message` were used.
 * Refused: the first of XEZ_NOT_ENOUGH_DATA (under 16 bytes), XEZ_BAD_KEY_VERSION, XEZ_BAD_KEY_PACKET_TYPE,
 *     XEZ_BAD_KEY_SIGN, XEZ_NO_KEY, XEZ_BAD_CIPHER, XEZ_BAD_AUTH, XEZ_NOT_SRT or XEZ_BAD_ENCAPSULATION,
 *     XEZ_BAD_KEY_LENGTH, XEZ_NOT_ENOUGH_DATA (under the salt and the wrapped keys), XEZ_NO_ROOM (in words).
 */
uint64_t xez_read_key(const uint8_t *message, size_t message_len, uint32_t *fields, size_t fields_len);

/*
 * Why a call was refused, and what the answer's value then is. A place counts the words of a list from 0.
 */
enum xez_refusal_number {
    XEZ_ACCEPTED = 0,            /* not refused; the value is the function's own */
    XEZ_NOT_ENOUGH_DATA = 1,     /* the input is too short, or a list's length is no multiple of 4; the value is 0 */
    XEZ_CONTROL_BIT = 2,         /* the first bit says that this is no data packet; 0 */
    XEZ_BAD_DATA_ENCRYPTION = 3, /* both keys of a data packet; the two bits as they stand, 0x18 */
    XEZ_BAD_KEY_VERSION = 4,     /* the version of a key message is not 1; 0 */
    XEZ_BAD_KEY_PACKET_TYPE = 5, /* the type of a key message is not 1 or 2; the type */
    XEZ_BAD_KEY_SIGN = 6,        /* the sign of a key message is not 0x2029; the sign */
    XEZ_BAD_CIPHER = 7,          /* the cipher is over 3; the cipher */
    XEZ_BAD_AUTH = 8,            /* the authentication is not 0; that byte */
    XEZ_BAD_ENCAPSULATION = 9,   /* the encapsulation is neither 1 nor 2; that byte */
    XEZ_NOT_SRT = 10,            /* the encapsulation is 1, which is not for SRT; 0 */
    XEZ_BAD_KEY_LENGTH = 11,     /* a key's length is not 16, 24 or 32; the length in bytes */
    XEZ_TOO_LONG = 14,           /* more words than XEZ_LIST_LIMIT, or a payload over XEZ_PAYLOAD_LIMIT; the limit */
    XEZ_NOT_SEQUENCE = 15,       /* a number to compress is 2^31 or more; the value is its place; or the number asked
                                    about is, or the oldest of a merge, with 0 */
    XEZ_NOT_INCREASING = 16,     /* a number to compress does not come after the one before it; its place */
    XEZ_OPEN_RANGE = 17,         /* the last word starts a range; its place */
    XEZ_FLAGGED_END = 18,        /* the end of a range has its top bit set; the place of the end */
    XEZ_BACKWARD_RANGE = 19,     /* the end of a range does not come after its start; the place of the end */
    XEZ_TOO_MANY_NUMBERS = 20,   /* the list names more numbers than the limit; the place of the item (of its first
                                    word) that passes it; or two lists that are merged do, with 0 */
    XEZ_NO_ROOM = 21,            /* the output is too short; the length needed, in words (for xez_write_data in
                                    bytes) */
    XEZ_FIELD_TOO_WIDE = 22,     /* a field to write does not fit its bits; 1 sequence number, 2 message number */
    XEZ_NO_KEY = 23,             /* neither key flag of a key message is set; 0 */
    XEZ_BAD_SHEET = 26,          /* no gap sheet: the program read_sheet says so, and no function here; the most whole
                                    lines from its top that a sheet can begin with */
    XEZ_SHEET_EDITION = 27,      /* a gap sheet of an edition that is not read, said by that program too; the edition,
                                    0 past 32 bits */
    XEZ_OUTSIDE_WINDOW = 29      /* an item of a list to merge names a number that is not 0 to 2^30 - 1 steps after the
                                    oldest; the place of the item (of its first word) */
};

/* The refusal's number, 0 (XEZ_ACCEPTED) for an answer that is none. */
static inline uint32_t xez_refusal(uint64_t answer)
{
    return (uint32_t)(answer >> 32);
}

/* The function's own value where the call was accepted, or what the refusal carries. */
static inline uint32_t xez_value(uint64_t answer)
{
    return (uint32_t)(answer & 0xFFFFFFFFu);
}

/* 1 where the call was accepted, 0 where it was refused. */
static inline int xez_accepted(uint64_t answer)
{
    return xez_refusal(answer) == XEZ_ACCEPTED;
}

/* The refusal in English, without the value and without a full stop. */
static inline const char *xez_sentence(uint32_t refusal)
{
    switch (refusal) {
    case XEZ_ACCEPTED:
        return "accepted";
    case XEZ_NOT_ENOUGH_DATA:
        return "the input ends too early";
    case XEZ_CONTROL_BIT:
        return "this is a control packet and no data packet";
    case XEZ_BAD_DATA_ENCRYPTION:
        return "a data packet has both keys";
    case XEZ_BAD_KEY_VERSION:
        return "the version of a key message is not 1";
    case XEZ_BAD_KEY_PACKET_TYPE:
        return "a key message has no such type";
    case XEZ_BAD_KEY_SIGN:
        return "the sign of a key message is wrong";
    case XEZ_BAD_CIPHER:
        return "there is no such cipher";
    case XEZ_BAD_AUTH:
        return "there is no such authentication";
    case XEZ_BAD_ENCAPSULATION:
        return "there is no such encapsulation";
    case XEZ_NOT_SRT:
        return "the encapsulation is not that of SRT";
    case XEZ_BAD_KEY_LENGTH:
        return "a key has no such length";
    case XEZ_TOO_LONG:
        return "the input is longer than the limit";
    case XEZ_NOT_SEQUENCE:
        return "the number at this place is no sequence number";
    case XEZ_NOT_INCREASING:
        return "the number at this place does not come after the one before it";
    case XEZ_OPEN_RANGE:
        return "the range that starts at this place has no end";
    case XEZ_FLAGGED_END:
        return "the end of a range, at this place, is marked as a start";
    case XEZ_BACKWARD_RANGE:
        return "the end of a range, at this place, does not come after its start";
    case XEZ_TOO_MANY_NUMBERS:
        return "more numbers are named than the limit, from the item at this place on";
    case XEZ_NO_ROOM:
        return "the output is shorter than what is needed";
    case XEZ_FIELD_TOO_WIDE:
        return "a field is too wide for its bits";
    case XEZ_NO_KEY:
        return "a key message holds no key";
    case XEZ_BAD_SHEET:
        return "after so many lines no sheet goes on like this";
    case XEZ_SHEET_EDITION:
        return "the sheet is of an edition that is not read";
    case XEZ_OUTSIDE_WINDOW:
        return "the item at this place names a number outside the window from the oldest on";
    default:
        return "no refusal of these functions";
    }
}

/* The word at a place of a buffer. */
static inline uint32_t xez_get_word(const uint8_t *words, size_t place)
{
    const uint8_t *at = words + 4 * place;
    return (uint32_t)at[0] << 24 | (uint32_t)at[1] << 16 | (uint32_t)at[2] << 8 | (uint32_t)at[3];
}

/* Stores a word at a place of a buffer. */
static inline void xez_put_word(uint8_t *words, size_t place, uint32_t word)
{
    uint8_t *at = words + 4 * place;
    at[0] = (uint8_t)(word >> 24);
    at[1] = (uint8_t)(word >> 16);
    at[2] = (uint8_t)(word >> 8);
    at[3] = (uint8_t)word;
}

#ifdef __cplusplus
}
#endif

#endif
