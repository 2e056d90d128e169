/*
 * xez_read_data, xez_write_data, xez_wire_size and xez_read_key against a model of the rules that shares no code with
 * the inside: the document's own cases, every value of every byte of a header, every set of faults, every length of a
 * salt, lengths and rooms about each limit, and random and damaged packets. Each call gets its inputs in memory that
 * cannot be written, every buffer between pages that cannot be touched, and canaries around the output; a call that
 * takes more than a second or two of the processor's time is a failure too.
 *
 *     packet_test [SEED [TIMES]]       TIMES multiplies the random cases; 1 is some hundred thousand
 */
#define _GNU_SOURCE
#include "guarded.h"
#include "packet_model.h"
#include "xezalbur.h"

/* ---- one call, held against the model */

enum function { READ_DATA, WRITE_DATA, READ_KEY, WIRE_SIZE };

#define PAGES 34 /* more than twice the longest packet */
#define LONGEST (16 + MODEL_PAYLOAD)
#define LONGEST_KEY 1108

static struct memory byte_memory, word_memory;
static struct output out;
static struct tally tally[4] = {
    {.function = "xez_read_data"}, {.function = "xez_write_data"}, {.function = "xez_read_key"},
    {.function = "xez_wire_size"}};

/* What is given to the call: a packet, a message or a payload; the fields to write; the room, in bytes for a packet
   that is written and in words for fields that are read; the family, which stands in the fields that are read into where
   there is room for it. */
static enum function given_function;
static uint8_t bytes[PAGES * PAGE];
static size_t length;
static uint32_t fields[16];
static size_t fields_length;
static size_t room;
static uint32_t family = 4;
static const char *kind = "none";

static struct packet_outcome expected;

static void fail(const char *why)
{
    const struct tally *t = &tally[given_function];
    size_t i;
    printf("FAILED: %s: %s\n  kind %s, seed %" PRIu64 ", call %" PRIu64 ", room %zu, family %" PRIu32, t->function, why,
           kind, seed, t->calls, room, family);
    if (given_function == WRITE_DATA) {
        printf(", %zu fields:", fields_length);
        for (i = 0; i < fields_length && i < 16; i++)
            printf(" %" PRIX32, fields[i]);
    }
    printf(", %zu bytes:", length);
    for (i = 0; i < length && i < 40; i++)
        printf("%s%02X", i % 4 == 0 ? " " : "", bytes[i]);
    printf("%s\n", length > 40 ? " .." : "");
    fflush(stdout);
    _exit(1);
}

/* How the buffers of a call stand: each at the end of its memory or at its start, and those that are empty nowhere. */
enum { BYTES_AT_END = 1, FIELDS_AT_END = 2, OUT_AT_END = 4, ALL_AT_END = 7, EMPTY_IS_NULL = 8 };

static void try_placed(enum function f, unsigned how)
{
    const uint8_t *in = input(&byte_memory, bytes, length, how & BYTES_AT_END);
    const uint32_t *words = NULL;
    int no_in = length == 0 && (how & EMPTY_IS_NULL), no_out = room == 0 && (how & EMPTY_IS_NULL);
    uint8_t *packet;
    uint32_t *read;
    uint64_t answer = 0;

    given_function = f;
    paint(&out, f == WRITE_DATA ? room : 4 * room, how & OUT_AT_END, tally[f].calls++);
    packet = no_out ? NULL : out.buffer;
    read = no_out ? NULL : (uint32_t *)(void *)out.buffer;
    if (f == READ_DATA && room > XEZ_FAMILY) {
        memcpy(out.buffer + 4 * XEZ_FAMILY, &family, 4);
        memcpy(out.should + 4 * XEZ_FAMILY, &family, 4);
    }
    if (f == READ_DATA) {
        model_read_data(bytes, length, room, &expected);
        begin_call();
        answer = end_call(xez_read_data(no_in ? NULL : in, length, read, room));
    } else if (f == READ_KEY) {
        model_read_key(bytes, length, room, &expected);
        begin_call();
        answer = end_call(xez_read_key(no_in ? NULL : in, length, read, room));
    } else {
        int no_words = fields_length == 0 && (how & EMPTY_IS_NULL);
        words = input(&word_memory, fields, 4 * fields_length, how & FIELDS_AT_END);
        model_write_data(fields, fields_length, bytes, length, room, &expected);
        begin_call();
        answer = end_call(
            xez_write_data(no_words ? NULL : words, fields_length, no_in ? NULL : in, length, packet, room));
    }

    judge_answer(&tally[f], answer, expected.refusal, expected.value);
    memcpy(out.should, expected.words, 4 * expected.words_written);
    memcpy(out.should, expected.bytes, expected.bytes_written);
    if (!is_as_it_should_be(&out))
        fail(expected.refusal ? "a refusal wrote to memory" : "other fields, bytes or memory than the model's");
    if (memcmp(in, bytes, length) != 0 || (words && memcmp(words, fields, 4 * fields_length) != 0))
        fail("the input was changed");
}

/* Each buffer in a place by chance. */
static void try(enum function f)
{
    try_placed(f, (unsigned)below(16));
}

/* All at their starts, then all at their ends. */
static void try_both(enum function f)
{
    try_placed(f, EMPTY_IS_NULL);
    try_placed(f, ALL_AT_END);
}

/* ---- what is given */

/* Bytes as the document writes them. */
static void give(const char *digits)
{
    unsigned byte;
    length = 0;
    while (*digits) {
        while (*digits == ' ')
            digits++;
        if (sscanf(digits, "%2x", &byte) != 1)
            fail("the test has a misprint");
        bytes[length++] = (uint8_t)byte;
        digits += 2;
    }
}

/* Any bytes, from one place to another. */
static void any_bytes(size_t from, size_t to)
{
    uint64_t drawn = 0;
    for (; from < to; from++, drawn >>= 8) {
        if (from % 8 == 0 || drawn == 0)
            drawn = draw();
        bytes[from] = (uint8_t)drawn;
    }
}

/* The fields that these words are. */
static void give_fields(const uint32_t *words)
{
    memcpy(fields, words, 4 * XEZ_PACKET_FIELDS);
    fields_length = XEZ_PACKET_FIELDS;
}

static const uint32_t fields_of_document[] = {5, 1, 1, 1, 0, 0, 1, 9, 256, 2};
static const char packet_of_document[] = "00000005 E4000009 00000100 00000002 AA";
static const char key_of_document[] = "12202901 00000000 02000200 00000404";

/* Mostly one of the two. */
static uint32_t some_family(void)
{
    switch (below(8)) {
    case 0:
        return (uint32_t)draw();
    case 1:
        return (uint32_t)below(16);
    default:
        return below(2) ? 4 : 6;
    }
}

static size_t small(void)
{
    switch (below(64)) {
    case 0:
        return (size_t)below(500);
    case 1: case 2:
        return (size_t)below(100);
    default:
        return (size_t)below(20);
    }
}

/* The length of a payload, now and then about the limit. */
static size_t some_payload(void)
{
    return below(800) ? small() : MODEL_PAYLOAD - 8 + (size_t)below(16);
}

/* The room for fields, of which `need` are enough. */
static size_t some_words(size_t need)
{
    switch (below(8)) {
    case 0:
        return need - 1;
    case 1:
        return (size_t)below(need + 3);
    case 2:
        return need + (size_t)below(60);
    default:
        return need;
    }
}

/* The room for a packet of which `need` bytes are enough. */
static size_t some_bytes(size_t need)
{
    switch (below(8)) {
    case 0:
        return need - 1;
    case 1:
        return (size_t)below(need);
    case 2:
        return need + (size_t)below(200);
    case 3:
        return need > 16 && below(2) ? need - 16 : need + 1;
    default:
        return need;
    }
}

/* One byte of the header made another. */
static void damage(void)
{
    size_t at = (size_t)below(16), other = (size_t)below(16);
    uint8_t byte = bytes[at];
    switch (below(4)) {
    case 0:
        bytes[at] = (uint8_t)draw();
        break;
    case 1:
        bytes[at] = bytes[other];
        bytes[other] = byte;
        break;
    default:
        bytes[at] = (uint8_t)(byte ^ 1u << below(8));
    }
}

/* ---- data packets */

/* The faults of a packet to read are the first two, those of one to write all but the first. */
enum {
    CONTROL = 1,
    BOTH_KEYS = 2,
    FEW_FIELDS = 4,
    TOO_LONG = 8,
    WIDE_SEQUENCE = 16,
    WIDE_MESSAGE = 32,
    NO_ROOM = 64,
    DATA_FAULTS = 128
};

/* A header that has these faults and no other. */
static void data_header(unsigned faults)
{
    any_bytes(0, 16);
    bytes[0] = (uint8_t)((bytes[0] & 0x7F) | (faults & CONTROL ? 0x80 : 0));
    if (faults & BOTH_KEYS)
        bytes[4] |= 0x18;
    else if ((bytes[4] & 0x18) == 0x18)
        bytes[4] ^= below(2) ? 0x10 : 0x08;
}

static void every_byte_of_a_data_header(void)
{
    static const char *const packets[] = {
        packet_of_document,
        "00000000 00000000 00000000 00000000",
        "7FFFFFFF E7FFFFFF FFFFFFFF FFFFFFFF 00",
        "2A54A8D1 4B96E5D2 8F1E3C78 79F3E7CF 0102",
        "55AB572E 94691A2D 70E1C387 860C1830 FFFFFF",
    };
    size_t packet, at;
    unsigned value;
    kind = "every byte of a data header";
    for (packet = 0; packet < sizeof packets / sizeof packets[0]; packet++)
        for (at = 0; at < 16; at++)
            for (value = 0; value < 256; value++) {
                give(packets[packet]);
                bytes[at] = (uint8_t)value;
                room = value % 16 == 15 ? 9 : 10;
                try_both(READ_DATA);
            }
}

/* Every length about the header and about the limit, with every set of faults and every room that may matter. */
static void data_lengths(void)
{
    static const size_t lengths[] = {65534, 65535, 65536, 65537, 65549, 65550, 65551, 65552, 65553, 65567, 65568, 65569,
                                     131070, 131072, 131088, 131089, 131100};
    size_t i;
    unsigned faults;
    kind = "lengths and rooms of a data packet";
    any_bytes(0, sizeof bytes);
    for (faults = 0; faults < 4; faults++) {
        for (length = 0; length <= 40; length++)
            for (room = 0; room <= 12; room++) {
                data_header(faults);
                try_both(READ_DATA);
            }
        for (i = 0; i < sizeof lengths / sizeof lengths[0]; i++) {
            length = lengths[i];
            for (room = 8; room <= 12; room++) {
                data_header(faults);
                family = room == 12 ? 6 : 4;
                try_both(READ_DATA);
            }
        }
    }
}

static void read_random(uint64_t rounds)
{
    uint64_t i;
    for (i = 0; i < rounds; i++) {
        kind = "data packets";
        length = 16 + some_payload();
        data_header(below(8) ? 0 : (unsigned)below(4)); /* neither fault, one or both */
        any_bytes(16, length < 600 ? length : 600);
        room = some_words(10 + (size_t)below(2));
        family = some_family();
        try(READ_DATA);
        kind = "damaged data packets";
        damage();
        if (below(8) == 0)
            length = (size_t)below(length + 1);
        try(READ_DATA);
        kind = "any bytes as a data packet";
        length = (size_t)below(40);
        room = (size_t)below(20);
        any_bytes(0, length);
        try(READ_DATA);
    }
}

/* "Writing an accepted packet's record and payload gives its bytes again." And back: what was written is read as it was
   given, each flag as 0 or 1. */
static void and_back(uint64_t rounds)
{
    static uint8_t first[LONGEST];
    uint32_t read[XEZ_PACKET_FIELDS];
    uint64_t i;
    kind = "there and back";
    for (i = 0; i < rounds; i++) {
        data_header(0);
        length = 16 + some_payload();
        if (length > LONGEST)
            length = LONGEST;
        any_bytes(16, length < 600 ? length : 600);
        memcpy(first, bytes, length);
        room = 10;
        try(READ_DATA);
        if (expected.refusal != 0 || expected.value != length - 16)
            fail("a packet without a fault is not read");
        memcpy(read, expected.words, sizeof read);
        give_fields(read);
        room = length;
        length -= 16;
        memmove(bytes, bytes + 16, length);
        try(WRITE_DATA);
        if (expected.value != length + 16 || memcmp(first, expected.bytes, length + 16) != 0)
            fail("the bytes do not come back");
        length += 16;
        memcpy(bytes, expected.bytes, length);
        room = 10;
        try(READ_DATA);
        if (memcmp(read, expected.words, sizeof read) != 0)
            fail("the fields do not come back");
    }
}

static uint32_t some_sequence(void)
{
    static const uint32_t at_limits[] = {0, 1, 0x3FFFFFFF, 0x40000000, 0x7FFFFFFE, 0x7FFFFFFF, 0x80000000, 0xFFFFFFFF};
    return below(4) ? (uint32_t)below(0x80000000u) : at_limits[below(8)];
}

static uint32_t some_message(void)
{
    static const uint32_t at_limits[] = {0, 1, 0x1FFFFFF, 0x2000000, 0x3FFFFFE, 0x3FFFFFF, 0x4000000, 0xFFFFFFFF};
    return below(4) ? (uint32_t)below(0x4000000) : at_limits[below(8)];
}

static uint32_t some_flag(void)
{
    switch (below(8)) {
    case 0:
        return (uint32_t)1 << below(32);
    case 1:
        return (uint32_t)draw();
    default:
        return (uint32_t)below(2);
    }
}

/* Fields that have these faults and no other. */
static void data_fields(unsigned faults)
{
    size_t i;
    for (i = 0; i < 16; i++)
        fields[i] = (uint32_t)draw();
    for (i = XEZ_BEGINS; i <= XEZ_RETRANSMITTED; i++)
        fields[i] = some_flag();
    fields[XEZ_FAMILY] = some_family();
    fields[XEZ_SEQUENCE] = (uint32_t)(faults & WIDE_SEQUENCE ? 0x80000000u + below(0x80000000u) : below(0x80000000u));
    fields[XEZ_MESSAGE] = (uint32_t)(faults & WIDE_MESSAGE ? 0x4000000 + below(0xFC000000u) : below(0x4000000));
    if (!(faults & BOTH_KEYS)) {
        fields[below(2) ? XEZ_ODD_KEY : XEZ_EVEN_KEY] = 0;
    } else {
        if (!fields[XEZ_ODD_KEY])
            fields[XEZ_ODD_KEY] = 1;
        if (!fields[XEZ_EVEN_KEY])
            fields[XEZ_EVEN_KEY] = 1;
    }
}

static void wide_fields(void)
{
    static const uint32_t sequences[] = {0, 1, 0x3FFFFFFF, 0x7FFFFFFE, 0x7FFFFFFF, 0x80000000, 0x80000001, 0xC0000005,
                                         0xFFFFFFFF};
    static const uint32_t messages[] = {0, 1, 0x1FFFFFF, 0x3FFFFFE, 0x3FFFFFF, 0x4000000, 0x4000001, 0x5000000,
                                        0x7FFFFFF, 0x8000000, 0x7FFFFFFF, 0x80000000, 0xFFFFFFFF};
    size_t i, j;
    unsigned keys;
    kind = "wide fields";
    for (i = 0; i < sizeof sequences / sizeof sequences[0]; i++)
        for (j = 0; j < sizeof messages / sizeof messages[0]; j++)
            for (keys = 0; keys < 4; keys++) {
                give_fields(fields_of_document);
                fields[XEZ_SEQUENCE] = sequences[i];
                fields[XEZ_MESSAGE] = messages[j];
                fields[XEZ_ODD_KEY] = keys & 1;
                fields[XEZ_EVEN_KEY] = keys >> 1;
                length = 3;
                for (room = 18; room <= 19; room++)
                    try_both(WRITE_DATA);
            }
}

/* A flag is up where its word is not 0, whatever else it is. */
static void flag_words(void)
{
    static const uint32_t ups[] = {1, 2, 3, 8, 0x10, 0x100, 0x4000000, 0x8000000, 0x80000000, 0xFFFFFFFE, 0xFFFFFFFF,
                                   0};
    size_t flag, i, j;
    unsigned others;
    kind = "flag words";
    length = 2;
    room = 18;
    for (flag = XEZ_BEGINS; flag <= XEZ_RETRANSMITTED; flag++)
        for (others = 0; others < 64; others++)
            for (i = 0; i < 32 + sizeof ups / sizeof ups[0]; i++) {
                if (i % 8 != others % 8 && others != 0) /* with the other flags down, every word; else one of eight */
                    continue;
                give_fields(fields_of_document);
                for (j = XEZ_BEGINS; j <= XEZ_RETRANSMITTED; j++)
                    fields[j] = others >> (j - XEZ_BEGINS) & 1;
                fields[flag] = i < 32 ? (uint32_t)1 << i : ups[i - 32];
                try_both(WRITE_DATA);
            }
    for (i = 0; i < sizeof ups / sizeof ups[0]; i++)
        for (j = 0; j < sizeof ups / sizeof ups[0]; j++) {
            give_fields(fields_of_document);
            fields[XEZ_ODD_KEY] = ups[i];
            fields[XEZ_EVEN_KEY] = ups[j];
            try_both(WRITE_DATA);
        }
}

/* Every room for every short payload, every count of fields, lengths about the limit, and every set of faults. */
static void write_lengths(void)
{
    static const size_t lengths[] = {65519, 65520, 65534, 65535, 65536, 65537, 65551, 65552, 131071, 131072, 131080};
    size_t i;
    unsigned faults;
    kind = "lengths and rooms of a data packet to write";
    any_bytes(0, sizeof bytes);
    for (length = 0; length <= 24; length++)
        for (room = 0; room <= length + 20; room++) {
            data_fields(0);
            fields_length = 10;
            try_both(WRITE_DATA);
        }
    for (fields_length = 0; fields_length <= 12; fields_length++)
        for (length = 0; length <= 40; length += 8)
            for (room = length + 14; room <= length + 17; room++) {
                data_fields(0);
                try_both(WRITE_DATA);
            }
    for (i = 0; i < sizeof lengths / sizeof lengths[0]; i++) {
        size_t need = 16 + lengths[i];
        size_t rooms[] = {0, need - 65536, lengths[i], need - 1, need, need + 1, need + 40};
        size_t j;
        length = lengths[i];
        fields_length = 10;
        for (j = 0; j < sizeof rooms / sizeof rooms[0]; j++) {
            room = rooms[j] <= sizeof bytes ? rooms[j] : 0;
            data_fields(0);
            try_both(WRITE_DATA);
        }
    }
    for (faults = 0; faults < DATA_FAULTS; faults += 2) {
        data_fields(faults);
        fields_length = faults & FEW_FIELDS ? 9 : 10;
        length = faults & TOO_LONG ? MODEL_PAYLOAD + 1 : 5;
        room = 16 + length - (faults & NO_ROOM ? 1 : 0);
        try_both(WRITE_DATA);
    }
}

static void write_random(uint64_t rounds)
{
    uint64_t i;
    for (i = 0; i < rounds; i++) {
        kind = "data packets to write";
        length = some_payload();
        any_bytes(0, length < 600 ? length : 600);
        data_fields(below(32) ? 0 : BOTH_KEYS);
        fields[XEZ_SEQUENCE] = some_sequence();
        fields[XEZ_MESSAGE] = some_message();
        fields_length = below(16) ? 10 + (size_t)below(2) : (size_t)below(14);
        room = some_bytes(16 + length);
        try(WRITE_DATA);
        if (i % 8 == 0) {
            size_t j;
            kind = "any words as fields";
            for (j = 0; j < XEZ_DATA_FIELDS; j++) {
                fields[j] = (uint32_t)draw();
                fields[j] >>= below(32);
            }
            if (below(2))
                fields[XEZ_ODD_KEY] = 0;
            try(WRITE_DATA);
        }
    }
}

/* ---- what a data packet is on the wire */

static void try_size(uint32_t of_family, size_t of_length)
{
    given_function = WIRE_SIZE;
    tally[WIRE_SIZE].calls++;
    family = of_family;
    length = 0;
    room = of_length;
    model_wire_size(of_family, of_length, &expected);
    begin_call();
    judge_answer(&tally[WIRE_SIZE], end_call(xez_wire_size(of_family, of_length)), expected.refusal, expected.value);
}

/* Each number that is no family but may be taken for one, with each length that may matter. */
static void sizes(void)
{
    static const uint32_t families[] = {0, 1, 2, 3, 4, 5, 6, 7, 8, 9, 10, 12, 14, 22, 41, 46, 60, 64, 106, 262, 65542,
                                        0x60000000, 0x80000006, 0xFFFFFFFF};
    size_t i, of_length;
    unsigned power;
    kind = "sizes on the wire";
    for (i = 0; i < sizeof families / sizeof families[0]; i++) {
        for (of_length = 0; of_length <= 70; of_length++)
            try_size(families[i], of_length);
        for (of_length = MODEL_PAYLOAD - 70; of_length <= MODEL_PAYLOAD + 70; of_length++)
            try_size(families[i], of_length);
        for (power = 0; power < 8 * sizeof of_length; power++) {
            try_size(families[i], (size_t)1 << power);
            try_size(families[i], ((size_t)1 << power) + 5);
            try_size(families[i], 0 - ((size_t)1 << power));
        }
    }
    for (i = 0; i < 20000; i++)
        try_size(some_family(), some_payload());
}

/* ---- key messages */

enum {
    VERSION = 1,
    TYPE = 2,
    SIGN = 4,
    CIPHER = 8,
    AUTH = 16,
    ENCAPSULATION = 32,
    KEY_LENGTH = 64,
    KEY_FAULTS = 128
};

static const uint8_t key_words[] = {4, 6, 8};

static size_t key_length(size_t flags, size_t salt_words, size_t words)
{
    return 16 + 4 * salt_words + 4 * words * (flags / 2 + flags % 2) + 8;
}

/* A key message that has these faults and no other, but that flags 0 are one more. The reserved fields are any, and so
   is what follows. */
static void key_message(unsigned flags, unsigned salt_words, unsigned words, unsigned faults)
{
    any_bytes(0, 16);
    do
        bytes[0] = faults & (VERSION | TYPE) ? (uint8_t)draw() : (uint8_t)(0x11 + below(2));
    while ((bytes[0] / 16 == 1) == ((faults & VERSION) != 0) ||
           (bytes[0] % 16 == 1 || bytes[0] % 16 == 2) == ((faults & TYPE) != 0));
    bytes[1] = 0x20;
    bytes[2] = 0x29;
    if (faults & SIGN) {
        size_t at = 1 + (size_t)below(2);
        bytes[at] ^= (uint8_t)(1 + below(255));
    }
    bytes[3] = (uint8_t)((bytes[3] & 0xFC) | flags);
    bytes[8] = (uint8_t)(faults & CIPHER ? 4 + below(252) : below(4));
    bytes[9] = (uint8_t)(faults & AUTH ? 1 + below(255) : 0);
    bytes[10] = 2;
    if (faults & ENCAPSULATION)
        bytes[10] = (uint8_t)(below(2) ? 1 : 3 + below(254)); /* 256 is 0 */
    bytes[14] = (uint8_t)salt_words;
    bytes[15] = (uint8_t)words;
    while (faults & KEY_LENGTH && (bytes[15] == 4 || bytes[15] == 6 || bytes[15] == 8))
        bytes[15] = (uint8_t)(below(2) ? below(12) : below(256));
}

static void every_byte_of_a_key_header(void)
{
    static const char *const messages[] = {
        key_of_document,
        "11202903 12345678 01000200 00000208",
        "12202900 FFFFFFFF 00000200 00000006",
        "112029FE 89ABCDEF 030002FF FFFFFF06",
        "122029FF 00000001 020002A5 5AC30108",
    };
    size_t message, at, whole;
    unsigned value;
    kind = "every byte of a key header";
    any_bytes(0, 2000);
    for (message = 0; message < sizeof messages / sizeof messages[0]; message++)
        for (at = 0; at < 16; at++)
            for (value = 0; value < 256; value++) {
                give(messages[message]);
                whole = key_length(bytes[3] % 4, bytes[14], bytes[15]);
                bytes[at] = (uint8_t)value;
                room = value % 16 == 13 ? 5 : 6;
                length = whole;
                try(READ_KEY);
                length = LONGEST_KEY + 3;
                try(READ_KEY);
            }
}

/* Every set of faults, with a key and with none, and with every length and room that may matter. */
static void key_faults(void)
{
    unsigned faults, i, which;
    kind = "sets of faults of a key message";
    for (faults = 0; faults < KEY_FAULTS; faults++)
        for (i = 0; i < 24; i++)
            for (which = 0; which < 5; which++) {
                unsigned flags = i % 4, salt = (unsigned)below(6), words = key_words[i % 3];
                size_t whole = key_length(flags, salt, words);
                size_t lengths[] = {15, 16, whole - 1, whole, whole + 5};
                key_message(flags, salt, words, faults);
                length = lengths[which];
                room = i % 2 ? 5 : 6;
                try(READ_KEY);
            }
}

/* Every length of a salt, with a key or two of each length: whole, one byte short, and with more after it. */
static void salts(void)
{
    unsigned salt, flags, i;
    kind = "salts";
    for (salt = 0; salt < 256; salt++)
        for (flags = 1; flags < 4; flags++)
            for (i = 0; i < 3; i++) {
                size_t whole = key_length(flags, salt, key_words[i]);
                key_message(flags, salt, key_words[i], 0);
                room = 6;
                length = whole;
                try_both(READ_KEY);
                if (expected.refusal != 0 || expected.value != whole)
                    fail("a whole key message is not read");
                length = whole - 1;
                try(READ_KEY);
                length = whole + 1 + (size_t)below(40);
                try(READ_KEY);
            }
}

/* Messages cut at each length, and every room. */
static void cut_messages(void)
{
    static const uint8_t salt_words[] = {0, 1, 4, 63, 64, 255};
    unsigned salt, flags, i;
    kind = "messages cut at each length";
    for (salt = 0; salt < sizeof salt_words; salt++)
        for (flags = 0; flags < 4; flags++)
            for (i = 0; i < 3; i++) {
                size_t whole = key_length(flags, salt_words[salt], key_words[i]);
                key_message(flags, salt_words[salt], key_words[i], 0);
                room = 6;
                for (length = 0; length <= whole + 1; length++)
                    try(READ_KEY);
                for (room = 0; room <= 12; room++)
                    for (length = whole - 1; length <= whole + 1; length++)
                        try_both(READ_KEY);
            }
}

static void key_random(uint64_t rounds)
{
    uint64_t i;
    for (i = 0; i < rounds; i++) {
        unsigned flags = (unsigned)(below(16) ? 1 + below(3) : 0), salt = (unsigned)below(below(8) ? 10 : 256);
        unsigned words = key_words[below(3)];
        size_t whole = key_length(flags, salt, words), right;
        kind = "key messages";
        key_message(flags, salt, words, 0);
        any_bytes(16, whole + 8);
        length = below(4) ? whole + (size_t)below(8) : (size_t)below(whole + 1);
        room = some_words(6);
        try(READ_KEY);
        kind = "damaged key messages";
        length = whole + (size_t)below(8);
        damage();
        try(READ_KEY);
        kind = "any bytes after the first of a key message";
        key_message(flags, salt, words, 0);
        right = (size_t)below(17);
        any_bytes(right, 16);
        try(READ_KEY);
        kind = "key messages with one fault";
        key_message(flags, salt, words, 1u << below(7));
        try(READ_KEY);
        kind = "any bytes as a key message";
        if (below(4) == 0) {
            length = (size_t)below(40);
            any_bytes(0, length);
            try(READ_KEY);
        }
    }
}

/* ---- the cases of RULES 4 and 6, with the answers as they stand there */

static void document_says(uint32_t refusal, uint64_t value)
{
    if (expected.refusal != refusal || expected.value != value)
        fail("the model does not say what the document says");
}

static void document_cases(void)
{
    static const uint32_t key_fields[] = {2, 1, 0, 2, 16, 24};
    kind = "the rules' cases";

    /* "sequence 5, only, in order, no encryption, retransmitted, message 9, time 256, socket 2, one payload byte" */
    give(packet_of_document);
    room = 10;
    try_both(READ_DATA);
    document_says(0, 1);
    if (memcmp(expected.words, fields_of_document, sizeof fields_of_document) != 0)
        fail("the model does not say what the document says");

    /* "with FC for E4: refusal 3" */
    bytes[4] = 0xFC;
    try_both(READ_DATA);
    document_says(3, 0x18);

    /* and written, it is the same again */
    give_fields(fields_of_document);
    bytes[0] = 0xAA;
    length = 1;
    room = 17;
    try_both(WRITE_DATA);
    document_says(0, 17);
    give(packet_of_document);
    if (memcmp(expected.bytes, bytes, 17) != 0)
        fail("the model does not say what the document says");

    /* "44 plus payload for IPv4 and 64 plus payload for IPv6" */
    try_size(XEZ_IPV4, 1);
    document_says(0, 45);
    try_size(XEZ_IPV6, 1);
    document_says(0, 65);

    /* "and 40 bytes more is accepted, using 56; with 39, refusal 1; byte 15 made 05, refusal 11 carrying 20" */
    give(key_of_document);
    any_bytes(16, LONGEST_KEY);
    room = 6;
    length = 16 + 40;
    try_both(READ_KEY);
    document_says(0, 56);
    if (memcmp(expected.words, key_fields, sizeof key_fields) != 0)
        fail("the model does not say what the document says");
    length = 16 + 39;
    try_both(READ_KEY);
    document_says(1, 0);
    length = 16 + 40;
    bytes[15] = 5;
    try_both(READ_KEY);
    document_says(11, 20);

    /* "flags 0": "23 NoKey, after the sign check (6) and before the cipher (7)"; "byte 3 of 0xFC is no key" */
    bytes[3] = 0;
    try_both(READ_KEY);
    document_says(23, 0);
    bytes[3] = 0xFC;
    bytes[8] = 4;
    try_both(READ_KEY);
    document_says(23, 0);
    bytes[1] = 0x21;
    try_both(READ_KEY);
    document_says(6, 0x2129);

    /* "The longest message is 1,108 bytes." */
    give("11202903 00000000 00000200 0000FF08");
    length = LONGEST_KEY;
    try_both(READ_KEY);
    document_says(0, LONGEST_KEY);
    length = LONGEST_KEY - 1;
    try_both(READ_KEY);
    document_says(1, 0);
}

/* Any buffer may be a null pointer where its length is 0. */
static void null_pointers(void)
{
    unsigned empty;
    kind = "null pointers";
    for (empty = 0; empty < 8; empty++) {
        give(packet_of_document);
        length = empty & 1 ? 0 : length;
        room = empty & 2 ? 0 : 10;
        try_placed(READ_DATA, EMPTY_IS_NULL | ALL_AT_END);
        give_fields(fields_of_document);
        fields_length = empty & 4 ? 0 : 10;
        room = empty & 2 ? 0 : 16 + length;
        try_placed(WRITE_DATA, EMPTY_IS_NULL | ALL_AT_END);
        give(key_of_document);
        length = empty & 1 ? 0 : 56;
        room = empty & 2 ? 0 : 6;
        try_placed(READ_KEY, EMPTY_IS_NULL | ALL_AT_END);
    }
}

/* Lengths past 32 bits. What is too long is refused by its length alone; what is only the start of its buffer is read
   from there, and the rest of the buffer is not looked at: of the far input only the first page can be. */
static void great_lengths(void)
{
    uint8_t *far_in = far_memory(PROT_NONE), *far_out = far_memory(PROT_READ | PROT_WRITE);
    const size_t great = ((size_t)1 << 32) + 1;
    const uint64_t too_long = (uint64_t)14 << 32 | MODEL_PAYLOAD;
    kind = "lengths past 32 bits";
    if (!far_in || !far_out || mprotect(far_in, PAGE, PROT_READ | PROT_WRITE)) {
        printf("packet_test: lengths past 32 bits were NOT RUN: no address space\n");
    } else {
        uint32_t *far_words = (uint32_t *)(void *)far_out;
        uint32_t own[XEZ_DATA_FIELDS] = {0};
        uint8_t packet[24] = {0};
        size_t more;

        for (more = 0; more < 40; more += 13) {
            given_function = READ_DATA;
            give(packet_of_document);
            memcpy(far_in, bytes, length);
            begin_call();
            if (end_call(xez_read_data(far_in, great + more, own, XEZ_DATA_FIELDS)) != too_long)
                fail("a packet of 2^32 bytes and more is not refused as too long");

            given_function = WRITE_DATA;
            begin_call();
            if (end_call(xez_write_data(fields_of_document, XEZ_PACKET_FIELDS, far_in, great - 1 + more, packet,
                                        sizeof packet)) != too_long)
                fail("a payload of 2^32 bytes and more is not refused as too long");
            tally[READ_DATA].calls++;
            tally[WRITE_DATA].calls++;
        }

        given_function = READ_DATA;
        give(packet_of_document);
        begin_call();
        if (end_call(xez_read_data(bytes, length, far_words, great)) != 1 ||
            memcmp(far_words, fields_of_document, sizeof fields_of_document) != 0 || far_words[XEZ_FAMILY] != 0)
            fail("a room of 2^32 + 1 words is taken for less");

        given_function = WRITE_DATA;
        memset(far_out, 0, PAGE);
        begin_call();
        if (end_call(xez_write_data(fields_of_document, XEZ_PACKET_FIELDS, bytes + 16, 1, far_out, great)) != 17 ||
            memcmp(far_out, bytes, 17) != 0 || far_out[17] != 0)
            fail("a room of 2^32 + 1 bytes is taken for less");
        memcpy(far_in, fields_of_document, sizeof fields_of_document);
        begin_call();
        if (end_call(xez_write_data((uint32_t *)(void *)far_in, great, bytes + 16, 1, packet, sizeof packet)) != 17 ||
            memcmp(packet, bytes, 17) != 0)
            fail("2^32 + 1 fields are taken for less");

        given_function = READ_KEY;
        give(key_of_document);
        memcpy(far_in, bytes, length);
        begin_call();
        if (end_call(xez_read_key(far_in, great, own, XEZ_KEY_FIELDS)) != 56 || own[XEZ_SALT_LENGTH] != 16)
            fail("a message of 2^32 + 1 bytes is taken for less");
        memset(far_out, 0, PAGE);
        begin_call();
        if (end_call(xez_read_key(far_in, 56, far_words, great)) != 56 || far_words[XEZ_WRAPPED_LENGTH] != 24 ||
            far_words[XEZ_KEY_FIELDS] != 0)
            fail("a room of 2^32 + 1 words is taken for less");
        tally[READ_DATA].calls++;
        tally[WRITE_DATA].calls += 2;
        tally[READ_KEY].calls += 2;
    }
    give_back(far_in);
    give_back(far_out);
}

int main(int argc, char **argv)
{
    static const uint32_t read_gives[] = {0, 1, 2, 3, 14, 21}, write_gives[] = {0, 1, 3, 14, 21, 22},
                          key_gives[] = {0, 1, 4, 5, 6, 7, 8, 9, 10, 11, 21, 23}, size_gives[] = {0, 14};
    uint64_t times = begin_test("packet_test", argc, argv);

    byte_memory = guarded(PAGES);
    word_memory = guarded(1);
    out = guarded_output(PAGES);
    document_cases();
    null_pointers();
    /* a little of what is random comes first: it meets most mistakes at once */
    read_random(2000);
    write_random(2000);
    key_random(2000);
    sizes();
    every_byte_of_a_data_header();
    data_lengths();
    wide_fields();
    flag_words();
    write_lengths();
    every_byte_of_a_key_header();
    key_faults();
    salts();
    cut_messages();
    great_lengths();
    and_back(20000 * times);
    read_random(50000 * times);
    write_random(150000 * times);
    key_random(30000 * times);

    report("packet_test", &tally[READ_DATA], read_gives, sizeof read_gives / sizeof read_gives[0]);
    report("packet_test", &tally[WRITE_DATA], write_gives, sizeof write_gives / sizeof write_gives[0]);
    report("packet_test", &tally[WIRE_SIZE], size_gives, sizeof size_gives / sizeof size_gives[0]);
    report("packet_test", &tally[READ_KEY], key_gives, sizeof key_gives / sizeof key_gives[0]);
    printf("packet_test: every call agrees with the model\n");
    return 0;
}
