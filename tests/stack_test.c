/*
 * How much stack the C functions use: in calls that are accepted (65,536 numbers in every shape, merged with themselves and with a
 * list in disorder too, packets with no payload and with the longest, the shortest and the longest key message) and in calls that
 * are refused, for every refusal of each function.
 * A thread's stack is painted below the call, and what lost its paint was used. The words of a full list alone would
 * take 256 KiB, a packet 64 KiB.
 */
#define _GNU_SOURCE
#include <pthread.h>
#include <stdio.h>
#include <stdlib.h>
#include <string.h>
#include <sys/mman.h>

#include "xezalbur.h"

#define PAGE 4096
#define STACK (1024 * 1024)
#define PAINT 0x5A
#define MOST_USED 1024
#define MOST_USED_BY_MERGE 1536 /* it keeps half a kilobyte of marks */

enum function { COMPRESS, EXPAND, WHY_LOST, MERGE, READ_DATA, WRITE_DATA, WIRE_SIZE, READ_KEY, FUNCTIONS };
static const char *const names[FUNCTIONS] = {"xez_compress", "xez_expand", "xez_why_lost", "xez_merge",
                                             "xez_read_data", "xez_write_data", "xez_wire_size", "xez_read_key"};

/* ---- how much stack a call uses */

static uint8_t *stack;
static uintptr_t begins;
static size_t idle;

/* Paints the stack up to a little below its own frame. */
static __attribute__((noinline)) void paint(void)
{
    uint8_t *end = (uint8_t *)__builtin_frame_address(0) - 128;
    for (volatile uint8_t *at = stack; at < end; at++)
        *at = PAINT;
}

/* Calls from a frame that is longer than what stays unpainted, and so begins below it. */
static __attribute__((noinline)) void call_below(void (*call)(void))
{
    volatile uint8_t passed_over[512];
    passed_over[0] = 0;
    begins = (uintptr_t)passed_over;
    call();
    passed_over[0] = 1;
}

static size_t used(void (*call)(void))
{
    const uint8_t *at = stack;
    paint();
    call_below(call);
    while ((uintptr_t)at < begins && *at == PAINT)
        at++;
    return (size_t)(begins - (uintptr_t)at);
}

/* ---- the calls */

/* room for a list of one word more than the limit, which is more than for a packet */
static uint8_t in[4 * XEZ_LIST_LIMIT + 4], second[4 * XEZ_LIST_LIMIT + 4], out[4 * XEZ_LIST_LIMIT + 4], payload[XEZ_PAYLOAD_LIMIT + 1];
static uint32_t fields[XEZ_DATA_FIELDS];
static size_t in_len, second_len, out_len, payload_len;
static uint32_t number, oldest;
static uint64_t answer;
static enum function function;

static void nothing(void)
{
    answer = 0;
}

/* Where a function takes fields in place of bytes, in_len or out_len counts them. */
static void one_call(void)
{
    switch (function) {
    case COMPRESS:
        answer = xez_compress(in, in_len, out, out_len);
        break;
    case EXPAND:
        answer = xez_expand(in, in_len, out, out_len);
        break;
    case WHY_LOST:
        answer = xez_why_lost(in, in_len, number);
        break;
    case MERGE:
        answer = xez_merge(oldest, in, in_len, second, second_len, out, out_len);
        break;
    case READ_DATA:
        answer = xez_read_data(in, in_len, fields, out_len);
        break;
    case WRITE_DATA:
        answer = xez_write_data(fields, in_len, payload, payload_len, out, out_len);
        break;
    case WIRE_SIZE:
        answer = xez_wire_size(fields[XEZ_FAMILY], payload_len);
        break;
    default:
        answer = xez_read_key(in, in_len, fields, out_len);
        break;
    }
}

static size_t most[FUNCTIONS][2];
static unsigned calls[FUNCTIONS][2];
static uint32_t refused[FUNCTIONS];
static int wrong, read_wrongly;

/* Calls the function on what was laid ready, and keeps what it used where that is the most so far. */
static void expect(enum function f, uint32_t refusal, uint32_t value)
{
    size_t bytes;
    function = f;
    bytes = used(one_call);
    bytes = bytes > idle ? bytes - idle : 0;
    if (xez_refusal(answer) != refusal || xez_value(answer) != value) {
        printf("FAILED: %s answers %u with %u, and not %u with %u\n", names[f], xez_refusal(answer), xez_value(answer), refusal, value);
        wrong = 1;
    }
    calls[f][refusal != 0]++;
    refused[f] |= (uint32_t)1 << refusal;
    if (most[f][refusal != 0] < bytes)
        most[f][refusal != 0] = bytes;
}

/* A list is expanded, asked about a number, and merged with an empty one, as the first and as the second: each refuses it alike. */
static void expect_of_list(uint32_t refusal, uint32_t value)
{
    size_t len = in_len;
    expect(EXPAND, refusal, value);
    expect(WHY_LOST, refusal, value);
    expect(MERGE, refusal, value);
    memcpy(second, in, len);
    second_len = len;
    in_len = 0;
    expect(MERGE, refusal, value);
    in_len = len;
    second_len = 0;
}

/* The list in `in`, which is merged to so many words, with itself, with two of its numbers in disorder, and with all that is refused where
   both lists are good. */
static void merges(uint32_t words)
{
    uint32_t first = xez_get_word(in, 0) & ~XEZ_RANGE_START;
    oldest = first;
    memcpy(second, in, in_len);
    second_len = in_len;
    out_len = 4 * words - 1;
    expect(MERGE, XEZ_NO_ROOM, words);
    out_len = 4 * words;
    expect(MERGE, XEZ_ACCEPTED, words);
    xez_put_word(second, 0, number);
    xez_put_word(second, 1, first);
    second_len = 8;
    expect(MERGE, XEZ_ACCEPTED, words);
    xez_put_word(second, 0, (number + 1) & 0x7FFFFFFFu);
    expect(MERGE, XEZ_TOO_MANY_NUMBERS, 0);
    xez_put_word(second, 1, (first - 1) & 0x7FFFFFFFu);
    expect(MERGE, XEZ_OUTSIDE_WINDOW, 1);
    oldest = first + 1;
    expect(MERGE, XEZ_OUTSIDE_WINDOW, 0);
    oldest |= XEZ_RANGE_START;
    expect(MERGE, XEZ_NOT_SEQUENCE, 0);
    oldest = first;
    second_len = 0;
}

/* 65,536 numbers in runs of a length, across the wrap. */
static void lay_numbers(uint32_t run)
{
    number = 0x7FFF8000u;
    for (uint32_t i = 0; i < XEZ_LIST_LIMIT; i++) {
        number = (number + (i % run == 0 ? 2 : 1)) & 0x7FFFFFFFu;
        xez_put_word(in, i, number);
    }
    in_len = 4 * XEZ_LIST_LIMIT;
    out_len = sizeof out;
}

static void lists(void)
{
    static const uint32_t runs[] = {1, 2, 8, XEZ_LIST_LIMIT};
    for (unsigned kind = 0; kind < 4; kind++) {
        uint32_t words = runs[kind] == 1 ? XEZ_LIST_LIMIT : 2 * (XEZ_LIST_LIMIT / runs[kind]), last = XEZ_LIST_LIMIT - 1;
        uint32_t first_of_last = words - (runs[kind] == 1 ? 1 : 2);

        lay_numbers(runs[kind]);
        out_len = 4 * words - 1;
        expect(COMPRESS, XEZ_NO_ROOM, words);
        out_len = sizeof out;
        in_len += 4;
        expect(COMPRESS, XEZ_TOO_LONG, XEZ_LIST_LIMIT);
        in_len -= 5;
        expect(COMPRESS, XEZ_NOT_ENOUGH_DATA, 0);
        in_len += 1;
        expect(COMPRESS, XEZ_ACCEPTED, words);
        in[4 * last] |= 0x80;
        expect(COMPRESS, XEZ_NOT_SEQUENCE, last);
        xez_put_word(in, last, xez_get_word(in, last - 1));
        expect(COMPRESS, XEZ_NOT_INCREASING, last);

        memcpy(in, out, 4 * words);
        for (uint32_t i = 0; runs[kind] == 2 && i < words; i += 2)
            in[4 * i] |= 0x80; /* two neighbours are a range in the lists of others, and none in ours */
        in_len = 4 * words;
        out_len = 4 * XEZ_LIST_LIMIT - 1;
        expect(EXPAND, XEZ_NO_ROOM, XEZ_LIST_LIMIT);
        out_len = sizeof out;
        expect(EXPAND, XEZ_ACCEPTED, XEZ_LIST_LIMIT);
        expect(WHY_LOST, XEZ_ACCEPTED, first_of_last);
        merges(words);
        out_len = sizeof out;
        number += 1;
        expect(WHY_LOST, XEZ_ACCEPTED, XEZ_NOT_LOST);
        number |= XEZ_RANGE_START;
        expect(WHY_LOST, XEZ_NOT_SEQUENCE, 0);
        in_len -= 1;
        expect_of_list(XEZ_NOT_ENOUGH_DATA, 0);
        in_len = 4 * XEZ_LIST_LIMIT + 4;
        expect_of_list(XEZ_TOO_LONG, XEZ_LIST_LIMIT);
        in_len = 4 * words;
        if (runs[kind] == 1)
            in[4 * first_of_last] |= 0x80;
        else
            in_len -= 4;
        expect_of_list(XEZ_OPEN_RANGE, first_of_last);
        if (runs[kind] == 1)
            continue;
        in_len += 4;
        xez_put_word(in, words - 1, xez_get_word(in, first_of_last));
        expect_of_list(XEZ_FLAGGED_END, words - 1);
        in[4 * (words - 1)] &= 0x7F;
        expect_of_list(XEZ_BACKWARD_RANGE, words - 1);
        xez_put_word(in, words - 1, (xez_get_word(in, first_of_last) + (1u << 30) - 1) & 0x7FFFFFFFu);
        expect_of_list(XEZ_TOO_MANY_NUMBERS, first_of_last);
    }
}

static void packets(void)
{
    static const uint32_t sent[XEZ_DATA_FIELDS] = {0x7FFFFFFF, 1, 0, 1, 0, 1, 0, 0x3FFFFFF, 0xFFFFFFFF, 0x80000000, XEZ_IPV6};
    static const uint32_t lengths[] = {0, 1316, XEZ_PAYLOAD_LIMIT};
    for (size_t i = 0; i < sizeof payload; i++)
        payload[i] = (uint8_t)(i * 31 + i / 256);
    for (unsigned kind = 0; kind < 3; kind++) {
        uint32_t whole = XEZ_DATA_HEADER + lengths[kind];

        memcpy(fields, sent, sizeof fields);
        payload_len = lengths[kind];
        in_len = XEZ_DATA_FIELDS;
        out_len = whole - 1;
        expect(WRITE_DATA, XEZ_NO_ROOM, whole);
        out_len = sizeof out;
        expect(WRITE_DATA, XEZ_ACCEPTED, whole);
        memcpy(in, out, whole);
        expect(WIRE_SIZE, XEZ_ACCEPTED, 48 + whole);
        in_len = XEZ_PACKET_FIELDS - 1;
        expect(WRITE_DATA, XEZ_NOT_ENOUGH_DATA, 0);
        in_len = XEZ_DATA_FIELDS;
        fields[XEZ_ODD_KEY] = 1;
        expect(WRITE_DATA, XEZ_BAD_DATA_ENCRYPTION, 0x18);
        fields[XEZ_ODD_KEY] = 0;
        fields[XEZ_MESSAGE] = 0x4000000;
        expect(WRITE_DATA, XEZ_FIELD_TOO_WIDE, 2);
        fields[XEZ_SEQUENCE] = 0x80000000;
        expect(WRITE_DATA, XEZ_FIELD_TOO_WIDE, 1);
        payload_len = XEZ_PAYLOAD_LIMIT + 1;
        expect(WRITE_DATA, XEZ_TOO_LONG, XEZ_PAYLOAD_LIMIT);
        expect(WIRE_SIZE, XEZ_TOO_LONG, XEZ_PAYLOAD_LIMIT);

        in_len = whole;
        out_len = XEZ_DATA_FIELDS;
        expect(READ_DATA, XEZ_ACCEPTED, lengths[kind]);
        read_wrongly |= memcmp(fields, sent, sizeof fields) != 0;
        out_len = XEZ_PACKET_FIELDS - 1;
        expect(READ_DATA, XEZ_NO_ROOM, XEZ_PACKET_FIELDS);
        in[4] |= 0x18;
        expect(READ_DATA, XEZ_BAD_DATA_ENCRYPTION, 0x18);
        in[0] |= 0x80;
        expect(READ_DATA, XEZ_CONTROL_BIT, 0);
        in_len = XEZ_DATA_HEADER - 1;
        expect(READ_DATA, XEZ_NOT_ENOUGH_DATA, 0);
        in_len = XEZ_DATA_HEADER + XEZ_PAYLOAD_LIMIT + 1;
        expect(READ_DATA, XEZ_TOO_LONG, XEZ_PAYLOAD_LIMIT);
    }
}

static void keys(void)
{
    static const uint8_t header[XEZ_KEY_HEADER] = {0x12, 0x20, 0x29, 1, 1, 2, 3, 4, 2, 0, 2, 0, 0, 0, 0, 4};
    static const struct {
        uint32_t place, byte, refusal, value;
    } faults[] = {
        {0, 0x22, XEZ_BAD_KEY_VERSION, 0},
        {0, 0x13, XEZ_BAD_KEY_PACKET_TYPE, 3},
        {1, 0x21, XEZ_BAD_KEY_SIGN, 0x2129},
        {3, 0xFC, XEZ_NO_KEY, 0},
        {8, 4, XEZ_BAD_CIPHER, 4},
        {9, 1, XEZ_BAD_AUTH, 1},
        {10, 3, XEZ_BAD_ENCAPSULATION, 3},
        {10, 1, XEZ_NOT_SRT, 0},
        {15, 5, XEZ_BAD_KEY_LENGTH, 20},
    };
    for (unsigned longest = 0; longest < 2; longest++) {
        uint32_t whole = longest ? 1108 : 40;

        memcpy(in, header, sizeof header);
        if (longest)
            in[3] = 3, in[14] = 255, in[15] = 8;
        out_len = XEZ_KEY_FIELDS;
        in_len = whole;
        expect(READ_KEY, XEZ_ACCEPTED, whole);
        read_wrongly |= fields[XEZ_KEKI] != 0x01020304u || fields[XEZ_SALT_LENGTH] != (longest ? 1020 : 0);
        out_len -= 1;
        expect(READ_KEY, XEZ_NO_ROOM, XEZ_KEY_FIELDS);
        in_len = whole - 1;
        expect(READ_KEY, XEZ_NOT_ENOUGH_DATA, 0);
        in_len = XEZ_KEY_HEADER - 1;
        expect(READ_KEY, XEZ_NOT_ENOUGH_DATA, 0);
        in_len = whole;
        for (unsigned i = 0; i < sizeof faults / sizeof *faults; i++) {
            uint8_t before = in[faults[i].place];
            in[faults[i].place] = (uint8_t)faults[i].byte;
            expect(READ_KEY, faults[i].refusal, faults[i].value);
            in[faults[i].place] = before;
        }
    }
}

static void *all_calls(void *unused)
{
    idle = used(nothing);
    lists();
    packets();
    keys();
    return unused;
}

int main(void)
{
    pthread_attr_t attributes;
    pthread_t thread;
    uint8_t *all = mmap(NULL, STACK + PAGE, PROT_READ | PROT_WRITE, MAP_PRIVATE | MAP_ANONYMOUS, -1, 0);
    if (all == MAP_FAILED || mprotect(all, PAGE, PROT_NONE) != 0)
        return 2;
    stack = all + PAGE;
    if (pthread_attr_init(&attributes) || pthread_attr_setstack(&attributes, stack, STACK) ||
        pthread_create(&thread, &attributes, all_calls, NULL) || pthread_join(thread, NULL))
        return 2;
    for (unsigned f = 0; f < FUNCTIONS; f++) {
        size_t allowed = f == MERGE ? MOST_USED_BY_MERGE : MOST_USED;
        printf("stack_test: %s: %zu bytes of stack in %u accepted calls, %zu in %u refused ones:", names[f], most[f][0], calls[f][0],
               most[f][1], calls[f][1]);
        for (uint32_t refusal = 1; refusal < 32; refusal++)
            if (refused[f] >> refusal & 1)
                printf(" %u", refusal);
        printf("\n");
        if (most[f][0] > allowed || most[f][1] > allowed) {
            printf("FAILED: %s uses more than %zu bytes of stack\n", names[f], allowed);
            wrong = 1;
        }
    }
    if (read_wrongly)
        printf("FAILED: the fields do not come back\n");
    return wrong || read_wrongly;
}
