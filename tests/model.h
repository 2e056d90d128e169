/*
 * A model of the four C functions on loss lists, from the rules alone (docs/RULES.md, 3, 7 and 9). It shares no code
 * with the inside, and is written to be read, not to be quick.
 */
#ifndef MODEL_H
#define MODEL_H

#include <stddef.h>
#include <stdint.h>
#include <stdlib.h>

#define MODEL_LIMIT 65536
#define RING ((uint64_t)1 << 31)
#define HALF ((uint64_t)1 << 30)

struct outcome {
    uint32_t refusal;              /* 0 if accepted */
    uint64_t value;                /* the count, or what the refusal carries */
    uint32_t words[MODEL_LIMIT];   /* the words written, where accepted */
};

static void refused(struct outcome *o, uint32_t number, uint64_t carried)
{
    o->refusal = number;
    o->value = carried;
}

/* "Distance a - b: reduced to 0 .. 2^31 - 1. Equal if 0; Greater if below 2^30; Opposite if 2^30; else Less." */
static int is_less(uint64_t a, uint64_t b)
{
    uint64_t distance = (a + RING - b) % RING;
    return distance > HALF;
}

/* "Compress: 14 (65,536 numbers); then the lowest place at fault, 15 before 16; 21." */
static void model_compress(const uint32_t *in, size_t n, size_t room, struct outcome *o)
{
    size_t place, count = 0;
    if (n > MODEL_LIMIT) {
        refused(o, 14, MODEL_LIMIT);
        return;
    }
    for (place = 0; place < n; place++) {
        if (in[place] >= RING) {
            refused(o, 15, place);
            return;
        }
        if (place > 0 && !is_less(in[place - 1], in[place])) {
            refused(o, 16, place);
            return;
        }
    }
    place = 0;
    while (place < n) {
        size_t last = place;
        while (last + 1 < n && in[last + 1] == ((uint64_t)in[last] + 1) % RING)
            last++;
        if (last - place > 1) { /* "a range only where last minus first is more than one" */
            o->words[count++] = (uint32_t)(in[place] + RING);
            o->words[count++] = in[last];
        } else {
            while (place <= last)
                o->words[count++] = in[place++];
        }
        place = last + 1;
    }
    refused(o, count > room ? 21 : 0, count);
}

/* "Expand: 14 (65,536 words); lowest place among 17 to 19 (18 before 19); 20; 21." Three walks, one for each. */
static void model_expand(const uint32_t *in, size_t n, size_t room, struct outcome *o)
{
    size_t place;
    uint64_t total = 0;
    if (n > MODEL_LIMIT) {
        refused(o, 14, MODEL_LIMIT);
        return;
    }
    for (place = 0; place < n; place += in[place] < RING ? 1 : 2) {
        if (in[place] < RING)
            continue;
        if (place + 1 >= n) {
            refused(o, 17, place);
            return;
        }
        if (in[place + 1] >= RING) {
            refused(o, 18, place + 1);
            return;
        }
        if (!is_less(in[place] - RING, in[place + 1])) {
            refused(o, 19, place + 1);
            return;
        }
    }
    for (place = 0; place < n; place += in[place] < RING ? 1 : 2) {
        if (in[place] < RING)
            total += 1;
        else
            total += (in[place + 1] + RING - (in[place] - RING)) % RING + 1;
        if (total > MODEL_LIMIT) {
            refused(o, 20, place);
            return;
        }
    }
    if (total > room) {
        refused(o, 21, total);
        return;
    }
    total = 0;
    for (place = 0; place < n; place += in[place] < RING ? 1 : 2) {
        if (in[place] < RING) {
            o->words[total++] = in[place];
        } else {
            uint64_t number = in[place] - RING;
            o->words[total++] = (uint32_t)number;
            while (number != in[place + 1]) {
                number = (number + 1) % RING;
                o->words[total++] = (uint32_t)number;
            }
        }
    }
    refused(o, 0, total);
}

enum function { COMPRESS, EXPAND, WHY_LOST, MERGE };

#define MODEL_NOT_LOST 0xFFFFFFFFu

/* "The list's own refusals, room set aside; then 15 carrying 0. Lost with the place of the first item that covers the number, or Not lost." The
   numbers of each item are gone through one by one. */
static void model_why_lost(const uint32_t *in, size_t n, uint32_t asked, struct outcome *o)
{
    size_t place;
    model_expand(in, n, MODEL_LIMIT, o);
    if (o->refusal != 0)
        return;
    if (asked >= RING) {
        refused(o, 15, 0);
        return;
    }
    for (place = 0; place < n; place += in[place] < RING ? 1 : 2) {
        uint64_t number = in[place] % RING, last = in[place] < RING ? number : in[place + 1];
        while (number != asked && number != last)
            number = (number + 1) % RING;
        if (number == asked) {
            o->value = place;
            return;
        }
    }
    o->value = MODEL_NOT_LOST;
}

/* All work on bytes: "an input length that is no multiple of 4 is refusal 1, first", the room is rounded down. */
static void model(enum function f, const uint32_t *words, size_t bytes, size_t room_bytes, struct outcome *o)
{
    if (bytes % 4 != 0)
        refused(o, 1, 0);
    else if (f == COMPRESS)
        model_compress(words, bytes / 4, room_bytes / 4, o);
    else
        model_expand(words, bytes / 4, room_bytes / 4, o);
}

static void model_why(const uint32_t *words, size_t bytes, uint32_t asked, struct outcome *o)
{
    if (bytes % 4 != 0)
        refused(o, 1, 0);
    else
        model_why_lost(words, bytes / 4, asked, o);
}

/* How many steps after the oldest number another one is. */
static uint64_t model_steps(uint64_t oldest, uint64_t number)
{
    return (number + RING - oldest) % RING;
}

/* "Each number must stand 0 to 2^30 - 1 steps after the oldest": the place of the first item that has another one, looked for number by
   number; n where there is none. */
static size_t model_outside(uint64_t oldest, const uint32_t *in, size_t n)
{
    size_t place;
    for (place = 0; place < n; place += in[place] < RING ? 1 : 2) {
        uint64_t number = in[place] % RING, last = in[place] < RING ? number : in[place + 1];
        while (model_steps(oldest, number) < HALF && number != last)
            number = (number + 1) % RING;
        if (model_steps(oldest, number) >= HALF)
            break;
    }
    return place;
}

/* Whether each item begins as many steps after the oldest as the one before it, or more: no answer depends on it, only how long one may take. */
static int model_in_order(uint64_t oldest, const uint32_t *in, size_t n)
{
    size_t place;
    uint64_t before = 0, steps;
    for (place = 0; place < n; place += in[place] < RING ? 1 : 2, before = steps) {
        steps = model_steps(oldest, in[place] % RING);
        if (steps < before)
            return 0;
    }
    return 1;
}

static int by_steps(const void *a, const void *b)
{
    uint32_t x = *(const uint32_t *)a, y = *(const uint32_t *)b;
    return x < y ? -1 : x > y;
}

/* "Every number in either, once, in order from the oldest, coded as the compressor codes. Order: 15 carrying 0 for an oldest number of 2^31
   up, the first list's own refusals, the second's (room set aside), 29, 20 if the union is over the limit (carrying 0), 21." The numbers of
   both are sorted by their steps, and of those that are equal one is kept. The answer is which list is at fault, 1 or 2; 0 for neither. */
static int model_merge(uint32_t oldest, const uint32_t *const lists[2], const size_t bytes[2], size_t room_bytes, struct outcome *o)
{
    static uint32_t numbers[2 * MODEL_LIMIT];
    size_t all = 0, count = 0, i;
    int list;
    if (oldest >= RING) {
        refused(o, 15, 0);
        return 0;
    }
    for (list = 0; list < 2; list++) {
        model(EXPAND, lists[list], bytes[list], 4 * MODEL_LIMIT, o);
        if (o->refusal != 0)
            return list + 1;
        for (i = 0; i < o->value; i++)
            numbers[all++] = (uint32_t)model_steps(oldest, o->words[i]);
    }
    for (list = 0; list < 2; list++) {
        size_t place = model_outside(oldest, lists[list], bytes[list] / 4);
        if (place < bytes[list] / 4) {
            refused(o, 29, place);
            return list + 1;
        }
    }
    qsort(numbers, all, sizeof numbers[0], by_steps);
    for (i = 0; i < all; i++)
        if (count == 0 || numbers[i] != numbers[count - 1])
            numbers[count++] = numbers[i];
    if (count > MODEL_LIMIT) {
        refused(o, 20, 0);
        return 0;
    }
    for (i = 0; i < count; i++)
        numbers[i] = (uint32_t)((oldest + numbers[i]) % RING);
    model_compress(numbers, count, room_bytes / 4, o);
    return 0;
}

/* The first bytes of the words, four big-endian to a word. */
static void byte_words(uint8_t *to, const uint32_t *words, size_t bytes)
{
    size_t i;
    for (i = 0; i < bytes; i++)
        to[i] = (uint8_t)(words[i / 4] >> (24 - 8 * (i % 4)));
}

#endif
