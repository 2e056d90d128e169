/*
 * xez_compress, xez_expand, xez_why_lost and xez_merge against a model of the rules that shares no code with the inside:
 * their own cases, every short list over the words at the boundaries, and random lists of every kind. Each list that is
 * expanded is asked about numbers too: those at its boundaries, its neighbours and others. Two lists are merged in both
 * orders. Each call gets its inputs in memory that cannot be written, every buffer between pages that cannot be touched,
 * and canaries around the output; a call that takes more than a second or two of the processor's time is a failure too.
 *
 *     relay_test [SEED [TIMES]]        TIMES multiplies the random cases; 1 is some hundred thousand
 */
#define _GNU_SOURCE
#include "guarded.h"
#include "model.h"
#include "xezalbur.h"

#define ROOM_BYTES (66 * PAGE) /* more than a list of 65,537 words */
#define OLD_LIMIT 8192 /* what the limit was once: nothing happens there now */

static struct memory in_memory, second_memory;
static struct output out;
static uint8_t in_before[ROOM_BYTES], second_before[ROOM_BYTES];

/* ---- one call, held against the model */

static struct tally tally[4] = {
    {.function = "xez_compress"}, {.function = "xez_expand"}, {.function = "xez_why_lost"}, {.function = "xez_merge"}};
static uint32_t given[MODEL_LIMIT + 8], given_number; /* the number that is asked about, or the oldest */
static size_t given_bytes, given_room;
static enum function given_function;
static const char *given_kind = "none";

/* The lists of a merge, and which of them is given as the first. */
static struct side {
    uint32_t words[MODEL_LIMIT + 8];
    size_t bytes;
} sides[2];
static int given_first;

static void print_words(const uint32_t *words, size_t bytes)
{
    size_t i, n = (bytes + 3) / 4;
    printf(" %zu bytes in, words:", bytes);
    for (i = 0; i < n && i < 40; i++)
        printf(" %08" PRIX32, words[i]);
    printf("%s\n", n > 40 ? " .." : "");
}

static void fail(const char *why)
{
    printf("FAILED: %s: %s\n  kind %s, seed %" PRIu64 ", call %" PRIu64 ", ", tally[given_function].function, why, given_kind, seed,
           tally[given_function].calls);
    if (given_function == WHY_LOST)
        printf("the number %08" PRIX32 ",", given_number);
    else
        printf("%zu bytes of room,", given_room);
    if (given_function == MERGE) {
        printf(" the oldest %08" PRIX32 "\n ", given_number);
        print_words(sides[given_first].words, sides[given_first].bytes);
        printf(" ");
        print_words(sides[1 - given_first].words, sides[1 - given_first].bytes);
    } else {
        print_words(given, given_bytes);
    }
    fflush(stdout);
    _exit(1);
}

static uint64_t called(enum function f, const uint8_t *in, size_t in_len, uint8_t *to, size_t to_len)
{
    begin_call();
    return end_call(f == COMPRESS ? xez_compress(in, in_len, to, to_len) : xez_expand(in, in_len, to, to_len));
}

static struct outcome expected, expected_why;
static uint64_t lost, not_lost;

/* Asks the list in `given`, which stands at `in`, about a number. */
static void ask(const uint8_t *in, size_t bytes, uint32_t number)
{
    uint64_t answer;
    enum function before = given_function;
    given_function = WHY_LOST;
    given_bytes = bytes;
    given_number = number;
    model_why(given, bytes, number, &expected_why);
    tally[WHY_LOST].calls++;
    begin_call();
    answer = end_call(xez_why_lost(in, bytes, number));
    judge_answer(&tally[WHY_LOST], answer, expected_why.refusal, expected_why.value);
    if (expected_why.refusal == 0)
        *(expected_why.value == MODEL_NOT_LOST ? &not_lost : &lost) += 1;
    given_function = before;
}

/* A number of the list in `given`, one beside one of its words, one of 2^31 and more, or any. */
static uint32_t some_number(size_t words)
{
    uint32_t word = words ? given[below(words)] : (uint32_t)below(3);
    switch (below(8)) {
    case 0:
        return word;
    case 1:
        return word % RING;
    case 2:
        return (uint32_t)((word + 1) % RING);
    case 3:
        return (uint32_t)((word + RING - 1) % RING);
    case 4:
        return (uint32_t)((word + below(9)) % RING);
    case 5:
        return (uint32_t)(RING + below(RING));
    case 6:
        return (uint32_t)below(below(2) ? 16 : RING);
    default: /* one that the list stands for, where the last call of the model came to its numbers */
        return expected.refusal == 0 && expected.value ? expected.words[below(expected.value)] : (uint32_t)(RING - 1 - below(16));
    }
}

/* Calls f on the words in `given`, cut or grown to `bytes`, with a room of `room_bytes`. Where `at_end` is set both
   buffers end where the touchable memory ends, otherwise both begin where it begins. */
static void try_placed(enum function f, size_t bytes, size_t room_bytes, int at_end)
{
    const uint8_t *in;

    given_function = f;
    given_bytes = bytes;
    given_room = room_bytes;
    model(f, given, bytes, room_bytes, &expected);
    byte_words(in_before, given, bytes);
    in = input(&in_memory, in_before, bytes, at_end);
    paint(&out, room_bytes, at_end, tally[f].calls++);

    judge_answer(&tally[f], called(f, in, bytes, out.buffer, room_bytes), expected.refusal, expected.value);
    if (expected.refusal == 0)
        byte_words(out.should, expected.words, 4 * (size_t)expected.value);
    if (!is_as_it_should_be(&out))
        fail(expected.refusal ? "a refusal wrote to memory" : "other words or other memory than the model's");
    if (f == EXPAND) {
        uint64_t turns = bytes < 4000 || bytes > 4 * MODEL_LIMIT ? 2 : below(2);
        while (turns-- > 0)
            ask(in, bytes, some_number(bytes / 4));
    }
    if (memcmp(in, in_before, bytes) != 0)
        fail("the input was changed");
}

static void try(enum function f, size_t bytes, size_t room_bytes)
{
    try_placed(f, bytes, room_bytes, (tally[f].calls & 1) != 0);
}

/* ---- the kinds of lists */

static uint32_t some_start(void)
{
    switch (below(6)) {
    case 0:
        return (uint32_t)below(16);
    case 1:
        return (uint32_t)(RING - 1 - below(16));
    case 2:
        return (uint32_t)(HALF - 8 + below(16));
    case 3:
        return (uint32_t)(RING - 1 - below(70000)); /* a long list passes the wrap */
    default:
        return (uint32_t)below(RING);
    }
}

static uint64_t some_step(unsigned kind)
{
    switch (kind == 0 ? below(40) : 5 + below(30)) {
    case 0:
        return HALF - 1;
    case 1:
        return below(64) ? 1 : HALF;
    case 2:
        return 1 + below(HALF - 1);
    case 3:
        return below(64) ? 1 : HALF + 1;
    case 4:
        return below(64) ? 1 : 0;
    case 5: case 6: case 7: case 8:
        return 2;
    case 9: case 10:
        return 2 + below(1000);
    default:
        return 1;
    }
}

/* n numbers to compress: good but for the few steps that some_step spoils, with runs of every length */
static size_t numbers(size_t n)
{
    uint64_t number = some_start();
    unsigned kind = (unsigned)below(4), lone = (unsigned)below(8);
    size_t i;
    for (i = 0; i < n; i++) {
        given[i] = (uint32_t)number;
        number = (number + (lone == 0 ? 2 : lone == 1 ? 1 : lone == 2 ? 1 + i % 2 : some_step(kind && n > 64 ? 1 : kind))) % RING;
    }
    return n;
}

/* A list to expand, of about n words, whose ranges together hold about `total` numbers. */
static size_t list(size_t n, uint64_t total)
{
    size_t i = 0;
    uint64_t number = some_start(), left = total;
    while (i < n) {
        uint64_t length;
        if (below(3) == 0 || i + 1 == n) {
            given[i++] = (uint32_t)number;
            left -= left > 0;
            number = (number + some_step(0)) % RING;
            continue;
        }
        length = 1 + below(n > 200 ? 3 : 12);
        if (below(8) == 0)
            length = 1 + below(left + 2);
        given[i++] = (uint32_t)(number + RING);
        number = (number + length) % RING;
        given[i++] = (uint32_t)number;
        left -= left > length ? length + 1 : left;
        number = (number + some_step(0)) % RING;
    }
    return i;
}

/* A list whose expansion is exactly `total` numbers: a range of a random part, and the rest spread. */
static size_t list_of_total(uint64_t total)
{
    size_t i = 0;
    uint64_t number = some_start();
    while (total > 0 && i < MODEL_LIMIT - 2) {
        uint64_t length = below(3) ? 1 + below(total) : 1 + below(total < 6 ? total : 6);
        if (length == 1) {
            given[i++] = (uint32_t)number;
        } else {
            given[i++] = (uint32_t)(number + RING);
            number = (number + length - 1) % RING;
            given[i++] = (uint32_t)number;
        }
        total -= length;
        number = (number + 2 + below(5)) % RING;
    }
    return i;
}

/* One fault of form at a random place of n words, or a random word there. */
static void damage(uint32_t *words, size_t n)
{
    size_t at;
    if (n == 0)
        return;
    at = (size_t)below(n);
    switch (below(9)) {
    case 0:
        words[at] ^= 0x80000000u;
        break;
    case 1:
        words[at] = (uint32_t)draw();
        break;
    case 2:
        if (at > 0)
            words[at] = words[at - 1];
        break;
    case 3:
        if (at > 0)
            words[at] = words[at - 1] & 0x7FFFFFFFu;
        break;
    case 4:
        words[at] ^= 1u << below(32);
        break;
    case 5:
        if (at > 0)
            words[at] = (uint32_t)(((words[at - 1] & 0x7FFFFFFFu) + HALF + below(3) - 1) % RING);
        break;
    case 6:
        words[n - 1] |= 0x80000000u;
        break;
    case 7:
        if (at > 0) {
            uint32_t other = words[at - 1];
            words[at - 1] = words[at];
            words[at] = other;
        }
        break;
    default:
        if (at > 0)
            words[at] = (words[at - 1] - 1) & 0x7FFFFFFFu;
    }
}

/* The rooms that matter to what needs so many bytes: exact, one word short, one byte short, odd, none, and plenty. */
static size_t some_room(size_t need)
{
    switch (below(8)) {
    case 0:
        return need >= 4 ? need - 4 : 0;
    case 1:
        return need > 0 ? need - 1 : 0;
    case 2:
        return need + 1 + (size_t)below(3);
    case 3:
        return (size_t)below(need + 1);
    case 4:
        return below(8) ? need + 4 * (size_t)below(9) : 4 * MODEL_LIMIT;
    default:
        return need;
    }
}

static void with_rooms(enum function f, size_t n, const char *kind)
{
    size_t room;
    given_kind = kind;
    model(f, given, 4 * n, ROOM_BYTES, &expected);
    room = some_room(4 * (size_t)(expected.refusal ? below(20) : expected.value));
    try(f, 4 * n, room);
    if (below(16) == 0)
        try(f, 4 * n + 1 + (size_t)below(3), room);
}

static size_t some_length(void)
{
    uint64_t which = below(3200);
    if (which < 3)
        return MODEL_LIMIT - 1 + (size_t)which;
    if (which == 3)
        return (size_t)below(MODEL_LIMIT + 2);
    if (which < 7)
        return OLD_LIMIT + 5 - (size_t)which;
    return (size_t)below(which < 47 ? 600 : 14);
}

static void random_cases(uint64_t times)
{
    uint64_t i;
    size_t n;
    for (i = 0; i < 100000 * times; i++) {
        n = numbers(some_length());
        with_rooms(COMPRESS, n, "numbers");
        if (n < 1000 || below(4) == 0) {
            damage(given, n);
            with_rooms(COMPRESS, n, "damaged numbers");
        }

        n = list(some_length(), 40);
        with_rooms(EXPAND, n, "list");
        if (n < 1000 || below(4) == 0) {
            damage(given, n);
            with_rooms(EXPAND, n, "damaged list");
        }
    }
    for (i = 0; i < 100 * times; i++) {
        n = list_of_total((i % 4 ? MODEL_LIMIT : OLD_LIMIT) - 2 + below(5));
        with_rooms(EXPAND, n, "total at the limit");
        damage(given, n);
        with_rooms(EXPAND, n, "damaged, total at the limit");
        n = list((size_t)below(40), MODEL_LIMIT + 500);
        with_rooms(EXPAND, n, "long ranges");
    }
    given_kind = "any words";
    for (i = 0; i < 20000 * times; i++) {
        size_t bytes = (size_t)below(48), room = (size_t)below(64), j;
        if (below(8))
            bytes -= bytes % 4;
        for (j = 0; j < bytes; j++)
            given[j / 4] = (uint32_t)draw();
        try(i % 2 ? COMPRESS : EXPAND, bytes, room);
    }
}

/* What is expanded from what was compressed is what was given. */
static void and_back(uint64_t times)
{
    static uint32_t first[MODEL_LIMIT];
    uint64_t i;
    given_kind = "there and back";
    for (i = 0; i < 2000 * times; i++) {
        size_t n = numbers(i % 200 == 0 ? MODEL_LIMIT - (size_t)below(2) : (size_t)below(40)), count, j;
        model(COMPRESS, given, 4 * n, 4 * n, &expected);
        if (expected.refusal)
            continue;
        memcpy(first, given, 4 * n);
        try(COMPRESS, 4 * n, 4 * n);
        count = (size_t)expected.value;
        for (j = 0; j < count; j++)
            given[j] = expected.words[j];
        try(EXPAND, 4 * count, 4 * n);
        if (expected.value != n || memcmp(first, expected.words, 4 * n) != 0)
            fail("the numbers do not come back");
    }
}

/* Every list of up to four words over the words at the boundaries, with every room up to six words, and asked about every one of those words. */
static void short_lists(void)
{
    static const uint32_t at_boundaries[] = {0, 1, 2, 0x3FFFFFFF, 0x40000000, 0x40000001, 0x7FFFFFFF,
                                             0x80000000, 0x80000001, 0xBFFFFFFF, 0xC0000000, 0xFFFFFFFF};
    enum { KINDS = sizeof at_boundaries / sizeof at_boundaries[0] };
    size_t n, which, all, room;
    given_kind = "short lists";
    for (n = 0, all = 1; n <= 4; n++, all *= KINDS)
        for (which = 0; which < all; which++) {
            size_t i, rest = which;
            for (i = 0; i < n; i++, rest /= KINDS)
                given[i] = at_boundaries[rest % KINDS];
            for (room = 0; room <= (n < 4 ? 6u : 4u); room++) {
                try(COMPRESS, 4 * n, 4 * room);
                try(EXPAND, 4 * n, 4 * room);
            }
            byte_words(in_memory.write, given, 4 * n);
            for (i = 0; i < KINDS; i++)
                ask(in_memory.read, 4 * n, at_boundaries[i]);
        }
}

/* ---- the list cases of RULES 3, with the answers as they stand there */

struct case_of_document {
    enum function function;
    size_t n;
    uint32_t in[4];
    size_t room;
    uint32_t refusal, value;
    uint32_t out[4];
};

static const struct case_of_document cases[] = {
    {COMPRESS, 0, {0}, 4, 0, 0, {0}},
    {COMPRESS, 1, {5}, 4, 0, 1, {5}},
    {COMPRESS, 2, {5, 6}, 4, 0, 2, {5, 6}},
    {COMPRESS, 3, {5, 6, 7}, 4, 0, 2, {0x80000005, 7}},
    {COMPRESS, 4, {5, 6, 7, 9}, 4, 0, 3, {0x80000005, 7, 9}},
    {COMPRESS, 4, {0x7FFFFFFE, 0x7FFFFFFF, 0, 1}, 4, 0, 2, {0xFFFFFFFE, 1}},
    {EXPAND, 2, {0xFFFFFFFE, 1}, 4, 0, 4, {0x7FFFFFFE, 0x7FFFFFFF, 0, 1}},
    {COMPRESS, 2, {0, 0x3FFFFFFF}, 4, 0, 2, {0, 0x3FFFFFFF}},
    {COMPRESS, 2, {0, 0x40000000}, 4, 16, 1, {0}},
    {COMPRESS, 2, {0, 0x40000001}, 4, 16, 1, {0}},
    {COMPRESS, 2, {5, 5}, 4, 16, 1, {0}},
    {COMPRESS, 2, {7, 0x80000000}, 4, 15, 1, {0}},
    {EXPAND, 2, {0x80000005, 6}, 4, 0, 2, {5, 6}},
    {EXPAND, 2, {0x80000005, 5}, 4, 19, 1, {0}},
    {EXPAND, 1, {0x80000005}, 4, 17, 0, {0}},
    {EXPAND, 2, {0x80000005, 0x80000007}, 4, 18, 1, {0}},
    {EXPAND, 2, {9, 3}, 4, 0, 2, {9, 3}},
    {EXPAND, 2, {0x80000005, 7}, 2, 21, 3, {0}},
    {EXPAND, 2, {0x80000000, 65536}, 66000, 20, 0, {0}},
    {EXPAND, 2, {0x80000000, 8192}, 4, 21, 8193, {0}},
    {EXPAND, 2, {0x80000000, 0x7FFFFFFF}, 4, 19, 1, {0}},
    {EXPAND, 2, {0x80000000, 0x40000000}, 4, 19, 1, {0}},
    {EXPAND, 2, {0x80000000, 0x3FFFFFFF}, 4, 20, 0, {0}},
};

/* Why a number is lost: the cases of RULES 3. */
static const struct {
    size_t n;
    uint32_t in[4], number, refusal, value;
} why_cases[] = {
    {0, {0}, 5, 0, MODEL_NOT_LOST},
    {3, {0x80000005, 7, 9}, 5, 0, 0},
    {3, {0x80000005, 7, 9}, 7, 0, 0},
    {3, {0x80000005, 7, 9}, 8, 0, MODEL_NOT_LOST},
    {3, {0x80000005, 7, 9}, 9, 0, 2},
    {3, {9, 0x80000005, 9}, 9, 0, 0},
    {2, {0xFFFFFFFE, 1}, 0, 0, 0},
    {2, {0xFFFFFFFE, 1}, 2, 0, MODEL_NOT_LOST},
    {2, {0xFFFFFFFE, 1}, 0x7FFFFFFD, 0, MODEL_NOT_LOST},
    {1, {5}, 0x80000005, 15, 0},
    {2, {5, 0x80000005}, 0x80000005, 17, 1},
    {2, {5, 0x80000005}, 5, 17, 1},
    {2, {0x80000000, 65536}, 0, 20, 0},
};

static void why_document_cases(void)
{
    size_t i;
    for (i = 0; i < sizeof why_cases / sizeof why_cases[0]; i++) {
        memcpy(given, why_cases[i].in, sizeof why_cases[i].in);
        byte_words(in_memory.write, given, 4 * why_cases[i].n);
        ask(in_memory.read, 4 * why_cases[i].n, why_cases[i].number);
        if (expected_why.refusal != why_cases[i].refusal || expected_why.value != why_cases[i].value)
            fail("the model does not say what the document says");
    }
}

static void document_cases(void)
{
    size_t i, j;
    uint64_t answer;
    given_kind = "the rules' cases";
    for (i = 0; i < sizeof cases / sizeof cases[0]; i++) {
        const struct case_of_document *c = &cases[i];
        memcpy(given, c->in, sizeof c->in);
        model(c->function, given, 4 * c->n, 4 * c->room, &expected);
        if (expected.refusal != c->refusal || expected.value != c->value)
            fail("the model does not say what the document says");
        for (j = 0; c->refusal == 0 && j < c->value; j++)
            if (expected.words[j] != c->out[j])
                fail("the model does not say what the document says");
        try_placed(c->function, 4 * c->n, 4 * c->room, 0);
        try_placed(c->function, 4 * c->n, 4 * c->room, 1);
    }

    /* [0x80000000,65535]: 65,536 numbers */
    given[0] = 0x80000000u;
    given[1] = 65535;
    try(EXPAND, 8, 4 * 65536);
    if (expected.refusal != 0 || expected.value != 65536)
        fail("the model does not say what the document says");

    /* both may be null where both are empty, and each where it is empty */
    given_kind = "null pointers";
    given_bytes = given_room = 0;
    for (i = 0; i < 2; i++) {
        given_function = (enum function)i;
        if (called((enum function)i, NULL, 0, NULL, 0) != 0 || called((enum function)i, NULL, 0, out.memory.write, 16) != 0)
            fail("an empty input with a null pointer is not accepted");
        given[0] = 7;
        byte_words(in_memory.write, given, 4);
        answer = called((enum function)i, in_memory.read, 4, NULL, 0);
        if (answer >> 32 != 21 || (answer & 0xFFFFFFFFu) != 1)
            fail("no room, with a null pointer, is not refusal 21 carrying 1");
        tally[i].calls += 3;
    }
    ask(NULL, 0, 5);
}

/* n numbers in runs of a length, the last of them cut short, across the wrap. */
static void in_runs(size_t n, size_t length)
{
    size_t i;
    uint64_t number = RING - n / 2;
    for (i = 0; i < n; i++) {
        number = (number + (i % length == 0 ? 2 : 1)) % RING;
        given[i] = (uint32_t)number;
    }
}

/* As many numbers as the limit, one less and one more, in runs of every length that matters, and their lists; as many words; and all
   of it about the limit that was. */
static void at_the_limit(void)
{
    static const size_t lengths[] = {1, 2, 3, 4, 7, 1000, MODEL_LIMIT + 1};
    size_t i, k, n, words;
    given_kind = "at the limit";
    for (k = 0; k < 6; k++) {
        n = (k < 3 ? MODEL_LIMIT : OLD_LIMIT) - 1 + k % 3;
        for (i = 0; i < sizeof lengths / sizeof lengths[0]; i++) {
            in_runs(n, lengths[i]);
            try(COMPRESS, 4 * n, 4 * n);
            if ((expected.refusal == 14) != (n > MODEL_LIMIT))
                fail("the limit of numbers given is not where it should be");
            if (expected.refusal)
                continue;
            words = (size_t)expected.value;
            try(COMPRESS, 4 * n, 4 * words - 1);
            try(COMPRESS, 4 * n, 4 * words);
            memcpy(given, expected.words, 4 * words);
            try(EXPAND, 4 * words, 4 * n - 1);
            try(EXPAND, 4 * words, 4 * n);
        }
        for (i = 0; i < n; i++) /* lone numbers in no order */
            given[i] = (uint32_t)(i * 40503 % RING);
        try(EXPAND, 4 * n, 4 * n);
        if ((expected.refusal == 14) != (n > MODEL_LIMIT))
            fail("the limit of words is not where it should be");
        for (i = 1; i < 3; i++) { /* one range, and two */
            given[0] = (uint32_t)(2 * RING - 9);
            given[1] = (uint32_t)(n / i - 10);
            given[2] = 0x80000007u;
            given[3] = (uint32_t)(7 + n - n / 2 - 1);
            try(EXPAND, 8 * i, 4 * n);
            if (expected.refusal == 0 ? expected.value != n : n <= MODEL_LIMIT || expected.refusal != 20)
                fail("the limit of numbers expanded is not where it should be");
            try(EXPAND, 8 * i, 4 * n - 1);
        }
    }
    for (i = 0; i < 20; i++) { /* one word too many, as often as an answer must be met */
        try(COMPRESS, 4 * (MODEL_LIMIT + 1), 4 * i);
        try(EXPAND, 4 * (MODEL_LIMIT + 1), 4 * i);
    }
}

/* One step of half the ring, or of one less or more, from several starts and across the wrap: as a step of numbers in the first, a
   middle and the last place, among neighbours or not, and as a range there. */
static void about_half_the_ring(void)
{
    static const uint64_t starts[] = {0, 1, 0x12345678, HALF - 1, HALF, HALF + 1, RING - 2, RING - 1};
    static const size_t lengths[] = {2, 3, 4, 5, 8, 9, 17, 100, MODEL_LIMIT};
    size_t s, l, where, i;
    uint64_t far, by;
    given_kind = "about half the ring";
    for (s = 0; s < sizeof starts / sizeof starts[0]; s++)
        for (l = 0; l < sizeof lengths / sizeof lengths[0]; l++)
            for (where = 0; where < 3; where++)
                for (far = HALF - 1; far <= HALF + 1; far++) {
                    size_t n = lengths[l], place = where == 0 ? 1 : where == 1 ? n / 2 : n - 1;
                    for (by = 1; by < 3; by++) {
                        uint64_t number = (starts[s] + RING - by * (place - 1)) % RING;
                        for (i = 0; i < n; i++) {
                            given[i] = (uint32_t)number;
                            number = (number + (i + 1 == place ? far : by)) % RING;
                        }
                        try(COMPRESS, 4 * n, 4 * n);
                        if (far < HALF ? expected.refusal != 0 : expected.refusal != 16 || expected.value != place)
                            fail("half the ring is not where a step becomes too long");
                    }
                    place = where == 0 ? 0 : where == 1 ? (n - 1) / 2 : n - 2;
                    for (i = 0; i < n; i++)
                        given[i] = (uint32_t)(7 + 2 * i);
                    given[place] = (uint32_t)(starts[s] + RING);
                    given[place + 1] = (uint32_t)((starts[s] + far) % RING);
                    try(EXPAND, 4 * n, 4 * MODEL_LIMIT);
                    if (far < HALF ? expected.refusal != 20 || expected.value != place : expected.refusal != 19 || expected.value != place + 1)
                        fail("half the ring is not where a range becomes too long");
                }
}

/* Long lists that a walk would not end on: each is tried many times. */
static void at_once(void)
{
    size_t i, n;
    given_kind = "answered at once";
    for (n = 0; n < 25; n++) {
        given[0] = 0x80000000u;
        given[1] = 0x3FFFFFFFu; /* 2^30 numbers */
        try(EXPAND, 8, 4 * MODEL_LIMIT);
        for (i = 0; i + 1 < MODEL_LIMIT; i += 2) {
            given[i] = 0x80000000u + (uint32_t)n;
            given[i + 1] = 0x3FFFFFFFu + (uint32_t)n;
        }
        try(EXPAND, 4 * MODEL_LIMIT, 4 * MODEL_LIMIT); /* ranges of 2^30 alone */
        for (i = 0; i < MODEL_LIMIT; i++)
            given[i] = 0xFFFFFFFFu - (uint32_t)(n * i);
        try(EXPAND, 4 * MODEL_LIMIT, 4 * MODEL_LIMIT); /* flagged words only */
    }
}

/* ---- two lists merged */

/* How the buffers of a merge stand: each at the end of its memory or at its start, and those that are empty nowhere. */
enum { FIRST_AT_END = 1, SECOND_AT_END = 2, OUT_AT_END = 4, EMPTY_IS_NULL = 8, WAYS = 16 };

static struct outcome expected_merge;

/* What was met: refusals by the list at fault, 0 for neither, and merges that were accepted by their kind. */
enum { IN_ORDER, IN_DISORDER, REPEATED, ACROSS, EMPTY, KINDS_OF_MERGES };
static uint64_t at_fault[3][32], of_kind[KINDS_OF_MERGES];

/* How many numbers a list stands for. */
static uint64_t named(const uint32_t *words, size_t n)
{
    uint64_t all = 0;
    size_t i;
    for (i = 0; i < n; i += words[i] < RING ? 1 : 2)
        all += words[i] < RING ? 1 : (words[i + 1] + RING - words[i] % RING) % RING + 1;
    return all;
}

static void count_merged(uint32_t oldest)
{
    size_t list, i, n = (size_t)expected_merge.value;
    const uint32_t *words = expected_merge.words;
    uint64_t all = 0;
    int ordered = 1, across = 0;
    for (list = 0; list < 2; list++) {
        ordered &= model_in_order(oldest, sides[list].words, sides[list].bytes / 4);
        all += named(sides[list].words, sides[list].bytes / 4);
    }
    for (i = 0; i < n; i++)
        across |= words[i] >= RING && words[i + 1] < words[i] % RING;
    of_kind[ordered ? IN_ORDER : IN_DISORDER]++;
    of_kind[REPEATED] += all > named(words, n);
    of_kind[ACROSS] += across != 0;
    of_kind[EMPTY] += n == 0;
}

/* Merges the lists in `sides`, given in their order or, where `first` is 1, exchanged. */
static void try_merge_placed(uint32_t oldest, int first, size_t room_bytes, unsigned how)
{
    const struct side *one = &sides[first], *two = &sides[1 - first];
    const uint32_t *words[2] = {one->words, two->words};
    const size_t bytes[2] = {one->bytes, two->bytes};
    const uint8_t *in, *second;
    int fault, null_if_empty = (how & EMPTY_IS_NULL) != 0;
    uint64_t answer;

    given_function = MERGE;
    given_number = oldest;
    given_first = first;
    given_room = room_bytes;
    fault = model_merge(oldest, words, bytes, room_bytes, &expected_merge);
    byte_words(in_before, one->words, one->bytes);
    byte_words(second_before, two->words, two->bytes);
    in = input(&in_memory, in_before, one->bytes, how & FIRST_AT_END);
    second = input(&second_memory, second_before, two->bytes, how & SECOND_AT_END);
    paint(&out, room_bytes, how & OUT_AT_END, tally[MERGE].calls++);

    begin_call();
    answer = end_call(xez_merge(oldest, one->bytes == 0 && null_if_empty ? NULL : in, one->bytes,
                                two->bytes == 0 && null_if_empty ? NULL : second, two->bytes,
                                room_bytes == 0 && null_if_empty ? NULL : out.buffer, room_bytes));
    judge_answer(&tally[MERGE], answer, expected_merge.refusal, expected_merge.value);
    at_fault[fault][expected_merge.refusal]++;
    if (expected_merge.refusal == 0) {
        count_merged(oldest);
        byte_words(out.should, expected_merge.words, 4 * (size_t)expected_merge.value);
    }
    if (!is_as_it_should_be(&out))
        fail(expected_merge.refusal ? "a refusal wrote to memory" : "other words or other memory than the model's");
    if (memcmp(in, in_before, one->bytes) != 0 || memcmp(second, second_before, two->bytes) != 0)
        fail("an input was changed");
}

/* In both orders: both are accepted, with the same words, or neither. */
static void try_merge(uint32_t oldest, size_t room_bytes)
{
    static uint32_t kept[MODEL_LIMIT];
    uint32_t refusal;
    uint64_t value;
    try_merge_placed(oldest, 0, room_bytes, (unsigned)below(WAYS));
    refusal = expected_merge.refusal;
    value = expected_merge.value;
    if (refusal == 0)
        memcpy(kept, expected_merge.words, 4 * (size_t)value);
    try_merge_placed(oldest, 1, room_bytes, (unsigned)below(WAYS));
    if ((refusal == 0) != (expected_merge.refusal == 0))
        fail("one order of the lists is accepted, and the other is not");
    if (refusal == 0 && (value != expected_merge.value || memcmp(kept, expected_merge.words, 4 * (size_t)value) != 0))
        fail("the order of the lists tells in the words");
}

static void same_again(struct side *to, const struct side *from)
{
    memcpy(to->words, from->words, from->bytes);
    to->bytes = from->bytes;
}

/* One item more: the number so many steps after the oldest, and `more` numbers after it. */
static void item(struct side *to, uint64_t oldest, uint64_t steps, uint64_t more)
{
    uint32_t *at = to->words + to->bytes / 4;
    at[0] = (uint32_t)((oldest + steps) % RING + (more ? RING : 0));
    if (more)
        at[1] = (uint32_t)((oldest + steps + more) % RING);
    to->bytes += more ? 8 : 4;
}

/* Oldest numbers at the boundaries; from those past 2^30 the window passes the wrap. */
static const uint64_t oldests[] = {0, 1, 5, 0x12345678, HALF - 1, HALF, HALF + 1, RING - 65536, RING - 8, RING - 2, RING - 1};
enum { OLDESTS = sizeof oldests / sizeof oldests[0] };

/* Lists and what they are merged to, from an oldest number of 0; from another one all numbers are as much greater. */
static const struct {
    size_t n;
    uint32_t first[4];
    size_t m;
    uint32_t second[4];
    size_t room;
    uint32_t refusal, value, out[4];
} merge_cases[] = {
    {0, {0}, 0, {0}, 0, 0, 0, {0}},
    {1, {5}, 0, {0}, 4, 0, 1, {5}},
    {1, {5}, 1, {5}, 1, 0, 1, {5}},
    {1, {5}, 1, {6}, 4, 0, 2, {5, 6}},
    {2, {5, 7}, 1, {6}, 4, 0, 2, {0x80000005, 7}},
    {2, {5, 6}, 2, {7, 8}, 4, 0, 2, {0x80000005, 8}},
    {2, {0x80000005, 6}, 0, {0}, 4, 0, 2, {5, 6}},
    {2, {0x80000005, 6}, 1, {7}, 4, 0, 2, {0x80000005, 7}},
    {3, {0x80000005, 7, 9}, 1, {8}, 4, 0, 2, {0x80000005, 9}},
    {2, {0x80000005, 7}, 2, {0x80000006, 9}, 4, 0, 2, {0x80000005, 9}},
    {2, {0x80000005, 7}, 2, {0x80000005, 9}, 4, 0, 2, {0x80000005, 9}},
    {2, {0x80000005, 9}, 1, {7}, 4, 0, 2, {0x80000005, 9}},
    {2, {0x80000005, 7}, 2, {0x80000008, 9}, 4, 0, 2, {0x80000005, 9}},
    {2, {0x80000005, 7}, 2, {0x80000009, 11}, 4, 0, 4, {0x80000005, 7, 0x80000009, 11}},
    {2, {9, 5}, 1, {7}, 4, 0, 3, {5, 7, 9}},
    {2, {9, 5}, 2, {9, 5}, 4, 0, 2, {5, 9}},
    {3, {0x80000004, 6, 5}, 2, {1, 0}, 4, 0, 4, {0, 1, 0x80000004, 6}},
    {2, {5, 7}, 1, {9}, 3, 0, 3, {5, 7, 9}},
    {2, {5, 7}, 1, {9}, 2, 21, 3, {0}},
    {1, {0}, 1, {0x3FFFFFFF}, 4, 0, 2, {0, 0x3FFFFFFF}},
    {2, {0x80000000, 2}, 2, {0xBFFFFFFD, 0x3FFFFFFF}, 4, 0, 4, {0x80000000, 2, 0xBFFFFFFD, 0x3FFFFFFF}},
    {1, {0x40000000}, 0, {0}, 4, 29, 0, {0}},
    {1, {0x7FFFFFFF}, 1, {0x40000000}, 4, 29, 0, {0}},
    {2, {5, 0x7FFFFFFF}, 1, {5}, 0, 29, 1, {0}},
    {1, {5}, 2, {6, 0x40000000}, 0, 29, 1, {0}},
    {3, {5, 0xBFFFFFFE, 0x40000000}, 0, {0}, 4, 29, 1, {0}},
    {3, {5, 0xFFFFFFFF, 1}, 0, {0}, 4, 29, 1, {0}},
    {1, {5}, 4, {0x80000006, 8, 0xFFFFFFFE, 0}, 4, 29, 2, {0}},
    {3, {0x80000005, 7, 0x40000000}, 2, {5, 0x40000000}, 4, 29, 2, {0}},
    {2, {5, 0x40000000}, 1, {0x80000005}, 4, 17, 0, {0}},
    {2, {9, 0x80000005}, 2, {0x80000005, 0x80000006}, 4, 17, 1, {0}},
    {1, {5}, 2, {0x80000005, 0x80000006}, 4, 18, 1, {0}},
    {1, {5}, 3, {1, 0x80000005, 5}, 4, 19, 2, {0}},
    {1, {5}, 3, {9, 0x80000000, 65536}, 4, 20, 1, {0}},
    {2, {0x80000000, 65535}, 1, {5}, 2, 0, 2, {0x80000000, 65535}},
    {2, {0x80000000, 65535}, 1, {65536}, 0, 20, 0, {0}},
    {2, {0x80000000, 65535}, 2, {65536, 0x40000000}, 4, 29, 1, {0}},
    {4, {0x80000000, 39999, 0x80000000, 39999}, 0, {0}, 4, 20, 2, {0}},
    {2, {0x80000000, 39999}, 2, {0x80000000, 39999}, 4, 0, 2, {0x80000000, 39999}},
};

/* A word with its number as many steps further. */
static uint32_t further(uint32_t word, uint64_t steps)
{
    return (uint32_t)((word + steps) % RING + (word < RING ? 0 : RING));
}

static void cases_of_merging(void)
{
    size_t i, j, o;
    unsigned how;
    given_kind = "cases of merging";
    for (i = 0; i < sizeof merge_cases / sizeof merge_cases[0]; i++)
        for (o = 0; o < OLDESTS; o++) {
            sides[0].bytes = 4 * merge_cases[i].n;
            sides[1].bytes = 4 * merge_cases[i].m;
            for (j = 0; j < 4; j++) {
                sides[0].words[j] = further(merge_cases[i].first[j], oldests[o]);
                sides[1].words[j] = further(merge_cases[i].second[j], oldests[o]);
            }
            for (how = 0; how < (o ? 1 : WAYS); how++) {
                try_merge_placed((uint32_t)oldests[o], 0, 4 * merge_cases[i].room + how % 4, how);
                if (expected_merge.refusal != merge_cases[i].refusal || expected_merge.value != merge_cases[i].value)
                    fail("the model does not say what the case says");
                for (j = 0; expected_merge.refusal == 0 && j < expected_merge.value; j++)
                    if (expected_merge.words[j] != further(merge_cases[i].out[j], oldests[o]))
                        fail("the model does not say what the case says");
            }
            try_merge((uint32_t)oldests[o], 4 * merge_cases[i].room);
            try_merge((uint32_t)(oldests[o] + RING), 16);
            if (expected_merge.refusal != 15 || expected_merge.value != 0)
                fail("the model takes an oldest number of 2^31 or more");
        }
}

/* Every two lists of which each has one fault or none, with room and one byte short of it, and from an oldest number of 2^31 and more. */
static void every_two_faults(void)
{
    static const uint32_t faults[] = {0, 1, 14, 17, 18, 19, 20, 29};
    enum { FAULTS = sizeof faults / sizeof faults[0] };
    size_t two, o;
    int i;
    given_kind = "every two faults";
    for (two = 0; two < FAULTS * FAULTS; two++)
        for (o = 0; o < OLDESTS; o++) {
            uint32_t oldest = (uint32_t)oldests[o], fault[2] = {faults[two / FAULTS], faults[two % FAULTS]}, wanted;
            for (i = 0; i < 2; i++) {
                struct side *s = &sides[i];
                s->bytes = 0;
                item(s, oldest, 3, 0);
                item(s, oldest, 5, 2);
                if (fault[i] == 1)
                    s->bytes += 1 + o % 3;
                else if (fault[i] == 14) /* whatever stands there */
                    s->bytes = 4 * (MODEL_LIMIT + 1);
                else if (fault[i] == 17)
                    s->bytes -= 4;
                else if (fault[i] == 18)
                    s->words[2] += (uint32_t)RING;
                else if (fault[i] == 19)
                    s->words[2] = (uint32_t)(s->words[1] % RING);
                else if (fault[i] == 20)
                    s->words[2] = further(s->words[2], o % 2 ? MODEL_LIMIT : HALF - 3);
                else if (fault[i] == 29) /* outside are the end, the start, or both */
                    item(s, oldest, o % 3 == 0 ? HALF - 1 : o % 3 == 1 ? RING - 1 : HALF, 1);
            }
            wanted = fault[0] && fault[0] != 29 ? fault[0] : fault[1] ? fault[1] : fault[0];
            for (i = 0; i < 2; i++) {
                try_merge_placed(oldest, 0, i ? 12 : 11, (unsigned)below(WAYS));
                if (expected_merge.refusal != (wanted ? wanted : i ? 0 : 21))
                    fail("the model has the refusals in another order");
            }
            try_merge_placed((uint32_t)(oldest + RING), 0, 12, (unsigned)below(WAYS));
            if (expected_merge.refusal != 15)
                fail("the model has the refusals in another order");
        }
}

/* Every two lists of up to two words over the words at the boundaries, from several oldest numbers. */
static void short_merges(void)
{
    static const uint32_t at_boundaries[] = {0, 1, 2, 0x3FFFFFFF, 0x40000000, 0x7FFFFFFF, 0x80000000, 0x80000001, 0xBFFFFFFF, 0xFFFFFFFF};
    static const uint32_t from[] = {0, 1, 2, 0x3FFFFFFF, 0x40000000, 0x7FFFFFFF, 0x80000000};
    enum { KINDS = sizeof at_boundaries / sizeof at_boundaries[0], LISTS = 1 + KINDS + KINDS * KINDS };
    size_t two, o, i;
    given_kind = "short lists to merge";
    for (two = 0; two < LISTS * LISTS; two++) {
        for (i = 0; i < 2; i++) {
            size_t list = i ? two / LISTS : two % LISTS;
            sides[i].bytes = list == 0 ? 0 : list <= KINDS ? 4 : 8;
            sides[i].words[0] = at_boundaries[(list + KINDS - 1) % KINDS];
            sides[i].words[1] = at_boundaries[(list + KINDS - 1) / KINDS % KINDS];
        }
        for (o = 0; o < sizeof from / sizeof from[0]; o++)
            try_merge_placed(from[o], 0, 4 * ((two + o) % 5), (unsigned)(two + o / 2) % WAYS);
    }
}

/* Of numbers in runs of a length, the list of those from one to before another, every one or every other one. */
static void part(struct side *to, uint64_t oldest, uint64_t length, uint64_t from, uint64_t end, uint64_t by)
{
    static uint32_t numbers[MODEL_LIMIT + 8];
    static struct outcome list;
    size_t n = 0;
    for (; from < end; from += by)
        numbers[n++] = (uint32_t)((oldest + from + from / length) % RING);
    model_compress(numbers, n, n, &list);
    to->bytes = 4 * (size_t)list.value;
    memcpy(to->words, list.words, to->bytes);
}

/* n numbers in runs of a length, parted between the two lists. */
static void parted(unsigned way, uint64_t oldest, uint64_t length, uint64_t n)
{
    struct side *first = &sides[0], *second = &sides[1];
    switch (way) {
    case 0: /* half each */
        part(first, oldest, length, 0, n / 2, 1);
        part(second, oldest, length, n / 2, n, 1);
        break;
    case 1: /* one of them in both */
        part(first, oldest, length, 0, n / 2, 1);
        part(second, oldest, length, n / 2 - 1, n, 1);
        break;
    case 2: /* by turns */
        part(first, oldest, length, 0, n, 2);
        part(second, oldest, length, 1, n, 2);
        break;
    case 3: /* the last one alone */
        part(first, oldest, length, 0, n - 1, 1);
        part(second, oldest, length, n - 1, n, 1);
        break;
    default: /* all but one in both */
        part(first, oldest, length, 1, n, 1);
        part(second, oldest, length, 0, n - 1, 1);
    }
}

/* As many numbers in both lists together as the limit, one less and one more, and the same about the limit that was; then two full lists,
   the same and another one. */
static void merges_at_the_limit(void)
{
    static const uint64_t lengths[] = {1, 3, MODEL_LIMIT + 1};
    const uint32_t oldest = (uint32_t)(RING - 50000);
    size_t i, k;
    unsigned way;
    given_kind = "merges at the limit";
    for (k = 0; k < 6; k++)
        for (i = 0; i < sizeof lengths / sizeof lengths[0]; i++)
            for (way = 0; way < 5; way++) {
                uint64_t n = (k < 3 ? MODEL_LIMIT : OLD_LIMIT) - 1 + k % 3;
                parted(way, oldest, lengths[i], n);
                try_merge(oldest, 0);
                if (expected_merge.refusal != (n > MODEL_LIMIT ? 20 : 21) || (n > MODEL_LIMIT && expected_merge.value != 0))
                    fail("the limit of numbers merged is not where it should be");
                if (n <= MODEL_LIMIT)
                    try_merge(oldest, 4 * (size_t)expected_merge.value - (way == 0));
            }
    for (i = 0; i < sizeof lengths / sizeof lengths[0]; i++) {
        part(&sides[0], oldest, lengths[i], 0, MODEL_LIMIT, 1);
        same_again(&sides[1], &sides[0]);
        try_merge(oldest, sides[0].bytes);
        if (expected_merge.refusal != 0 || 4 * expected_merge.value != sides[0].bytes)
            fail("a full list does not stay as it is with itself");
        part(&sides[1], oldest, lengths[i], MODEL_LIMIT, 2 * MODEL_LIMIT, 1);
        try_merge(oldest, 4 * MODEL_LIMIT);
        if (expected_merge.refusal != 20 || expected_merge.value != 0)
            fail("two full lists are not too many numbers");
    }
}

static void backwards(struct side *list)
{
    size_t i, n = list->bytes / 4;
    for (i = 0; i < n / 2; i++) {
        uint32_t word = list->words[i];
        list->words[i] = list->words[n - 1 - i];
        list->words[n - 1 - i] = word;
    }
}

/* Numbers that the two lists have by turns, one of them left out, at every place of a long run; and two ranges that share a number there, or
   meet, or leave one out. The numbers of a run may be gone over some hundred at a time, and nothing may show where one lot ends. */
static void gaps_at_every_place(void)
{
    enum { NUMBERS = 1100 };
    uint64_t gap, i;
    given_kind = "a gap at every place";
    for (gap = 1; gap + 1 < NUMBERS; gap++) {
        uint64_t oldest = some_start(), start = below(3) * below(600);
        sides[0].bytes = sides[1].bytes = 0;
        for (i = 0; i < NUMBERS; i++)
            if (i != gap)
                item(&sides[i % 2], oldest, start + i, 0);
        if (gap % 16 == 0)
            backwards(&sides[0]);
        if (gap % 32 == 0)
            backwards(&sides[1]);
        try_merge((uint32_t)oldest, 16);
        for (i = 0; i < 3; i++) {
            sides[0].bytes = sides[1].bytes = 0;
            item(&sides[0], oldest, start, gap);
            item(&sides[1], oldest, start + gap + i, NUMBERS);
            try_merge((uint32_t)oldest, 16);
        }
    }
}

/* Long lists. Those in order are not to take longer than their words and numbers do, and those in disorder, whose numbers stand in two runs or
   three, not longer than their items for each run. */
static void merges_at_once(void)
{
    enum { DISORDERLY = 16384 };
    uint64_t i, oldest = RING - 70000;
    given_kind = "merges answered at once";
    part(&sides[0], oldest, 1, 0, MODEL_LIMIT, 1); /* lone numbers, twice the same */
    same_again(&sides[1], &sides[0]);
    try_merge((uint32_t)oldest, 4 * MODEL_LIMIT);
    part(&sides[0], oldest, 1, 0, MODEL_LIMIT, 2); /* by turns, */
    part(&sides[1], oldest, 1, 1, MODEL_LIMIT, 2);
    try_merge((uint32_t)oldest, 4 * MODEL_LIMIT);
    part(&sides[1], oldest, 1, MODEL_LIMIT + 1, 2 * MODEL_LIMIT, 2); /* and those of one list after those of the other */
    try_merge((uint32_t)oldest, 4 * MODEL_LIMIT);

    sides[0].bytes = sides[1].bytes = 4 * MODEL_LIMIT;
    for (i = 0; i < MODEL_LIMIT; i++) /* one number again and again, */
        sides[0].words[i] = sides[1].words[i] = (uint32_t)oldest;
    try_merge((uint32_t)oldest, 4);
    for (i = 0; i < MODEL_LIMIT; i++) /* and two by turns */
        sides[0].words[i] = (uint32_t)(oldest + 9 - i % 2 * 4);
    try_merge((uint32_t)oldest, 12);
    part(&sides[0], oldest, DISORDERLY, 0, 2 * DISORDERLY, 2); /* neighbours by turns, from the last on */
    part(&sides[1], oldest, DISORDERLY, 1, 2 * DISORDERLY, 2);
    backwards(&sides[0]);
    backwards(&sides[1]);
    try_merge((uint32_t)oldest, 16);
    for (i = 0; i < MODEL_LIMIT; i += 2) { /* ranges of 2^30 */
        sides[0].words[i] = 0x80000000u;
        sides[0].words[i + 1] = 0x3FFFFFFFu;
    }
    sides[0].bytes = 4 * MODEL_LIMIT;
    try_merge(0, 8);
}

/* ---- random merges */

/* How many steps after the oldest the numbers of a list begin. Those of one in disorder reach less than twice the width further. */
static uint64_t some_zone(uint64_t oldest, uint64_t width)
{
    uint64_t to_wrap = model_steps(oldest, RING - width / 2);
    switch (below(8)) {
    case 0:
        return 0;
    case 1:
        return HALF - 2 * width; /* to the last number of the window, */
    case 2:
        return HALF - 2 * width + 1 + below(2); /* and now and then past it */
    case 3:
        return RING - below(2); /* at the oldest, or the number before it */
    case 4:
        return to_wrap < HALF - 2 * width ? to_wrap : 0;
    default:
        return below(HALF - 2 * width);
    }
}

/* So many items, in order or not, with neighbours, overlaps, repeats and ranges of two among them. */
static void draw_items(struct side *to, uint64_t oldest, uint64_t zone, uint64_t width, size_t items, int ordered)
{
    uint64_t at = zone, kind, more;
    to->bytes = 0;
    while (items-- > 0) {
        kind = below(8);
        more = kind < 4 ? 0 : kind < 6 ? kind - 3 : 1 + below(kind == 6 ? 8 : width);
        if (!ordered)
            at = zone + below(width);
        item(to, oldest, at, more);
        at += below(3) ? more + below(4) : below(2);
    }
}

static size_t some_items(void)
{
    uint64_t which = below(2000);
    return (size_t)below(which == 0 ? 500 : which < 40 ? 80 : 9);
}

static void merge_with_rooms(uint32_t oldest, const char *kind)
{
    const uint32_t *words[2] = {sides[0].words, sides[1].words};
    const size_t bytes[2] = {sides[0].bytes, sides[1].bytes};
    size_t room;
    given_kind = kind;
    if (below(32) == 0)
        oldest += (uint32_t)RING;
    model_merge(oldest, words, bytes, ROOM_BYTES, &expected_merge);
    room = some_room(4 * (size_t)(expected_merge.refusal ? below(20) : expected_merge.value));
    try_merge(oldest, room);
    if (below(32) == 0) {
        sides[below(2)].bytes += 1 + below(3);
        try_merge(oldest, room);
    }
}

static void random_merges(uint64_t times)
{
    uint64_t i, j;
    for (i = 0; i < 30000 * times; i++) {
        uint64_t oldest = some_start(), width = below(16) ? 8 << below(5) : 2000, zone = some_zone(oldest, width);
        uint64_t second_zone = below(4) ? zone : some_zone(oldest, width);
        draw_items(&sides[0], oldest, zone, width, some_items(), below(2) != 0);
        draw_items(&sides[1], oldest, second_zone, width, below(8) ? some_items() : 0, below(2) != 0);
        if (below(16) == 0)
            same_again(&sides[1], &sides[0]);
        merge_with_rooms((uint32_t)oldest, "lists to merge");
        for (j = 0; j < 2; j++)
            if (below(2)) {
                sides[j].bytes -= sides[j].bytes % 4;
                damage(sides[j].words, sides[j].bytes / 4);
            }
        merge_with_rooms((uint32_t)oldest, "damaged lists to merge");
    }
    for (i = 0; i < 12 * times; i++) { /* in order, with about as many numbers as the limit, some in one list alone */
        uint64_t oldest = some_start();
        for (j = 0; j < 2; j++)
            draw_items(&sides[j], oldest, below(2) * below(40000), 8, (size_t)(20000 + below(7000)), 1);
        merge_with_rooms((uint32_t)oldest, "long lists to merge");
    }
    given_kind = "any words to merge";
    for (i = 0; i < 5000 * times; i++) {
        for (j = 0; j < 24; j++)
            sides[j % 2].words[j / 2] = (uint32_t)draw();
        for (j = 0; j < 2; j++)
            sides[j].bytes = (size_t)below(below(8) ? 5 : 12) * 4 + (size_t)(below(8) ? 0 : below(4));
        try_merge((uint32_t)draw(), (size_t)below(64));
    }
}

/* Merges two lists, with room for the words of both, into one that may be either of them. */
static void merge_into(struct side *to, uint32_t oldest, const struct side *a, const struct side *b)
{
    same_again(&sides[0], a);
    same_again(&sides[1], b);
    try_merge(oldest, sides[0].bytes + sides[1].bytes);
    if (expected_merge.refusal != 0)
        fail("lists in the window are not merged into room for both");
    to->bytes = 4 * (size_t)expected_merge.value;
    memcpy(to->words, expected_merge.words, to->bytes);
}

/* Three lists in either grouping give the same words, and what they give stays as it is with itself, with one that went into it and with none. */
static void three_lists(uint64_t times)
{
    static struct side lists[3], left, right;
    uint64_t i, j;
    given_kind = "three lists";
    for (i = 0; i < 2000 * times; i++) {
        uint64_t oldest = some_start(), width = 8 << below(4), zone = below(HALF - 4096);
        for (j = 0; j < 3; j++)
            draw_items(&lists[j], oldest, zone, width, (size_t)below(9), below(2) != 0);
        merge_into(&left, (uint32_t)oldest, &lists[0], &lists[1]);
        merge_into(&left, (uint32_t)oldest, &left, &lists[2]);
        merge_into(&right, (uint32_t)oldest, &lists[1], &lists[2]);
        merge_into(&right, (uint32_t)oldest, &lists[0], &right);
        if (left.bytes != right.bytes || memcmp(left.words, right.words, left.bytes) != 0)
            fail("the grouping of three lists tells in the words");
        lists[2].bytes = 0;
        for (j = 0; j < 3; j++) {
            merge_into(&right, (uint32_t)oldest, &left, j == 0 ? &left : &lists[j]);
            if (left.bytes != right.bytes || memcmp(left.words, right.words, left.bytes) != 0)
                fail("a merged list does not stay as it is with itself, with one that went into it, or with none");
        }
    }
}

/* Lengths past 32 bits. The input may not be looked at: it is refused by its length alone. */
static void great_lengths(void)
{
    uint8_t *far_in = far_memory(PROT_NONE), *far_out = far_memory(PROT_READ | PROT_WRITE);
    int i;
    given_kind = "lengths past 32 bits";
    given_bytes = 0;
    if (!far_in || !far_out)
        printf("relay_test: lengths past 32 bits were NOT RUN: no address space\n");
    for (i = 0; far_in && far_out && i < 2; i++) {
        enum function f = (enum function)i;
        given_function = f;
        if (called(f, far_in, GREAT, out.memory.write, 4) != ((uint64_t)14 << 32 | 65536))
            fail("2^32 + 1 words are not refused as too long");
        if (called(f, far_in, GREAT - 1, out.memory.write, 4) != (uint64_t)1 << 32)
            fail("a great odd length is not refused with 1");
        given[0] = 3;
        given[1] = 5;
        byte_words(in_memory.write, given, 8);
        if (called(f, in_memory.read, 8, far_out, GREAT) != 2 || far_out[7] != 5 || far_out[8] != 0)
            fail("a room of 2^32 + 1 words is taken for less");
        tally[i].calls += 3;
    }
    given_function = WHY_LOST;
    if (far_in && xez_why_lost(far_in, GREAT, 5) != ((uint64_t)14 << 32 | 65536))
        fail("2^32 + 1 words are not refused as too long");
    for (i = 0; far_in && far_out && i < 2; i++) { /* as the first list of a merge, and as the second */
        const uint8_t *near_in = in_memory.read;
        uint64_t long_list, odd_list;
        given_function = MERGE;
        begin_call();
        long_list = i ? xez_merge(3, near_in, 8, far_in, GREAT, out.memory.write, 4) : xez_merge(3, far_in, GREAT, near_in, 8, out.memory.write, 4);
        odd_list = i ? xez_merge(3, near_in, 8, far_in, GREAT - 1, NULL, 0) : xez_merge(3, far_in, GREAT - 1, near_in, 8, NULL, 0);
        if (end_call(long_list) != ((uint64_t)14 << 32 | 65536))
            fail("2^32 + 1 words in one of two lists are not refused as too long");
        if (odd_list != (uint64_t)1 << 32)
            fail("a great odd length of one of two lists is not refused with 1");
        memset(far_out, 0, 12);
        begin_call();
        if (end_call(xez_merge(3, near_in, 8, NULL, 0, far_out, GREAT)) != 2 || far_out[7] != 5 || far_out[8] != 0)
            fail("a room of 2^32 + 1 words is taken for less");
        tally[MERGE].calls += 3;
    }
    give_back(far_in);
    give_back(far_out);
}

/* Says by which list merges were refused, and of what kind those accepted were: each must have been met as often as an answer must. */
static void report_merges(void)
{
    static const uint32_t gives[] = {1, 14, 17, 18, 19, 20, 29};
    static const char *const kinds[KINDS_OF_MERGES] = {"of lists in order", "of lists in disorder", "with a number that came twice",
                                                       "with a range across the wrap", "empty"};
    size_t list, i;
    uint64_t least = at_fault[0][20];
    for (list = 1; list < 3; list++) {
        printf("relay_test: of those refused, the %s list was at fault", list == 1 ? "first" : "second");
        for (i = 0; i < sizeof gives / sizeof gives[0]; i++) {
            printf("%s %" PRIu64 " times with %" PRIu32, i ? "," : "", at_fault[list][gives[i]], gives[i]);
            least = least < at_fault[list][gives[i]] ? least : at_fault[list][gives[i]];
        }
        printf("\n");
    }
    printf("relay_test: of those refused with 20, both lists together were over the limit %" PRIu64 " times; of those accepted", at_fault[0][20]);
    for (i = 0; i < KINDS_OF_MERGES; i++) {
        printf(", %" PRIu64 " %s", of_kind[i], kinds[i]);
        least = least < of_kind[i] ? least : of_kind[i];
    }
    printf("\n");
    if (least < 20)
        fail("too few merges of a kind");
}

int main(int argc, char **argv)
{
    static const uint32_t compress_gives[] = {0, 1, 14, 15, 16, 21}, expand_gives[] = {0, 1, 14, 17, 18, 19, 20, 21};
    static const uint32_t why_gives[] = {0, 1, 14, 15, 17, 18, 19, 20}, merge_gives[] = {0, 1, 14, 15, 17, 18, 19, 20, 21, 29};
    uint64_t times = begin_test("relay_test", argc, argv);

    in_memory = guarded(ROOM_BYTES / PAGE);
    second_memory = guarded(ROOM_BYTES / PAGE);
    out = guarded_output(ROOM_BYTES / PAGE);
    document_cases();
    why_document_cases();
    cases_of_merging();
    great_lengths();
    at_once(); /* before other long ranges, since whoever walks them is noticed here */
    merges_at_once();
    at_the_limit();
    about_half_the_ring();
    every_two_faults();
    merges_at_the_limit();
    gaps_at_every_place();
    short_lists();
    short_merges();
    and_back(times);
    three_lists(times);
    random_cases(times);
    random_merges(times);

    report("relay_test", &tally[COMPRESS], compress_gives, sizeof compress_gives / sizeof compress_gives[0]);
    report("relay_test", &tally[EXPAND], expand_gives, sizeof expand_gives / sizeof expand_gives[0]);
    report("relay_test", &tally[WHY_LOST], why_gives, sizeof why_gives / sizeof why_gives[0]);
    printf("relay_test: of those accepted, %" PRIu64 " lost and %" PRIu64 " not\n", lost, not_lost);
    report("relay_test", &tally[MERGE], merge_gives, sizeof merge_gives / sizeof merge_gives[0]);
    report_merges();
    printf("relay_test: every call agrees with the model\n");
    return 0;
}
