/*
 * What the tests of the C functions share: memory between pages that cannot be touched, a watch over each call, a count
 * of what was met, and random numbers. The test that includes it defines fail().
 */
#ifndef GUARDED_H
#define GUARDED_H

#include <inttypes.h>
#include <signal.h>
#include <stdint.h>
#include <stdio.h>
#include <stdlib.h>
#include <string.h>
#include <sys/mman.h>
#include <sys/time.h>
#include <unistd.h>

/* Says what was given to the call that went wrong, and ends the run with status 1. */
static void fail(const char *why);

/* ---- memory: pages that cannot be touched stand before it and after it */

#define PAGE 4096
#define CANARY 128

struct memory {
    size_t size;
    uint8_t *write;      /* where it can be written */
    const uint8_t *read; /* the same bytes, where they can only be read */
};

static void *between_pages(int file, size_t size, int protection)
{
    uint8_t *all = mmap(NULL, size + 2 * PAGE, PROT_NONE, MAP_PRIVATE | MAP_ANONYMOUS, -1, 0);
    void *inner;
    if (all == MAP_FAILED)
        fail("no memory");
    inner = mmap(all + PAGE, size, protection, MAP_SHARED | MAP_FIXED, file, 0);
    if (inner == MAP_FAILED)
        fail("no memory");
    return inner;
}

/* `pages` pages of memory. */
static struct memory guarded(size_t pages)
{
    struct memory m;
    int file = memfd_create("guarded", 0);
    m.size = pages * PAGE;
    if (file < 0 || ftruncate(file, (off_t)m.size))
        fail("no memory");
    m.write = between_pages(file, m.size, PROT_READ | PROT_WRITE);
    m.read = between_pages(file, m.size, PROT_READ);
    close(file);
    return m;
}

/* Where a buffer stands: it ends where the memory ends, or begins where it begins. */
static size_t place_of(const struct memory *m, size_t bytes, int at_end)
{
    if (bytes > m->size)
        fail("the test has too little memory");
    return at_end ? m->size - bytes : 0;
}

/* Puts an input in its place, and gives it where it can only be read. */
static const void *input(const struct memory *m, const void *from, size_t bytes, int at_end)
{
    size_t place = place_of(m, bytes, at_end);
    if (bytes > 0)
        memcpy(m->write + place, from, bytes);
    return m->read + place;
}

/* An output. Before a call it is painted, and so is `before`, where the test puts what the call should write. */
struct output {
    struct memory memory;
    uint8_t *pattern, *before;
    size_t low, high; /* what is painted and looked at: the buffer, and canaries on its two sides */
    uint8_t *buffer;  /* the buffer, */
    uint8_t *should;  /* and its place in `before` */
};

static struct output guarded_output(size_t pages)
{
    struct output o;
    size_t i;
    memset(&o, 0, sizeof o);
    o.memory = guarded(pages);
    o.pattern = malloc(o.memory.size + 256);
    o.before = malloc(o.memory.size);
    if (!o.pattern || !o.before)
        fail("no memory");
    for (i = 0; i < o.memory.size + 256; i++)
        o.pattern[i] = (uint8_t)(i * 167 + i / 256 + 1);
    return o;
}

/* The paint is another for each of 256 turns. Now and then the canaries are all the memory that there is. */
static void paint(struct output *o, size_t bytes, int at_end, uint64_t turn)
{
    const uint8_t *colour = o->pattern + turn % 256;
    size_t low = place_of(&o->memory, bytes, at_end), high = low + bytes;
    size_t canary = turn % 511 == 0 ? o->memory.size : CANARY;
    o->buffer = o->memory.write + low;
    o->should = o->before + low;
    o->low = low > canary ? low - canary : 0;
    o->high = high + canary < o->memory.size ? high + canary : o->memory.size;
    memcpy(o->before + o->low, colour + o->low, o->high - o->low);
    memcpy(o->memory.write + o->low, colour + o->low, o->high - o->low);
}

static int is_as_it_should_be(const struct output *o)
{
    return memcmp(o->before + o->low, o->memory.write + o->low, o->high - o->low) == 0;
}

/* Addresses for a length past 32 bits, of bytes and of words. NULL where there are none. */
#define GREAT (((size_t)1 << 34) + 4)

static uint8_t *far_memory(int protection)
{
    void *all = mmap(NULL, GREAT + PAGE, protection, MAP_PRIVATE | MAP_ANONYMOUS | MAP_NORESERVE, -1, 0);
    return all == MAP_FAILED ? NULL : all;
}

static void give_back(uint8_t *far)
{
    if (far)
        munmap(far, GREAT + PAGE);
}

/* ---- the watch, for a call that touches what it may not, or takes more than a second or two of processor time */

static volatile sig_atomic_t in_call, ticks;

static void on_fault(int sig)
{
    (void)sig;
    fail(in_call ? "the call touched memory outside its buffers, or wrote to its input" : "a fault in the test itself");
}

static void on_tick(int sig)
{
    (void)sig;
    if (in_call && ++ticks > 2)
        fail("the call is not answered at once");
}

static void watch(void)
{
    struct sigaction fault, tick;
    struct itimerval often = {{0, 700000}, {0, 700000}};
    memset(&fault, 0, sizeof fault);
    memset(&tick, 0, sizeof tick);
    fault.sa_handler = on_fault;
    tick.sa_handler = on_tick;
    tick.sa_flags = SA_RESTART;
    sigaction(SIGSEGV, &fault, NULL);
    sigaction(SIGBUS, &fault, NULL);
    sigaction(SIGPROF, &tick, NULL);
    setitimer(ITIMER_PROF, &often, NULL);
}

static void begin_call(void)
{
    ticks = 0;
    in_call = 1;
}

static uint64_t end_call(uint64_t answer)
{
    in_call = 0;
    return answer;
}

/* ---- what was met */

struct tally {
    const char *function;
    uint64_t calls, seen[32]; /* by the refusal's number, 0 for accepted */
};

/* Holds an answer against the model's. */
static void judge_answer(struct tally *t, uint64_t answer, uint32_t refusal, uint64_t value)
{
    if (refusal < 32)
        t->seen[refusal]++;
    if (answer >> 32 == refusal && (answer & 0xFFFFFFFFu) == value)
        return;
    printf("  answered refusal %" PRIu64 ", value %" PRIu64 "; the model: refusal %" PRIu32 ", value %" PRIu64 "\n",
           answer >> 32, answer & 0xFFFFFFFFu, refusal, value);
    fail("another answer than the model's");
}

/* Every answer that a function can give must have been met often enough to count as tried. */
static void report(const char *test, const struct tally *t, const uint32_t *gives, size_t n)
{
    size_t i;
    for (i = 0; i < n; i++)
        if (t->seen[gives[i]] < 20) {
            printf("  %s: %" PRIu64 " answers with refusal %" PRIu32 "\n", t->function, t->seen[gives[i]], gives[i]);
            fail("too few cases of an answer that this function can give");
        }
    printf("%s: %" PRIu64 " calls of %s: %" PRIu64 " accepted", test, t->calls, t->function, t->seen[0]);
    for (i = 1; i < n; i++)
        printf(", %" PRIu64 " refused with %" PRIu32, t->seen[gives[i]], gives[i]);
    printf("\n");
}

/* ---- random numbers (splitmix64) */

static uint64_t seed = 1, state;

static uint64_t draw(void)
{
    uint64_t z = state += 0x9E3779B97F4A7C15u;
    z = (z ^ (z >> 30)) * 0xBF58476D1CE4E5B9u;
    z = (z ^ (z >> 27)) * 0x94D049BB133111EBu;
    return z ^ (z >> 31);
}

static uint64_t below(uint64_t n)
{
    return draw() % n;
}

/* Takes the words of the command, [SEED [TIMES]], says the seed, and begins to watch. The answer is TIMES. */
static uint64_t begin_test(const char *test, int argc, char **argv)
{
    if (argc > 1)
        seed = strtoull(argv[1], NULL, 10);
    state = seed;
    printf("%s: seed %" PRIu64 "\n", test, seed);
    watch();
    return argc > 2 ? strtoull(argv[2], NULL, 10) : 1;
}

#endif
