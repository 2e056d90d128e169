/*
 * The four C functions on loss lists in plain C, in the place of librelay.a, to judge the judge: as it stands
 * tests/relay_test.c must accept it, and with -DMISTAKE=n, for each n below, must refuse it. It is linked into nothing
 * else.
 */
#include "xezalbur.h"

#ifndef MISTAKE
#define MISTAKE 0
#endif
#define MISTAKES 139 /* the highest number below; read by bin/test */

#define WRONG(n) (MISTAKE == (n))

#define OLD_LIMIT 8192u /* what the limit was once */

static uint64_t refuse(uint64_t number, uint64_t carried)
{
    return number << 32 | carried;
}

static uint32_t word(const uint8_t *in, size_t i)
{
    if (WRONG(1)) /* the wrong end first */
        return (uint32_t)in[4 * i + 3] << 24 | (uint32_t)in[4 * i + 2] << 16 | (uint32_t)in[4 * i + 1] << 8 | in[4 * i];
    return xez_get_word(in, i);
}

/* Whether b comes 1 to 2^30 - 1 steps after a. */
static int after(uint32_t a, uint32_t b)
{
    uint32_t steps = (b - a) & 0x7FFFFFFFu;
    if (WRONG(2)) /* one step less than half the ring is too far */
        return steps >= 1 && steps < 0x3FFFFFFFu;
    if (WRONG(3)) /* half the ring is not too far */
        return steps >= 1 && steps <= 0x40000000u;
    if (WRONG(4)) /* no step at all */
        return steps < 0x40000000u;
    if (WRONG(5)) /* plain comparison: false across the wrap */
        return a < b && b - a < 0x40000000u;
    if (WRONG(44)) /* half the ring is too far below the wrap only */
        return steps >= 1 && (steps < 0x40000000u || (steps == 0x40000000u && b < a));
    return steps >= 1 && steps < 0x40000000u;
}

/* Whether b is half the ring after a. */
static int opposite(uint32_t a, uint32_t b)
{
    return ((b - a) & 0x7FFFFFFFu) == 0x40000000u;
}

static uint64_t common(size_t in_len)
{
    size_t limit = WRONG(6) ? XEZ_LIST_LIMIT - 1 : WRONG(7) ? XEZ_LIST_LIMIT + 1 : XEZ_LIST_LIMIT;
    if (WRONG(8)) { /* 14 before 1 */
        if (in_len / 4 > limit)
            return refuse(14, XEZ_LIST_LIMIT);
    }
    if (!WRONG(9) && in_len % 4 != 0) /* 9: an odd length is cut */
        return refuse(1, 0);
    if (in_len / 4 > limit)
        return refuse(14, WRONG(10) ? in_len / 4 : WRONG(39) ? OLD_LIMIT : XEZ_LIST_LIMIT); /* 10: carries the length given; 39: the limit that was */
    return 0;
}

static size_t room(size_t out_len)
{
    return WRONG(11) ? (out_len + 3) / 4 : out_len / 4; /* 11: a room rounded up */
}

static void put(uint8_t *out, size_t at, uint32_t w)
{
    xez_put_word(out, at, w);
}

uint64_t xez_compress(const uint8_t *in, size_t in_len, uint8_t *out, size_t out_len)
{
    uint64_t early;
    size_t n, count = 0, i, j;
    if (WRONG(33)) /* lengths of 32 bits */
        in_len = (uint32_t)in_len, out_len = (uint32_t)out_len;
    early = common(in_len);
    n = in_len / 4;
    if (early)
        return early;
    if (WRONG(40) && n > OLD_LIMIT) /* the limit that was, of the numbers given */
        return refuse(14, XEZ_LIST_LIMIT);
    for (i = 0; i < n; i++) {
        uint32_t w = word(in, i);
        if (WRONG(12) && i > 0 && !after(word(in, i - 1), w)) /* 16 before 15 */
            return refuse(16, i);
        if (w >> 31)
            return refuse(15, WRONG(13) ? i + 1 : i); /* 13: places from 1 */
        if (i > 0 && opposite(word(in, i - 1), w)) {
            if (WRONG(45)) /* half the ring passes among numbers, and not as a range */
                continue;
            if (WRONG(46) && i > 1 && i == n - 1) /* .. as the last of some steps */
                continue;
            if (WRONG(47) && n > 16) /* .. in long lists only */
                continue;
        }
        if (i > 0 && !after(word(in, i - 1), w))
            return refuse(16, i);
    }
    for (i = 0; i < n; i = j) {
        for (j = i + 1; j < n && word(in, j) == ((word(in, j - 1) + 1) & 0x7FFFFFFFu); j++) {
            if (WRONG(14)) /* no run passes the wrap */
                if (word(in, j) == 0)
                    break;
        }
        if (WRONG(15) && j - i == 3) /* three neighbours as three words */
            j = i + 1;
        if (WRONG(16) && i > 0) /* only the first run is coded */
            j = i + 1;
        count += j - i > 1 ? 2 : 1;
    }
    if (room(out_len) < count)
        return refuse(21, WRONG(17) ? 4 * count : count); /* 17: bytes, not words */
    if (WRONG(18) && room(out_len) < n) /* asks room for every number */
        return refuse(21, count);
    count = 0;
    for (i = 0; i < n; i = j) {
        for (j = i + 1; j < n && word(in, j) == ((word(in, j - 1) + 1) & 0x7FFFFFFFu); j++) {
            if (WRONG(14))
                if (word(in, j) == 0)
                    break;
        }
        if (WRONG(15) && j - i == 3)
            j = i + 1;
        if (WRONG(16) && i > 0)
            j = i + 1;
        if (j - i > 1) {
            int range = j - i > 2;
            if (WRONG(35)) /* two neighbours as a range */
                range = 1;
            if (WRONG(36)) /* .. where the wrap stands between them */
                range = j - i > 2 || word(in, j - 1) == 0;
            if (WRONG(37)) /* three neighbours as their first and last, with no flag */
                range = j - i > 3;
            put(out, count++, word(in, i) | (range ? XEZ_RANGE_START : 0));
            put(out, count++, word(in, j - 1));
        } else {
            put(out, count++, word(in, i));
        }
    }
    if (WRONG(19)) /* clears the rest of the buffer */
        for (i = 4 * count; i < out_len; i++)
            out[i] = 0;
    if (WRONG(20) && n > 2) /* an invented count */
        return count + 1;
    return count;
}

static void expand_range(uint8_t *out, size_t *count, size_t most, uint32_t first, uint32_t last)
{
    uint32_t w = first;
    for (;;) {
        if (*count < most)
            put(out, *count, w);
        ++*count;
        if (w == last)
            return;
        w = (w + 1) & 0x7FFFFFFFu;
    }
}

uint64_t xez_expand(const uint8_t *in, size_t in_len, uint8_t *out, size_t out_len)
{
    uint64_t early, total = 0, place = 0;
    size_t n, count = 0, i;
    int over = 0;
    if (WRONG(34)) /* a room of 32 bits */
        out_len = (uint32_t)out_len;
    early = common(in_len);
    n = in_len / 4;
    if (early)
        return early;
    if (WRONG(41) && n > OLD_LIMIT) /* .. of the words given */
        return refuse(14, XEZ_LIST_LIMIT);
    for (i = 0; i < n; i++) {
        uint32_t w = word(in, i);
        size_t item = i;
        uint64_t here = 1;
        if (w >> 31) {
            uint32_t first = w & 0x7FFFFFFFu, last;
            if (i + 1 == n) {
                if (WRONG(21)) /* a faulty item is passed over */
                    break;
                return refuse(17, i);
            }
            last = word(in, i + 1);
            if (WRONG(22) && !after(first, last & 0x7FFFFFFFu)) /* 19 before 18 */
                return refuse(19, i + 1);
            if (last >> 31)
                return refuse(18, WRONG(23) ? i : i + 1); /* 23: the place of the start */
            if (!after(first, last) && !(WRONG(48) && opposite(first, last))) /* 48: half the ring passes as a range, and not among numbers */
                return refuse(19, i + 1);
            here = (uint64_t)((last - first) & 0x7FFFFFFFu) + 1;
            if (WRONG(38) && here == 2) /* a range of two is none */
                return refuse(19, i + 1);
            if (WRONG(24)) { /* walks a range that it refuses */
                volatile uint32_t step = first;
                while (step != last)
                    step = (step + 1) & 0x7FFFFFFFu;
            }
            i++;
        }
        if (WRONG(25)) { /* writes while judging, so a late fault leaves numbers behind */
            if (w >> 31) {
                if (here <= XEZ_LIST_LIMIT)
                    expand_range(out, &count, room(out_len), w & 0x7FFFFFFFu, word(in, i));
            } else {
                if (count < room(out_len))
                    put(out, count, w);
                count++;
            }
        }
        if (WRONG(26) && total + here > room(out_len)) /* 21 before 20, and before a later fault */
            return refuse(21, total + here);
        total += here;
        if (WRONG(27) && total > XEZ_LIST_LIMIT) /* 20 before a later fault of form */
            return refuse(20, item);
        if (WRONG(43)) /* a total of 16 bits */
            total = (uint16_t)total;
        if (total > (WRONG(42) ? OLD_LIMIT : XEZ_LIST_LIMIT) && !over) { /* 42: .. of the numbers expanded */
            over = 1;
            place = WRONG(28) ? i : item; /* 28: the place of the end */
        }
    }
    if (over)
        return refuse(20, place);
    if (total > room(out_len))
        return refuse(21, total);
    count = 0;
    for (i = 0; i < n; i++) {
        uint32_t w = word(in, i);
        if (WRONG(29)) { /* copies the words */
            put(out, count++, w);
        } else if (w >> 31) {
            if (i + 1 < n)
                expand_range(out, &count, room(out_len), w & 0x7FFFFFFFu, word(in, i + 1));
            i++;
        } else {
            put(out, count++, w);
        }
    }
    if (WRONG(30) && out_len % 4 != 0) /* a write beyond the words */
        out[out_len - 1] = 0;
    if (WRONG(31) && n > 0) /* a read beyond the input */
        total += ((const volatile uint8_t *)in)[in_len] & 0;
    if (WRONG(32) && n > 0) /* writes to the input */
        ((volatile uint8_t *)(uintptr_t)in)[0] ^= 0;
    return count;
}

/* Whether the numbers from first to last, going up and past the wrap, have one among them. */
static int within(uint32_t first, uint32_t last, uint32_t number)
{
    uint32_t steps = (last - first) & 0x7FFFFFFFu, on = (number - first) & 0x7FFFFFFFu;
    if (WRONG(49)) /* the end is left out */
        return on < steps;
    if (WRONG(50)) /* the start is left out */
        return on > 0 && on <= steps;
    if (WRONG(51)) /* plain comparison: none across the wrap */
        return first <= number && number <= last;
    if (WRONG(52)) /* the ends alone */
        return number == first || number == last;
    return on <= steps;
}

uint64_t xez_why_lost(const uint8_t *list, size_t list_len, uint32_t number)
{
    static uint8_t numbers[4 * XEZ_LIST_LIMIT];
    uint64_t judged, found = XEZ_NOT_LOST;
    size_t i, items = 0;
    if (WRONG(53) && number >> 31) /* 15 before the list's own refusal */
        return refuse(15, 0);
    if (WRONG(54)) /* the list is judged up to the item alone */
        for (i = 0; list_len % 4 == 0 && i < list_len / 4 && !(word(list, i) >> 31); i++)
            if (word(list, i) == number)
                return i;
    judged = xez_expand(list, list_len, numbers, WRONG(55) ? 4 * OLD_LIMIT : sizeof numbers); /* 55: asks for room */
    if (judged >> 32)
        return judged;
    if (WRONG(56)) /* a number loses its top bit */
        number &= 0x7FFFFFFFu;
    if (number >> 31)
        return refuse(15, WRONG(57) ? number & 0x7FFFFFFFu : 0); /* 57: 15 carries the number */
    for (i = 0; i < list_len / 4; i++) {
        uint32_t w = word(list, i);
        size_t place = i;
        int covers = w == number;
        if (w >> 31) {
            i++;
            covers = within(w & 0x7FFFFFFFu, word(list, i), number);
            if (WRONG(58)) /* an item's second word as its place */
                place = i;
        }
        if (covers) {
            found = WRONG(59) ? items : WRONG(60) ? 4 * place : place; /* 59: items are counted, 60: bytes */
            if (!WRONG(61)) /* 61: the last item that covers */
                break;
        }
        items++;
        if (WRONG(62) && items > 16) /* the first items alone are looked at */
            break;
    }
    if (WRONG(63) && found == XEZ_NOT_LOST) /* not lost is told as the first place */
        return 0;
    return found;
}

/* ---- merging: the items of both lists as spans of steps, sorted, and joined to runs */

#define WINDOW 0x40000000u

struct span {
    uint32_t from, to; /* how many steps after the oldest the first number and the last are */
};

static struct span spans[2 * XEZ_LIST_LIMIT + 2], zipped[2 * XEZ_LIST_LIMIT + 2]; /* mistake 7 lets lists of one item more come here */

static uint32_t steps(uint32_t oldest, uint32_t number)
{
    if (WRONG(64)) /* plain numbers: outside past the wrap */
        return number - oldest;
    return (number - oldest) & 0x7FFFFFFFu;
}

/* The item at place i. A range that begins before the oldest ends past the window, since it is added to its first number. */
static struct span span_at(const uint8_t *list, size_t i, uint32_t oldest)
{
    uint32_t first = word(list, i) & 0x7FFFFFFFu;
    struct span s;
    s.from = s.to = steps(oldest, first);
    if (word(list, i) >> 31)
        s.to += (word(list, i + 1) - first) & 0x7FFFFFFFu;
    if (WRONG(65) && s.from >= WINDOW && s.to >= 2 * WINDOW) /* a range's start is not looked at, and it is cut there */
        s.from = 0, s.to -= 2 * WINDOW;
    if (WRONG(66) && s.from < WINDOW && s.to >= WINDOW) /* .. its end */
        s.to = WINDOW - 1;
    return s;
}

static int is_outside(struct span s)
{
    if (WRONG(67)) /* 2^30 steps are inside */
        return s.to > WINDOW;
    if (WRONG(68)) /* 2^30 - 1 steps are outside */
        return s.to >= WINDOW - 1;
    if (WRONG(69)) /* the oldest is outside */
        return s.to >= WINDOW || s.from == 0;
    if (WRONG(70)) /* lone numbers are not looked at */
        return s.to >= WINDOW && s.from != s.to;
    if (WRONG(71)) /* a range is outside only as a whole */
        return s.from >= WINDOW && s.to < 2 * WINDOW;
    return s.to >= WINDOW;
}

/* The place of the first item outside the window, or how many words there are. */
static size_t outside(const uint8_t *list, size_t n, uint32_t oldest)
{
    size_t i, items = 0, found = n;
    for (i = 0; i < n; i++, items++) {
        int range = word(list, i) >> 31 != 0;
        if (is_outside(span_at(list, i, oldest))) {
            found = WRONG(72) ? items : WRONG(73) ? i + (size_t)range : i; /* 72: items are counted; 73: the place of the second word */
            if (!WRONG(74)) /* 74: the last item outside */
                return found;
        }
        i += (size_t)range;
    }
    return found;
}

static size_t gather(struct span *to, const uint8_t *list, size_t n, uint32_t oldest)
{
    size_t i, count = 0;
    for (i = 0; i < n; i += word(list, i) >> 31 ? 2 : 1)
        to[count++] = span_at(list, i, oldest);
    return count;
}

/* Two sorted parts, one behind the other, become one. */
static void zip(struct span *at, size_t first, size_t second, uint32_t oldest)
{
    size_t i = 0, j = first, count = 0, all = first + second, k;
    while (i < first || j < all) {
        int take_first = j == all || (i < first && at[i].from <= at[j].from);
        if (WRONG(75) && i < first && j < all) /* in the order of plain numbers */
            take_first = ((at[i].from + oldest) & 0x7FFFFFFFu) <= ((at[j].from + oldest) & 0x7FFFFFFFu);
        zipped[count++] = at[take_first ? i++ : j++];
    }
    for (k = 0; k < all; k++)
        at[k] = zipped[k];
}

static void sort(struct span *at, size_t n, uint32_t oldest)
{
    size_t part, i;
    if (WRONG(76) && n > 0 && at[0].from <= at[n - 1].from) /* the first item and the last alone tell whether a list is in order */
        return;
    if (WRONG(135) && n > 16) /* the first items alone are put in order */
        n = 16;
    for (part = 1; part < n; part *= 2)
        for (i = 0; i + part < n; i += 2 * part)
            zip(at + i, part, n - i - part < part ? n - i - part : part, oldest);
}

/* Whether an item goes on where a run ends. */
static int joins(struct span run, struct span s, uint32_t oldest)
{
    if (WRONG(77)) /* neighbours are not joined */
        return s.from <= run.to;
    if (WRONG(78)) /* over a gap of one */
        return s.from <= run.to + 2;
    if (WRONG(79) && s.from == run.to + 1 && ((oldest + s.from) & 0x7FFFFFFFu) == 0) /* no run passes the wrap */
        return 0;
    if (WRONG(80) && s.from == run.to + 1 && s.from % 512 == 0) /* .. or a multiple of 512 steps from the oldest */
        return 0;
    if (WRONG(136) && s.from == run.to + 1 && (s.from - run.from) % 512 == 0) /* .. or from the run's start */
        return 0;
    if (WRONG(137) && s.from == run.to && s.to > s.from) /* ranges that share their last and first number are not joined */
        return 0;
    if (WRONG(81) && run.to % 512 == 511) /* over a gap of one at a multiple of 512 steps */
        return s.from <= run.to + 2;
    if (WRONG(82) && s.from == run.from && s.to == run.to && s.from == s.to) /* a number that comes again is written again */
        return 0;
    return s.from <= run.to + 1;
}

/* Joins sorted items to runs. */
static size_t join(struct span *at, size_t n, uint32_t oldest)
{
    size_t i, count = 0;
    for (i = 0; i < n; i++) {
        struct span *run = &at[count - (count > 0)];
        if (count == 0 || !joins(*run, at[i], oldest))
            at[count++] = at[i];
        else if (WRONG(83)) /* a range ends where one inside it does */
            run->to = at[i].to;
        else if (WRONG(84) && at[i].from == run->from) /* of two items that begin alike the second is left out */
            continue;
        else if (run->to < at[i].to)
            run->to = at[i].to;
    }
    return count;
}

/* Looks through all items of a list for each number, to count them, and again to write them. */
static void look_for_each(const uint8_t *list, size_t n, uint32_t oldest, uint64_t numbers)
{
    static volatile uint32_t found;
    uint64_t number;
    size_t i;
    for (number = 0; number < 2 * numbers; number++)
        for (i = 0; i < n; i += word(list, i) >> 31 ? 2 : 1)
            if (span_at(list, i, oldest).from == number % numbers)
                found++;
}

static uint64_t judged_alone(const uint8_t *list, size_t list_len, size_t out_len)
{
    static uint8_t numbers[4 * XEZ_LIST_LIMIT];
    return xez_expand(list, list_len, numbers, WRONG(85) && out_len < sizeof numbers ? out_len : sizeof numbers); /* 85: asks for room */
}

uint64_t xez_merge(uint32_t oldest, const uint8_t *first, size_t first_len, const uint8_t *second, size_t second_len,
                   uint8_t *out, size_t out_len)
{
    uint64_t one, two, window = 0, numbers = 0, limit = XEZ_LIST_LIMIT;
    size_t n, m, a, b, at, other, runs, words = 0, count = 0, i;
    int disorder;
    if (WRONG(86)) /* a length of 32 bits */
        second_len = (uint32_t)second_len;
    if (WRONG(87)) /* a room of 32 bits */
        out_len = (uint32_t)out_len;
    if (WRONG(88)) /* the oldest loses its top bit */
        oldest &= 0x7FFFFFFFu;
    if (WRONG(138) && (first_len | second_len) % 4 != 0) /* the lengths of both lists before all else: 1 */
        return refuse(1, 0);
    if (WRONG(139) && (first_len / 4 > limit || second_len / 4 > limit)) /* .. 14 */
        return refuse(14, limit);
    if (oldest >> 31 && !WRONG(89) && !WRONG(90))
        return refuse(15, WRONG(91) ? oldest & 0x7FFFFFFFu : 0); /* 91: 15 carries the oldest */
    if (WRONG(92) && (first_len == 0 || second_len == 0)) /* an empty list is none */
        return refuse(1, 0);
    if (WRONG(93) && first_len / 4 + second_len / 4 > limit) /* the words of both are counted together */
        return refuse(14, limit);
    if (WRONG(94)) /* an odd length of the second list is cut */
        second_len -= second_len % 4;
    one = judged_alone(first, first_len, out_len);
    two = judged_alone(second, second_len, out_len);
    n = first_len / 4;
    m = second_len / 4;
    if (WRONG(95) && two >> 32) /* the second list's refusal first */
        return two;
    if (WRONG(96) && one >> 32 == 20) /* repeats count once in the first list */
        one = 0;
    if (one >> 32)
        return one;
    if (WRONG(89) && oldest >> 31) /* 15 after the first list */
        return refuse(15, 0);
    at = outside(first, n, oldest);
    if (WRONG(97) && at < n) /* 29 before the second list's own refusal */
        return refuse(29, at);
    if (WRONG(98) && two >> 32 == 20) /* repeats count once in the second list */
        two = 0;
    if (two >> 32)
        return two;
    if (WRONG(90) && oldest >> 31) /* 15 after both lists */
        return refuse(15, 0);
    other = outside(second, m, oldest);
    if (WRONG(99) && other < m) /* the second list's item first */
        return refuse(29, other);
    if (WRONG(100) && at < n && other < m && other < at) /* the lower place of the two lists */
        at = other;
    if (at < n)
        window = refuse(29, WRONG(101) ? 4 * at : at); /* 101: in bytes */
    else if (other < m && !WRONG(102)) /* 102: the second list is not looked at */
        window = refuse(29, WRONG(103) ? n + other : other); /* 103: counted on from the first list */
    if (window && !WRONG(104))
        return window;
    a = gather(spans, first, n, oldest);
    b = gather(spans + a, second, m, oldest);
    if (WRONG(105) && b > 0) /* the second list's last item is dropped */
        b--;
    if (WRONG(106) && b > 0 && a > 0) /* what the second list has past the first list's last item is dropped */
        while (b > 0 && spans[a + b - 1].from > spans[a - 1].to)
            b--;
    disorder = a > 1 && spans[0].from > spans[1].from;
    if ((WRONG(107) && !disorder) || (WRONG(108) && disorder)) { /* looked through for each number: lists in order, and 108: in disorder */
        look_for_each(first, n, oldest, one + two);
        look_for_each(second, m, oldest, one + two);
    }
    if (!WRONG(109)) /* 109: lists are taken to be in order */
        sort(spans, a, oldest);
    if (!WRONG(110)) /* 110: .. the second alone */
        sort(spans + a, b, oldest);
    if (WRONG(111)) { /* the limit is of all numbers, repeats too */
        for (i = 0; i < a + b; i++)
            numbers += spans[i].to - spans[i].from + 1;
        if (numbers > limit)
            return refuse(20, 0);
        numbers = 0;
    }
    if (!WRONG(112)) /* 112: the second list behind the first */
        zip(spans, a, b, oldest);
    runs = join(spans, a + b, oldest);
    for (i = 0; i < runs; i++) {
        numbers += spans[i].to - spans[i].from + 1;
        words += spans[i].from == spans[i].to ? 1 : 2;
    }
    if (WRONG(113)) /* a count of 16 bits */
        numbers = (uint16_t)numbers;
    if (WRONG(114)) /* the limit is of the words written */
        numbers = words;
    if (WRONG(115) && room(out_len) < words) /* 21 before 20 */
        return refuse(21, words);
    limit = WRONG(116) ? limit - 1 : WRONG(117) ? limit + 1 : WRONG(118) ? OLD_LIMIT : WRONG(119) ? 2 * limit : limit; /* 119: that of two lists */
    if (numbers > limit)
        return refuse(20, WRONG(120) ? n : WRONG(121) ? numbers : 0); /* 120: a place; 121: how many there are */
    if (window) /* 104: 29 after 20 */
        return window;
    if (WRONG(122)) /* words are written before the room is looked at */
        for (i = 0; i < runs && i < room(out_len); i++)
            put(out, i, (oldest + spans[i].from) & 0x7FFFFFFFu);
    if ((WRONG(123) ? (out_len + 3) / 4 : room(out_len)) < words) /* 123: a room rounded up */
        return refuse(21, WRONG(124) ? 4 * words : WRONG(125) ? words - room(out_len) : words); /* 124: in bytes; 125: the words that are lacking */
    if (WRONG(126) && room(out_len) < n + m) /* asks room for both lists */
        return refuse(21, words);
    for (i = 0; i < runs; i++) {
        uint32_t from = (oldest + spans[i].from) & 0x7FFFFFFFu, to = (oldest + spans[i].to) & 0x7FFFFFFFu;
        uint32_t length = spans[i].to - spans[i].from;
        int range = WRONG(127) ? length > 0 : WRONG(128) ? length > 2 : length > 1; /* 127: two neighbours as a range; 128: three with no flag */
        put(out, count++, from | (range ? XEZ_RANGE_START : 0));
        if (length > 0)
            put(out, count++, to);
    }
    if (WRONG(129) && m == 0) /* with an empty list the other stays as it is */
        for (count = 0; count < n && count < room(out_len); count++)
            put(out, count, word(first, count));
    if (WRONG(130)) /* clears the rest of the buffer */
        for (i = 4 * count; i < out_len; i++)
            out[i] = 0;
    if (WRONG(131) && m > 0) /* a read beyond the second list */
        count += ((const volatile uint8_t *)second)[second_len] & 0;
    if (WRONG(132) && n > 0) /* writes to the first list */
        ((volatile uint8_t *)(uintptr_t)first)[0] ^= 0;
    return WRONG(133) ? 4 * count : WRONG(134) ? numbers : count; /* 133: in bytes; 134: the numbers */
}
