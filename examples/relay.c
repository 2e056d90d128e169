/*
 * A relay in small: reads a recording of SRT packets (a pcap file) and says of each stream what came and how much that
 * was on the wire, what is missing, which loss report says so, and what was refused. Of two recordings of the same stream
 * it says so of each, and then in one list what either misses.
 *
 *     relay RECORDING [RECORDING]
 *
 * The packets of a stream's sender are its data packets; the packets that go back are the receiver's, and the numbers
 * in its loss reports are those that it misses. A number is missing where it was reported and never came; beside it stands
 * the first loss report that names it, with the place of the item, its first word. A hole that nobody reported is said too:
 * between two numbers that came or were reported there may be some of which nothing is known.
 *
 * A stream is in both of two recordings where its sender and its receiver are, by address and port. The merged list has each
 * number that is missing in one of them, or in both; what one misses may have come in the other, so it is said which numbers the
 * other recording has, and which neither has. Holes that nobody reported, in either, are in no list.
 */
#include <arpa/inet.h>
#include <inttypes.h>
#include <pcap/pcap.h>
#include <stdio.h>
#include <stdlib.h>
#include <string.h>

#include "xezalbur.h"

#define MOST_STREAMS 64
#define RING 0x80000000u

/* ---- sets of sequence numbers */

struct numbers {
    uint32_t *at;
    size_t count, room;
};

static void *grown(void *at, size_t bytes)
{
    at = realloc(at, bytes);
    if (!at) {
        fprintf(stderr, "relay: out of memory.\n");
        exit(2);
    }
    return at;
}

static void add(struct numbers *set, uint32_t number)
{
    if (set->count == set->room) {
        set->room = set->room ? 2 * set->room : 256;
        set->at = grown(set->at, set->room * sizeof *set->at);
    }
    set->at[set->count++] = number;
}

static void add_all(struct numbers *set, const struct numbers *more)
{
    for (size_t i = 0; i < more->count; i++)
        add(set, more->at[i]);
}

/* Numbers are put in order as they lie around this one, half a ring before it and half a ring after. */
static uint32_t origin;

static uint32_t rank(uint32_t number)
{
    return (number - origin + RING / 2) % RING;
}

static int by_rank(const void *a, const void *b)
{
    uint32_t x = rank(*(const uint32_t *)a), y = rank(*(const uint32_t *)b);
    return x < y ? -1 : x > y;
}

/* In order, each number once. */
static void order(struct numbers *set)
{
    size_t kept = 0;
    if (set->count == 0)
        return;
    qsort(set->at, set->count, sizeof *set->at, by_rank);
    for (size_t i = 1; i < set->count; i++)
        if (set->at[i] != set->at[kept])
            set->at[++kept] = set->at[i];
    set->count = kept + 1;
}

static int has(const struct numbers *ordered, uint32_t number)
{
    return ordered->count && bsearch(&number, ordered->at, ordered->count, sizeof number, by_rank) != NULL;
}

/* The loss list of n ordered numbers, in room for a full one: what xez_compress answers. */
static uint64_t listed(const uint32_t *ordered, size_t n, uint8_t *list)
{
    uint8_t *words = grown(NULL, 4 * n + 1);
    for (size_t i = 0; i < n; i++)
        xez_put_word(words, i, ordered[i]);
    uint64_t answer = xez_compress(words, 4 * n, list, 4 * XEZ_LIST_LIMIT);
    free(words);
    return answer;
}

static void print_list(const uint8_t *list, uint32_t words)
{
    for (uint32_t i = 0; i < words; i++) {
        uint32_t word = xez_get_word(list, i);
        if (word < XEZ_RANGE_START) {
            printf(" %" PRIu32, word);
        } else {
            printf(" %" PRIu32 "-%" PRIu32, word - XEZ_RANGE_START, xez_get_word(list, i + 1));
            i++;
        }
    }
}

/* Prints ordered numbers as a loss list has them, plain numbers and ranges of three and more, a full list at a time. */
static void print_numbers(const struct numbers *ordered)
{
    static uint8_t list[4 * XEZ_LIST_LIMIT];
    for (size_t done = 0; done < ordered->count;) {
        size_t n = ordered->count - done < XEZ_LIST_LIMIT ? ordered->count - done : XEZ_LIST_LIMIT;
        uint64_t answer = listed(ordered->at + done, n, list);
        if (!xez_accepted(answer)) {
            printf(" (not listed: %s)", xez_sentence(xez_refusal(answer)));
            return;
        }
        print_list(list, xez_value(answer));
        done += n;
    }
}

/* ---- streams */

/* A loss report that was accepted: the packet that it came in, and its list. */
struct report {
    unsigned long packet;
    uint8_t *list;
    size_t length;
};

struct stream {
    char from[64], to[64];
    struct numbers came, reported, missing;
    struct report *reports;
    unsigned long packets, again, report_count;
    unsigned long long payload, wire;
};

/* A recording, and how many packets of it were read, refused and left out. */
struct recording {
    const char *name;
    struct stream streams[MOST_STREAMS];
    size_t stream_count;
    unsigned long packets, refused, others, unread;
};

static struct stream *find(struct recording *in, const char *from, const char *to)
{
    for (size_t i = 0; i < in->stream_count; i++)
        if (strcmp(in->streams[i].from, from) == 0 && strcmp(in->streams[i].to, to) == 0)
            return &in->streams[i];
    return NULL;
}

static struct stream *stream_between(struct recording *in, const char *from, const char *to)
{
    struct stream *s = find(in, from, to);
    if (s)
        return s;
    if (in->stream_count == MOST_STREAMS) {
        fprintf(stderr, "relay: the recording %s has more than %d streams.\n", in->name, MOST_STREAMS);
        exit(2);
    }
    s = &in->streams[in->stream_count++];
    snprintf(s->from, sizeof s->from, "%s", from);
    snprintf(s->to, sizeof s->to, "%s", to);
    return s;
}

static void print_refusal(uint64_t answer)
{
    printf("%s (refusal %" PRIu32 " carrying %" PRIu32 ")\n", xez_sentence(xez_refusal(answer)), xez_refusal(answer), xez_value(answer));
}

/* Of the packet that was read last. */
static void refuse(struct recording *in, const char *what, uint64_t answer)
{
    in->refused++;
    printf("refused: packet %lu, %s: ", in->packets, what);
    print_refusal(answer);
}

static void take_data(struct recording *in, uint32_t family, const uint8_t *packet, size_t length, const char *from, const char *to)
{
    uint32_t fields[XEZ_DATA_FIELDS];
    fields[XEZ_FAMILY] = family;
    uint64_t answer = xez_read_data(packet, length, fields, XEZ_DATA_FIELDS);
    if (!xez_accepted(answer)) {
        refuse(in, "a data packet", answer);
        return;
    }
    struct stream *s = stream_between(in, from, to);
    add(&s->came, fields[XEZ_SEQUENCE]);
    s->packets++;
    s->again += fields[XEZ_RETRANSMITTED];
    s->payload += xez_value(answer);
    s->wire += xez_value(xez_wire_size(fields[XEZ_FAMILY], xez_value(answer)));
}

static void take_report(struct recording *in, const uint8_t *list, size_t length, const char *from, const char *to)
{
    static uint8_t lost[4 * XEZ_LIST_LIMIT];
    uint64_t answer = xez_expand(list, length, lost, sizeof lost);
    if (!xez_accepted(answer)) {
        refuse(in, "a loss report", answer);
        return;
    }
    struct stream *s = stream_between(in, to, from);
    for (uint32_t i = 0; i < xez_value(answer); i++)
        add(&s->reported, xez_get_word(lost, i));
    s->reports = grown(s->reports, (s->report_count + 1) * sizeof *s->reports);
    struct report *kept = &s->reports[s->report_count++];
    kept->packet = in->packets;
    kept->length = length;
    kept->list = grown(NULL, length + 1);
    memcpy(kept->list, list, length);
}

/* A control packet has its first bit set, then fifteen bits of type, of which 3 is a loss report, and 16 bytes before
   what it carries. */
static void take(struct recording *in, uint32_t family, const uint8_t *packet, size_t length, const char *from, const char *to)
{
    if (length == 0 || packet[0] < 0x80)
        take_data(in, family, packet, length, from, to);
    else if (length >= 16 && packet[0] == 0x80 && packet[1] == 3)
        take_report(in, packet + 16, length - 16, from, to);
    else
        in->others++;
}

/* ---- what lies around an SRT packet */

static unsigned two(const uint8_t *at)
{
    return (unsigned)at[0] << 8 | at[1];
}

/* Takes the SRT packet out of what was recorded, from the link's header on: 0 where there is no whole one. */
static int unpack(struct recording *in, int link, const uint8_t *at, size_t length)
{
    static const struct { int type; size_t header; } links[] = {
        {DLT_EN10MB, 14}, {DLT_LINUX_SLL, 16}, {DLT_LINUX_SLL2, 20}, {DLT_NULL, 4}, {DLT_RAW, 0}};
    char address[2][INET6_ADDRSTRLEN], from[64], to[64];
    size_t skip = length;
    uint32_t family;
    for (size_t i = 0; i < sizeof links / sizeof links[0]; i++)
        if (links[i].type == link)
            skip = links[i].header;
    if (skip >= length)
        return 0;
    at += skip;
    length -= skip;
    family = at[0] >> 4;
    if (family == XEZ_IPV4 && at[0] % 16 >= 5 && length >= 20 && at[9] == 17 && (two(at + 6) & 0x3FFF) == 0) {
        inet_ntop(AF_INET, at + 12, address[0], sizeof address[0]);
        inet_ntop(AF_INET, at + 16, address[1], sizeof address[1]);
        skip = 4 * (size_t)(at[0] % 16);
    } else if (family == XEZ_IPV6 && length >= 40 && at[6] == 17) {
        inet_ntop(AF_INET6, at + 8, address[0], sizeof address[0]);
        inet_ntop(AF_INET6, at + 24, address[1], sizeof address[1]);
        skip = 40;
    } else {
        return 0;
    }
    if (length < skip + 8 || two(at + skip + 4) < 8 || length - skip < two(at + skip + 4))
        return 0;
    at += skip;
    snprintf(from, sizeof from, "%s port %u", address[0], two(at));
    snprintf(to, sizeof to, "%s port %u", address[1], two(at + 2));
    take(in, family, at + 8, two(at + 4) - 8, from, to);
    return 1;
}

static void read_recording(struct recording *in)
{
    char why[PCAP_ERRBUF_SIZE];
    struct pcap_pkthdr *head;
    const u_char *bytes;
    int got;
    pcap_t *file = pcap_open_offline(in->name, why);
    if (!file) {
        fprintf(stderr, "relay: the recording %s cannot be read: %s.\n", in->name, why);
        exit(2);
    }
    printf("recording %s\n", in->name);
    while ((got = pcap_next_ex(file, &head, &bytes)) == 1)
        if (in->packets++, !unpack(in, pcap_datalink(file), bytes, head->caplen))
            in->unread++;
    if (got != PCAP_ERROR_BREAK) {
        fprintf(stderr, "relay: after packet %lu the recording %s cannot be read: %s.\n", in->packets, in->name, pcap_geterr(file));
        exit(2);
    }
    pcap_close(file);
}

/* ---- what a person reads */

static void print_set(const char *title, const struct numbers *ordered)
{
    printf("  %s: %zu", title, ordered->count);
    if (ordered->count)
        printf(":");
    print_numbers(ordered);
    printf("\n");
}

/* The first report that names a number, and the place of the item in it that does. */
static const struct report *naming(const struct stream *s, uint32_t number, uint32_t *place)
{
    for (unsigned long i = 0; i < s->report_count; i++) {
        uint64_t answer = xez_why_lost(s->reports[i].list, s->reports[i].length, number);
        if (xez_accepted(answer) && xez_value(answer) != XEZ_NOT_LOST) {
            *place = xez_value(answer);
            return &s->reports[i];
        }
    }
    return NULL;
}

/* Says for each missing number which report named it, a line for neighbours that one item names. */
static void print_reasons(const struct stream *s, const struct numbers *missing)
{
    for (size_t i = 0, next; i < missing->count; i = next) {
        uint32_t place = 0, other = 0;
        const struct report *by = naming(s, missing->at[i], &place);
        for (next = i + 1; next < missing->count; next++)
            if (missing->at[next] != (missing->at[next - 1] + 1) % RING || naming(s, missing->at[next], &other) != by || other != place)
                break;
        printf("    %" PRIu32, missing->at[i]);
        if (next > i + 1)
            printf("-%" PRIu32, missing->at[next - 1]);
        printf(": named by the loss report in packet %lu, at word %" PRIu32 "\n", by ? by->packet : 0, place);
    }
}

/* Between two known numbers that are not neighbours nothing is known. A hole of two is two numbers, as in a loss list. */
static void print_holes(const struct numbers *known)
{
    int any = 0;
    printf("  holes that nobody reported:");
    for (size_t i = 1; i < known->count; i++) {
        uint32_t first = (known->at[i - 1] + 1) % RING, last = (known->at[i] + RING - 1) % RING;
        if (first == known->at[i])
            continue;
        any = 1;
        printf(" %" PRIu32, first);
        if (last != first)
            printf("%c%" PRIu32, last == (first + 1) % RING ? ' ' : '-', last);
    }
    printf(any ? "\n" : " none\n");
}

/* An empty loss report is of a stream of which no number is known. */
static int is_known(const struct stream *s)
{
    return s->came.count || s->reported.count;
}

static void print_stream(struct stream *s)
{
    struct numbers known = {0};
    if (!is_known(s))
        return;
    origin = s->came.count ? s->came.at[0] : s->reported.at[0];
    order(&s->came);
    order(&s->reported);
    for (size_t i = 0; i < s->reported.count; i++)
        if (!has(&s->came, s->reported.at[i]))
            add(&s->missing, s->reported.at[i]);
    add_all(&known, &s->came);
    add_all(&known, &s->reported);
    order(&known);

    printf("\nfrom %s to %s\n", s->from, s->to);
    printf("  data packets that came: %lu, %lu of them sent again, %llu bytes of payload, %llu on the wire\n", s->packets, s->again, s->payload, s->wire);
    print_set("numbers that came", &s->came);
    printf("  reported lost: %zu, in %lu loss reports\n", s->reported.count, s->report_count);
    printf("  came after all: %zu\n", s->reported.count - s->missing.count);
    print_set("missing", &s->missing);
    print_reasons(s, &s->missing);
    print_holes(&known);
    free(known.at);
}

static void print_recording(struct recording *in)
{
    for (size_t i = 0; i < in->stream_count; i++)
        print_stream(&in->streams[i]);
    printf("\npackets: %lu; refused: %lu; other control packets: %lu; no whole UDP packet: %lu\n", in->packets, in->refused, in->others, in->unread);
}

/* ---- two recordings of the same stream */

/* Says what either misses, from the oldest number on that came or was reported in one of them; 0 where that was refused. */
static int print_merged(const struct recording both[2], struct stream *const s[2])
{
    static uint8_t lists[2][4 * XEZ_LIST_LIMIT], merged[4 * XEZ_LIST_LIMIT], lost[4 * XEZ_LIST_LIMIT];
    struct numbers known = {0}, one_has = {0}, neither_has = {0};
    uint32_t words[2];
    uint64_t answer, numbers;
    for (int i = 0; i < 2; i++) {
        answer = listed(s[i]->missing.at, s[i]->missing.count, lists[i]);
        if (!xez_accepted(answer)) {
            printf("  not merged: what is missing in %s makes no list: ", both[i].name);
            print_refusal(answer);
            return 0;
        }
        words[i] = xez_value(answer);
    }

    for (int i = 0; i < 2; i++)
        add_all(&known, &s[i]->came);
    for (int i = 0; i < 2; i++)
        add_all(&known, &s[i]->reported);
    /* Each recording was in order around a number of its own; now both are around one that came, if any did. */
    origin = known.at[0];
    order(&known);
    for (int i = 0; i < 2; i++)
        order(&s[i]->came);

    answer = xez_merge(known.at[0], lists[0], 4 * words[0], lists[1], 4 * words[1], merged, sizeof merged);
    numbers = xez_accepted(answer) ? xez_expand(merged, 4 * xez_value(answer), lost, sizeof lost) : answer;
    if (!xez_accepted(numbers)) {
        printf("  not merged: ");
        print_refusal(numbers);
        free(known.at);
        return 0;
    }
    printf("  missing in either: %" PRIu32 "%s", xez_value(numbers), xez_value(numbers) ? ":" : "");
    print_list(merged, xez_value(answer));
    printf("\n");
    for (uint32_t i = 0; i < xez_value(numbers); i++) {
        uint32_t number = xez_get_word(lost, i);
        add(has(&s[0]->came, number) || has(&s[1]->came, number) ? &one_has : &neither_has, number);
    }
    print_set("of these the other recording has", &one_has);
    print_set("of these neither has", &neither_has);
    print_holes(&known);
    free(known.at);
    free(one_has.at);
    free(neither_has.at);
    return 1;
}

static void print_both(struct recording both[2])
{
    unsigned long merged = 0, refused = 0, alone = 0;
    printf("\nboth recordings\n");
    for (int i = 0; i < 2; i++)
        for (size_t k = 0; k < both[i].stream_count; k++) {
            struct stream *here = &both[i].streams[k], *there = find(&both[1 - i], here->from, here->to);
            int shared = there && is_known(there);
            if (!is_known(here) || (shared && i == 1))
                continue;
            printf("\nfrom %s to %s\n", here->from, here->to);
            if (!shared) {
                alone++;
                printf("  not merged: only %s has this stream\n", both[i].name);
            } else if (print_merged(both, (struct stream *const[2]){here, there})) {
                merged++;
            } else {
                refused++;
            }
        }
    printf("\nstreams merged: %lu; refused: %lu; in one recording alone: %lu\n", merged, refused, alone);
}

static void forget(struct recording *in)
{
    for (size_t i = 0; i < in->stream_count; i++) {
        struct stream *s = &in->streams[i];
        free(s->came.at);
        free(s->reported.at);
        free(s->missing.at);
        for (unsigned long k = 0; k < s->report_count; k++)
            free(s->reports[k].list);
        free(s->reports);
    }
}

int main(int argc, char **argv)
{
    static struct recording recordings[2];
    int count = argc - 1;
    if (count != 1 && count != 2) {
        fprintf(stderr, "relay: say which recording, a pcap file, is to be read, or which two of the same stream.\n");
        return 2;
    }
    for (int i = 0; i < count; i++) {
        if (i)
            printf("\n");
        recordings[i].name = argv[1 + i];
        read_recording(&recordings[i]);
        print_recording(&recordings[i]);
    }
    if (count == 2)
        print_both(recordings);
    for (int i = 0; i < count; i++)
        forget(&recordings[i]);
    return 0;
}
