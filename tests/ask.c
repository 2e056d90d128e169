/*
 * Answers questions on standard input, a line each, by the C functions: tests/oracle/README.md has the language.
 * A person, a script or the Rust crate's answers can so be held against ours on any bytes.
 */
#include <stdio.h>
#include <stdlib.h>
#include <string.h>

#include "xezalbur.h"

#define LONGEST (1 << 20)
#define CANARY 64

/* Some bytes, or a buffer that a call writes to, with bytes around it that it must leave alone. */
struct lent {
    uint8_t all[LONGEST + 2 * CANARY], before[LONGEST + 2 * CANARY];
    size_t length;
};

static struct lent in, second, out;
static uint32_t words[(LONGEST + 2 * CANARY) / 4];

static uint8_t *bytes_of(struct lent *lent)
{
    return lent->all + CANARY;
}

static int digit(char c)
{
    if (c >= '0' && c <= '9')
        return c - '0';
    if (c >= 'a' && c <= 'f')
        return c - 'a' + 10;
    if (c >= 'A' && c <= 'F')
        return c - 'A' + 10;
    return -1;
}

/* The bytes of the next field, in hex digits, `-` for none. */
static int take_bytes(struct lent *to)
{
    const char *hex = strtok(NULL, " ");
    size_t n = 0;
    if (!hex)
        return 0;
    if (strcmp(hex, "-") != 0) {
        for (; hex[2 * n] != '\0'; n++) {
            int high = digit(hex[2 * n]), low = high < 0 ? -1 : digit(hex[2 * n + 1]);
            if (low < 0 || n == LONGEST)
                return 0;
            bytes_of(to)[n] = (uint8_t)(high << 4 | low);
        }
    }
    to->length = n;
    return 1;
}

/* A length in the next field, in parts of so many bytes, and that many bytes of any kind. */
static int take_room(struct lent *to, size_t each)
{
    const char *field = strtok(NULL, " ");
    char *end;
    size_t n;
    if (!field)
        return 0;
    n = strtoul(field, &end, 10);
    if (*end != '\0' || n > LONGEST / each)
        return 0;
    to->length = each * n;
    for (size_t i = 0; i < to->length; i++)
        bytes_of(to)[i] = (uint8_t)(i * 151 + 7);
    return 1;
}

static void guard(struct lent *lent)
{
    for (size_t i = 0; i < CANARY; i++)
        lent->all[i] = lent->all[CANARY + lent->length + i] = (uint8_t)(i * 151 + 7);
    memcpy(lent->before, lent->all, lent->length + 2 * CANARY);
}

/* Whether the first bytes alone, of those lent, are others than they were. */
static int kept(const struct lent *lent, size_t written)
{
    size_t rest = CANARY + written;
    return memcmp(lent->all, lent->before, CANARY) == 0 &&
           (written > lent->length || memcmp(lent->all + rest, lent->before + rest, lent->length - written + CANARY) == 0);
}

static void print_bytes(const uint8_t *bytes, size_t n)
{
    static char hex[2 * LONGEST + 1];
    static const char digits[] = "0123456789abcdef";
    for (size_t i = 0; i < n; i++) {
        hex[2 * i] = digits[bytes[i] >> 4];
        hex[2 * i + 1] = digits[bytes[i] & 15];
    }
    hex[2 * n] = '\0';
    fputs(n == 0 ? "-" : hex, stdout);
}

static void print_refused(uint64_t answer)
{
    printf("refused %u %u", (unsigned)xez_refusal(answer), (unsigned)xez_value(answer));
}

static int end_line(int is_kept)
{
    puts(is_kept ? "" : " and touched other bytes");
    return 1;
}

/* An answer with the whole of the buffer that the call was lent. */
static int show(uint64_t answer)
{
    if (xez_accepted(answer))
        printf("ok %u", (unsigned)xez_value(answer));
    else
        print_refused(answer);
    putchar(' ');
    print_bytes(bytes_of(&out), out.length);
    return end_line(kept(&out, out.length));
}

/* An answer with the words that were written, as bytes. */
static int show_words(uint64_t answer)
{
    size_t written = 0;
    if (xez_accepted(answer)) {
        written = 4 * (size_t)xez_value(answer);
        fputs("ok ", stdout);
        print_bytes(bytes_of(&out), written <= out.length ? written : out.length);
    } else {
        print_refused(answer);
    }
    return end_line(written <= out.length && kept(&out, written));
}

typedef uint64_t list_function(const uint8_t *, size_t, uint8_t *, size_t);

/* VERB ROOM BYTES: what is written, the room in bytes */
static int ask_list(list_function *f)
{
    if (!take_room(&out, 1) || !take_bytes(&in))
        return 0;
    guard(&out);
    return show_words(f(bytes_of(&in), in.length, bytes_of(&out), out.length));
}

/* VERB BUFFER BYTES: the whole of the buffer afterwards */
static int ask_list_into(list_function *f)
{
    if (!take_bytes(&out) || !take_bytes(&in))
        return 0;
    guard(&out);
    return show(f(bytes_of(&in), in.length, bytes_of(&out), out.length));
}

static int take_number(uint32_t *number)
{
    const char *field = strtok(NULL, " ");
    char *end;
    unsigned long long n;
    if (!field || *field < '0' || *field > '9')
        return 0;
    n = strtoull(field, &end, 10);
    *number = (uint32_t)n;
    return *end == '\0' && n <= UINT32_MAX;
}

/* lost NUMBER BYTES: the place of the item that names the number, or not */
static int ask_why_lost(void)
{
    uint32_t number;
    uint64_t answer;
    if (!take_number(&number) || !take_bytes(&in))
        return 0;
    answer = xez_why_lost(bytes_of(&in), in.length, number);
    if (!xez_accepted(answer))
        print_refused(answer);
    else if (xez_value(answer) == XEZ_NOT_LOST)
        fputs("ok not", stdout);
    else
        printf("ok lost %u", (unsigned)xez_value(answer));
    return end_line(1);
}

/* merge OLDEST ROOM BYTES BYTES: what is written, the room in words */
static int ask_merge(void)
{
    uint32_t oldest;
    if (!take_number(&oldest) || !take_room(&out, 4) || !take_bytes(&in) || !take_bytes(&second))
        return 0;
    guard(&out);
    return show_words(xez_merge(oldest, bytes_of(&in), in.length, bytes_of(&second), second.length, bytes_of(&out), out.length));
}

/* wire.size FAMILY N */
static int ask_wire_size(void)
{
    uint32_t family, length;
    uint64_t answer;
    if (!take_number(&family) || !take_number(&length))
        return 0;
    answer = xez_wire_size(family, length);
    if (xez_accepted(answer))
        printf("ok %u", (unsigned)xez_value(answer));
    else
        print_refused(answer);
    return end_line(1);
}

typedef uint64_t field_function(const uint8_t *, size_t, uint32_t *, size_t);

/* Where the bytes of a word stand: the words of the buffer, and of the bytes before and after it; its last odd bytes are in none. */
static uint8_t *word_place(size_t i)
{
    return out.all + 4 * i + (i < CANARY / 4 + out.length / 4 ? 0 : out.length % 4);
}

/* VERB FIELDS BYTES: the fields' words, as bytes, afterwards */
static int ask_fields(field_function *f)
{
    uint64_t answer;
    size_t all;
    if (!take_bytes(&out) || !take_bytes(&in))
        return 0;
    guard(&out);
    all = out.length / 4 + 2 * (CANARY / 4);
    for (size_t i = 0; i < all; i++)
        words[i] = xez_get_word(word_place(i), 0);
    answer = f(bytes_of(&in), in.length, words + CANARY / 4, out.length / 4);
    for (size_t i = 0; i < all; i++)
        xez_put_word(word_place(i), 0, words[i]);
    return show(answer);
}

/* fields.into FIELDS BUFFER PAYLOAD */
static int ask_write_data(void)
{
    if (!take_bytes(&in) || !take_bytes(&out) || !take_bytes(&second))
        return 0;
    guard(&out);
    for (size_t i = 0; i < in.length / 4; i++)
        words[i] = xez_get_word(bytes_of(&in), i);
    return show(xez_write_data(words, in.length / 4, bytes_of(&second), second.length, bytes_of(&out), out.length));
}

static int ask(char *question)
{
    char *verb = strtok(question, " ");
    if (!verb)
        return 0;
    if (strcmp(verb, "compress") == 0)
        return ask_list(xez_compress);
    if (strcmp(verb, "expand") == 0)
        return ask_list(xez_expand);
    if (strcmp(verb, "compress.into") == 0)
        return ask_list_into(xez_compress);
    if (strcmp(verb, "expand.into") == 0)
        return ask_list_into(xez_expand);
    if (strcmp(verb, "lost") == 0)
        return ask_why_lost();
    if (strcmp(verb, "merge") == 0)
        return ask_merge();
    if (strcmp(verb, "wire.size") == 0)
        return ask_wire_size();
    if (strcmp(verb, "data.fields") == 0)
        return ask_fields(xez_read_data);
    if (strcmp(verb, "key.fields") == 0)
        return ask_fields(xez_read_key);
    if (strcmp(verb, "fields.into") == 0)
        return ask_write_data();
    return 0;
}

int main(void)
{
    static char buffer[1 << 16], line[4 * LONGEST + 256];
    setvbuf(stdout, buffer, _IOFBF, sizeof buffer);
    while (fgets(line, sizeof line, stdin)) {
        line[strcspn(line, "\r\n")] = '\0';
        if (!ask(line))
            puts("not a question");
    }
    return 0;
}
