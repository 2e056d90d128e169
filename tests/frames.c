/*
 * Makes the frames that the program `answers` takes from questions in text, a line each: twelve big-endian words (the
 * question's number, eight numbers, the buffer's length with 16 bytes before it and 16 after or 0, the lengths of two
 * parts of bytes), then the bytes, those of the buffer last where they are given. A line that is no question, or that has
 * a number larger than its field can hold, becomes the question 0, which `answers` answers with `not a question`.
 * tests/oracle/README.md has the language.
 */
#include <stdint.h>
#include <stdio.h>
#include <stdlib.h>
#include <string.h>

/*
 * What a question takes: n a number, h one of 16 bits, y one of 8, z one up to 70,000, 1 2 3 one up to that, p 1 or 2; r
 * the room, W the room in words, B the buffer's bytes, b bytes, each up to 400,000 bytes; of a sheet R the room and s bytes,
 * up to 1,000,000 of each.
 */
static const struct {
    const char *name, *takes;
    uint32_t number;
} questions[] = {
    {"seq.truncate", "n", 1},
    {"seq.new", "n", 2},
    {"seq.increment", "n", 3},
    {"seq.add", "nn", 4},
    {"seq.sub", "nn", 5},
    {"seq.distance", "nn", 6},
    {"seq.compare", "nn", 7},
    {"seq.signed", "nn", 8},
    {"seq.lt", "nn", 9},
    {"seq.raw", "n", 10},
    {"msg.truncate", "n", 11},
    {"msg.new", "n", 12},
    {"msg.increment", "n", 13},
    {"msg.add", "nn", 14},
    {"msg.sub", "nn", 15},
    {"msg.distance", "nn", 16},
    {"msg.compare", "nn", 17},
    {"msg.signed", "nn", 18},
    {"msg.lt", "nn", 19},
    {"msg.raw", "n", 20},
    {"data.read", "b", 21},
    {"data.write", "n3121nnnrb", 22},
    {"data.into", "n3121nnnBb", 122},
    {"data.payload", "b", 23},
    {"data.size", "z", 24},
    {"data.read6", "b", 25},
    {"data.write6", "n3121nnnrb", 26},
    {"data.into6", "n3121nnnBb", 126},
    {"data.size6", "z", 28},
    {"wire.size", "nn", 29},
    {"ext.read", "hb", 31},
    {"ext.type", "hb", 32},
    {"ext.words", "hb", 33},
    {"handshake.write", "nnhhr", 34},
    {"handshake.into", "nnhhB", 134},
    {"group.write", "y1nhr", 35},
    {"group.into", "y1nhB", 135},
    {"key.write", "pnn3rbb", 36},
    {"key.into", "pnn3Bbb", 136},
    {"key.salt", "b", 37},
    {"key.wrapped", "b", 38},
    {"key.auth", "b", 39},
    {"key.why", "b", 40},
    {"compress.into", "Bb", 141},
    {"expand.into", "Bb", 142},
    {"fields.into", "bBb", 143},
    {"compress.words", "Bb", 144},
    {"expand.words", "Bb", 145},
    {"data.fields", "Bb", 146},
    {"key.fields", "Bb", 147},
    {"sheet.write", "Rb", 48},
    {"sheet.read", "Ws", 49},
    {"lost", "nb", 50},
    {"lost.words", "nb", 51},
    {"merge", "nWbb", 52},
};
#define QUESTIONS (sizeof questions / sizeof questions[0])

#define LONGEST 400000
#define LONGEST_SHEET 1000000
#define LONGEST_PAYLOAD 70000
#define AROUND 32

static char line[2 * (2 * LONGEST + LONGEST_SHEET) + 256];
static uint8_t part[3][LONGEST_SHEET];
static size_t length[3];
static uint32_t words[12];

static int digit(char c)
{
    const char *digits = "0123456789abcdef", *at = c ? strchr(digits, c) : NULL;
    return at ? (int)(at - digits) : -1;
}

/* The bytes of a hex field, `-` for none. */
static int bytes(const char *hex, int which, size_t most)
{
    size_t n = 0;
    if (strcmp(hex, "-") != 0) {
        for (; hex[2 * n] != '\0'; n++) {
            int high = digit(hex[2 * n]), low = digit(hex[2 * n + 1]);
            if (n == most || high < 0 || low < 0)
                return -1;
            part[which][n] = (uint8_t)(high << 4 | low);
        }
    }
    length[which] = n;
    return 0;
}

/* A decimal number from least to most. */
static int number(const char *text, uint32_t least, uint32_t most, uint32_t *to)
{
    uint64_t n = 0;
    size_t i = 0;
    for (; text[i] >= '0' && text[i] <= '9'; i++)
        if ((n = n * 10 + (uint64_t)(text[i] - '0')) > most)
            return -1;
    *to = (uint32_t)n;
    return i > 0 && text[i] == '\0' && n >= least ? 0 : -1;
}

/* A room of so many bytes, with those around it. */
static int room(const char *field, uint32_t most, uint32_t each)
{
    uint32_t n;
    if (number(field, 0, most, &n) != 0)
        return -1;
    words[9] = n * each + AROUND;
    return 0;
}

/* Takes one field, or says that it cannot. */
static int take(char kind, const char *field, size_t *numbers, int *parts)
{
    uint32_t *next = *numbers < 8 ? &words[1 + *numbers] : NULL, most;
    switch (kind) {
    case 'b':
        return bytes(field, (*parts)++, LONGEST);
    case 's':
        return bytes(field, (*parts)++, LONGEST_SHEET);
    case 'B':
        if (bytes(field, 2, LONGEST) != 0)
            return -1;
        words[9] = (uint32_t)length[2] + AROUND;
        return 0;
    case 'r':
        return room(field, LONGEST, 1);
    case 'R':
        return room(field, LONGEST_SHEET, 1);
    case 'W':
        return room(field, LONGEST / 4, 4);
    case 'n':
        most = UINT32_MAX;
        break;
    case 'h':
        most = 0xFFFF;
        break;
    case 'y':
        most = 0xFF;
        break;
    case 'z':
        most = LONGEST_PAYLOAD;
        break;
    case 'p':
        most = 2;
        break;
    default:
        most = (uint32_t)(kind - '0');
    }
    ++*numbers;
    return number(field, kind == 'p', most, next);
}

/* Reads a question into the words and the parts, or says that it is none. */
static int read_question(char *text)
{
    size_t which = 0, numbers = 0;
    int parts = 0;
    const char *takes;
    char *field = strtok(text, " ");
    memset(words, 0, sizeof words);
    memset(length, 0, sizeof length);
    if (!field)
        return -1;
    while (which < QUESTIONS && strcmp(field, questions[which].name) != 0)
        which++;
    if (which == QUESTIONS)
        return -1;
    for (takes = questions[which].takes; *takes; takes++)
        if (!(field = strtok(NULL, " ")) || take(*takes, field, &numbers, &parts) != 0)
            return -1;
    if (strtok(NULL, " "))
        return -1;
    words[0] = questions[which].number;
    return 0;
}

static void put(uint32_t word)
{
    putchar((int)(word >> 24));
    putchar((int)(word >> 16 & 255));
    putchar((int)(word >> 8 & 255));
    putchar((int)(word & 255));
}

int main(void)
{
    while (fgets(line, sizeof line, stdin)) {
        line[strcspn(line, "\r\n")] = '\0';
        if (read_question(line) != 0) {
            memset(words, 0, sizeof words);
            memset(length, 0, sizeof length);
        }
        words[10] = (uint32_t)length[0];
        words[11] = (uint32_t)length[1];
        for (size_t i = 0; i < 12; i++)
            put(words[i]);
        fwrite(part[0], 1, length[0], stdout);
        fwrite(part[1], 1, length[1], stdout);
        fwrite(part[2], 1, length[2], stdout);
    }
    return 0;
}
