/* Built as C99 and as C++: the header compiles with every warning on, and its helpers take an answer apart. */
#include <stdio.h>
#include <string.h>

#include "xezalbur.h"

static int failures;

static void expect(int held, const char *sentence)
{
    if (!held) {
        printf("FAILED: %s\n", sentence);
        failures++;
    }
}

static void lists(void)
{
    uint8_t in[12], out[16];
    uint64_t answer;

    xez_put_word(in, 0, XEZ_RANGE_START | 5u);
    xez_put_word(in, 1, 7u);
    xez_put_word(in, 2, 9u);
    answer = xez_expand(in, sizeof in, out, sizeof out);
    expect(xez_accepted(answer) && xez_refusal(answer) == XEZ_ACCEPTED && xez_value(answer) == 4,
           "a range of three and a number are four numbers");
    expect(xez_get_word(out, 0) == 5 && xez_get_word(out, 1) == 6 && xez_get_word(out, 2) == 7 && xez_get_word(out, 3) == 9,
           "they are 5, 6, 7 and 9");

    answer = xez_expand(in, sizeof in, out, 15);
    expect(!xez_accepted(answer) && xez_refusal(answer) == XEZ_NO_ROOM && xez_value(answer) == 4,
           "fifteen bytes are room for three words, and four are needed");

    answer = xez_compress(out, sizeof out, in, sizeof in);
    expect(xez_accepted(answer) && xez_value(answer) == 3 && xez_get_word(in, 0) == (XEZ_RANGE_START | 5u),
           "they are compressed to the three words that they came from");

    expect(xez_accepted(xez_compress(NULL, 0, NULL, 0)), "no numbers are an empty list, by null pointers too");
    expect(xez_refusal(xez_compress(out, 3, in, sizeof in)) == XEZ_NOT_ENOUGH_DATA, "three bytes are no word");
    expect(xez_refusal(XEZ_LIST_LIMIT + ((uint64_t)XEZ_TOO_LONG << 32)) == 14 && XEZ_LIST_LIMIT == 65536,
           "the limit is 65,536, refused past it with 14");
}

static void why_lost(void)
{
    uint8_t list[12];
    uint64_t answer;

    xez_put_word(list, 0, XEZ_RANGE_START | 5u);
    xez_put_word(list, 1, 7u);
    xez_put_word(list, 2, 9u);
    answer = xez_why_lost(list, sizeof list, 7);
    expect(xez_accepted(answer) && xez_value(answer) == 0, "7 is lost by the range at the first word, whose end it is");
    answer = xez_why_lost(list, sizeof list, 9);
    expect(xez_accepted(answer) && xez_value(answer) == 2, "9 is lost by the third word");
    answer = xez_why_lost(list, sizeof list, 8);
    expect(xez_accepted(answer) && xez_value(answer) == XEZ_NOT_LOST && XEZ_NOT_LOST > XEZ_LIST_LIMIT, "8 is not lost, which no place says");
    answer = xez_why_lost(list, sizeof list, XEZ_RANGE_START);
    expect(xez_refusal(answer) == XEZ_NOT_SEQUENCE && xez_value(answer) == 0, "2^31 is no sequence number");
    answer = xez_why_lost(list, 4, XEZ_RANGE_START);
    expect(xez_refusal(answer) == XEZ_OPEN_RANGE && xez_value(answer) == 0, "a list that is refused is refused first");
    expect(xez_why_lost(NULL, 0, 5) == XEZ_NOT_LOST, "of an empty list, by a null pointer too, nothing is lost");
}

static void merged(void)
{
    uint8_t first[12], second[8], out[16];
    uint64_t answer;

    xez_put_word(first, 0, 1u);
    xez_put_word(first, 1, XEZ_RANGE_START | 0x7FFFFFFEu);
    xez_put_word(first, 2, 0u);
    xez_put_word(second, 0, 4u);
    xez_put_word(second, 1, 1u);
    answer = xez_merge(0x7FFFFFFD, first, sizeof first, second, sizeof second, out, sizeof out);
    expect(xez_accepted(answer) && xez_value(answer) == 3, "a range across the wrap with its neighbour, and one number more, are three words");
    expect(xez_get_word(out, 0) == 0xFFFFFFFEu && xez_get_word(out, 1) == 1 && xez_get_word(out, 2) == 4,
           "the range ends with the number that both lists name, and 4 comes last");
    expect(xez_merge(0x7FFFFFFD, second, sizeof second, first, sizeof first, out, sizeof out) == 3, "the lists may be exchanged");
    answer = xez_merge(0x7FFFFFFD, first, sizeof first, second, sizeof second, out, 11);
    expect(xez_refusal(answer) == XEZ_NO_ROOM && xez_value(answer) == 3, "eleven bytes are room for two words");
    answer = xez_merge(0x7FFFFFFF, first, sizeof first, second, sizeof second, out, sizeof out);
    expect(xez_refusal(answer) == XEZ_OUTSIDE_WINDOW && xez_value(answer) == 1, "the range at the second word begins before the oldest");
    answer = xez_merge(0x7FFFFFFF, second, sizeof second, first, 8, out, sizeof out);
    expect(xez_refusal(answer) == XEZ_OPEN_RANGE && xez_value(answer) == 1, "a list that is refused on its own is refused before that");
    answer = xez_merge(XEZ_RANGE_START, first, 8, second, sizeof second, out, sizeof out);
    expect(xez_refusal(answer) == XEZ_NOT_SEQUENCE && xez_value(answer) == 0, "2^31 is no sequence number, and so no oldest one");
    expect(xez_merge(5, NULL, 0, NULL, 0, NULL, 0) == 0, "two empty lists, by null pointers too, give an empty one");
}

static void data_packets(void)
{
    static const uint8_t packet[] = {0, 0, 0, 5, 0xE4, 0, 0, 9, 0, 0, 1, 0, 0, 0, 0, 2, 0xAA};
    uint32_t fields[XEZ_DATA_FIELDS], before[XEZ_PACKET_FIELDS];
    uint8_t written[sizeof packet];
    uint64_t answer;

    expect(XEZ_PACKET_FIELDS == 10 && XEZ_DATA_HEADER == 16 && XEZ_PAYLOAD_LIMIT == 65535,
           "a data packet has ten fields in sixteen bytes, and a payload of up to 65,535");
    expect(XEZ_FAMILY == XEZ_PACKET_FIELDS && XEZ_DATA_FIELDS == 11, "the family is one field more, after them");
    fields[XEZ_FAMILY] = XEZ_IPV6;
    answer = xez_read_data(packet, sizeof packet, fields, XEZ_DATA_FIELDS);
    expect(xez_accepted(answer) && xez_value(answer) == sizeof packet - XEZ_DATA_HEADER, "its payload is one byte");
    expect(fields[XEZ_SEQUENCE] == 5 && fields[XEZ_MESSAGE] == 9, "it has sequence number 5 and message number 9");
    expect(fields[XEZ_TIMESTAMP] == 256 && fields[XEZ_SOCKET] == 2, "it was sent at 256, to socket 2");
    expect(fields[XEZ_BEGINS] == 1 && fields[XEZ_ENDS] == 1 && fields[XEZ_IN_ORDER] == 1 && fields[XEZ_ODD_KEY] == 0 &&
               fields[XEZ_EVEN_KEY] == 0 && fields[XEZ_RETRANSMITTED] == 1,
           "it is a whole message in order, not encrypted, sent again");
    expect(fields[XEZ_FAMILY] == XEZ_IPV6, "its family is the one that was given");
    expect(xez_wire_size(fields[XEZ_FAMILY], xez_value(answer)) == 65, "by IPv6 it is 64 bytes and the payload on the wire");
    expect(xez_wire_size(XEZ_IPV4, xez_value(answer)) == 45, "by IPv4 it is 44 and the payload");
    answer = xez_wire_size(XEZ_IPV6, XEZ_PAYLOAD_LIMIT + 1);
    expect(xez_refusal(answer) == XEZ_TOO_LONG && xez_value(answer) == XEZ_PAYLOAD_LIMIT, "65,536 bytes are too long a payload");
    answer = xez_read_data(packet, sizeof packet, before, XEZ_PACKET_FIELDS);
    expect(answer == 1 && memcmp(before, fields, sizeof before) == 0, "a program with room for ten words finds them as ever");
    answer = xez_read_data(packet, sizeof packet, before, XEZ_PACKET_FIELDS - 1);
    expect(xez_refusal(answer) == XEZ_NO_ROOM && xez_value(answer) == XEZ_PACKET_FIELDS, "nine words are too few");
    answer = xez_write_data(before, XEZ_PACKET_FIELDS, packet + XEZ_DATA_HEADER, 1, written, sizeof written);
    expect(answer == sizeof packet && memcmp(packet, written, sizeof packet) == 0, "and ten are written as ever");
    memset(written, 0, sizeof written);

    answer = xez_write_data(fields, XEZ_DATA_FIELDS, packet + XEZ_DATA_HEADER, 1, written, sizeof written);
    expect(xez_accepted(answer) && xez_value(answer) == sizeof packet && memcmp(packet, written, sizeof packet) == 0,
           "what was read is written as the bytes that were read");
    answer = xez_write_data(fields, XEZ_DATA_FIELDS, NULL, 0, written, XEZ_DATA_HEADER);
    expect(answer == XEZ_DATA_HEADER, "no payload may be a null pointer");
    answer = xez_write_data(fields, XEZ_DATA_FIELDS, packet, 1, written, XEZ_DATA_HEADER);
    expect(xez_refusal(answer) == XEZ_NO_ROOM && xez_value(answer) == 17, "a byte of payload takes seventeen bytes");

    fields[XEZ_MESSAGE] = 1u << 26;
    answer = xez_write_data(fields, XEZ_DATA_FIELDS, packet, 1, written, sizeof written);
    expect(xez_refusal(answer) == XEZ_FIELD_TOO_WIDE && xez_value(answer) == 2, "2^26 is no message number");
    fields[XEZ_SEQUENCE] = 1u << 31;
    answer = xez_write_data(fields, XEZ_DATA_FIELDS, packet, 1, written, sizeof written);
    expect(xez_refusal(answer) == XEZ_FIELD_TOO_WIDE && xez_value(answer) == 1, "2^31 is no sequence number");
    fields[XEZ_ODD_KEY] = 1;
    fields[XEZ_EVEN_KEY] = 2;
    answer = xez_write_data(fields, XEZ_DATA_FIELDS, packet, 1, written, sizeof written);
    expect(xez_refusal(answer) == XEZ_BAD_DATA_ENCRYPTION && xez_value(answer) == 0x18, "both keys are refused");
    expect(xez_refusal(xez_read_data(NULL, 0, NULL, 0)) == XEZ_NOT_ENOUGH_DATA, "nothing is no packet");
}

static void key_messages(void)
{
    uint8_t message[56] = {0x12, 0x20, 0x29, 1, 0, 0, 0, 7, 2, 0, 2, 0, 0, 0, 4, 4};
    uint32_t fields[XEZ_KEY_FIELDS];
    uint64_t answer;

    expect(XEZ_KEY_FIELDS == 6 && XEZ_KEY_HEADER == 16, "a key message has six fields, and a salt from sixteen on");
    answer = xez_read_key(message, sizeof message, fields, XEZ_KEY_FIELDS);
    expect(xez_accepted(answer) && xez_value(answer) == sizeof message, "all 56 bytes of a key message are used");
    expect(fields[XEZ_PACKET_TYPE] == 2 && fields[XEZ_KEY_FLAGS] == 1, "it is keying material, an even key");
    expect(fields[XEZ_KEKI] == 7 && fields[XEZ_CIPHER] == 2, "it is wrapped by key 7, and for CTR");
    expect(fields[XEZ_SALT_LENGTH] == 16 && fields[XEZ_WRAPPED_LENGTH] == 24 &&
               XEZ_KEY_HEADER + fields[XEZ_SALT_LENGTH] + fields[XEZ_WRAPPED_LENGTH] == sizeof message,
           "its salt is 16 bytes and its wrapped key 24");
    message[15] = 5;
    answer = xez_read_key(message, sizeof message, fields, XEZ_KEY_FIELDS);
    expect(xez_refusal(answer) == XEZ_BAD_KEY_LENGTH && xez_value(answer) == 20, "a key is not of 20 bytes");
    message[3] = 0xFC;
    answer = xez_read_key(message, sizeof message, fields, XEZ_KEY_FIELDS);
    expect(xez_refusal(answer) == XEZ_NO_KEY && xez_value(answer) == 0, "neither key flag is set, whatever stands above them");
}

/* Every refusal that the header names, and its number in the rules. */
static const unsigned named[] = {
    XEZ_ACCEPTED, XEZ_NOT_ENOUGH_DATA, XEZ_CONTROL_BIT, XEZ_BAD_DATA_ENCRYPTION,
    XEZ_BAD_KEY_VERSION, XEZ_BAD_KEY_PACKET_TYPE, XEZ_BAD_KEY_SIGN, XEZ_BAD_CIPHER,
    XEZ_BAD_AUTH, XEZ_BAD_ENCAPSULATION, XEZ_NOT_SRT, XEZ_BAD_KEY_LENGTH,
    XEZ_TOO_LONG, XEZ_NOT_SEQUENCE, XEZ_NOT_INCREASING, XEZ_OPEN_RANGE,
    XEZ_FLAGGED_END, XEZ_BACKWARD_RANGE, XEZ_TOO_MANY_NUMBERS, XEZ_NO_ROOM,
    XEZ_FIELD_TOO_WIDE, XEZ_NO_KEY, XEZ_BAD_SHEET, XEZ_SHEET_EDITION,
    XEZ_OUTSIDE_WINDOW,
};
static const unsigned numbers[] = {0, 1, 2, 3, 4, 5, 6, 7, 8, 9, 10, 11, 14, 15, 16, 17, 18, 19, 20, 21, 22, 23, 26, 27, 29};
enum { NAMED = sizeof numbers / sizeof numbers[0] };

static void sentences(void)
{
    unsigned number, i, j, next = 0;

    expect(sizeof named == sizeof numbers && memcmp(named, numbers, sizeof numbers) == 0,
           "the refusals have the document's numbers");
    for (number = 0; number < 64; number++) {
        int is_named = next < NAMED && number == numbers[next];
        next += is_named ? 1 : 0;
        expect(is_named == (strcmp(xez_sentence(number), xez_sentence(99)) != 0),
               "exactly the named refusals have a sentence");
    }
    for (i = 0; i < NAMED; i++)
        for (j = 0; j < i; j++)
            expect(strcmp(xez_sentence(numbers[i]), xez_sentence(numbers[j])) != 0, "each sentence is another");
}

int main(void)
{
    lists();
    why_lost();
    merged();
    data_packets();
    key_messages();
    sentences();
    return failures != 0;
}
