/*
 * For libFuzzer: any bytes through the eight C functions, held against the models. The first byte chooses the function,
 * the next two the room and what else the function asks for; the rest is the input. The wire size is asked of every
 * packet that is to be written. Every buffer is as long as it is said to be, no longer.
 */
#include <stdlib.h>
#include <string.h>

#include "model.h"
#include "packet_model.h"
#include "xezalbur.h"

int LLVMFuzzerTestOneInput(const uint8_t *data, size_t size);

/* A buffer of exactly this length, so that AddressSanitizer sees a touch past its end. An empty one may be nowhere. */
static void *buffer(size_t bytes, int null_if_empty)
{
    void *made = bytes == 0 && null_if_empty ? NULL : malloc(bytes);
    if (bytes && !made)
        abort();
    return made;
}

/* A copy of an input, and zeros after it. */
static void *copied(const uint8_t *from, size_t bytes, size_t zeros, int null_if_empty)
{
    uint8_t *made = buffer(bytes + zeros, null_if_empty);
    if (bytes)
        memcpy(made, from, bytes);
    if (zeros)
        memset(made + bytes, 0, zeros);
    return made;
}

/* An output, and what is to become of it, are painted before the call. */
static void paint(uint8_t *out, uint8_t *should, size_t room)
{
    for (size_t i = 0; i < room; i++)
        out[i] = should[i] = (uint8_t)(i * 29 + 3);
}

static void hold(int held)
{
    if (!held)
        abort();
}

static int same(const void *a, const void *b, size_t bytes)
{
    return bytes == 0 || memcmp(a, b, bytes) == 0;
}

static struct outcome expected;
static uint32_t words[MODEL_LIMIT + 4], second_words[MODEL_LIMIT + 4];

static void take_words(uint32_t *to, const uint8_t *from, size_t bytes)
{
    memset(to, 0, bytes + 3);
    for (size_t i = 0; i < bytes; i++)
        to[i / 4] |= (uint32_t)from[i] << (24 - 8 * (i % 4));
}

/* Compressing and expanding: the room is small, or about that of a full list. */
static void a_list(enum function f, const uint8_t *head, const uint8_t *rest, size_t bytes)
{
    size_t room = head[1] + (head[2] < 250 ? 0 : 4 * (size_t)MODEL_LIMIT - 128);
    if (bytes > 4 * (MODEL_LIMIT + 2))
        return;
    uint8_t *in = copied(rest, bytes, 0, head[2] & 1), *out = buffer(room, head[2] & 1), *should = buffer(room, 0);
    take_words(words, rest, bytes);
    paint(out, should, room);

    model(f, words, bytes, room, &expected);
    if (expected.refusal == 0)
        byte_words(should, expected.words, 4 * (size_t)expected.value);
    uint64_t answer = f == COMPRESS ? xez_compress(in, bytes, out, room) : xez_expand(in, bytes, out, room);
    hold(answer == ((uint64_t)expected.refusal << 32 | expected.value));
    hold(same(out, should, room) && same(in, rest, bytes));
    free(in);
    free(out);
    free(should);
}

/* Why a number is lost: it is the second byte further than a word of the list, which the third byte chooses; that word may have its flag. */
static void a_number(const uint8_t *head, const uint8_t *rest, size_t bytes)
{
    if (bytes > 4 * (MODEL_LIMIT + 2))
        return;
    uint8_t *in = copied(rest, bytes, 0, head[2] & 1);
    take_words(words, rest, bytes);
    uint32_t number = words[bytes < 4 ? 0 : head[2] % (bytes / 4)] + head[1] - 8;
    model_why(words, bytes, number, &expected);
    hold(xez_why_lost(in, bytes, number) == ((uint64_t)expected.refusal << 32 | expected.value));
    hold(same(in, rest, bytes));
    free(in);
}

/* Merging: the first word is the oldest, the second byte says where the other words are cut in two lists, and the third whether one byte
   more goes to the first, and the room, which is what is needed, or up to eight bytes less or seven more. Long lists in disorder may take
   long, and are passed over. */
static void two_lists(const uint8_t *head, const uint8_t *rest, size_t bytes)
{
    if (bytes < 8 || bytes > 4 * (MODEL_LIMIT + 2))
        return;
    uint32_t oldest = xez_get_word(rest, 0);
    rest += 4;
    bytes -= 4;
    size_t cut = 4 * (bytes / 4 * head[1] / 256) + (head[2] % 8 == 7), lengths[2] = {cut, bytes - cut}, need, room;
    const uint32_t *lists[2] = {words, second_words};
    take_words(words, rest, cut);
    take_words(second_words, rest + cut, bytes - cut);
    if (bytes > 8192 && !(model_in_order(oldest, words, cut / 4) && model_in_order(oldest, second_words, (bytes - cut) / 4)))
        return;
    model_merge(oldest, lists, lengths, 4 * MODEL_LIMIT, &expected);
    need = (expected.refusal ? 0 : 4 * (size_t)expected.value) + head[2] / 16;
    room = need < 8 ? 0 : need - 8;
    model_merge(oldest, lists, lengths, room, &expected);

    uint8_t *first = copied(rest, cut, 0, head[2] & 1), *second = copied(rest + cut, bytes - cut, 0, head[2] & 1);
    uint8_t *out = buffer(room, head[2] & 1), *should = buffer(room, 0);
    paint(out, should, room);
    if (expected.refusal == 0)
        byte_words(should, expected.words, 4 * (size_t)expected.value);
    hold(xez_merge(oldest, first, cut, second, bytes - cut, out, room) == ((uint64_t)expected.refusal << 32 | expected.value));
    hold(same(out, should, room) && same(first, rest, cut) && same(second, rest + cut, bytes - cut));
    if (expected.refusal == 0) /* with the lists exchanged the words stay as they are */
        hold(xez_merge(oldest, second, bytes - cut, first, cut, out, room) == expected.value && same(out, should, room));
    free(first);
    free(second);
    free(out);
    free(should);
}

static struct packet_outcome packet;

/* Zeros that bring a length to about the limit of a payload, where the third byte asks for them. */
static size_t stretch(const uint8_t *head)
{
    return head[2] < 240 ? 0 : MODEL_PAYLOAD - 128;
}

static void hold_packet(uint64_t answer, const void *out, uint8_t *should, size_t room)
{
    hold(answer == ((uint64_t)packet.refusal << 32 | packet.value));
    if (packet.words_written)
        memcpy(should, packet.words, 4 * packet.words_written);
    if (packet.bytes_written)
        memcpy(should, packet.bytes, packet.bytes_written);
    hold(same(out, should, room));
}

/* Reading a data packet or a key message: the room is 0 to 15 words. */
static void a_packet_to_read(int is_key, const uint8_t *head, const uint8_t *rest, size_t bytes)
{
    size_t room = head[1] % 16, zeros = is_key ? 0 : stretch(head), length = bytes + zeros;
    uint8_t *in = copied(rest, bytes, zeros, head[2] & 1), *before = copied(in, length, 0, 0);
    uint8_t *should = buffer(4 * room, 0);
    uint32_t *out = buffer(4 * room, head[2] & 1);
    paint((uint8_t *)out, should, 4 * room);
    if (is_key)
        model_read_key(in, length, room, &packet);
    else
        model_read_data(in, length, room, &packet);
    uint64_t answer = is_key ? xez_read_key(in, length, out, room) : xez_read_data(in, length, out, room);
    hold_packet(answer, out, should, 4 * room);
    hold(same(in, before, length));
    free(in);
    free(before);
    free(out);
    free(should);
}

/* Writing a data packet: the third byte says how many fields there are, of which the first bytes are taken; the payload
   follows. The room is about what is needed, or nothing. */
static void a_packet_to_write(const uint8_t *head, const uint8_t *rest, size_t bytes)
{
    size_t fields_length = head[2] % 16, zeros = stretch(head), length, need, room;
    if (fields_length > bytes / 4)
        fields_length = bytes / 4;
    uint32_t *fields = copied(rest, 4 * fields_length, 0, head[1] & 1);
    rest += 4 * fields_length;
    bytes -= 4 * fields_length;
    length = bytes + zeros;
    need = 16 + length;
    room = head[1] < 8 || need + head[1] < 136 ? 0 : need + head[1] - 136;
    uint8_t *payload = copied(rest, bytes, zeros, head[1] & 1), *before = copied(payload, length, 0, 0);
    uint8_t *out = buffer(room, head[1] & 1), *should = buffer(room, 0);
    paint(out, should, room);
    model_write_data(fields, fields_length, payload, length, room, &packet);
    hold_packet(xez_write_data(fields, fields_length, payload, length, out, room), out, should, room);
    hold(same(payload, before, length) && same(fields, rest - 4 * fields_length, 4 * fields_length));
    uint32_t family = fields_length > XEZ_FAMILY ? fields[XEZ_FAMILY] : head[1];
    if (packet.refusal == 0) { /* what was written is read */
        uint32_t read[XEZ_DATA_FIELDS];
        read[XEZ_FAMILY] = family;
        hold(xez_read_data(out, need, read, XEZ_DATA_FIELDS) == length);
        for (size_t i = 0; i < XEZ_PACKET_FIELDS; i++)
            hold(read[i] == (i >= XEZ_BEGINS && i <= XEZ_RETRANSMITTED ? fields[i] != 0 : fields[i]));
        hold(read[XEZ_FAMILY] == family);
    }
    model_wire_size(family, length, &packet);
    hold(xez_wire_size(family, length) == ((uint64_t)packet.refusal << 32 | packet.value));
    free(fields);
    free(payload);
    free(before);
    free(out);
    free(should);
}

int LLVMFuzzerTestOneInput(const uint8_t *data, size_t size)
{
    if (size < 3)
        return 0;
    switch (data[0] % 7) {
    case 0:
        a_list(COMPRESS, data, data + 3, size - 3);
        break;
    case 1:
        a_list(EXPAND, data, data + 3, size - 3);
        break;
    case 2:
        a_packet_to_read(0, data, data + 3, size - 3);
        break;
    case 3:
        a_packet_to_write(data, data + 3, size - 3);
        break;
    case 4:
        a_packet_to_read(1, data, data + 3, size - 3);
        break;
    case 5:
        a_number(data, data + 3, size - 3);
        break;
    default:
        two_lists(data, data + 3, size - 3);
    }
    return 0;
}
