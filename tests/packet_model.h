/*
 * A model of the four C functions on packets, from the rules alone (docs/RULES.md, 4, 6 and 7). What a C program
 * needs besides (fields as words, and their room) is from the header's comments, and is said to be. It shares no code
 * with the inside, and is written to be read, not to be quick.
 */
#ifndef PACKET_MODEL_H
#define PACKET_MODEL_H

#include <stddef.h>
#include <stdint.h>
#include <string.h>

#define MODEL_PAYLOAD 65535

struct packet_outcome {
    uint32_t refusal;                    /* 0 if accepted */
    uint64_t value;                      /* the length, or what the refusal carries */
    size_t words_written, bytes_written; /* "No refusal writes to a buffer": both are 0 then */
    uint32_t words[10];                  /* the fields, where a packet was read */
    uint8_t bytes[16 + MODEL_PAYLOAD];   /* the packet, where one was written */
};

static void packet_refused(struct packet_outcome *o, uint32_t number, uint64_t carried)
{
    o->refusal = number;
    o->value = carried;
    o->words_written = 0;
    o->bytes_written = 0;
}

/* "big-endian": the first byte is the highest. */
static uint64_t big_endian(const uint8_t *bytes, size_t count)
{
    uint64_t number = 0;
    size_t i;
    for (i = 0; i < count; i++)
        number = 256 * number + bytes[i];
    return number;
}

/* A word whose bits are taken from the top, in the order in which the document tells of them. */
struct bits {
    uint64_t rest;
    unsigned left;
};

static uint32_t take(struct bits *word, unsigned count)
{
    uint64_t unit, taken;
    word->left -= count;
    unit = (uint64_t)1 << word->left;
    taken = word->rest / unit;
    word->rest %= unit;
    return (uint32_t)taken;
}

/* "Data read: 1 (under 16); 14 (payload over 65,535); 2; 3." Then, as the header has it, 21 with ten words. */
static void model_read_data(const uint8_t *packet, size_t length, size_t room, struct packet_outcome *o)
{
    struct bits word0, word1;
    uint32_t control, sequence, location, in_order, encryption, retransmitted, message;
    if (length < 16) {
        packet_refused(o, 1, 0);
        return;
    }
    if (length - 16 > MODEL_PAYLOAD) {
        packet_refused(o, 14, MODEL_PAYLOAD);
        return;
    }
    /* "Sixteen bytes big-endian, then payload. Word 0: bit 31 zero, 31-bit sequence number." */
    word0.rest = big_endian(packet, 4);
    word0.left = 32;
    control = take(&word0, 1);
    sequence = take(&word0, 31);
    /* "Word 1: two bits location (10 first, 01 last, 11 only, 00 middle), one in-order, two encryption (00 none, 01
       even, 10 odd), one retransmitted, 26 message number." */
    word1.rest = big_endian(packet + 4, 4);
    word1.left = 32;
    location = take(&word1, 2);
    in_order = take(&word1, 1);
    encryption = take(&word1, 2);
    retransmitted = take(&word1, 1);
    message = take(&word1, 26);
    if (control != 0) {
        packet_refused(o, 2, 0);
        return;
    }
    if (encryption == 3) {
        packet_refused(o, 3, 0x18); /* "BadDataEncryption | 0x18" */
        return;
    }
    if (room < 10) {
        packet_refused(o, 21, 10);
        return;
    }
    o->words[0] = sequence;
    o->words[1] = location == 2 || location == 3; /* first, or only */
    o->words[2] = location == 1 || location == 3; /* last, or only */
    o->words[3] = in_order;
    o->words[4] = encryption == 2; /* odd */
    o->words[5] = encryption == 1; /* even */
    o->words[6] = retransmitted;
    o->words[7] = message;
    /* "Words 2 and 3: timestamp in microseconds and destination socket." */
    o->words[8] = (uint32_t)big_endian(packet + 8, 4);
    o->words[9] = (uint32_t)big_endian(packet + 12, 4);
    /* "The payload is handed back as the lent bytes from 16 on, not a copy; it may be empty." */
    o->refusal = 0;
    o->value = length - 16;
    o->words_written = 10;
    o->bytes_written = 0;
}

/* As the header has it: 1 (under ten words), 3 (both keys); a flag is "written as up where it is not 0". Then "Data
   write: 14; 22 (1, then 2); 21." */
static void model_write_data(const uint32_t *fields, size_t fields_length, const uint8_t *payload, size_t length,
                             size_t room, struct packet_outcome *o)
{
    uint64_t words[4], location, encryption;
    size_t i;
    if (fields_length < 10) {
        packet_refused(o, 1, 0);
        return;
    }
    if (fields[4] != 0 && fields[5] != 0) {
        packet_refused(o, 3, 0x18);
        return;
    }
    if (length > MODEL_PAYLOAD) {
        packet_refused(o, 14, MODEL_PAYLOAD);
        return;
    }
    /* "Sequence numbers are 0 to 2^31 - 1, message numbers 0 to 2^26 - 1"; "FieldTooWide | 1 sequence, 2 message" */
    if (fields[0] >= (uint64_t)1 << 31) {
        packet_refused(o, 22, 1);
        return;
    }
    if (fields[7] >= (uint64_t)1 << 26) {
        packet_refused(o, 22, 2);
        return;
    }
    if (room < 16 + length) {
        packet_refused(o, 21, 16 + length); /* "NoRoom | length needed" */
        return;
    }
    if (fields[1] != 0)
        location = fields[2] != 0 ? 3 : 2; /* "11 only", "10 first" */
    else
        location = fields[2] != 0 ? 1 : 0; /* "01 last", "00 middle" */
    encryption = fields[4] != 0 ? 2 : fields[5] != 0 ? 1 : 0; /* "00 none, 01 even, 10 odd" */
    words[0] = fields[0];
    words[1] = location;
    words[1] = words[1] * 2 + (fields[3] != 0);
    words[1] = words[1] * 4 + encryption;
    words[1] = words[1] * 2 + (fields[6] != 0);
    words[1] = words[1] * 67108864 + fields[7]; /* 2^26 */
    words[2] = fields[8];
    words[3] = fields[9];
    for (i = 0; i < 16; i++)
        o->bytes[i] = (uint8_t)(words[i / 4] >> (24 - 8 * (i % 4)));
    if (length > 0)
        memcpy(o->bytes + 16, payload, length);
    /* "An accepted write reports its length in words or bytes; the rest of the buffer stays as it was." */
    o->refusal = 0;
    o->value = 16 + length;
    o->words_written = 0;
    o->bytes_written = 16 + length;
}

/* "The wire size is 44 plus payload for IPv4 and 64 plus payload for IPv6"; "the payload's limit stays for both". As
   the header has it, any family but 6 is IPv4. */
static void model_wire_size(uint32_t family, size_t length, struct packet_outcome *o)
{
    if (length > MODEL_PAYLOAD) {
        packet_refused(o, 14, MODEL_PAYLOAD);
        return;
    }
    o->refusal = 0;
    o->value = (family == 6 ? 64 : 44) + length;
    o->words_written = 0;
    o->bytes_written = 0;
}

/* "Key read: 1 (under 16); 4; 5; 6; 7; 8; 9 or 10; 11; 1 for the rest", and of flags 0 "23 NoKey, after the sign check
   (6) and before the cipher (7)". Then, as the header has it, 21 with six words. */
static void model_read_key(const uint8_t *message, size_t length, size_t room, struct packet_outcome *o)
{
    uint32_t version, type, sign, flags, keki, cipher, auth, encapsulation, keys;
    size_t salt, key, wrapped;
    if (length < 16) {
        packet_refused(o, 1, 0);
        return;
    }
    /* "Key material, offsets: 0: high four bits are version 1 (top bit zero), low four are packet type 1 or 2. 1-2:
       sign 0x2029. 3: low two bits key flags. 4-7: KEKI. 8: cipher 0 to 3. 9: auth 0. 10: encapsulation 2. 14: salt
       length / 4. 15: key length / 4; key length 16, 24 or 32." */
    version = message[0] / 16;
    type = message[0] % 16;
    sign = (uint32_t)big_endian(message + 1, 2);
    flags = message[3] % 4;
    keki = (uint32_t)big_endian(message + 4, 4);
    cipher = message[8];
    auth = message[9];
    encapsulation = message[10];
    salt = (size_t)message[14] * 4;
    key = (size_t)message[15] * 4;
    if (version != 1) {
        packet_refused(o, 4, 0);
        return;
    }
    if (type != 1 && type != 2) {
        packet_refused(o, 5, type); /* "the four bits" */
        return;
    }
    if (sign != 0x2029) {
        packet_refused(o, 6, sign); /* "the sign" */
        return;
    }
    if (flags == 0) {
        packet_refused(o, 23, 0);
        return;
    }
    if (cipher > 3) {
        packet_refused(o, 7, cipher); /* "the byte" */
        return;
    }
    if (auth != 0) {
        packet_refused(o, 8, auth); /* "the byte" */
        return;
    }
    if (encapsulation == 1) {
        packet_refused(o, 10, 0); /* "StreamEncapsulationNotSrt (byte 1) | 0" */
        return;
    }
    if (encapsulation != 2) {
        packet_refused(o, 9, encapsulation); /* "the byte" */
        return;
    }
    if (key != 16 && key != 24 && key != 32) {
        packet_refused(o, 11, key); /* "key length in bytes" */
        return;
    }
    /* "Then salt, then as many keys as key flags has bits set, plus 8 wrap bytes." */
    keys = flags / 2 + flags % 2;
    wrapped = keys * key + 8;
    if (length < 16 + salt + wrapped) {
        packet_refused(o, 1, 0);
        return;
    }
    if (room < 6) {
        packet_refused(o, 21, 6);
        return;
    }
    o->words[0] = type;
    o->words[1] = flags;
    o->words[2] = keki;
    o->words[3] = cipher;
    o->words[4] = (uint32_t)salt;
    o->words[5] = (uint32_t)wrapped;
    /* "Each accepted answer says how many bytes it used; bytes after them are ignored." */
    o->refusal = 0;
    o->value = 16 + salt + wrapped;
    o->words_written = 6;
    o->bytes_written = 0;
}

#endif
