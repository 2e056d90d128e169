/*
 * The four C functions on packets in plain C, in the place of librelay.a, to judge the judge: as it stands
 * tests/packet_test.c must accept it, and with -DMISTAKE=n, for each n below, must refuse it. It is linked into nothing
 * else.
 */
#include "xezalbur.h"

#ifndef MISTAKE
#define MISTAKE 0
#endif
#define MISTAKES 177 /* the highest number below; read by bin/test */

#define WRONG(n) (MISTAKE == (n))

static uint64_t refuse(uint64_t number, uint64_t carried)
{
    return number << 32 | carried;
}

static uint32_t little_word(const uint8_t *at)
{
    return (uint32_t)at[3] << 24 | (uint32_t)at[2] << 16 | (uint32_t)at[1] << 8 | at[0];
}

/* Whether the fields give IPv6 for the family, and whether they give what is no family. */
static int by_ipv6(const uint32_t *fields, size_t fields_len)
{
    return fields_len > XEZ_FAMILY && fields[XEZ_FAMILY] == XEZ_IPV6;
}

static int by_none(const uint32_t *fields, size_t fields_len)
{
    return fields_len > XEZ_FAMILY && fields[XEZ_FAMILY] != XEZ_IPV4 && fields[XEZ_FAMILY] != XEZ_IPV6;
}

/* A flag of the second word of a data packet, as 0 or 1. */
static uint32_t flag(uint32_t word, unsigned bit)
{
    if (WRONG(1)) /* the bit in its place */
        return word & (uint32_t)1 << bit;
    return word >> bit & 1;
}

uint64_t xez_read_data(const uint8_t *packet, size_t packet_len, uint32_t *fields, size_t fields_len)
{
    size_t limit = XEZ_PAYLOAD_LIMIT, room = XEZ_PACKET_FIELDS;
    uint32_t word0, word1, sequence, message;
    size_t i;
    if (WRONG(2)) /* a length of 32 bits */
        packet_len = (uint32_t)packet_len;
    if (WRONG(3)) /* a length of 16 bits */
        packet_len = (uint16_t)packet_len;
    if (WRONG(4)) /* a room of 32 bits */
        fields_len = (uint32_t)fields_len;
    if (WRONG(5)) /* the longest payload is refused */
        limit--;
    if (WRONG(6)) /* one byte more is taken */
        limit++;
    if (WRONG(7)) /* the limit is for the whole packet */
        limit -= XEZ_DATA_HEADER;
    if (WRONG(157) && by_ipv6(fields, fields_len)) /* a limit of its own for IPv6 */
        limit -= 20;
    if (WRONG(158) && by_none(fields, fields_len)) /* refuses an unknown family */
        return refuse(22, 3);
    if (WRONG(8)) /* nine words are enough */
        room--;
    if (WRONG(9)) /* eleven are asked for */
        room++;
    if (WRONG(10)) /* the room is in bytes */
        room *= 4;
    if (WRONG(11) && fields_len < room) /* 21 before all others */
        return refuse(21, XEZ_PACKET_FIELDS);
    if (WRONG(12) && packet_len <= XEZ_DATA_HEADER) /* an empty payload is refused */
        return refuse(1, 0);
    if (WRONG(13) && packet_len >= 5 && packet[0] >> 7) /* 2 before 1, where the byte is there */
        return refuse(2, 0);
    if (packet_len < (WRONG(14) ? 15u : XEZ_DATA_HEADER)) /* 14: a length of 15, and a payload of less than nothing */
        return refuse(1, 0);
    if (WRONG(15) && packet[0] >> 7) /* 2 before 14 */
        return refuse(2, 0);
    if (WRONG(16) && (packet[4] & 0x18) == 0x18) /* 3 before 14 and 2 */
        return refuse(3, 0x18);
    if (packet_len - XEZ_DATA_HEADER > limit && !WRONG(17)) /* 17: no limit */
        return refuse(14, WRONG(18) ? packet_len - XEZ_DATA_HEADER : XEZ_PAYLOAD_LIMIT); /* 18: the length given */
    word0 = xez_get_word(packet, 0);
    word1 = xez_get_word(packet, 1);
    if (WRONG(19)) { /* the wrong end first */
        word0 = little_word(packet);
        word1 = little_word(packet + 4);
    }
    sequence = word0 & 0x7FFFFFFFu;
    message = word1 & 0x3FFFFFFu;
    if (WRONG(20)) /* a message number of 27 bits */
        message = word1 & 0x7FFFFFFu;
    if (WRONG(21)) /* .. of 25 bits */
        message = word1 & 0x1FFFFFFu;
    if (WRONG(22)) /* a sequence number of 30 bits */
        sequence = word0 & 0x3FFFFFFFu;
    if (WRONG(23) && fields_len >= room) /* writes before it judges */
        fields[XEZ_SEQUENCE] = sequence;
    if (word0 >> 31 && !WRONG(24)) /* 24: the control bit is not looked at */
        return refuse(2, WRONG(25) ? 1 : 0); /* 25: carries the bit */
    if (WRONG(26) && fields_len < room) /* 21 before 3 */
        return refuse(21, XEZ_PACKET_FIELDS);
    if ((word1 >> 27 & 3) == 3 && !WRONG(27)) /* 27: both keys are taken */
        return refuse(3, WRONG(28) ? 3 : 0x18); /* 28: carries the two bits moved down */
    if (fields_len < room)
        return refuse(21, WRONG(29) ? packet_len : WRONG(30) ? 40 : XEZ_PACKET_FIELDS); /* 29: the packet; 30: bytes */
    fields[XEZ_SEQUENCE] = sequence;
    fields[XEZ_BEGINS] = flag(word1, WRONG(31) ? 30 : 31); /* 31: begins and ends swapped */
    fields[XEZ_ENDS] = flag(word1, WRONG(31) ? 31 : 30);
    fields[XEZ_IN_ORDER] = flag(word1, WRONG(32) ? 26 : 29); /* 32: in order and retransmitted swapped */
    fields[XEZ_ODD_KEY] = flag(word1, WRONG(33) ? 27 : 28); /* 33: even and odd swapped */
    fields[XEZ_EVEN_KEY] = flag(word1, WRONG(33) ? 28 : 27);
    fields[XEZ_RETRANSMITTED] = flag(word1, WRONG(32) ? 29 : 26);
    if (WRONG(34) && flag(word1, 31) && flag(word1, 30)) /* what begins a message does not end it */
        fields[XEZ_ENDS] = 0;
    fields[XEZ_MESSAGE] = message;
    fields[XEZ_TIMESTAMP] = xez_get_word(packet, WRONG(35) ? 3 : 2); /* 35: timestamp and socket swapped */
    fields[XEZ_SOCKET] = xez_get_word(packet, WRONG(35) ? 2 : 3);
    if (WRONG(154) && fields_len > XEZ_FAMILY) /* forgets the family that it was given */
        fields[XEZ_FAMILY] = XEZ_IPV4;
    if (WRONG(155) && by_none(fields, fields_len)) /* .. makes one of the two of it */
        fields[XEZ_FAMILY] = XEZ_IPV4;
    if (WRONG(156) && by_ipv6(fields, fields_len)) /* finds the payload further on */
        return packet_len - XEZ_DATA_HEADER - (packet_len < 36 ? 0 : 20);
    if (WRONG(36)) /* clears the rest of the room */
        for (i = XEZ_PACKET_FIELDS; i < fields_len && i < 64; i++)
            fields[i] = 0;
    if (WRONG(37)) /* a read beyond the packet */
        return packet_len - XEZ_DATA_HEADER + (((const volatile uint8_t *)packet)[packet_len] & 0);
    if (WRONG(38)) /* writes to the packet */
        ((volatile uint8_t *)(uintptr_t)packet)[0] ^= 0;
    if (WRONG(39)) /* the length with the header */
        return packet_len;
    if (WRONG(40)) /* the count of fields */
        return XEZ_PACKET_FIELDS;
    return packet_len - XEZ_DATA_HEADER;
}

/* Whether a flag to write is up. */
static uint32_t up(uint32_t word)
{
    if (WRONG(41)) /* only where it is 1 */
        return word == 1;
    if (WRONG(42)) /* its lowest bit alone */
        return word & 1;
    if (WRONG(43)) /* its low byte alone */
        return (word & 0xFF) != 0;
    if (WRONG(44)) /* as it is, so that it spills over into other bits */
        return word;
    return word != 0;
}

/* 1 or 2 for the field that is too wide, or 0. */
static uint64_t too_wide(const uint32_t *fields)
{
    uint32_t most_sequence = 0x7FFFFFFFu, most_message = 0x3FFFFFFu;
    if (WRONG(45)) /* the highest sequence number is refused */
        most_sequence--;
    if (WRONG(46)) /* 2^31 itself goes through, as in the crate */
        most_sequence++;
    if (WRONG(47)) /* the highest message number is refused */
        most_message--;
    if (WRONG(48)) /* a message number of 27 bits */
        most_message = 0x7FFFFFFu;
    if (WRONG(49)) /* 2^26 itself goes through */
        most_message++;
    if (WRONG(50)) /* neither is looked at */
        return 0;
    if (WRONG(51) && fields[XEZ_MESSAGE] > most_message) /* the message number first */
        return 2;
    if (fields[XEZ_SEQUENCE] > most_sequence)
        return WRONG(52) ? 2 : 1; /* 52: another number */
    if (fields[XEZ_MESSAGE] > most_message)
        return WRONG(52) ? 1 : WRONG(53) ? 7 : 2; /* 53: the place among the fields */
    return 0;
}

uint64_t xez_write_data(const uint32_t *fields, size_t fields_len, const uint8_t *payload, size_t payload_len,
                        uint8_t *packet, size_t packet_len)
{
    size_t limit = XEZ_PAYLOAD_LIMIT, need, asked = XEZ_PACKET_FIELDS, i;
    uint32_t word0, word1;
    int both;
    if (WRONG(54)) /* lengths of 32 bits, for the payload, */
        payload_len = (uint32_t)payload_len;
    if (WRONG(55)) /* the room, */
        packet_len = (uint32_t)packet_len;
    if (WRONG(56)) /* and the fields */
        fields_len = (uint32_t)fields_len;
    if (WRONG(57)) /* a payload's length of 16 bits */
        payload_len = (uint16_t)payload_len;
    if (WRONG(58)) /* nine fields are enough */
        asked--;
    if (WRONG(59)) /* eleven are asked for */
        asked++;
    if (WRONG(60) && payload_len > limit) /* 14 before 1 and 3 */
        return refuse(14, XEZ_PAYLOAD_LIMIT);
    if (WRONG(61) && !payload) /* no payload is no packet */
        return refuse(1, 0);
    if (fields_len < asked)
        return refuse(WRONG(62) ? 21 : 1, WRONG(62) ? XEZ_PACKET_FIELDS : 0); /* 62: too few fields as no room */
    if (WRONG(63) && fields_len != XEZ_PACKET_FIELDS) /* ten fields exactly */
        return refuse(1, 0);
    if (WRONG(159) && by_none(fields, fields_len)) /* refuses an unknown family */
        return refuse(22, 3);
    if (WRONG(160) && by_ipv6(fields, fields_len)) /* a limit of its own for IPv6 */
        limit -= 20;
    need = XEZ_DATA_HEADER + payload_len;
    both = fields[XEZ_ODD_KEY] != 0 && fields[XEZ_EVEN_KEY] != 0;
    if (WRONG(64)) /* both, where they share a bit */
        both = (fields[XEZ_ODD_KEY] & fields[XEZ_EVEN_KEY]) != 0;
    if (WRONG(65)) /* both, where both are 1 */
        both = fields[XEZ_ODD_KEY] == 1 && fields[XEZ_EVEN_KEY] == 1;
    if (WRONG(66)) /* both are written */
        both = 0;
    if (WRONG(67) && payload_len > limit) /* 14 before 3 */
        return refuse(14, XEZ_PAYLOAD_LIMIT);
    if (WRONG(68) && payload_len <= limit && too_wide(fields)) /* 22 before 3 */
        return refuse(22, too_wide(fields));
    if (both)
        return refuse(3, WRONG(69) ? 3 : 0x18); /* 69: carries the two bits moved down */
    if (WRONG(70) && too_wide(fields)) /* 22 before 14 */
        return refuse(22, too_wide(fields));
    if (WRONG(71)) /* one byte more */
        limit++;
    if (WRONG(72)) /* one byte less */
        limit--;
    if (WRONG(73)) /* the limit is for the whole packet */
        limit -= XEZ_DATA_HEADER;
    if (WRONG(74) && packet_len < need) /* 21 before 14 and 22 */
        return refuse(21, need);
    if (payload_len > limit)
        return refuse(14, XEZ_PAYLOAD_LIMIT);
    if (WRONG(75) && packet_len < need) /* 21 before 22 */
        return refuse(21, need);
    if (too_wide(fields))
        return refuse(22, too_wide(fields));
    word0 = fields[XEZ_SEQUENCE];
    word1 = up(fields[WRONG(76) ? XEZ_ENDS : XEZ_BEGINS]) << 31; /* 76: begins and ends swapped */
    word1 |= up(fields[WRONG(76) ? XEZ_BEGINS : XEZ_ENDS]) << 30;
    word1 |= up(fields[XEZ_IN_ORDER]) << 29;
    word1 |= up(fields[WRONG(77) ? XEZ_EVEN_KEY : XEZ_ODD_KEY]) << 28; /* 77: even and odd swapped */
    word1 |= up(fields[WRONG(77) ? XEZ_ODD_KEY : XEZ_EVEN_KEY]) << 27;
    word1 |= up(fields[XEZ_RETRANSMITTED]) << 26;
    if (WRONG(78)) /* the mark of what was sent again is forgotten */
        word1 &= ~((uint32_t)1 << 26);
    word1 |= fields[XEZ_MESSAGE];
    if (WRONG(79) && packet_len >= XEZ_DATA_HEADER) /* the header is written before the room is judged */
        xez_put_word(packet, 0, word0);
    asked = WRONG(80) ? payload_len : WRONG(81) ? need + 1 : need; /* 80: without the header; 81: one more */
    if (packet_len < asked)
        return refuse(21, WRONG(82) ? payload_len : WRONG(83) ? need - packet_len : need); /* 82, 83: another need */
    if (WRONG(161) && by_ipv6(fields, fields_len)) /* the family is written too */
        word0 |= 0x80000000u;
    xez_put_word(packet, 0, word0);
    xez_put_word(packet, 1, word1);
    xez_put_word(packet, 2, fields[WRONG(84) ? XEZ_SOCKET : XEZ_TIMESTAMP]); /* 84: timestamp and socket swapped */
    xez_put_word(packet, 3, fields[WRONG(84) ? XEZ_TIMESTAMP : XEZ_SOCKET]);
    for (i = 0; i < payload_len; i++)
        packet[XEZ_DATA_HEADER + i] = payload[i];
    if (WRONG(85) && payload_len > 0) /* the last byte is left out */
        packet[need - 1] = 0;
    if (WRONG(86) && packet_len > need) /* a byte too many */
        packet[need] = 0;
    if (WRONG(87)) /* a read beyond the payload */
        return need + (((const volatile uint8_t *)payload)[payload_len] & 0);
    if (WRONG(88)) /* the length without the header */
        return payload_len;
    return need;
}

uint64_t xez_wire_size(uint32_t family, size_t payload_len)
{
    size_t limit = XEZ_PAYLOAD_LIMIT, ip = family == XEZ_IPV6 ? 40 : 20;
    if (WRONG(162)) /* 44 for both */
        ip = 20;
    if (WRONG(163)) /* 64 for both */
        ip = 40;
    if (WRONG(164)) /* the two exchanged */
        ip = 60 - ip;
    if (WRONG(165)) /* any number but 4 is IPv6 */
        ip = family == XEZ_IPV4 ? 20 : 40;
    if (WRONG(166)) /* the low byte alone */
        ip = (family & 0xFF) == XEZ_IPV6 ? 40 : 20;
    if (WRONG(167)) /* as a flag */
        ip = family ? 40 : 20;
    if (WRONG(168) && family != XEZ_IPV4 && family != XEZ_IPV6) /* refuses an unknown family */
        return refuse(22, 3);
    if (WRONG(169)) /* a length of 32 bits */
        payload_len = (uint32_t)payload_len;
    if (WRONG(170)) /* .. of 16 bits */
        payload_len = (uint16_t)payload_len;
    if (WRONG(171)) /* one byte more */
        limit++;
    if (WRONG(172)) /* one byte less */
        limit--;
    if (WRONG(173)) /* the limit of what a packet of IPv4 may be */
        limit -= ip - 20;
    if (payload_len > limit && !WRONG(174)) /* 174: no limit */
        return refuse(14, WRONG(175) ? payload_len & 0xFFFFFFFFu : XEZ_PAYLOAD_LIMIT); /* 175: the length given */
    if (WRONG(176)) /* without UDP */
        return ip + XEZ_DATA_HEADER + payload_len;
    if (WRONG(177)) /* without the packet's own header */
        return ip + 8 + payload_len;
    return ip + 8 + XEZ_DATA_HEADER + payload_len;
}

uint64_t xez_read_key(const uint8_t *message, size_t message_len, uint32_t *fields, size_t fields_len)
{
    uint32_t sign, flags, keys, cipher, version, type;
    size_t salt, key, wrapped, used, room = XEZ_KEY_FIELDS, i;
    int no_key, no_such_length;
    if (WRONG(89)) /* a length of 32 bits */
        message_len = (uint32_t)message_len;
    if (WRONG(90)) /* a room of 32 bits */
        fields_len = (uint32_t)fields_len;
    if (WRONG(91)) /* five words are enough */
        room--;
    if (WRONG(92)) /* seven are asked for */
        room++;
    if (WRONG(93) && fields_len < room) /* 21 before all others */
        return refuse(21, XEZ_KEY_FIELDS);
    if (message_len < (WRONG(94) ? 24u : WRONG(95) ? 15u : XEZ_KEY_HEADER)) /* with the wrap; one byte less */
        return refuse(1, 0);
    version = message[0] >> 4;
    type = message[0] & 0xF;
    if (WRONG(96)) /* the top bit is not looked at */
        version &= 7;
    if (WRONG(97)) /* the version is not looked at */
        version = 1;
    if (WRONG(98)) /* a type of three bits */
        type &= 7;
    if (WRONG(99) && (type < 1 || type > 2)) /* 5 before 4 */
        return refuse(5, type);
    if (version != 1)
        return refuse(4, WRONG(100) ? version : 0); /* 100: carries the version */
    sign = (uint32_t)message[1] << 8 | message[2];
    if (WRONG(101) && sign != 0x2029) /* 6 before 5 */
        return refuse(6, sign);
    if ((type == 0 && !WRONG(102)) || type > (WRONG(103) ? 3 : 2)) /* 102: type 0 is taken; 103: type 3 is */
        return refuse(5, WRONG(104) ? message[0] : type); /* 104: the whole byte */
    if (WRONG(105)) /* the sign's bytes swapped */
        sign = (uint32_t)message[2] << 8 | message[1];
    flags = message[3] & 3;
    if (WRONG(123)) /* the reserved bits are flags too */
        flags = message[3];
    no_key = WRONG(129) ? message[3] == 0 : flags == 0; /* 129: only where the whole byte is 0 */
    if (WRONG(130)) /* no key is no fault, as in the crate */
        no_key = 0;
    if (WRONG(151) && no_key) /* 23 before 6 */
        return refuse(23, 0);
    if (sign != 0x2029 && !(WRONG(106) && message[1] == 0x20)) /* 106: only its first byte is looked at */
        return refuse(6, WRONG(107) ? 0x2029 : WRONG(108) ? sign >> 8 | (sign & 0xFF) << 8 : sign); /* another sign */
    cipher = message[8];
    if (WRONG(152) && cipher > 3) /* 7 before 23 */
        return refuse(7, cipher);
    if (no_key)
        return refuse(23, WRONG(153) ? message[3] : 0); /* 153: carries the byte */
    if (WRONG(109) && message[9] != 0) /* 8 before 7 */
        return refuse(8, message[9]);
    if (cipher > (WRONG(110) ? 4 : WRONG(111) ? 2 : 3)) /* 110: cipher 4 is taken; 111: cipher 3 is not */
        return refuse(7, cipher);
    if (WRONG(112) && cipher == 0) /* no cipher is refused */
        return refuse(7, cipher);
    if (WRONG(113) && message[10] != 2) /* 9 and 10 before 8 */
        return message[10] == 1 ? refuse(10, 0) : refuse(9, message[10]);
    if (message[9] != 0 && !WRONG(114)) /* 114: the authentication is not looked at */
        return refuse(8, message[9]);
    no_such_length = message[15] != 4 && message[15] != 6 && message[15] != 8;
    if (WRONG(115)) /* any length from 16 to 32 */
        no_such_length = message[15] < 4 || message[15] > 8;
    if (WRONG(116)) /* 16 and 32 only */
        no_such_length = message[15] != 4 && message[15] != 8;
    if (WRONG(117) && message[15] == 0) /* no length, no fault */
        no_such_length = 0;
    if (WRONG(118) && no_such_length) /* 11 before 9 and 10 */
        return refuse(11, (uint64_t)message[15] * 4);
    if (message[10] == 1 && !WRONG(119)) /* 119: encapsulation 1 as any other */
        return refuse(10, WRONG(120) ? 1 : 0); /* 120: carries 1 */
    if (message[10] != 2 && !(WRONG(121) && message[10] == 0)) /* 121: encapsulation 0 is taken */
        return refuse(9, message[10]);
    if (WRONG(122) && (message[11] != 0 || message[12] != 0 || message[13] != 0)) /* reserved bytes must be 0 */
        return refuse(1, 0);
    salt = (size_t)message[14] * 4;
    key = (size_t)message[15] * 4;
    if (WRONG(124)) /* the salt's length is not times four */
        salt = message[14];
    if (WRONG(125)) /* a salt's length of one byte */
        salt = (uint8_t)salt;
    if (WRONG(126)) /* a salt's length of two bytes in the message */
        salt = ((size_t)message[13] << 8 | message[14]) * 4;
    keys = (flags & 1) + (flags >> 1 & 1);
    if (WRONG(127) && keys == 2) /* the key length taken once where flags are 3 */
        keys = 1;
    if (WRONG(128)) /* the flags as a count */
        keys = flags;
    wrapped = keys * key + 8;
    if (WRONG(131)) /* no wrap bytes */
        wrapped -= 8;
    if (WRONG(132)) /* wrap bytes for each key */
        wrapped = keys * (key + 8);
    used = XEZ_KEY_HEADER + salt + wrapped;
    if (WRONG(133) && message_len < used) /* 1 for the rest before 11 */
        return refuse(1, 0);
    if (no_such_length)
        return refuse(11, WRONG(134) ? message[15] : key); /* 134: the length in words */
    if (WRONG(135) && fields_len < room) /* 21 before 1 for the rest */
        return refuse(21, XEZ_KEY_FIELDS);
    if (WRONG(136) && fields_len >= room) /* writes before it judges the rest */
        fields[XEZ_PACKET_TYPE] = type;
    if (message_len < used || (WRONG(137) && message_len == used)) /* 137: a whole message is too short */
        return refuse(1, WRONG(138) ? used : 0); /* 138: carries the length needed */
    if (WRONG(139) && message_len > used) /* bytes after it are refused */
        return refuse(14, used);
    if (fields_len < room)
        return refuse(21, WRONG(140) ? 4 * XEZ_KEY_FIELDS : XEZ_KEY_FIELDS); /* 140: in bytes */
    fields[XEZ_PACKET_TYPE] = type;
    fields[XEZ_KEY_FLAGS] = flags;
    if (WRONG(141)) /* even and odd swapped */
        fields[XEZ_KEY_FLAGS] = flags >> 1 | (flags & 1) << 1;
    fields[XEZ_KEKI] = WRONG(142) ? little_word(message + 4) : xez_get_word(message, 1); /* 142: the wrong end first */
    fields[XEZ_CIPHER] = cipher;
    fields[XEZ_SALT_LENGTH] = (uint32_t)(WRONG(143) ? message[14] : salt); /* 143: in words */
    fields[XEZ_WRAPPED_LENGTH] = (uint32_t)wrapped;
    if (WRONG(144)) /* without the wrap bytes */
        fields[XEZ_WRAPPED_LENGTH] -= 8;
    if (WRONG(145)) /* one key's length */
        fields[XEZ_WRAPPED_LENGTH] = (uint32_t)key;
    if (WRONG(146)) { /* salt and wrapped keys swapped */
        fields[XEZ_SALT_LENGTH] = (uint32_t)wrapped;
        fields[XEZ_WRAPPED_LENGTH] = (uint32_t)salt;
    }
    if (WRONG(147)) /* clears the rest of the room */
        for (i = XEZ_KEY_FIELDS; i < fields_len && i < 64; i++)
            fields[i] = 0;
    if (WRONG(148)) /* a read beyond the message */
        return used + (((const volatile uint8_t *)message)[message_len] & 0);
    if (WRONG(149)) /* writes to the message */
        ((volatile uint8_t *)(uintptr_t)message)[3] ^= 0;
    if (WRONG(150)) /* all that was given */
        return message_len;
    return used;
}
