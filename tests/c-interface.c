/*
 * The edges of the interface, called from C (tests/c builds and runs this); the calls are those of c-calls.h. What is tested of ends is so without a long
 * buffer and beside one, where nothing is different as long as no message is long. Long messages are in c-long.c.
 */
#include "c-calls.h"

#include <stdlib.h>
#include <string.h>

#define FRESH_SLOT 0, 0, 0, 0, 0, 0, 1, 0, 0, 0
static const uint8_t no_sender[AES18_SENDER_RECORD] = {0, 0, 0, 0, 0, 0, 0, 0, 0, 0, 0, 0, 0, FRESH_SLOT, FRESH_SLOT, FRESH_SLOT, FRESH_SLOT, 3, 15};
static const uint8_t no_receiver[AES18_RECEIVER_RECORD] = {0};

static const struct {
    uint8_t list[12];
    size_t length;
    uint32_t refusal;
} lists[] = {
    {{0xFF, 0, 0}, 3, AES18_REFUSED_ADDRESS},
    {{1, 2, 0}, 3, AES18_REFUSED_EXTENSION},
    {{1, 255, 7}, 3, AES18_REFUSED_EXTENSION},
    {{1, 0, 1}, 3, AES18_REFUSED_EXTENSION},
    {{1, 1, 5, 2, 0, 0, 3, 0, 0, 1, 1, 5}, 12, AES18_REFUSED_ALIKE},
    {{1, 2, 0, 0xFF, 0, 0}, 6, AES18_REFUSED_ADDRESS},
    {{1, 0, 0, 1, 0, 0, 2, 2, 0}, 9, AES18_REFUSED_EXTENSION},
};

/* What a listing writes, of all lengths of lists and of records. */
static void test_listing(const struct function *list, const uint8_t *none)
{
    static struct call c;
    size_t i;

    for (i = 0; i < COUNT(lists); i++) {
        prepare(&c, list);
        put(&c, INPUT, lists[i].list, lists[i].length);
        CALL(&c, list, lists[i].refusal);
        EQUAL(c.bytes[RECORD], none, list->record);
    }
    for (i = 0; i <= 15; i++) {
        prepare(&c, list);
        memset(c.bytes[INPUT], 0, i);
        c.length[INPUT] = i;
        CALL(&c, list, i == 3 ? AES18_ACCEPTED : i == 6 || i == 9 || i == 12 ? AES18_REFUSED_ALIKE : AES18_REFUSED_LIST);
        EQUAL(c.bytes[RECORD] + 1, none + 1, list->record - 1);
        IS(c.bytes[RECORD][0], i == 3);
    }
    prepare(&c, list);
    put(&c, INPUT, two_circuits, sizeof two_circuits);
    c.length[RECORD] = 0;
    CALL(&c, list, AES18_REFUSED_SHORT);
    c.length[RECORD] = list->record - 1;
    CALL(&c, list, AES18_REFUSED_SHORT);
    c.length[RECORD] = list->record + 5;
    CALL(&c, list, AES18_ACCEPTED);
    EQUAL(c.bytes[RECORD], two_listed, sizeof two_listed);
    EQUAL(c.bytes[RECORD] + sizeof two_listed, none + sizeof two_listed, list->record - sizeof two_listed);
    ALL(c.bytes[RECORD] + list->record, OLD, 5);
}

/* Everything is wrong with an offer at first; then one thing after the other is put right. */
static void test_offer(void)
{
    static const uint8_t slot[] = {0, AES18_HIGHEST_PRIORITY, AES18_MOST_REPETITIONS, 0, 0xFE, 0x0F, 0, 0, 0, 1};
    static struct call c;

    prepare_listed(&c, &list_sender, &offer, two_circuits, sizeof two_circuits);
    c.length[INPUT] = AES18_LONGEST_MESSAGE + 1;
    c.circuit = c.priority = c.repetition = UINT64_MAX;
    test_lent(&c, &offer);
    TOO_HIGH(&c, &offer, &c.circuit, 1, AES18_REFUSED_CIRCUIT);
    TOO_HIGH(&c, &offer, &c.priority, AES18_HIGHEST_PRIORITY, AES18_REFUSED_PRIORITY);
    TOO_HIGH(&c, &offer, &c.repetition, AES18_MOST_REPETITIONS, AES18_REFUSED_REPETITION);
    CALL(&c, &offer, AES18_REFUSED_MESSAGE);
    c.length[INPUT] = AES18_LONGEST_MESSAGE;
    memset(c.bytes[INPUT], 0x11, AES18_LONGEST_MESSAGE);
    CALL(&c, &offer, AES18_ACCEPTED);
    EQUAL(c.bytes[RECORD], two_listed, sizeof two_listed);
    EQUAL(c.bytes[RECORD] + 13, no_sender + 13, 10);
    EQUAL(c.bytes[RECORD] + 23, slot, sizeof slot);
    EQUAL(c.bytes[RECORD] + 33, no_sender + 33, AES18_SENDER_RECORD - 33);
    ALL(c.bytes[STORE], OLD, AES18_REGION);
    ALL(c.bytes[STORE] + AES18_REGION, 0x11, AES18_LONGEST_MESSAGE);
    ALL(c.bytes[STORE] + AES18_REGION + AES18_LONGEST_MESSAGE, OLD, AES18_SENDER_STORE - AES18_REGION - AES18_LONGEST_MESSAGE);
    c.length[INPUT] = AES18_LONGEST_MESSAGE + 1;
    CALL(&c, &offer, AES18_REFUSED_MESSAGE);
    c.length[INPUT] = 0;
    CALL(&c, &offer, AES18_REFUSED_PENDING);
}

/* The same with a block of 1,003 bits. */
static void test_block_refusals(void)
{
    enum { BITS = 1003, BYTES = 126 };
    static struct call c;

    prepare_listed(&c, &list_sender, &block, two_circuits, sizeof two_circuits);
    c.length[INPUT] = AES18_LONGEST_INFORMATION + 1;
    c.n = c.u = c.system = c.enable = c.code = UINT64_MAX;
    test_lent(&c, &block);
    c.u = AES18_FEWEST_BLOCK_BITS;
    TOO_HIGH(&c, &block, &c.n, AES18_MOST_BLOCK_BITS, AES18_REFUSED_BLOCK);
    c.length[BLOCK] = AES18_LONGEST_BLOCK - 1;
    CALL(&c, &block, AES18_REFUSED_BUFFER);
    c.length[BLOCK] = AES18_LONGEST_BLOCK;
    CALL(&c, &block, AES18_REFUSED_SYSTEM);
    c.n = AES18_FEWEST_BLOCK_BITS - 1;
    CALL(&c, &block, AES18_REFUSED_BLOCK);
    c.n = BITS;
    TOO_HIGH(&c, &block, &c.u, BITS, AES18_REFUSED_BLOCK);
    c.u = AES18_FEWEST_BLOCK_BITS - 1;
    CALL(&c, &block, AES18_REFUSED_BLOCK);
    c.u = BITS;
    c.length[BLOCK] = 0;
    CALL(&c, &block, AES18_REFUSED_BUFFER);
    c.length[BLOCK] = BYTES - 1;
    CALL(&c, &block, AES18_REFUSED_BUFFER);
    c.length[BLOCK] = BYTES;
    CALL(&c, &block, AES18_REFUSED_SYSTEM);
    c.length[INPUT] = 0;
    c.code = AES18_HIGHEST_CODE;
    TOO_HIGH(&c, &block, &c.enable, AES18_ALL_ENABLED, AES18_REFUSED_SYSTEM);
    TOO_HIGH(&c, &block, &c.code, AES18_HIGHEST_CODE, AES18_REFUSED_SYSTEM);
    c.length[INPUT] = AES18_LONGEST_INFORMATION + 1;
    CALL(&c, &block, AES18_REFUSED_SYSTEM);
    c.length[INPUT] = AES18_LONGEST_INFORMATION;
    CALL(&c, &block, AES18_ACCEPTED);
}

/* A block of nothing: without a system packet, what one would have is not looked at. The last byte has spare bits, and two bytes stand behind it. */
static void test_empty_block(void)
{
    static const uint8_t empty[AES18_BLOCK_ANSWER] = {0, 0, 0, 0, 8, 0, 0, 0, 0, 0, 0, 0};
    static struct call c;

    prepare_listed(&c, &list_sender, &block, two_circuits, sizeof two_circuits);
    c.n = c.u = 257;
    c.system = 0;
    c.enable = c.code = UINT64_MAX;
    c.length[INPUT] = AES18_LONGEST_INFORMATION + 1;
    c.length[BLOCK] = 35;
    c.length[ANSWER] = AES18_BLOCK_ANSWER + 3;
    CALL(&c, &block, AES18_ACCEPTED);
    EQUAL(c.bytes[ANSWER], empty, sizeof empty);
    ALL(c.bytes[ANSWER] + AES18_BLOCK_ANSWER, OLD, 3);
    EQUAL(c.bytes[RECORD] + sizeof two_listed, no_sender + sizeof two_listed, AES18_SENDER_RECORD - sizeof two_listed);
    IS(c.bytes[BLOCK][0], 0x7E);
    ALL(c.bytes[BLOCK] + 1, 0xFF, 31);
    IS(c.bytes[BLOCK][32], 0x01);
    ALL(c.bytes[BLOCK] + 33, OLD, 2);
}

/* Every number but 0 asks for a system packet, and its enable bits rule its block, whatever were in force before. */
static void test_system(void)
{
    static const uint64_t wanted[] = {1, 256, 65536, 4294967296u, UINT64_MAX};
    static struct call c;
    uint8_t first[32];
    size_t i;

    prepare_listed(&c, &list_sender, &block, two_circuits, sizeof two_circuits);
    c.circuit = c.repetition = c.code = 0;
    c.priority = 2;
    c.length[INPUT] = 0;
    CALL(&c, &offer, AES18_ACCEPTED);
    c.n = c.u = 256;
    c.length[BLOCK] = sizeof first;
    c.enable = AES18_ALL_ENABLED - (1 << 2);
    for (i = 0; i < COUNT(wanted); i++) {
        c.system = wanted[i];
        CALL(&c, &block, AES18_ACCEPTED);
        IS(number(c.bytes[ANSWER] + AES18_BLOCK_PLACED, 4), 0);
        IS(number(c.bytes[ANSWER] + AES18_BLOCK_USED, 4) > 8, 1);
        if (i == 0)
            memcpy(first, c.bytes[BLOCK], sizeof first);
        EQUAL(c.bytes[BLOCK], first, sizeof first);
    }
    c.enable = 1 << 2;
    CALL(&c, &block, AES18_ACCEPTED);
    IS(number(c.bytes[ANSWER] + AES18_BLOCK_PLACED, 4), 1);
}

/* Everything is wrong with a reading call of two bytes at first; then of no bytes. */
static void test_read_refusals(void)
{
    static const uint8_t end[AES18_READ_ANSWER] = {AES18_NOTICE_END};
    static struct call c;

    prepare_listed(&c, &list_receiver, &reading, two_circuits, sizeof two_circuits);
    c.length[INPUT] = 2;
    c.from = c.to = UINT64_MAX;
    test_lent(&c, &reading);
    CALL(&c, &reading, AES18_REFUSED_BITS);
    c.from = 0;
    TOO_HIGH(&c, &reading, &c.to, 16, AES18_REFUSED_BITS);
    TOO_HIGH(&c, &reading, &c.from, 16, AES18_REFUSED_BITS);
    CALL(&c, &reading, AES18_ACCEPTED);
    EQUAL(c.bytes[ANSWER], end, sizeof end);
    c.length[INPUT] = 0;
    c.from = 0;
    TOO_HIGH(&c, &reading, &c.to, 0, AES18_REFUSED_BITS);
    c.length[ANSWER] = AES18_READ_ANSWER + 3;
    memset(c.bytes[ANSWER], OLD, AES18_READ_ANSWER + 3);
    CALL(&c, &reading, AES18_ACCEPTED);
    EQUAL(c.bytes[ANSWER], end, sizeof end);
    ALL(c.bytes[ANSWER] + AES18_READ_ANSWER, OLD, 3);
    EQUAL(c.bytes[RECORD] + sizeof two_listed, no_receiver, AES18_RECEIVER_RECORD - sizeof two_listed);
}

/* Bytes of a record that are out of range: from `place` on those of `bytes`. */
struct outside {
    size_t place;
    uint8_t bytes[6];
    size_t length;
};

static const struct outside senders_outside[] = {
    {0, {5}, 1}, {0, {255}, 1},                                     /* number of circuits */
    {1, {0xFF}, 1}, {2, {2}, 1}, {3, {1}, 1}, {4, {0x01, 0, 0}, 3}, /* circuits that listing refuses */
    {13, {8}, 1}, {23, {8}, 1}, {14, {4}, 1}, {15, {6}, 1},         /* index, priority, repetition */
    {16, {1}, 1}, {26, {1}, 1},                                     /* copy above the repetition */
    {27, {0xFF, 0x0F, 1, 0, 0, 1}, 6},                              /* length at circuit 1, with place and left of its packets */
    {19, {2}, 1}, {20, {1}, 1}, {19, {2, 0, 0xFF, 0xFF}, 4},        /* place past the message's end */
    {21, {1}, 1}, {22, {1}, 1}, {31, {0xFF, 0xFF}, 2},              /* left where nothing is pending */
    {53, {4}, 1}, {54, {16}, 1}, {54, {255}, 1},                    /* last served, enable bits in force */
};

static const struct outside receivers_outside[] = {
    {0, {5}, 1}, {0, {255}, 1},                                                /* number of circuits */
    {1, {0xFF}, 1}, {2, {2}, 1}, {3, {1}, 1}, {4, {0x01, 0, 0}, 3},            /* circuits that listing refuses */
    {13, {2}, 1}, {14, {8}, 1},                                                /* seen, last index */
    {21, {0xFF, 0x0F}, 2}, {17, {1}, 1}, {18, {1}, 1}, {23, {1}, 1},           /* length at circuit 1, place past the message's end */
    {37, {5}, 1}, {37, {1, 7}, 2}, {37, {3, 0, 170}, 3},                       /* phase, ones, count of the framing */
    {37, {0, 1}, 2}, {37, {1, 0, 1}, 3}, {37, {2, 0, 1}, 3},                   /* ones or count not in this phase */
    {37, {3, 0, 0, 1}, 4}, {37, {3, 0, 169, 1}, 4}, {60, {0x80}, 1},           /* a bit behind those counted */
    {37, {4, 0, 5, 0x0F}, 4}, {37, {4, 0, 6, 0x3F}, 4}, {37, {4, 0, 4, 15}, 4}, /* no five ones before a zero that is behind five */
};

/* A function refuses these records, and accepts the record as it is listed. */
static void test_outside(const struct function *list, const struct function *f, const struct outside *cases, size_t count)
{
    static struct call c;
    size_t i;

    c.circuit = c.priority = c.repetition = c.system = c.from = c.to = 0;
    c.n = c.u = 256;
    for (i = 0; i <= count; i++) {
        prepare_listed(&c, list, f, two_circuits, sizeof two_circuits);
        c.length[INPUT] = 0;
        c.length[BLOCK] = 32;
        if (i < count)
            memcpy(c.bytes[RECORD] + cases[i].place, cases[i].bytes, cases[i].length);
        CALL(&c, f, i < count ? AES18_REFUSED_RECORD : AES18_ACCEPTED);
    }
}

/* The record of a sender, and of the receiver that reads its blocks, as a message of two packets with one repetition goes over. */
static void test_records(void)
{
    static const uint8_t slots[][10] = {{0, 2, 1, 1, 20, 0, 0, 0, 2, 0}, {1, 2, 1, 0, 20, 0, 1, 0, 1, 0}, {2, 2, 1, 0, 20, 0, 2, 0, 0, 0}};
    static const uint8_t heard[][6] = {{1, 0, 20, 0, 14, 0}, {1, 0, 20, 0, 14, 0}, {1, 1, 0, 0, 0, 0}};
    static const uint8_t fate[] = {AES18_FATE_BEGUN, AES18_FATE_COPY, AES18_FATE_WHOLE};
    static const uint8_t behind_flag[24] = {2};
    static struct call s, r;
    size_t i;

    prepare_listed(&s, &list_sender, &block, two_circuits, sizeof two_circuits);
    prepare_listed(&r, &list_receiver, &reading, two_circuits, sizeof two_circuits);
    s.circuit = 1;
    s.priority = 2;
    s.repetition = 1;
    s.length[INPUT] = 20;
    CALL(&s, &offer, AES18_ACCEPTED);
    s.n = s.u = r.to = 256;
    s.system = 0;
    s.length[BLOCK] = 32;
    for (i = 0; i < 3; i++) {
        CALL(&s, &block, AES18_ACCEPTED);
        EQUAL(s.bytes[RECORD] + 23, slots[i], sizeof slots[i]);
        IS(s.bytes[RECORD][53], 1);
        IS(number(s.bytes[ANSWER] + AES18_BLOCK_PLACED, 4), i == 2 ? 2 : 1);
        put(&r, INPUT, s.bytes[BLOCK], 32);
        r.from = 0;
        READ_ON(&r);
        IS(r.bytes[ANSWER][AES18_READ_CIRCUIT], 1);
        IS(r.bytes[ANSWER][AES18_READ_FATE], fate[i]);
        EQUAL(r.bytes[RECORD] + 19, heard[i], sizeof heard[i]);
        EQUAL(r.bytes[RECORD] + 37, behind_flag, sizeof behind_flag);
        while (r.bytes[ANSWER][AES18_READ_NOTICE] != AES18_NOTICE_END)
            READ_ON(&r);
        ALL(r.bytes[RECORD] + 37, 0, 24);
    }
    CALL(&s, &block, AES18_ACCEPTED);
    IS(number(s.bytes[ANSWER] + AES18_BLOCK_USED, 4), 8);
}

/* The framing after so many bits of a flag, five ones and three zeros. */
static void test_framing(void)
{
    static const uint8_t bits[] = {0x7E, 0x1F};
    static const struct {
        uint64_t bits;
        uint8_t framing[4];
    } cases[] = {
        {0, {0, 0, 0, 0}},  {1, {1, 0, 0, 0}},     {4, {1, 3, 0, 0}},     {7, {1, 6, 0, 0}},     {8, {2, 0, 0, 0}},
        {13, {2, 5, 0, 0}}, {14, {4, 0, 5, 0x1F}}, {15, {3, 0, 5, 0x1F}}, {16, {3, 0, 6, 0x1F}},
    };
    static struct call c;
    size_t i;

    for (i = 0; i < COUNT(cases); i++) {
        prepare_listed(&c, &list_receiver, &reading, two_circuits, sizeof two_circuits);
        put(&c, INPUT, bits, sizeof bits);
        c.from = 0;
        c.to = cases[i].bits;
        READ_ON(&c);
        IS(c.from, c.to);
        EQUAL(c.bytes[RECORD] + 37, cases[i].framing, 4);
        ALL(c.bytes[RECORD] + 41, 0, 20);
    }
}

/*
 * Frames with a flag before and behind each, made from document 01 by other code. Their packets, in base 16: FF 00 00; 09 80 00; FF C5 32 68 69;
 * 01 80 05; 01 44 41; 02 AC 07 10 2E and 14 bytes; 02 30 07 and 16; 02 74 07 and 16; the same again; 01 8C 00; and the same with a bit turned over.
 * The 46 bytes are the alphabet, again and again.
 */
static const uint8_t frames[] = {
    0x7E, 0xDF, 0x01, 0x00, 0xBE, 0x00, 0xF8, 0x25, 0x00, 0x02, 0x78, 0x58, 0xFB, 0x7D, 0x2F, 0x96, 0x41, 0x4B, 0x3B, 0x4F, 0xF0, 0x0B, 0x00,
    0x2C, 0x88, 0x3B, 0xF2, 0x0B, 0x20, 0x0A, 0xDA, 0x74, 0xF7, 0x13, 0x60, 0x3D, 0x80, 0x70, 0x09, 0x13, 0x1B, 0x23, 0x2B, 0x33, 0x3B, 0x43,
    0x4B, 0x53, 0x5B, 0x63, 0x6B, 0x73, 0x13, 0x40, 0xF4, 0x13, 0x80, 0x39, 0x78, 0x83, 0x8B, 0x93, 0x9B, 0xA3, 0xAB, 0xB3, 0xBB, 0xC3, 0xCB,
    0xD3, 0x0B, 0x13, 0x1B, 0x23, 0x2B, 0xE2, 0xF4, 0x13, 0xA0, 0x3B, 0x28, 0x33, 0x3B, 0x43, 0x4B, 0x53, 0x5B, 0x63, 0x6B, 0x73, 0x7B, 0x83,
    0x8B, 0x93, 0x9B, 0xA3, 0x93, 0xB9, 0xF3, 0x13, 0xA0, 0x3B, 0x28, 0x33, 0x3B, 0x43, 0x4B, 0x53, 0x5B, 0x63, 0x6B, 0x73, 0x7B, 0x83, 0x8B,
    0x93, 0x9B, 0xA3, 0x93, 0xB9, 0xF3, 0x0B, 0x60, 0x04, 0xE0, 0x93, 0xEB, 0x97, 0xC0, 0x08, 0xC0, 0x27, 0xD7, 0xEF,
};

/* What reading them answers: every notice and every fate. */
static const uint8_t answers[][AES18_READ_ANSWER] = {
    {AES18_NOTICE_MALFORMED, 0, 0, 0, 0, 0, 0, 0, 58},
    {AES18_NOTICE_ELSEWHERE, 0, 0, 0, 0, 0, 0, 0, 48},
    {AES18_NOTICE_SYSTEM, 5, 3, 2, 0, 0, 0, 0, 65},
    {AES18_NOTICE_CIRCUIT, 0, 0, AES18_FATE_WRONG, 0, 0, 0, 0, 48},
    {AES18_NOTICE_CIRCUIT, 0, 0, AES18_FATE_ORPHAN, 0, 0, 0, 0, 48},
    {AES18_NOTICE_CIRCUIT, 1, 0, AES18_FATE_BEGUN, 0, 0, 0, 0, 176},
    {AES18_NOTICE_CIRCUIT, 1, 0, AES18_FATE_HELD, 0, 0, 0, 0, 176},
    {AES18_NOTICE_CIRCUIT, 1, 0, AES18_FATE_WHOLE, 46, 0, 0, 0, 176},
    {AES18_NOTICE_CIRCUIT, 1, 0, AES18_FATE_COPY, 0, 0, 0, 0, 176},
    {AES18_NOTICE_CIRCUIT, 0, 1, AES18_FATE_WHOLE, 0, 0, 0, 0, 49},
    {AES18_NOTICE_SPOILT, 0, 0, 0, 0, 0, 0, 0, 49},
    {AES18_NOTICE_END, 0, 0, 0, 0, 0, 0, 0, 3},
};

static void test_notices(void)
{
    static struct call c;
    size_t i;

    prepare_listed(&c, &list_receiver, &reading, two_circuits, sizeof two_circuits);
    put(&c, INPUT, frames, sizeof frames);
    c.from = 0;
    c.to = 8 * sizeof frames;
    for (i = 0; i < COUNT(answers); i++) {
        READ_ON(&c);
        EQUAL(c.bytes[ANSWER], answers[i], sizeof answers[i]);
    }
    ALL(c.bytes[STORE], OLD, AES18_REGION);
    for (i = 0; i < 46; i++)
        IS(c.bytes[STORE][AES18_REGION + i], 'a' + i % 26);
    ALL(c.bytes[STORE] + AES18_REGION + 46, OLD, AES18_SYSTEM_PLACE - AES18_REGION - 46);
    EQUAL(c.bytes[STORE] + AES18_SYSTEM_PLACE, (const uint8_t *)"hi", 2);
    ALL(c.bytes[STORE] + AES18_SYSTEM_PLACE + 2, OLD, 14);
    ALL(c.bytes[BUFFER], OLD, c.length[BUFFER]);
}

/* The bodies of these frames: each packet, or no bytes where the body is spoilt. Number TWENTY_ONE is the first of 21 bytes, a packet of 19 and FCS. */
static const struct {
    uint8_t packet[AES18_LONGEST_PACKET + 1];
    size_t length;
} bodies[] = {
    {"\xFF\0\0", 3},
    {"\x09\x80\0", 3},
    {"\xFF\xC5\x32hi", 5},
    {"\x01\x80\x05", 3},
    {"\x01\x44\x41", 3},
    {"\x02\xAC\x07\x10\x2E" "abcdefghijklmn", 19},
    {"\x02\x30\x07opqrstuvwxyzabcd", 19},
    {"\x02\x74\x07" "efghijklmnopqrst", 19},
    {"\x02\x74\x07" "efghijklmnopqrst", 19},
    {"\x01\x8C\0", 3},
    {{0}, 0},
};

enum { TWENTY_ONE = 5 };

/* The bits of the frames up to the end of a body, which is where a read gives the notice of that number. */
static uint64_t body_end(size_t body)
{
    uint64_t bits = 0;
    size_t i;

    for (i = 0; i <= body; i++)
        bits += number(answers[i] + AES18_READ_BITS, 8);
    return bits;
}

/* A fresh framing at the start of the frames. */
static void prepare_framing(struct call *c)
{
    prepare(c, &framing_reading);
    memset(c->bytes[RECORD], 0, AES18_FRAMING_RECORD);
    put(c, INPUT, frames, sizeof frames);
    c->length[PACKET] = AES18_LONGEST_PACKET;
    c->from = 0;
    c->to = 8 * sizeof frames;
}

/* Reads on in the frames up to bit `to`. The bodies on the way are those from number *next on, each at its end. */
static void read_bodies(int line, struct call *c, uint64_t to, size_t *next)
{
    const uint8_t *answer = c->bytes[ANSWER];
    size_t length;

    c->to = to;
    do {
        memset(c->bytes[PACKET], OLD, AES18_LONGEST_PACKET);
        is(line, call(line, c, &framing_reading), AES18_ACCEPTED);
        c->from += number(answer + AES18_FRAMING_BITS, 8);
        length = 0;
        if (answer[AES18_FRAMING_STOP] != AES18_FRAMING_END) {
            is(line, *next < COUNT(bodies), 1);
            if (*next == COUNT(bodies))
                return;
            length = bodies[*next].length;
            is(line, answer[AES18_FRAMING_STOP], length > 0 ? AES18_FRAMING_PACKET : AES18_FRAMING_SPOILT);
            is(line, c->from, body_end(*next));
            equal(line, c->bytes[PACKET], bodies[*next].packet, length);
            ++*next;
        }
        is(line, answer[AES18_FRAMING_LENGTH], length);
        all(line, answer + 2, 0, 6);
        all(line, c->bytes[PACKET] + length, OLD, AES18_LONGEST_PACKET - length);
    } while (answer[AES18_FRAMING_STOP] != AES18_FRAMING_END);
    is(line, c->from, to);
}

#define READ_BODIES(c, to, next) read_bodies(__LINE__, c, to, next)

/* The frames at once, in two parts cut at every bit of the first bodies up to one of 21 bytes, and one bit at a time. */
static void test_framing_cut(void)
{
    static struct call c;
    uint64_t cut, end = 8 * sizeof frames, first = body_end(TWENTY_ONE);
    size_t next = 0;

    prepare_framing(&c);
    READ_BODIES(&c, end, &next);
    IS(next, COUNT(bodies));
    for (cut = 0; cut <= first; cut++) {
        prepare_framing(&c);
        next = 0;
        READ_BODIES(&c, cut, &next);
        READ_BODIES(&c, first, &next);
        IS(next, TWENTY_ONE + 1);
    }
    prepare_framing(&c);
    next = 0;
    for (cut = 0; cut <= end; cut++)
        READ_BODIES(&c, cut, &next);
    IS(next, COUNT(bodies));
}

/* Everything is wrong with a framing read of two bytes at first; each array is one byte too short and then has none. */
static void test_framing_refusals(void)
{
    static const int lent[] = {RECORD, PACKET, ANSWER};
    static const uint8_t end[AES18_FRAMING_ANSWER] = {AES18_FRAMING_END}, behind_ones[AES18_FRAMING_RECORD] = {1, 6};
    static struct call c;
    size_t i;

    prepare_framing(&c);
    c.length[INPUT] = 2;
    c.from = c.to = UINT64_MAX;
    c.bytes[RECORD][0] = 5;
    for (i = 0; i < COUNT(lent); i++) {
        size_t length = c.length[lent[i]];

        c.length[lent[i]] = length - 1;
        CALL(&c, &framing_reading, AES18_REFUSED_SHORT);
        c.length[lent[i]] = 0;
        CALL(&c, &framing_reading, AES18_REFUSED_SHORT);
        c.length[lent[i]] = length;
    }
    CALL(&c, &framing_reading, AES18_REFUSED_RECORD);
    put(&c, RECORD, behind_ones, sizeof behind_ones);
    CALL(&c, &framing_reading, AES18_REFUSED_BITS);
    c.from = 0;
    TOO_HIGH(&c, &framing_reading, &c.to, 16, AES18_REFUSED_BITS);
    TOO_HIGH(&c, &framing_reading, &c.from, 16, AES18_REFUSED_BITS);
    CALL(&c, &framing_reading, AES18_ACCEPTED);
    EQUAL(c.bytes[ANSWER], end, sizeof end);
    c.length[INPUT] = 0;
    c.from = 0;
    TOO_HIGH(&c, &framing_reading, &c.to, 0, AES18_REFUSED_BITS);
    CALL(&c, &framing_reading, AES18_ACCEPTED);
    EQUAL(c.bytes[RECORD], behind_ones, sizeof behind_ones);
}

/* The framings that a receiver's record must not have are refused, and such at the edge of the range are not. */
static void test_framings_outside(void)
{
    static const uint8_t inside[][4] = {{0}, {1, 6}, {2, 6}, {3, 6, 169}, {3, 0, 1, 1}, {4, 0, 5, 0x1F}, {4, 0, 6, 0x3E}, {4, 6, 169}};
    static struct call c;
    size_t i;

    for (i = 0; i < COUNT(receivers_outside); i++) {
        if (receivers_outside[i].place < AES18_RECEIVER_FRAMING)
            continue;
        prepare_framing(&c);
        memcpy(c.bytes[RECORD] + receivers_outside[i].place - AES18_RECEIVER_FRAMING, receivers_outside[i].bytes, receivers_outside[i].length);
        CALL(&c, &framing_reading, AES18_REFUSED_RECORD);
    }
    for (i = 0; i < COUNT(inside); i++) {
        prepare_framing(&c);
        memcpy(c.bytes[RECORD], inside[i], sizeof inside[i]);
        CALL(&c, &framing_reading, AES18_ACCEPTED);
    }
}

/* Reads a packet of 19 bytes with these lengths of framing, packet and answer: it is read, and what stands behind them is kept, or nothing changes. */
static void read_longest(size_t framing, size_t packet, size_t answer)
{
    static const uint8_t behind_flag[AES18_FRAMING_RECORD] = {2};
    static const uint8_t answered[AES18_FRAMING_ANSWER] = {AES18_FRAMING_PACKET, AES18_LONGEST_PACKET, 0, 0, 0, 0, 0, 0, 8 + 168 + 8};
    static struct call c;
    int fits = framing >= AES18_FRAMING_RECORD && packet >= AES18_LONGEST_PACKET && answer >= AES18_FRAMING_ANSWER;

    prepare_framing(&c);
    c.from = body_end(TWENTY_ONE - 1) - 8;
    c.length[RECORD] = framing;
    c.length[PACKET] = packet;
    c.length[ANSWER] = answer;
    CALL(&c, &framing_reading, fits ? AES18_ACCEPTED : AES18_REFUSED_SHORT);
    if (fits) {
        EQUAL(c.bytes[RECORD], behind_flag, sizeof behind_flag);
        EQUAL(c.bytes[PACKET], bodies[TWENTY_ONE].packet, AES18_LONGEST_PACKET);
        EQUAL(c.bytes[ANSWER], answered, sizeof answered);
        ALL(c.bytes[RECORD] + AES18_FRAMING_RECORD, OLD, framing - AES18_FRAMING_RECORD);
        ALL(c.bytes[PACKET] + AES18_LONGEST_PACKET, OLD, packet - AES18_LONGEST_PACKET);
        ALL(c.bytes[ANSWER] + AES18_FRAMING_ANSWER, OLD, answer - AES18_FRAMING_ANSWER);
    }
}

/* Framings, packets and answers of all lengths. */
static void test_framing_lengths(void)
{
    size_t i;

    for (i = 0; i <= AES18_FRAMING_RECORD + 5; i++)
        read_longest(i, AES18_LONGEST_PACKET, AES18_FRAMING_ANSWER);
    for (i = 0; i <= AES18_LONGEST_PACKET + 5; i++)
        read_longest(AES18_FRAMING_RECORD, i, AES18_FRAMING_ANSWER);
    for (i = 0; i <= AES18_FRAMING_ANSWER + 5; i++)
        read_longest(AES18_FRAMING_RECORD, AES18_LONGEST_PACKET, i);
    read_longest(0, 0, 0);
    read_longest(AES18_FRAMING_RECORD + 5, AES18_LONGEST_PACKET + 5, AES18_FRAMING_ANSWER + 5);
}

/* The framing in the record of a receiver that stands at some bit goes on from there as the receiver does. */
static void test_framing_of_receiver(void)
{
    static struct call r, c;
    uint64_t cut, end = 8 * sizeof frames;
    size_t i, next;

    for (cut = 0; cut <= end; cut += 7) {
        prepare_listed(&r, &list_receiver, &reading, two_circuits, sizeof two_circuits);
        put(&r, INPUT, frames, sizeof frames);
        r.from = 0;
        r.to = cut;
        for (next = 0; r.from < cut; next += r.bytes[ANSWER][AES18_READ_NOTICE] != AES18_NOTICE_END)
            READ_ON(&r);
        prepare_framing(&c);
        put(&c, RECORD, r.bytes[RECORD] + AES18_RECEIVER_FRAMING, AES18_FRAMING_RECORD);
        c.from = cut;
        for (i = next; i < COUNT(bodies) && i < next + 2; i++) {
            r.to = c.to = end;
            READ_ON(&r);
            CALL(&c, &framing_reading, AES18_ACCEPTED);
            c.from += number(c.bytes[ANSWER] + AES18_FRAMING_BITS, 8);
            IS(c.from, r.from);
            IS(c.bytes[ANSWER][AES18_FRAMING_LENGTH], bodies[i].length);
            EQUAL(c.bytes[PACKET], bodies[i].packet, bodies[i].length);
            EQUAL(c.bytes[RECORD], r.bytes[RECORD] + AES18_RECEIVER_FRAMING, AES18_FRAMING_RECORD);
        }
    }
}

/* The arrays of a call side by side: the framing inside a receiver's record, of which nothing else changes, the packet and the answer behind it. */
static void test_framing_side_by_side(void)
{
    enum { PLACE = AES18_RECEIVER_RECORD, ANSWERED = PLACE + AES18_LONGEST_PACKET, END = ANSWERED + AES18_FRAMING_ANSWER };
    static const uint8_t behind_flag[AES18_FRAMING_RECORD] = {2};
    uint8_t bytes[END];

    memset(bytes, OLD, sizeof bytes);
    memset(bytes + AES18_RECEIVER_FRAMING, 0, AES18_FRAMING_RECORD);
    IS(AES18_RECEIVER_FRAMING + AES18_FRAMING_RECORD, AES18_RECEIVER_RECORD);
    IS(aes18_framing_read(bytes + AES18_RECEIVER_FRAMING, AES18_FRAMING_RECORD, frames, sizeof frames, 0, 8 * sizeof frames, bytes + PLACE,
                          AES18_LONGEST_PACKET, bytes + ANSWERED, AES18_FRAMING_ANSWER), AES18_ACCEPTED);
    ALL(bytes, OLD, AES18_RECEIVER_FRAMING);
    EQUAL(bytes + AES18_RECEIVER_FRAMING, behind_flag, sizeof behind_flag);
    EQUAL(bytes + PLACE, bodies[0].packet, bodies[0].length);
    ALL(bytes + PLACE + bodies[0].length, OLD, AES18_LONGEST_PACKET - bodies[0].length);
    IS(bytes[ANSWERED + AES18_FRAMING_STOP], AES18_FRAMING_PACKET);
    IS(number(bytes + ANSWERED + AES18_FRAMING_BITS, 8), body_end(0));
}

/* An orphan behind one lost packet, with bits read and bytes behind the answer. */
static const uint8_t orphan[AES18_READ_ANSWER + 3] = {AES18_NOTICE_CIRCUIT, 0, 1, AES18_FATE_ORPHAN, 0, 0, 0, 0, 9, 9, 9, 9, 9, 9, 9, 9, 9, 9, 9};

/* Notes the orphan in totals of old bytes, with these lengths: one more is lost and one more orphaned, or nothing changes. */
static void note_orphan(size_t totals, size_t answer)
{
    static struct call c;
    int fits = totals >= AES18_TOTALS_RECORD && answer >= AES18_READ_ANSWER;

    prepare(&c, &noting);
    put(&c, INPUT, orphan, answer);
    c.length[RECORD] = totals;
    CALL(&c, &noting, fits ? AES18_ACCEPTED : AES18_REFUSED_SHORT);
    IS(c.bytes[RECORD][AES18_TOTALS_LOST], OLD + (uint64_t)fits);
    IS(c.bytes[RECORD][AES18_TOTALS_ORPHANED], OLD + (uint64_t)fits);
    c.bytes[RECORD][AES18_TOTALS_LOST] = c.bytes[RECORD][AES18_TOTALS_ORPHANED] = OLD;
    ALL(c.bytes[RECORD], OLD, AES18_TOTALS_RECORD + 5);
}

/* Totals and answers of all lengths. */
static void test_noting_lengths(void)
{
    size_t i;

    for (i = 0; i <= AES18_TOTALS_RECORD + 5; i++)
        note_orphan(i, AES18_READ_ANSWER);
    for (i = 0; i <= sizeof orphan; i++)
        note_orphan(AES18_TOTALS_RECORD, i);
    note_orphan(0, 0);
    note_orphan(AES18_TOTALS_RECORD - 1, AES18_READ_ANSWER - 1);
}

/* Totals and answer side by side in one array, in both orders: arrays that touch do not overlap. */
static void test_noting_side_by_side(void)
{
    uint8_t bytes[AES18_READ_ANSWER + AES18_TOTALS_RECORD + AES18_READ_ANSWER];
    uint8_t *totals = bytes + AES18_READ_ANSWER, *behind = totals + AES18_TOTALS_RECORD;

    memset(bytes, 0, sizeof bytes);
    memcpy(bytes, orphan, AES18_READ_ANSWER);
    memcpy(behind, orphan, AES18_READ_ANSWER);
    IS(aes18_totals_note(totals, AES18_TOTALS_RECORD, bytes, AES18_READ_ANSWER), AES18_ACCEPTED);
    IS(aes18_totals_note(totals, AES18_TOTALS_RECORD, behind, AES18_READ_ANSWER), AES18_ACCEPTED);
    IS(number(totals + AES18_TOTALS_LOST, 4), 2);
    IS(number(totals + AES18_TOTALS_ORPHANED, 4), 2);
    EQUAL(bytes, orphan, AES18_READ_ANSWER);
    EQUAL(behind, orphan, AES18_READ_ANSWER);
}

/* What an answer's first bytes make of the figures of its circuit: messages, bytes, lost, orphaned. */
#define MOST AES18_TOTALS_MOST
static const struct {
    uint8_t answer[8];
    uint32_t before[4], after[4];
} figures[] = {
    {{AES18_NOTICE_CIRCUIT, 0, 0, AES18_FATE_COPY}, {1, 2, 3, 4}, {1, 2, 3, 4}},
    {{AES18_NOTICE_CIRCUIT, 1, 9, AES18_FATE_COPY}, {1, 2, 3, 4}, {1, 2, 12, 4}},
    {{AES18_NOTICE_CIRCUIT, 2, 1, AES18_FATE_BEGUN}, {1, 2, 3, 4}, {1, 2, 4, 4}},
    {{AES18_NOTICE_CIRCUIT, 3, 1, AES18_FATE_HELD}, {1, 2, 3, 4}, {1, 2, 4, 4}},
    {{AES18_NOTICE_CIRCUIT, 0, 0, AES18_FATE_WHOLE}, {1, 2, 3, 4}, {2, 2, 3, 4}},
    {{AES18_NOTICE_CIRCUIT, 1, 6, AES18_FATE_WHOLE, 0xFE, 0x0F}, {1, 2, 3, 4}, {2, 4096, 9, 4}},
    {{AES18_NOTICE_CIRCUIT, 2, 255, AES18_FATE_WHOLE, 255, 255}, {255, 65535, 1, 4}, {256, 131070, 256, 4}},
    {{AES18_NOTICE_CIRCUIT, 3, 2, AES18_FATE_ORPHAN}, {1, 2, 3, 16777215}, {1, 2, 5, 16777216}},
    {{AES18_NOTICE_CIRCUIT, 0, 2, AES18_FATE_WRONG}, {1, 2, 3, 4}, {1, 2, 5, 4}},
    /* to the most, past it and at it, each figure on its own */
    {{AES18_NOTICE_CIRCUIT, 0, 2, AES18_FATE_WHOLE, 3}, {MOST - 1, MOST - 3, MOST - 2, 4}, {MOST, MOST, MOST, 4}},
    {{AES18_NOTICE_CIRCUIT, 1, 2, AES18_FATE_WHOLE, 3}, {MOST, 2, 3, 4}, {MOST, 5, 5, 4}},
    {{AES18_NOTICE_CIRCUIT, 2, 2, AES18_FATE_WHOLE, 3}, {1, MOST - 2, 3, 4}, {2, MOST, 5, 4}},
    {{AES18_NOTICE_CIRCUIT, 3, 2, AES18_FATE_ORPHAN}, {1, 2, MOST - 1, 4}, {1, 2, MOST, 5}},
    {{AES18_NOTICE_CIRCUIT, 0, 2, AES18_FATE_ORPHAN}, {1, 2, 3, MOST - 1}, {1, 2, 5, MOST}},
    {{AES18_NOTICE_CIRCUIT, 1, 2, AES18_FATE_ORPHAN}, {1, 2, 3, MOST}, {1, 2, 5, MOST}},
    {{AES18_NOTICE_CIRCUIT, 2, 255, AES18_FATE_WHOLE, 255, 255}, {MOST, MOST, MOST, MOST}, {MOST, MOST, MOST, MOST}},
};

/* Totals of old bytes, with these figures at a circuit. */
static void put_figures(uint8_t *totals, size_t circuit, const uint32_t values[4])
{
    static const size_t places[4] = {AES18_TOTALS_MESSAGES, AES18_TOTALS_BYTES, AES18_TOTALS_LOST, AES18_TOTALS_ORPHANED};
    size_t i;

    memset(totals, OLD, AES18_TOTALS_RECORD);
    for (i = 0; i < 16; i++)
        totals[AES18_TOTALS_CIRCUIT * circuit + places[i / 4] + i % 4] = (uint8_t)(values[i / 4] >> 8 * (i % 4));
}

static void test_figures(void)
{
    static struct call c;
    uint8_t after[AES18_TOTALS_RECORD];
    size_t i;

    for (i = 0; i < COUNT(figures); i++) {
        prepare(&c, &noting);
        memcpy(c.bytes[INPUT], figures[i].answer, sizeof figures[i].answer);
        c.length[INPUT] = AES18_READ_ANSWER;
        put_figures(c.bytes[RECORD], figures[i].answer[AES18_READ_CIRCUIT], figures[i].before);
        put_figures(after, figures[i].answer[AES18_READ_CIRCUIT], figures[i].after);
        CALL(&c, &noting, AES18_ACCEPTED);
        EQUAL(c.bytes[RECORD], after, sizeof after);
    }
}

/* First bytes of answers that count nowhere. */
static const uint8_t uncounted[][8] = {
    /* notices without a circuit, and circuit numbers above 3 */
    {AES18_NOTICE_END}, {AES18_NOTICE_SPOILT}, {AES18_NOTICE_MALFORMED}, {AES18_NOTICE_SYSTEM, 1, 2, 3}, {AES18_NOTICE_ELSEWHERE},
    {AES18_NOTICE_CIRCUIT, 4, 1, AES18_FATE_WHOLE, 9}, {AES18_NOTICE_CIRCUIT, 255, 1, AES18_FATE_ORPHAN},
    /* no notice: its number or its fate, a length without a message, a byte that is always 0 */
    {6, 0, 1, AES18_FATE_WHOLE, 9}, {AES18_NOTICE_CIRCUIT + 128, 0, 1, AES18_FATE_ORPHAN}, {AES18_NOTICE_CIRCUIT, 0, 1, 6},
    {AES18_NOTICE_CIRCUIT, 0, 1, 255}, {AES18_NOTICE_CIRCUIT, 0, 1, AES18_FATE_COPY, 9}, {AES18_NOTICE_CIRCUIT, 0, 1, AES18_FATE_BEGUN, 9},
    {AES18_NOTICE_CIRCUIT, 0, 1, AES18_FATE_HELD, 9}, {AES18_NOTICE_CIRCUIT, 0, 1, AES18_FATE_ORPHAN, 0, 9},
    {AES18_NOTICE_CIRCUIT, 0, 1, AES18_FATE_WRONG, 0, 9}, {AES18_NOTICE_CIRCUIT, 0, 1, AES18_FATE_WHOLE, 9, 0, 1},
    {AES18_NOTICE_CIRCUIT, 0, 1, AES18_FATE_ORPHAN, 0, 0, 0, 1}, {AES18_NOTICE_END, 0, 1, AES18_FATE_WHOLE, 9},
};

static void test_uncounted(void)
{
    static struct call c;
    size_t i;

    for (i = 0; i < COUNT(uncounted); i++) {
        prepare(&c, &noting);
        memcpy(c.bytes[INPUT], uncounted[i], sizeof uncounted[i]);
        c.length[INPUT] = AES18_READ_ANSWER;
        CALL(&c, &noting, AES18_ACCEPTED);
        ALL(c.bytes[RECORD], OLD, AES18_TOTALS_RECORD);
    }
}

/* The totals of the answers above, from empty ones. */
static void test_totals(void)
{
    static const uint8_t totals[AES18_TOTALS_RECORD] = {1, 0, 0, 0, 0, 0, 0, 0, 1, 0, 0, 0, 1, 0, 0, 0, 1, 0, 0, 0, 46};
    static struct call c;
    size_t i;

    prepare(&c, &noting);
    memset(c.bytes[RECORD], 0, AES18_TOTALS_RECORD);
    for (i = 0; i < COUNT(answers); i++) {
        put(&c, INPUT, answers[i], sizeof answers[i]);
        CALL(&c, &noting, AES18_ACCEPTED);
    }
    EQUAL(c.bytes[RECORD], totals, sizeof totals);
}

static const size_t message_length[AES18_MOST_CIRCUITS] = {0, 15, 16, AES18_LONGEST_MESSAGE};

/* Reads a block in parts of 100 bits and compares the messages handed over; how many they are. */
static int read_block(struct call *r, const struct call *s)
{
    int whole = 0;

    put(r, INPUT, s->bytes[BLOCK], s->length[BLOCK]);
    r->from = 0;
    while (r->from < s->n) {
        r->to = r->from + 100 < s->n ? r->from + 100 : s->n;
        READ_ON(r);
        if (r->bytes[ANSWER][AES18_READ_NOTICE] == AES18_NOTICE_CIRCUIT && r->bytes[ANSWER][AES18_READ_FATE] == AES18_FATE_WHOLE) {
            size_t c = r->bytes[ANSWER][AES18_READ_CIRCUIT];

            IS(number(r->bytes[ANSWER] + AES18_READ_MESSAGE, 2), message_length[c]);
            EQUAL(r->bytes[STORE] + AES18_REGION * c, s->bytes[STORE] + AES18_REGION * c, message_length[c]);
            whole++;
        }
    }
    return whole;
}

/* Messages of the shortest and longest lengths go over in blocks of n bits, the first of them with a system packet. */
static void test_pass(uint64_t n)
{
    static struct call s, r;
    int whole = 0;
    size_t i;

    prepare_listed(&s, &list_sender, &block, four_circuits, sizeof four_circuits);
    prepare_listed(&r, &list_receiver, &reading, four_circuits, sizeof four_circuits);
    IS(sizeof four_circuits, AES18_MOST_CIRCUITS * AES18_CIRCUIT_BYTES);
    for (i = 0; i < AES18_LONGEST_MESSAGE; i++)
        s.bytes[INPUT][i] = (uint8_t)(i * i % 257);
    for (s.circuit = 0; s.circuit < AES18_MOST_CIRCUITS; s.circuit++) {
        s.priority = AES18_HIGHEST_PRIORITY - s.circuit;
        s.repetition = s.circuit == 3 ? 0 : AES18_MOST_REPETITIONS;
        s.length[INPUT] = message_length[s.circuit];
        CALL(&s, &offer, AES18_ACCEPTED);
    }
    s.n = s.u = n;
    s.length[BLOCK] = (size_t)((n + 7) / 8);
    s.system = 1;
    s.enable = AES18_ALL_ENABLED;
    s.code = AES18_HIGHEST_CODE;
    s.length[INPUT] = AES18_LONGEST_INFORMATION;
    do {
        memset(s.bytes[ANSWER], 0, AES18_BLOCK_ANSWER);
        CALL(&s, &block, AES18_ACCEPTED);
        whole += read_block(&r, &s);
        s.system = 0;
    } while (number(s.bytes[ANSWER] + AES18_BLOCK_PLACED, 4) > 0);
    IS((uint64_t)whole, AES18_MOST_CIRCUITS);
    EQUAL(r.bytes[STORE], s.bytes[STORE], AES18_SENDER_STORE);
    EQUAL(r.bytes[STORE] + AES18_SYSTEM_PLACE, s.bytes[INPUT], AES18_LONGEST_INFORMATION);
    IS(r.bytes[STORE][AES18_RECEIVER_STORE - 1], OLD);
    ALL(r.bytes[BUFFER], OLD, r.length[BUFFER]);
}

/* Where packets are still to go: the bit of value 1 << c is set for circuit c. */
static unsigned waiting(const struct call *c)
{
    unsigned circuits = 0;
    size_t i;

    for (i = 0; i < AES18_MOST_CIRCUITS; i++)
        circuits |= (unsigned)(left(c, i) != 0) << i;
    return circuits;
}

/* Offers a message of no bytes at each of four circuits, with the circuit's number for its priority; refused where one waits. */
static void offer_each(int line, struct call *c)
{
    unsigned pending = waiting(c);

    c->length[INPUT] = c->repetition = 0;
    for (c->circuit = 0; c->circuit < AES18_MOST_CIRCUITS; c->circuit++) {
        c->priority = c->circuit;
        is(line, call(line, c, &offer), pending >> c->circuit & 1 ? AES18_REFUSED_PENDING : AES18_ACCEPTED);
    }
}

/* Offers at each circuit and makes a block: it is ruled by these enable bits, and they are in force behind it. */
static void ruled(int line, struct call *c, uint64_t enable)
{
    offer_each(line, c);
    is(line, call(line, c, &block), AES18_ACCEPTED);
    is(line, waiting(c), AES18_ALL_ENABLED - enable);
    is(line, c->bytes[RECORD][AES18_SENDER_ENABLE], enable);
}

#define RULED(c, enable) ruled(__LINE__, c, enable)

/* A fresh sender of four circuits, ready to make blocks with room for a packet of each. */
static void prepare_ruled(struct call *c)
{
    prepare_listed(c, &list_sender, &block, four_circuits, sizeof four_circuits);
    c->n = c->u = 512;
    c->length[BLOCK] = 64;
    c->system = c->enable = c->code = 0;
}

/* All is enabled at first. Enable bits rule the block of their system packet and later ones, whatever is given without one, until another is sent. */
static void test_enable(void)
{
    static struct call c;
    uint64_t enable;

    prepare_ruled(&c);
    RULED(&c, AES18_ALL_ENABLED);
    for (enable = 0; enable <= AES18_ALL_ENABLED; enable++) {
        c.system = 1;
        c.enable = enable;
        RULED(&c, enable);
        c.system = 0;
        RULED(&c, enable);
        c.enable = AES18_ALL_ENABLED - enable;
        RULED(&c, enable);
        c.enable = UINT64_MAX;
        RULED(&c, enable);
    }
}

/* With enable bits 0 block after block is a flag and ones, and nothing in the record changes. The next system packet lets out what waits. */
static void test_none_enabled(void)
{
    static struct call c;
    uint8_t before[AES18_SENDER_RECORD];
    int i;

    prepare_ruled(&c);
    c.system = 1;
    RULED(&c, 0);
    memcpy(before, c.bytes[RECORD], sizeof before);
    c.system = 0;
    for (i = 0; i < 20; i++) {
        CALL(&c, &block, AES18_ACCEPTED);
        IS(number(c.bytes[ANSWER] + AES18_BLOCK_PLACED, 4), 0);
        IS(number(c.bytes[ANSWER] + AES18_BLOCK_USED, 4), 8);
        IS(number(c.bytes[ANSWER] + AES18_BLOCK_ZEROS, 4), 0);
        ALL(c.bytes[BLOCK] + 1, 0xFF, 63);
        EQUAL(c.bytes[RECORD], before, sizeof before);
    }
    c.system = 1;
    c.enable = AES18_ALL_ENABLED;
    CALL(&c, &block, AES18_ACCEPTED);
    IS(number(c.bytes[ANSWER] + AES18_BLOCK_PLACED, 4), AES18_MOST_CIRCUITS);
    IS(waiting(&c), 0);
}

/* A refused block with other enable bits leaves those in force, as CALL compares. */
static void test_enable_refused(void)
{
    static struct call c;

    prepare_ruled(&c);
    c.system = 1;
    c.enable = 10;
    RULED(&c, 10);
    c.enable = 5;
    c.length[RECORD] = AES18_SENDER_ENABLE;
    CALL(&c, &offer, AES18_REFUSED_SHORT);
    CALL(&c, &block, AES18_REFUSED_SHORT);
    c.length[RECORD] = AES18_SENDER_ENABLE + 1;
    c.length[STORE]--;
    CALL(&c, &block, AES18_REFUSED_STORE);
    c.length[STORE]++;
    c.u = AES18_FEWEST_BLOCK_BITS - 1;
    CALL(&c, &block, AES18_REFUSED_BLOCK);
    c.u = c.n;
    c.length[BLOCK]--;
    CALL(&c, &block, AES18_REFUSED_BUFFER);
    c.length[BLOCK]++;
    c.code = AES18_HIGHEST_CODE + 1;
    CALL(&c, &block, AES18_REFUSED_SYSTEM);
    c.code = 0;
    c.length[INPUT] = AES18_LONGEST_INFORMATION + 1;
    CALL(&c, &block, AES18_REFUSED_SYSTEM);
    c.system = 0;
    RULED(&c, 10);
}

/* Enable bits in force above 15 are out of range, with this number of circuits. In range, a block is accepted and an offer is answered so. */
static void test_enable_range(uint8_t circuits, uint32_t offered)
{
    static const uint8_t enable[] = {0, 15, 16, 17, 31, 128, 255};
    static struct call c;
    size_t i;

    for (i = 0; i < COUNT(enable); i++) {
        prepare_ruled(&c);
        c.bytes[RECORD][0] = circuits;
        c.bytes[RECORD][AES18_SENDER_ENABLE] = enable[i];
        c.circuit = c.priority = c.repetition = 0;
        c.length[INPUT] = 0;
        CALL(&c, &offer, enable[i] > AES18_ALL_ENABLED ? AES18_REFUSED_RECORD : offered);
        CALL(&c, &block, enable[i] > AES18_ALL_ENABLED ? AES18_REFUSED_RECORD : AES18_ACCEPTED);
        IS(c.bytes[RECORD][AES18_SENDER_ENABLE], enable[i]);
    }
}

/* Messages, and how many packets they are: a header of one byte, or of two from 16 on, and the message are cut into segments of 16 bytes. */
static const struct {
    size_t length, packets;
} messages[] = {{0, 1}, {1, 1}, {15, 1}, {16, 2}, {17, 2}, {30, 2}, {31, 3}, {AES18_LONGEST_MESSAGE, 256}};
static const uint64_t repetitions[] = {0, 1, AES18_MOST_REPETITIONS};

enum { MESSAGES = COUNT(messages) * COUNT(repetitions) };

/* The copies that wait at a circuit, in order, each as the number of its packet: those from `next` up to and without `end`. */
struct queue {
    size_t copies[256 * (AES18_MOST_REPETITIONS + 1)];
    size_t next, end;
};

/* A sender of some circuits, a receiver of its blocks, what waits by the papers, the number of the next message and that of the next block. */
struct sending {
    struct call s;
    uint8_t record[AES18_RECEIVER_RECORD], store[AES18_RECEIVER_STORE];
    struct queue queues[AES18_MOST_CIRCUITS];
    size_t message, block;
};

/* All copies of so many packets, each packet's together. */
static void fill_queue(struct queue *q, size_t packets, size_t copies)
{
    q->next = 0;
    for (q->end = 0; q->end < packets * copies; q->end++)
        q->copies[q->end] = q->end / copies;
}

/* How many packets have a copy in a queue. */
static uint64_t packets_in(const struct queue *q)
{
    uint64_t packets = 0;
    size_t i;

    for (i = q->next; i < q->end; i++)
        packets += i == q->next || q->copies[i] != q->copies[i - 1];
    return packets;
}

/* The record has the packets still to go at every circuit number, listed or not. */
static void is_left(int line, const struct sending *t)
{
    size_t c;

    for (c = 0; c < AES18_MOST_CIRCUITS; c++)
        is(line, left(&t->s, c), packets_in(&t->queues[c]));
}

#define IS_LEFT(t) is_left(__LINE__, t)

/* Offers the next message at a circuit, which takes it if no copy waits there. */
static void offer_next(struct sending *t, size_t circuit)
{
    struct queue *q = &t->queues[circuit];
    struct call *s = &t->s;
    size_t m = t->message % COUNT(messages);
    int taken = q->next == q->end;

    s->circuit = circuit;
    s->priority = t->message % (AES18_HIGHEST_PRIORITY + 1);
    s->repetition = repetitions[t->message / COUNT(messages)];
    s->length[INPUT] = messages[m].length;
    CALL(s, &offer, taken ? AES18_ACCEPTED : AES18_REFUSED_PENDING);
    if (taken) {
        fill_queue(q, messages[m].packets, (size_t)s->repetition + 1);
        t->message++;
    }
    IS_LEFT(t);
}

/* Offers at each circuit, as long as there are messages. */
static void offer_at_all(struct sending *t, size_t circuits)
{
    size_t c;

    for (c = 0; c < circuits && t->message < MESSAGES; c++)
        offer_next(t, c);
}

/* Makes a block. Each of its frames, as the receiver names their circuits, is the first copy that waits there. How many they are. */
static uint64_t place_next(struct sending *t)
{
    struct call *s = &t->s;
    uint8_t answer[AES18_READ_ANSWER];
    uint64_t from = 0, placed = 0;

    s->n = s->u = AES18_FEWEST_BLOCK_BITS + 331 * (t->block++ % 13);
    s->length[BLOCK] = (size_t)((s->n + 7) / 8);
    memset(s->bytes[BLOCK], OLD, s->length[BLOCK]);
    CALL(s, &block, AES18_ACCEPTED);
    do {
        IS(aes18_receiver_read(t->record, sizeof t->record, t->store, sizeof t->store, s->bytes[BLOCK], s->length[BLOCK], from, s->n, answer,
                               sizeof answer), AES18_ACCEPTED);
        from += number(answer + AES18_READ_BITS, 8);
        if (answer[AES18_READ_NOTICE] == AES18_NOTICE_CIRCUIT) {
            struct queue *q = &t->queues[answer[AES18_READ_CIRCUIT]];

            IS(q->next < q->end, 1);
            q->next++;
            placed++;
        }
    } while (answer[AES18_READ_NOTICE] != AES18_NOTICE_END);
    IS(number(s->bytes[ANSWER] + AES18_BLOCK_PLACED, 4), placed);
    IS_LEFT(t);
    return placed;
}

/* The packets still to go behind each offer and each block, as so many circuits send all these messages with each of the repetitions. */
static void test_left(size_t circuits)
{
    static struct sending t;

    memset(&t, 0, sizeof t);
    prepare_listed(&t.s, &list_sender, &block, four_circuits, circuits * AES18_CIRCUIT_BYTES);
    IS(aes18_receiver_list(t.record, sizeof t.record, four_circuits, circuits * AES18_CIRCUIT_BYTES), AES18_ACCEPTED);
    IS_LEFT(&t);
    do
        offer_at_all(&t, circuits);
    while (place_next(&t) > 0);
    IS(t.message, MESSAGES);
}

/* Sets the packets still to go at a circuit number. */
static void set_left(struct call *c, size_t circuit, uint64_t value)
{
    uint8_t *bytes = c->bytes[RECORD] + AES18_SENDER_LEFT + AES18_SENDER_CIRCUIT_BYTES * circuit;

    bytes[0] = (uint8_t)(value & 255);
    bytes[1] = (uint8_t)(value >> 8);
}

/* A fresh sender of so many circuits, ready to offer a message of no bytes at circuit 0 and to make blocks with room for one long packet. */
static void prepare_left(struct call *c, size_t circuits)
{
    prepare_listed(c, &list_sender, &block, four_circuits, circuits * AES18_CIRCUIT_BYTES);
    c->circuit = c->priority = c->repetition = c->system = 0;
    c->n = c->u = AES18_FEWEST_BLOCK_BITS;
    c->length[BLOCK] = AES18_FEWEST_BLOCK_BITS / 8;
}

/* A packet counts until the last of its copies is placed, one in each block here: the system packet leaves room for no more. */
static void test_left_copies(uint64_t repetition)
{
    static struct call c;
    uint64_t i;

    prepare_left(&c, 1);
    c.repetition = repetition;
    CALL(&c, &offer, AES18_ACCEPTED);
    c.system = 1;
    c.enable = AES18_ALL_ENABLED;
    c.code = 0;
    c.length[INPUT] = AES18_LONGEST_INFORMATION;
    for (i = 0; i <= repetition; i++) {
        IS(left(&c, 0), 1);
        CALL(&c, &block, AES18_ACCEPTED);
        IS(number(c.bytes[ANSWER] + AES18_BLOCK_PLACED, 4), 1);
    }
    IS(left(&c, 0), 0);
}

/* Another number than this one at a listed circuit is out of range, 0 among them where this one is not. */
static void left_outside(struct call *c, size_t circuit, uint64_t right)
{
    const uint64_t others[] = {right + 1, (right + 65535) % 65536, right == 0, 65535, right + 256, right + 32768};
    size_t i;

    IS(left(c, circuit), right);
    for (i = 0; i < COUNT(others); i++) {
        set_left(c, circuit, others[i]);
        CALL(c, &offer, AES18_REFUSED_RECORD);
        CALL(c, &block, AES18_REFUSED_RECORD);
    }
    set_left(c, circuit, right);
    CALL(c, &block, AES18_ACCEPTED);
}

/* At a listed circuit, with no copy of the first packet placed, one of two or of six, or all, and with nothing pending. */
static void test_left_listed(size_t circuits, size_t circuit)
{
    static const struct {
        size_t length;
        uint64_t repetition, blocks, left;
    } cases[] = {
        {0, 0, 0, 1}, {0, 0, 1, 0}, {31, 1, 0, 3}, {31, 1, 1, 3}, {AES18_LONGEST_MESSAGE, 5, 1, 256}, {AES18_LONGEST_MESSAGE, 0, 1, 255},
    };
    static struct call c;
    size_t i;

    for (i = 0; i < COUNT(cases); i++) {
        prepare_left(&c, circuits);
        c.circuit = circuit;
        c.repetition = cases[i].repetition;
        c.length[INPUT] = cases[i].length;
        CALL(&c, &offer, AES18_ACCEPTED);
        if (cases[i].blocks > 0)
            CALL(&c, &block, AES18_ACCEPTED);
        c.circuit = c.repetition = 0;
        left_outside(&c, circuit, cases[i].left);
    }
}

/* At a circuit number that is not listed any number is let pass, and left as it is. */
static void test_left_unlisted(size_t circuits, size_t circuit)
{
    static const uint64_t any[] = {0, 1, 255, 256, 65535};
    static struct call c;
    size_t i;

    prepare_left(&c, circuits);
    for (i = 0; i < COUNT(any); i++) {
        set_left(&c, circuit, any[i]);
        CALL(&c, &offer, AES18_ACCEPTED);
        CALL(&c, &block, AES18_ACCEPTED);
        IS(number(c.bytes[ANSWER] + AES18_BLOCK_PLACED, 4), 1);
        IS(left(&c, circuit), any[i]);
        IS(left(&c, 0), 0);
    }
}

/* At each circuit number, with so many circuits listed. */
static void test_left_range(size_t circuits)
{
    size_t c;

    for (c = 0; c < AES18_MOST_CIRCUITS; c++)
        if (c < circuits)
            test_left_listed(circuits, c);
        else
            test_left_unlisted(circuits, c);
}

/* Records of all lengths below theirs, that of an earlier version among them, with a message pending. */
static void test_sender_lengths(void)
{
    static struct call c;
    size_t i;

    prepare_left(&c, 1);
    CALL(&c, &offer, AES18_ACCEPTED);
    for (i = 0; i < 55; i++) {
        c.length[RECORD] = i;
        CALL(&c, &list_sender, AES18_REFUSED_SHORT);
        CALL(&c, &offer, AES18_REFUSED_SHORT);
        CALL(&c, &block, AES18_REFUSED_SHORT);
    }
    c.length[RECORD] = 55;
    CALL(&c, &offer, AES18_REFUSED_PENDING);
    CALL(&c, &block, AES18_ACCEPTED);
}

/*
 * Blocks of 27,000 bits of which u may be used, with their numbers, made from document 01 by other code. One message is offered, at circuit 0 with
 * priority 2: so many bytes, each `byte`. Where a system packet is wanted its block code is 8, and its information so many bytes FF, in base 16.
 */
static const struct {
    uint8_t byte;
    size_t length;
    uint64_t repetition, u, system, enable;
    size_t info;
    uint64_t placed, used, zeros;
} stuffed[] = {
    {0xFF, 0, 0, 27000, 0, 0, 0, 1, 56, 0},             /* no five ones in a row */
    {0x55, 5, 0, 27000, 0, 0, 0, 1, 96, 0},
    {0xCC, 4, 0, 27000, 0, 0, 0, 1, 91, 3},             /* in the FCS alone */
    {0x5D, 4, 2, 27000, 0, 0, 0, 3, 251, 3},            /* behind five ones that end the frame */
    {0xFF, 5, 0, 27000, 0, 0, 0, 1, 104, 8},            /* one copy, and six */
    {0xFF, 5, 5, 27000, 0, 0, 0, 6, 584, 48},
    {0xFF, 15, 1, 394, 0, 0, 0, 2, 394, 50},            /* a second copy that fits, and one that does not */
    {0xFF, 15, 1, 393, 0, 0, 0, 1, 201, 25},
    {0xFF, 100, 1, 27000, 0, 0, 0, 14, 2512, 312},      /* numbers of two bytes */
    {0xFF, 4094, 1, 27000, 1, 15, 0, 139, 26899, 3491},
    {0xFF, 5, 0, 27000, 1, 15, 15, 1, 299, 35},         /* a system packet, and alone */
    {0xFF, 5, 0, 27000, 1, 0, 15, 0, 202, 26},
    {0xFF, 5, 0, 27000, 1, 0, 0, 0, 57, 1},
};

/* Offers the message of such a block and makes it. */
static void make_stuffed(struct call *c, size_t i)
{
    prepare_listed(c, &list_sender, &block, two_circuits, sizeof two_circuits);
    c->circuit = 0;
    c->priority = 2;
    c->repetition = stuffed[i].repetition;
    memset(c->bytes[INPUT], stuffed[i].byte, stuffed[i].length);
    c->length[INPUT] = stuffed[i].length;
    CALL(c, &offer, AES18_ACCEPTED);
    c->n = AES18_MOST_BLOCK_BITS;
    c->u = stuffed[i].u;
    c->system = stuffed[i].system;
    c->enable = stuffed[i].enable;
    c->code = AES18_HIGHEST_CODE;
    memset(c->bytes[INPUT], 0xFF, stuffed[i].info);
    c->length[INPUT] = stuffed[i].info;
    c->length[BLOCK] = AES18_LONGEST_BLOCK;
    CALL(c, &block, AES18_ACCEPTED);
}

/*
 * The frames of a block have the stuffed zeros of its answer, by the zeros that unstuffing drops: in the bits used, six ones and a zero end a flag, and
 * a zero behind five ones is dropped. What is kept of a frame is whole bytes, of which the zeros are one fifth at most.
 */
static void is_unstuffed(int line, const struct call *c)
{
    const uint8_t *bits = c->bytes[BLOCK], *answer = c->bytes[ANSWER];
    uint64_t used = number(answer + AES18_BLOCK_USED, 4), flag = 8, ones = 0, zeros = 0, sum = 0, at;

    is(line, bits[0], 0x7E);
    for (at = 8; at < used; at++) {
        if (bits[at / 8] >> at % 8 & 1) {
            ones++;
            continue;
        }
        zeros += ones == 5;
        if (ones == 6) {
            uint64_t kept = at + 1 - 8 - flag - zeros;

            is(line, kept % 8, 0);
            is(line, zeros <= kept / 5, 1);
            sum += zeros;
            flag = at + 1;
            zeros = 0;
        }
        ones = 0;
    }
    is(line, flag, used);
    is(line, number(answer + AES18_BLOCK_ZEROS, 4), sum);
}

/*
 * The bits used by a block are 8 and, for each of its frames, those of packet and FCS, its stuffed zeros and 8. How long the packets are, a framing
 * that reads the block says.
 */
static void is_used(int line, const struct call *c)
{
    uint8_t framing[AES18_FRAMING_RECORD] = {0}, packet[AES18_LONGEST_PACKET], answer[AES18_FRAMING_ANSWER];
    uint64_t from = 0, packets = 0, used = 8 + number(c->bytes[ANSWER] + AES18_BLOCK_ZEROS, 4);

    do {
        is(line, aes18_framing_read(framing, sizeof framing, c->bytes[BLOCK], c->length[BLOCK], from, c->n, packet, sizeof packet, answer,
                                    sizeof answer), AES18_ACCEPTED);
        from += number(answer + AES18_FRAMING_BITS, 8);
        if (answer[AES18_FRAMING_STOP] == AES18_FRAMING_PACKET) {
            used += 8 * (answer[AES18_FRAMING_LENGTH] + 2u) + 8;
            packets++;
        }
    } while (answer[AES18_FRAMING_STOP] != AES18_FRAMING_END);
    is(line, number(c->bytes[ANSWER] + AES18_BLOCK_PLACED, 4) + (c->system != 0), packets);
    is(line, number(c->bytes[ANSWER] + AES18_BLOCK_USED, 4), used);
}

/* The stuffed zeros of blocks that are known. */
static void test_stuffed(void)
{
    static struct call c;
    size_t i;

    for (i = 0; i < COUNT(stuffed); i++) {
        make_stuffed(&c, i);
        IS(number(c.bytes[ANSWER] + AES18_BLOCK_PLACED, 4), stuffed[i].placed);
        IS(number(c.bytes[ANSWER] + AES18_BLOCK_USED, 4), stuffed[i].used);
        IS(number(c.bytes[ANSWER] + AES18_BLOCK_ZEROS, 4), stuffed[i].zeros);
        is_unstuffed(__LINE__, &c);
        is_used(__LINE__, &c);
    }
}

/* Answers of all lengths below theirs, that of an earlier version among them, and longer ones, whose bytes behind keep their values. */
static void test_answer_lengths(void)
{
    static struct call c;
    size_t i;

    prepare_left(&c, 1);
    c.repetition = AES18_MOST_REPETITIONS;
    c.length[INPUT] = 15;
    memset(c.bytes[INPUT], 0xFF, 15);
    CALL(&c, &offer, AES18_ACCEPTED);
    for (i = 0; i < 12; i++) {
        c.length[ANSWER] = i;
        CALL(&c, &block, AES18_REFUSED_SHORT);
    }
    for (i = 12; i <= 15; i++) {
        c.length[ANSWER] = i;
        memset(c.bytes[ANSWER], OLD, i);
        CALL(&c, &block, AES18_ACCEPTED);
        IS(number(c.bytes[ANSWER] + AES18_BLOCK_ZEROS, 4), 25);
        ALL(c.bytes[ANSWER] + 12, OLD, i - 12);
    }
}

/* A number below another, of a row that is the same in every run. */
static uint32_t any_below(uint32_t limit)
{
    static uint32_t state = 6;

    state = state * 1664525u + 1013904223u;
    return (state >> 8) % limit;
}

/* A message of up to 79 bytes, most of them with many ones. */
static void put_any_message(struct call *c)
{
    static const uint8_t ones[] = {0xFF, 0x7E, 0xF8, 0x1F};
    size_t i;

    c->length[INPUT] = any_below(80);
    for (i = 0; i < c->length[INPUT]; i++)
        c->bytes[INPUT][i] = any_below(4) == 0 ? (uint8_t)any_below(256) : ones[any_below(COUNT(ones))];
}

/* Offers a message at each of four circuits; refused where one is pending. */
static void offer_any(struct call *c)
{
    for (c->circuit = 0; c->circuit < AES18_MOST_CIRCUITS; c->circuit++) {
        c->priority = any_below(AES18_HIGHEST_PRIORITY + 1);
        c->repetition = any_below(AES18_MOST_REPETITIONS + 1);
        put_any_message(c);
        CALL(c, &offer, left(c, c->circuit) > 0 ? AES18_REFUSED_PENDING : AES18_ACCEPTED);
    }
}

/* The stuffed zeros of blocks of any length, with and without system packets, after any offers. */
static void test_any_stuffed(void)
{
    static struct call c;
    int i;

    prepare_listed(&c, &list_sender, &block, four_circuits, sizeof four_circuits);
    for (i = 0; i < 400; i++) {
        offer_any(&c);
        c.n = AES18_FEWEST_BLOCK_BITS + any_below(2000);
        c.u = AES18_FEWEST_BLOCK_BITS + any_below((uint32_t)c.n - AES18_FEWEST_BLOCK_BITS + 1);
        c.length[BLOCK] = (size_t)((c.n + 7) / 8);
        c.system = any_below(3) == 0;
        c.enable = any_below(AES18_ALL_ENABLED + 1);
        c.code = any_below(AES18_HIGHEST_CODE + 1);
        c.length[INPUT] = any_below(AES18_LONGEST_INFORMATION + 1);
        memset(c.bytes[INPUT], 0xFF, c.length[INPUT]);
        CALL(&c, &block, AES18_ACCEPTED);
        is_unstuffed(__LINE__, &c);
        is_used(__LINE__, &c);
    }
}

/* The worst case of a packet's frame. */
static size_t worst_frame(size_t packet)
{
    return 2 * (packet + 2) + 2;
}

/*
 * Packets of the serial line and their frames, made from document 02 by other code. ESCAPES is a packet whose FCS is 7E 7E, ENDS one whose FCS ends
 * in 5D, and in the last one and its FCS each byte is escaped.
 */
enum { ESCAPES = 3, ENDS = 4 };
static const struct {
    uint8_t packet[AES18_LONGEST_PACKET];
    size_t length;
    uint8_t frame[AES18_LONGEST_LINE_FRAME];
    size_t written;
} lines[] = {
    {{0x00, 0x00}, 2, {0x7E, 0x00, 0x00, 0x47, 0x0F, 0x7E}, 6},
    {{0xFF, 0xFF}, 2, {0x7E, 0xFF, 0xFF, 0xFF, 0xFF, 0x7E}, 6},
    {{0x7D, 0x7E}, 2, {0x7E, 0x7D, 0x5D, 0x7D, 0x5E, 0x02, 0xD5, 0x7E}, 8},
    {{0x1B, 0x00}, 2, {0x7E, 0x1B, 0x00, 0x7D, 0x5E, 0x7D, 0x5E, 0x7E}, 8},
    {{0x41, 0xDD}, 2, {0x7E, 0x41, 0xDD, 0x91, 0x5D, 0x7E}, 6},
    {{0x01, 0x80, 0x7D, 0x00, 0x11, 0x13, 0x1F, 0x20, 0x5D, 0x5E, 0x7C, 0x7E, 0x7F, 0xFD, 0xFE, 0xFF, 0x7D, 0x7E, 0x33}, 19,
     {0x7E, 0x01, 0x80, 0x7D, 0x5D, 0x00, 0x11, 0x13, 0x1F, 0x20, 0x5D, 0x5E, 0x7C, 0x7D,
      0x5E, 0x7F, 0xFD, 0xFE, 0xFF, 0x7D, 0x5D, 0x7D, 0x5E, 0x33, 0xFE, 0xB8, 0x7E}, 27},
    {{0x7D, 0x7D, 0x7E, 0x7E, 0x7D, 0x7E, 0x7E, 0x7D, 0x7E, 0x7E, 0x7D, 0x7D, 0x7E, 0x7D, 0x7D, 0x7D, 0x7D, 0x7D, 0x7D}, 19,
     {0x7E, 0x7D, 0x5D, 0x7D, 0x5D, 0x7D, 0x5E, 0x7D, 0x5E, 0x7D, 0x5D, 0x7D, 0x5E, 0x7D, 0x5E, 0x7D, 0x5D, 0x7D, 0x5E, 0x7D, 0x5E, 0x7D,
      0x5D, 0x7D, 0x5D, 0x7D, 0x5E, 0x7D, 0x5D, 0x7D, 0x5D, 0x7D, 0x5D, 0x7D, 0x5D, 0x7D, 0x5D, 0x7D, 0x5D, 0x7D, 0x5E, 0x7D, 0x5D, 0x7E}, 44},
};

/* What a line's writing writes, and that all behind it is kept. */
static void test_line_frames(void)
{
    static struct call c;
    size_t i;

    for (i = 0; i < COUNT(lines); i++) {
        size_t worst = worst_frame(lines[i].length);

        prepare(&c, &line_writing);
        put(&c, INPUT, lines[i].packet, lines[i].length);
        c.length[LINE] = worst + 5;
        c.length[ANSWER] = AES18_LINE_WRITE_ANSWER + 3;
        CALL(&c, &line_writing, AES18_ACCEPTED);
        IS(number(c.bytes[ANSWER] + AES18_LINE_WRITE_BYTES, 8), lines[i].written);
        ALL(c.bytes[ANSWER] + AES18_LINE_WRITE_ANSWER, OLD, 3);
        EQUAL(c.bytes[LINE], lines[i].frame, lines[i].written);
        ALL(c.bytes[LINE] + lines[i].written, OLD, worst + 5 - lines[i].written);
    }
    IS(lines[COUNT(lines) - 1].written, AES18_LONGEST_LINE_FRAME);
    IS(worst_frame(AES18_LONGEST_PACKET), AES18_LONGEST_LINE_FRAME);
}

/* Packets of all lengths into lines of no bytes, one too few and just enough; no frame here needs the worst case. Answers of all lengths. */
static void test_line_write_refusals(void)
{
    static struct call c;
    size_t i;

    prepare(&c, &line_writing);
    for (c.length[ANSWER] = 0; c.length[ANSWER] < AES18_LINE_WRITE_ANSWER; c.length[ANSWER]++)
        CALL(&c, &line_writing, AES18_REFUSED_SHORT);
    for (i = 0; i <= 300; i++) {
        int fits = i >= AES18_SHORTEST_PACKET && i <= AES18_LONGEST_PACKET;

        c.length[INPUT] = i;
        c.length[LINE] = 0;
        CALL(&c, &line_writing, fits ? AES18_REFUSED_LINE : AES18_REFUSED_PACKET);
        c.length[LINE] = worst_frame(i) - 1;
        CALL(&c, &line_writing, fits ? AES18_REFUSED_LINE : AES18_REFUSED_PACKET);
        c.length[LINE] = worst_frame(i);
        CALL(&c, &line_writing, fits ? AES18_ACCEPTED : AES18_REFUSED_PACKET);
    }
    c.length[ANSWER] = AES18_LINE_WRITE_ANSWER - 1;
    CALL(&c, &line_writing, AES18_REFUSED_SHORT);
}

/* A fresh reader of a line. */
static void prepare_reader(struct call *c)
{
    prepare(c, &line_reading);
    memset(c->bytes[RECORD], 0, AES18_LINE_RECORD);
    c->length[PACKET] = AES18_LONGEST_PACKET;
}

/* Reads a stretch of a line up to its end. The packets in it are those of `lines` from number *next on. */
static void read_line(int at, struct call *c, const uint8_t *line, size_t length, size_t *next)
{
    const uint8_t *answer = c->bytes[ANSWER];
    size_t packet, bytes;

    do {
        put(c, INPUT, line, length);
        memset(c->bytes[PACKET], OLD, AES18_LONGEST_PACKET);
        is(at, call(at, c, &line_reading), AES18_ACCEPTED);
        packet = answer[AES18_LINE_READ_PACKET];
        bytes = (size_t)number(answer + AES18_LINE_READ_BYTES, 8);
        all(at, answer + 1, 0, 7);
        if (packet > AES18_LONGEST_PACKET || bytes > length || (packet > 0 && *next == COUNT(lines))) {
            is(at, packet, 0);
            return;
        }
        if (packet > 0) {
            is(at, packet, lines[*next].length);
            equal(at, c->bytes[PACKET], lines[*next].packet, packet);
            ++*next;
        }
        all(at, c->bytes[PACKET] + packet, OLD, AES18_LONGEST_PACKET - packet);
        line += bytes;
        length -= bytes;
    } while (packet > 0);
    is(at, length, 0);
}

#define READ_LINE(c, line, length, next) read_line(__LINE__, c, line, length, next)

/* The line of all these packets, each frame with its own flags, or with the flag of the one before it; its length. */
static size_t put_lines(uint8_t *line, int shared)
{
    size_t i, length = 0;

    for (i = 0; i < COUNT(lines); i++) {
        size_t from = shared && i > 0;

        memcpy(line + length, lines[i].frame + from, lines[i].written - from);
        length += lines[i].written - from;
    }
    return length;
}

/* A line in two parts, cut at every place, and one byte at a time, with reads of no bytes between them. */
static void test_line_cut(int shared)
{
    static const uint8_t behind_flag[AES18_LINE_RECORD] = {1};
    static struct call c;
    uint8_t line[COUNT(lines) * AES18_LONGEST_LINE_FRAME];
    size_t cut, next, length = put_lines(line, shared);

    for (cut = 0; cut <= length; cut++) {
        prepare_reader(&c);
        next = 0;
        READ_LINE(&c, line, cut, &next);
        READ_LINE(&c, line + cut, length - cut, &next);
        IS(next, COUNT(lines));
        EQUAL(c.bytes[RECORD], behind_flag, sizeof behind_flag);
    }
    prepare_reader(&c);
    next = 0;
    for (cut = 0; cut < length; cut++)
        READ_LINE(&c, line + cut, 1, &next);
    IS(next, COUNT(lines));
    EQUAL(c.bytes[RECORD], behind_flag, sizeof behind_flag);
}

/* What holds no packet between two flags: FCS wrong, packets of 0, 1 and 20 bytes with a right FCS, an escape before the flag. */
static const struct {
    uint8_t bytes[24];
    size_t length;
} dropped[] = {
    {{0}, 0},
    {{0}, 1},
    {{0, 0}, 2},
    {{0x41, 0xF5, 0xA3}, 3},
    {{0x61, 0x62, 0x63, 0x25, 0x9E ^ 1}, 5},
    {{0x61, 0x62, 0x63, 0x25, 0x9E, 0x7D}, 6},
    {{0x7D}, 1},
    {{0x7D, 0x7D, 0x7D}, 3},
    {{0x55, 0x55, 0x55, 0x55, 0x55, 0x55, 0x55, 0x55, 0x55, 0x55, 0x55, 0x55, 0x55, 0x55, 0x55, 0x55, 0x55, 0x55, 0x55, 0x55, 0x2B, 0xDB}, 22},
};

/* Each of them before the first flag, and behind a frame; the frames behind it are read. */
static void test_line_dropped(void)
{
    static struct call c;
    size_t i, next;

    for (i = 0; i < COUNT(dropped); i++) {
        prepare_reader(&c);
        next = 0;
        READ_LINE(&c, dropped[i].bytes, dropped[i].length, &next);
        ALL(c.bytes[RECORD], 0, AES18_LINE_RECORD);
        READ_LINE(&c, lines[0].frame, lines[0].written, &next);
        READ_LINE(&c, dropped[i].bytes, dropped[i].length, &next);
        READ_LINE(&c, lines[1].frame, lines[1].written, &next);
        READ_LINE(&c, lines[2].frame, lines[2].written, &next);
        IS(next, 3);
    }
}

/* Escapes that no call writes: each byte of a frame, its FCS too; and 5D as 7D 7D, behind which a flag is a flag. */
static void test_line_escapes(void)
{
    static const uint8_t escaped[] = {0x7E, 0x7D, 0x3B, 0x7D, 0x20, 0x7D, 0x5E, 0x7D, 0x5E, 0x7E};
    static const uint8_t ends[] = {0x7E, 0x41, 0xDD, 0x91, 0x7D, 0x7D, 0x7E};
    static struct call c;
    size_t next = ESCAPES;

    prepare_reader(&c);
    READ_LINE(&c, escaped, sizeof escaped, &next);
    IS(next, ESCAPES + 1);
    READ_LINE(&c, ends, sizeof ends, &next);
    IS(next, ENDS + 1);
}

/* Reads a frame with these lengths of record, packet and answer: it is read, and what stands behind them is kept, or nothing changes. */
static void read_frame(size_t record, size_t packet, size_t answer)
{
    static const uint8_t behind_flag[AES18_LINE_RECORD] = {1}, answered[AES18_LINE_READ_ANSWER] = {2, 0, 0, 0, 0, 0, 0, 0, 6};
    static struct call c;
    int fits = record >= AES18_LINE_RECORD && packet >= AES18_LONGEST_PACKET && answer >= AES18_LINE_READ_ANSWER;

    prepare_reader(&c);
    put(&c, INPUT, lines[0].frame, lines[0].written);
    c.length[RECORD] = record;
    c.length[PACKET] = packet;
    c.length[ANSWER] = answer;
    CALL(&c, &line_reading, fits ? AES18_ACCEPTED : AES18_REFUSED_SHORT);
    if (fits) {
        EQUAL(c.bytes[RECORD], behind_flag, sizeof behind_flag);
        EQUAL(c.bytes[PACKET], lines[0].packet, lines[0].length);
        EQUAL(c.bytes[ANSWER], answered, sizeof answered);
        ALL(c.bytes[RECORD] + AES18_LINE_RECORD, OLD, record - AES18_LINE_RECORD);
        ALL(c.bytes[PACKET] + lines[0].length, OLD, packet - lines[0].length);
        ALL(c.bytes[ANSWER] + AES18_LINE_READ_ANSWER, OLD, answer - AES18_LINE_READ_ANSWER);
    }
}

/* Records, packets and answers of all lengths. */
static void test_line_lengths(void)
{
    size_t i;

    for (i = 0; i <= AES18_LINE_RECORD + 5; i++)
        read_frame(i, AES18_LONGEST_PACKET, AES18_LINE_READ_ANSWER);
    for (i = 0; i <= AES18_LONGEST_PACKET + 5; i++)
        read_frame(AES18_LINE_RECORD, i, AES18_LINE_READ_ANSWER);
    for (i = 0; i <= AES18_LINE_READ_ANSWER + 5; i++)
        read_frame(AES18_LINE_RECORD, AES18_LONGEST_PACKET, i);
    read_frame(0, 0, 0);
    read_frame(AES18_LINE_RECORD + 5, AES18_LONGEST_PACKET + 5, AES18_LINE_READ_ANSWER + 5);
}

/* The record behind some bytes of a line, from a fresh one. */
static void test_line_records(void)
{
    static const struct {
        uint8_t line[24];
        size_t length;
        uint8_t record[AES18_LINE_RECORD];
    } cases[] = {
        {{0}, 0, {0}},
        {{9, 0x7D}, 2, {0}},
        {{9, 0x7E}, 2, {1}},
        {{0x7E, 0x7D}, 2, {1, 1}},
        {{0x7E, 9, 0x7D}, 3, {1, 1, 1, 9}},
        {{0x7E, 9, 0x7D, 0x5E}, 4, {1, 0, 2, 9, 0x7E}},
        {{0x7E, 9, 0x7D, 0x7D}, 4, {1, 0, 2, 9, 0x5D}},
        {{0x7E, 9, 0x7D, 0x7E}, 4, {1}},
        {{0x7E, 1, 2, 3, 4, 5, 6, 7, 8, 9, 10, 11, 12, 13, 14, 15, 16, 17, 18, 19, 20, 21}, 22,
         {1, 0, 21, 1, 2, 3, 4, 5, 6, 7, 8, 9, 10, 11, 12, 13, 14, 15, 16, 17, 18, 19, 20, 21}},
        {{0x7E, 1, 2, 3, 4, 5, 6, 7, 8, 9, 10, 11, 12, 13, 14, 15, 16, 17, 18, 19, 20, 21, 22}, 23, {1, 0, 22}},
        {{0x7E, 1, 2, 3, 4, 5, 6, 7, 8, 9, 10, 11, 12, 13, 14, 15, 16, 17, 18, 19, 20, 21, 22, 0x7D}, 24, {1, 1, 22}},
    };
    static struct call c;
    size_t i, next = 0;

    for (i = 0; i < COUNT(cases); i++) {
        prepare_reader(&c);
        READ_LINE(&c, cases[i].line, cases[i].length, &next);
        EQUAL(c.bytes[RECORD], cases[i].record, AES18_LINE_RECORD);
    }
    IS(next, 0);
}

/* Records of any bytes: a read of no bytes makes 0 or 1 of bytes 0 and 1, and behind a flag the record is like any other. */
static void test_line_garbage(void)
{
    static const uint8_t flag[] = {0x7E}, behind_flag[AES18_LINE_RECORD] = {1};
    static struct call c;
    size_t i, k, next;

    for (i = 0; i < 256; i++) {
        prepare_reader(&c);
        for (k = 0; k < AES18_LINE_RECORD; k++)
            c.bytes[RECORD][k] = (uint8_t)(i + i % 5 * k);
        next = 0;
        READ_LINE(&c, flag, 0, &next);
        IS(c.bytes[RECORD][0], i != 0);
        IS(c.bytes[RECORD][1], (i + i % 5) % 256 != 0);
        READ_LINE(&c, flag, sizeof flag, &next);
        EQUAL(c.bytes[RECORD], behind_flag, sizeof behind_flag);
        READ_LINE(&c, lines[0].frame, lines[0].written, &next);
        IS(next, 1);
    }
}

/* Records of all counts, with 19 bytes and their FCS: a flag hands them over only at 21, inside and not behind an escape. */
static void test_line_counts(void)
{
    static const uint8_t starts[][2] = {{0, 0}, {255, 0}, {0, 255}, {255, 255}};
    static const uint8_t line[] = {0x7E, 0x33}, fcs[] = {0x66, 0xA9}, more[AES18_LINE_RECORD] = {1, 0, 22};
    static struct call c;
    size_t i;

    for (i = 0; i < 256 * COUNT(starts); i++) {
        uint8_t record[AES18_LINE_RECORD], start = (uint8_t)(i % COUNT(starts)), count = (uint8_t)(i / COUNT(starts));
        int passes = start == 1 && count == AES18_LONGEST_PACKET + 2;

        memset(record, 0x33, sizeof record);
        memcpy(record, starts[start], 2);
        record[2] = count;
        memcpy(record + sizeof record - 2, fcs, 2);
        prepare_reader(&c);
        put(&c, RECORD, record, sizeof record);
        put(&c, INPUT, line, 1);
        CALL(&c, &line_reading, AES18_ACCEPTED);
        IS(c.bytes[ANSWER][AES18_LINE_READ_PACKET], passes ? AES18_LONGEST_PACKET : 0);
        ALL(c.bytes[PACKET], passes ? 0x33 : OLD, AES18_LONGEST_PACKET);
        put(&c, RECORD, record, sizeof record);
        put(&c, INPUT, line + 1, 1);
        CALL(&c, &line_reading, AES18_ACCEPTED);
        if (starts[start][0] != 0 && count > 20)
            EQUAL(c.bytes[RECORD], more, sizeof more);
    }
}

/* The arrays of a call side by side: arrays that touch do not overlap. */
static void test_line_side_by_side(void)
{
    enum { WORST = 2 * (2 + 2) + 2, ANSWERED = 2 + WORST, WRITTEN = ANSWERED + AES18_LINE_WRITE_ANSWER };
    enum { READ = AES18_LINE_RECORD + 8, GIVEN = READ + AES18_LONGEST_PACKET, ALL_READ = GIVEN + AES18_LINE_READ_ANSWER };
    uint8_t written[WRITTEN], read[ALL_READ];

    memset(written, OLD, sizeof written);
    memcpy(written, lines[ESCAPES].packet, 2);
    IS(aes18_line_write(written, 2, written + 2, WORST, written + ANSWERED, AES18_LINE_WRITE_ANSWER), AES18_ACCEPTED);
    EQUAL(written, lines[ESCAPES].packet, 2);
    EQUAL(written + 2, lines[ESCAPES].frame, 8);
    ALL(written + 10, OLD, ANSWERED - 10);
    IS(number(written + ANSWERED, 8), 8);
    memset(read, 0, sizeof read);
    memcpy(read + AES18_LINE_RECORD, lines[ESCAPES].frame, 8);
    IS(aes18_line_read(read, AES18_LINE_RECORD, read + AES18_LINE_RECORD, 8, read + READ, AES18_LONGEST_PACKET, read + GIVEN,
                       AES18_LINE_READ_ANSWER), AES18_ACCEPTED);
    EQUAL(read + AES18_LINE_RECORD, lines[ESCAPES].frame, 8);
    EQUAL(read + READ, lines[ESCAPES].packet, 2);
    ALL(read + READ + 2, 0, AES18_LONGEST_PACKET - 2);
    IS(read[GIVEN + AES18_LINE_READ_PACKET], 2);
    IS(number(read + GIVEN + AES18_LINE_READ_BYTES, 8), 8);
}

/* The tests of ends, which lend a long buffer or none. */
static void test_ends(void)
{
    size_t circuits;

    test_offer();
    test_block_refusals();
    test_empty_block();
    test_system();
    test_read_refusals();
    test_outside(&list_sender, &offer, senders_outside, COUNT(senders_outside));
    test_outside(&list_sender, &block, senders_outside, COUNT(senders_outside));
    test_outside(&list_receiver, &reading, receivers_outside, COUNT(receivers_outside));
    test_records();
    test_framing();
    test_notices();
    test_framing_of_receiver();
    test_pass(AES18_FEWEST_BLOCK_BITS);
    test_pass(1003);
    test_pass(AES18_MOST_BLOCK_BITS);
    test_enable();
    test_none_enabled();
    test_enable_refused();
    test_enable_range(0, AES18_REFUSED_CIRCUIT);
    test_enable_range(1, AES18_ACCEPTED);
    test_enable_range(4, AES18_ACCEPTED);
    for (circuits = 1; circuits <= AES18_MOST_CIRCUITS; circuits++) {
        test_left(circuits);
        test_left_range(circuits);
    }
    test_left_copies(0);
    test_left_copies(1);
    test_left_copies(AES18_MOST_REPETITIONS);
    test_sender_lengths();
    test_stuffed();
    test_answer_lengths();
    test_any_stuffed();
}

/* The others. */
static void test_apart(void)
{
    test_listing(&list_sender, no_sender);
    test_listing(&list_receiver, no_receiver);
    test_framing_cut();
    test_framing_refusals();
    test_framings_outside();
    test_framing_lengths();
    test_framing_side_by_side();
    test_noting_lengths();
    test_noting_side_by_side();
    test_figures();
    test_uncounted();
    test_totals();
    test_line_frames();
    test_line_write_refusals();
    test_line_cut(0);
    test_line_cut(1);
    test_line_dropped();
    test_line_escapes();
    test_line_lengths();
    test_line_records();
    test_line_garbage();
    test_line_counts();
    test_line_side_by_side();
}

static void test_all(void)
{
    testing = "tests/c-interface.c";
    test_apart();
    lend_alone();
    test_ends();
    lend_beside();
    test_ends();
    testing = "tests/c-long.c";
    test_long();
}

int main(void)
{
    int i;

    make_arenas();
    lend_nowhere();
    test_all();
    lend_behind();
    test_all();
    for (i = AES18_REFUSED_LIST; i <= AES18_REFUSED_LONG_BUFFER; i++)
        IS((uint64_t)refused[i], 1);
    IS((uint64_t)refused[AES18_REFUSED_SHORT], 1);
    for (i = AES18_NOTICE_END; i <= AES18_NOTICE_CIRCUIT; i++)
        IS((uint64_t)noticed[i], 1);
    for (i = AES18_FATE_COPY; i <= AES18_FATE_WRONG; i++)
        IS((uint64_t)became[i], 1);
    return failures == 0 ? EXIT_SUCCESS : EXIT_FAILURE;
}
