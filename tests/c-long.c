/*
 * Long messages, called from C: offered, sent in blocks that are held bit for bit against those that the papers give, and read. What is expected is made
 * here from document 01 and ask 7 of document 02, without the library.
 */
#include "c-calls.h"

#include <string.h>

enum { SEGMENT = 16, HEADER = 2, BEHIND = 5, FULL = AES18_LONG_BUFFER + BEHIND };

/* The bytes that messages are made of, from any place on: squares, with bytes of ones that stuffing adds to. */
static uint8_t text[AES18_LONGEST_LONG_MESSAGE + 64];

static void make_text(void)
{
    size_t i;

    for (i = 0; i < sizeof text; i++)
        text[i] = i % 7 == 3 ? 0xFF : (uint8_t)(i * i % 257);
}

/* Bits, one behind the other. */
struct bits {
    uint8_t bytes[AES18_LONGEST_BLOCK + 32];
    size_t end;
};

static void put_bit(struct bits *b, unsigned bit)
{
    uint8_t *byte = &b->bytes[b->end / 8];
    unsigned mask = 1u << b->end % 8;

    *byte = (uint8_t)(bit ? *byte | mask : *byte & ~mask);
    b->end++;
}

static void put_flag(struct bits *b)
{
    int i;

    for (i = 0; i < 8; i++)
        put_bit(b, i > 0 && i < 7);
}

/* HDLC's FCS of 16 bits, from its polynomial with the lowest term first. */
static unsigned fcs_of(const uint8_t *bytes, size_t length)
{
    unsigned fcs = 0xFFFF;
    size_t i;

    for (i = 0; i < 8 * length; i++) {
        unsigned out = (fcs ^ (unsigned)bytes[i / 8] >> i % 8) & 1;

        fcs = fcs >> 1 ^ (out ? 0x8408u : 0);
    }
    return fcs ^ 0xFFFF;
}

/* A packet and its FCS, stuffed, and a flag behind them. How many zeros are stuffed. */
static size_t put_frame(struct bits *b, const uint8_t *packet, size_t length)
{
    uint8_t body[AES18_LONGEST_PACKET + 2];
    unsigned fcs = fcs_of(packet, length), ones = 0;
    size_t i, zeros = 0;

    memcpy(body, packet, length);
    body[length] = (uint8_t)(fcs & 255);
    body[length + 1] = (uint8_t)(fcs >> 8);
    for (i = 0; i < 8 * (length + 2); i++) {
        unsigned bit = (unsigned)body[i / 8] >> i % 8 & 1;

        put_bit(b, bit);
        ones = bit ? ones + 1 : 0;
        if (ones == 5) {
            put_bit(b, 0);
            zeros++;
            ones = 0;
        }
    }
    put_flag(b);
    return zeros;
}

/* A long message at circuit 0, address 01, and which of its copies is next. `first` is the index of its first packet. */
struct message {
    const uint8_t *bytes;
    size_t length;
    unsigned priority, repetition, first;
    size_t packet;
    unsigned copy;
};

/* Its packets: header and message are cut into segments of 16 bytes. */
static size_t packets_of(const struct message *m)
{
    return (HEADER + m->length + SEGMENT - 1) / SEGMENT;
}

/* Byte i of header and message. */
static uint8_t byte_of(const struct message *m, size_t i)
{
    return i == 0 ? 0x1F : i == 1 ? 0xFF : m->bytes[i - HEADER];
}

/* The packet that is next; its length. */
static size_t put_packet(const struct message *m, uint8_t *packet)
{
    unsigned link = m->packet == 0 ? 2 : m->packet + 1 == packets_of(m) ? 1 : 0, index = (m->first + (unsigned)(m->packet % 8)) % 8;
    size_t i, from = SEGMENT * m->packet;

    packet[0] = 0x01;
    packet[1] = (uint8_t)(link << 6 | index << 2 | m->priority);
    for (i = 0; i < SEGMENT && from + i < HEADER + m->length; i++)
        packet[2 + i] = byte_of(m, from + i);
    return 2 + i;
}

/* On to the next copy. */
static void step(struct message *m)
{
    if (m->copy++ == m->repetition) {
        m->copy = 0;
        m->packet++;
    }
}

/* A block of which nothing else waits. */
struct expected {
    struct bits bits;
    size_t placed, used, zeros;
};

/* The block with the copies that are next, as many as fit; they wait no more. */
static void expect_block(struct expected *e, struct message *m, size_t n, size_t u)
{
    uint8_t packet[AES18_LONGEST_PACKET];
    size_t zeros;

    memset(e, 0, sizeof *e);
    put_flag(&e->bits);
    e->used = e->bits.end;
    while (m->packet < packets_of(m)) {
        zeros = put_frame(&e->bits, packet, put_packet(m, packet));
        if (e->bits.end > u)
            break;
        e->used = e->bits.end;
        e->zeros += zeros;
        e->placed++;
        step(m);
    }
    for (e->bits.end = e->used; e->bits.end < n;)
        put_bit(&e->bits, 1);
    for (; e->bits.end % 8 > 0;)
        put_bit(&e->bits, 0);
}

/* A number of two bytes, lowest first. */
static void put_number(uint8_t *bytes, size_t value)
{
    bytes[0] = (uint8_t)(value & 255);
    bytes[1] = (uint8_t)(value >> 8);
}

/* The slot of circuit 0 in a sender's record. */
static void is_sent(int line, const struct call *s, const struct message *m)
{
    uint8_t slot[AES18_SENDER_CIRCUIT_BYTES];

    slot[0] = (uint8_t)((m->first + m->packet) % 8);
    slot[1] = (uint8_t)m->priority;
    slot[2] = (uint8_t)m->repetition;
    slot[3] = (uint8_t)m->copy;
    put_number(slot + 4, m->length);
    put_number(slot + 6, m->packet);
    put_number(slot + 8, packets_of(m) - m->packet);
    equal(line, s->bytes[RECORD] + 13, slot, sizeof slot);
    is(line, left(s, 0), packets_of(m) - m->packet);
}

/* The slot of circuit 0 in a receiver's record: the last index, and how much of a message of so many bytes at most has come, if one is open. */
static void is_heard(int line, const struct call *r, size_t index, size_t most, size_t place)
{
    uint8_t slot[6];

    slot[0] = 1;
    slot[1] = (uint8_t)index;
    put_number(slot + 2, most);
    put_number(slot + 4, place);
    equal(line, r->bytes[RECORD] + 13, slot, sizeof slot);
}

/* A notice of circuit 0: the loss, the fate and, at WHOLE, the length. */
static void is_told(int line, const struct call *r, size_t loss, size_t fate, size_t length)
{
    uint8_t answer[8] = {AES18_NOTICE_CIRCUIT, 0, 0, 0, 0, 0, 0, 0};

    answer[AES18_READ_LOSS] = (uint8_t)loss;
    answer[AES18_READ_FATE] = (uint8_t)fate;
    put_number(answer + AES18_READ_MESSAGE, length);
    equal(line, r->bytes[ANSWER], answer, sizeof answer);
}

/* The first bytes of the buffer are these, and all others are old. */
static void is_collected(int line, const struct call *c, const uint8_t *bytes, size_t length)
{
    equal(line, c->bytes[BUFFER], bytes, length);
    all(line, c->bytes[BUFFER] + length, OLD, c->length[BUFFER] - length);
}

/* A freshly listed end, with a long buffer of some bytes more than it needs. */
static void prepare_end(struct call *c, const struct function *list, const struct function *f)
{
    prepare_listed(c, list, f, two_circuits, sizeof two_circuits);
    c->length[BUFFER] = FULL;
    c->system = c->circuit = c->priority = c->repetition = c->from = 0;
}

/* Offers a long message. Neither the store nor what is behind the message in the buffer is written. */
static void offer_message(struct call *s, const struct message *m)
{
    put(s, INPUT, m->bytes, m->length);
    s->priority = m->priority;
    s->repetition = m->repetition;
    CALL(s, &offer_long, AES18_ACCEPTED);
    is_collected(__LINE__, s, m->bytes, m->length);
    is_sent(__LINE__, s, m);
}

/* Reads a block in parts of 100 bits. Each notice on the way is that of the copy that is next. */
static void read_message(struct call *r, const struct call *s, struct message *m)
{
    put(r, INPUT, s->bytes[BLOCK], s->length[BLOCK]);
    for (r->from = 0; r->from < s->n;) {
        size_t packets = packets_of(m), came = SEGMENT * (m->packet + 1) - HEADER, index = (m->first + m->packet) % 8;
        int whole = m->packet + 1 == packets;

        r->to = r->from + 100 < s->n ? r->from + 100 : s->n;
        READ_ON(r);
        if (r->bytes[ANSWER][AES18_READ_NOTICE] == AES18_NOTICE_END)
            continue;
        is_told(__LINE__, r, 0, m->copy > 0 ? AES18_FATE_COPY : m->packet == 0 ? AES18_FATE_BEGUN : whole ? AES18_FATE_WHOLE : AES18_FATE_HELD,
                whole && m->copy == 0 ? m->length : 0);
        is_heard(__LINE__, r, index, whole ? 0 : AES18_LONGEST_LONG_MESSAGE, whole ? 0 : came);
        is_collected(__LINE__, r, m->bytes, whole ? m->length : came);
        step(m);
    }
}

/* A message of so many bytes and packets goes over in blocks of n bits of which u may be used. */
static void test_length(size_t length, size_t packets, unsigned repetition, size_t n, size_t u)
{
    static struct call s, r;
    static struct expected e;
    struct message m = {0}, heard;

    m.bytes = text;
    m.length = length;
    m.priority = 2;
    m.repetition = repetition;
    heard = m;
    IS(packets_of(&m), packets);
    prepare_end(&s, &list_sender, &block_beside);
    prepare_end(&r, &list_receiver, &read_beside);
    offer_message(&s, &m);
    s.n = n;
    s.u = u;
    s.length[BLOCK] = (n + 7) / 8;
    do {
        expect_block(&e, &m, n, u);
        CALL(&s, &block_beside, AES18_ACCEPTED);
        EQUAL(s.bytes[BLOCK], e.bits.bytes, s.length[BLOCK]);
        IS(number(s.bytes[ANSWER] + AES18_BLOCK_PLACED, 4), e.placed);
        IS(number(s.bytes[ANSWER] + AES18_BLOCK_USED, 4), e.used);
        IS(number(s.bytes[ANSWER] + AES18_BLOCK_ZEROS, 4), e.zeros);
        is_sent(__LINE__, &s, &m);
        read_message(&r, &s, &heard);
    } while (e.placed > 0);
    IS(heard.packet, packets);
    ALL(r.bytes[STORE], OLD, AES18_RECEIVER_STORE);
}

/* Everything is wrong with a long offer at first; then one thing after the other is put right. */
static void test_offer_refusals(void)
{
    static const size_t outside[] = {0, 1, 4094, 65536, 65537};
    static const uint8_t slots[][10] = {{0, 3, 5, 0, 0xFF, 0x0F, 0, 0, 0x01, 0x01}, {0, 3, 5, 0, 0xFF, 0xFF, 0, 0, 0x01, 0x10}};
    static struct call c;
    size_t i, k;

    for (k = 0; k < COUNT(slots); k++) {
        prepare_end(&c, &list_sender, &offer_long);
        c.priority = c.repetition = UINT64_MAX;
        c.length[INPUT] = 0;
        test_lent(&c, &offer_long);
        c.bytes[RECORD][0] = 0;
        CALL(&c, &offer_long, AES18_REFUSED_CIRCUIT);
        c.bytes[RECORD][0] = 2;
        TOO_HIGH(&c, &offer_long, &c.priority, AES18_HIGHEST_PRIORITY, AES18_REFUSED_PRIORITY);
        TOO_HIGH(&c, &offer_long, &c.repetition, AES18_MOST_REPETITIONS, AES18_REFUSED_REPETITION);
        for (i = 0; i < COUNT(outside); i++) {
            c.length[INPUT] = outside[i];
            CALL(&c, &offer_long, AES18_REFUSED_LONG_LENGTH);
        }
        put(&c, INPUT, text, k == 0 ? AES18_SHORTEST_LONG_MESSAGE : AES18_LONGEST_LONG_MESSAGE);
        CALL(&c, &offer_long, AES18_ACCEPTED);
        is_collected(__LINE__, &c, text, c.length[INPUT]);
        EQUAL(c.bytes[RECORD], two_listed, sizeof two_listed);
        EQUAL(c.bytes[RECORD] + 13, slots[k], sizeof slots[k]);
        CALL(&c, &offer_long, AES18_REFUSED_PENDING);
        c.length[INPUT] = AES18_LONGEST_MESSAGE;
        CALL(&c, &offer_long, AES18_REFUSED_LONG_LENGTH);
    }
}

/* While a long message is pending, circuit 0 takes no other, long or not. Circuit 1 takes its own. */
static void test_pending(void)
{
    static struct call c;

    prepare_end(&c, &list_sender, &offer_long);
    put(&c, INPUT, text, AES18_SHORTEST_LONG_MESSAGE);
    CALL(&c, &offer_long, AES18_ACCEPTED);
    CALL(&c, &offer_beside, AES18_REFUSED_MESSAGE);
    c.length[INPUT] = 0;
    CALL(&c, &offer_beside, AES18_REFUSED_PENDING);
    c.circuit = 1;
    CALL(&c, &offer_beside, AES18_ACCEPTED);
    CALL(&c, &offer_beside, AES18_REFUSED_PENDING);
    put(&c, INPUT, text, AES18_SHORTEST_LONG_MESSAGE);
    CALL(&c, &offer_long, AES18_REFUSED_PENDING);
    IS(left(&c, 0), 257);
    IS(left(&c, 1), 1);
}

/* A function answers a call with a buffer that is long enough, and refuses it with one that is not. */
static void with_buffers(int line, const struct call *given, const struct function *f, uint32_t answered)
{
    static const size_t lengths[] = {0, 1, 4095, 16384, 65534, 65535, 65536, FULL};
    static struct call c;
    size_t i;

    for (i = 0; i < COUNT(lengths); i++) {
        c = *given;
        c.length[BUFFER] = lengths[i];
        is(line, call(line, &c, f), lengths[i] < AES18_LONG_BUFFER ? AES18_REFUSED_LONG_BUFFER : answered);
    }
}

#define WITH_BUFFERS(c, f, answered) with_buffers(__LINE__, c, f, answered)

/* A sender: fresh, with a long message pending and placed, and with a shorter one taken behind it, which calls without a buffer accept. */
static void test_sender_buffers(void)
{
    static struct call c;

    prepare_end(&c, &list_sender, &block_beside);
    put(&c, INPUT, text, AES18_SHORTEST_LONG_MESSAGE);
    WITH_BUFFERS(&c, &offer_long, AES18_ACCEPTED);
    CALL(&c, &offer_long, AES18_ACCEPTED);
    WITH_BUFFERS(&c, &offer_long, AES18_REFUSED_PENDING);
    c.length[INPUT] = 0;
    c.circuit = 1;
    WITH_BUFFERS(&c, &offer_beside, AES18_ACCEPTED);
    c.n = c.u = AES18_MOST_BLOCK_BITS;
    c.length[BLOCK] = AES18_LONGEST_BLOCK;
    WITH_BUFFERS(&c, &block_beside, AES18_ACCEPTED);
    while (left(&c, 0) > 0) {
        CALL(&c, &block_alone, AES18_REFUSED_RECORD);
        CALL(&c, &block_beside, AES18_ACCEPTED);
    }
    CALL(&c, &block_alone, AES18_REFUSED_RECORD);
    CALL(&c, &offer_alone, AES18_REFUSED_RECORD);
    WITH_BUFFERS(&c, &offer_beside, AES18_ACCEPTED);
    c.circuit = 0;
    CALL(&c, &offer_beside, AES18_ACCEPTED);
    CALL(&c, &block_alone, AES18_ACCEPTED);
}

/* A fresh receiver, to hear single packets. */
static void prepare_receiver(struct call *r)
{
    prepare_end(r, &list_receiver, &read_beside);
}

/* Hears a packet in its frame, with a flag before and behind; the answer is that of its notice. */
static void hear(int line, struct call *r, const uint8_t *packet, size_t length)
{
    static struct bits b;
    uint8_t answer[AES18_READ_ANSWER];

    memset(&b, 0, sizeof b);
    put_flag(&b);
    put_frame(&b, packet, length);
    put(r, INPUT, b.bytes, (b.end + 7) / 8);
    r->from = 0;
    r->to = b.end;
    read_on(line, r);
    memcpy(answer, r->bytes[ANSWER], sizeof answer);
    is(line, r->from, b.end);
    read_on(line, r);
    is(line, r->bytes[ANSWER][AES18_READ_NOTICE], AES18_NOTICE_END);
    memcpy(r->bytes[ANSWER], answer, sizeof answer);
}

/* A packet of circuit 0 with these link bits (2 first, 0 between, 1 last), this index and a segment of text. */
static void hear_text(int line, struct call *r, unsigned link, size_t index, const uint8_t *segment, size_t length)
{
    uint8_t packet[AES18_LONGEST_PACKET + 1];

    packet[0] = 0x01;
    packet[1] = (uint8_t)(link << 6 | (index % 8) << 2);
    memcpy(packet + 2, segment, length);
    hear(line, r, packet, 2 + length);
}

enum { BETWEEN, LAST, FIRST };

#define HEAR(r, link, index, segment, length) hear_text(__LINE__, r, link, index, segment, length)
#define IS_TOLD(r, loss, fate, length) is_told(__LINE__, r, loss, fate, length)
#define IS_HEARD(r, index, most, place) is_heard(__LINE__, r, index, most, place)
#define IS_COLLECTED(r, bytes, length) is_collected(__LINE__, r, bytes, length)

/* A receiver: fresh, with a long message open and with none any longer, which calls without a buffer accept. */
static void test_receiver_buffers(void)
{
    static struct call r;
    uint8_t segment[SEGMENT] = {0x1F, 0xFF};

    prepare_receiver(&r);
    r.to = 0;
    WITH_BUFFERS(&r, &read_beside, AES18_ACCEPTED);
    CALL(&r, &read_alone, AES18_ACCEPTED);
    HEAR(&r, FIRST, 0, segment, SEGMENT);
    r.from = r.to;
    WITH_BUFFERS(&r, &read_beside, AES18_ACCEPTED);
    CALL(&r, &read_alone, AES18_REFUSED_RECORD);
    HEAR(&r, LAST, 1, segment, SEGMENT);
    r.from = r.to;
    CALL(&r, &read_alone, AES18_ACCEPTED);
}

/* First packets whose header has the length 4095, or does not: the header, the length of the segment, and the fate. */
static const struct {
    uint8_t header[2];
    size_t segment;
    uint8_t fate;
    int is_long;
} firsts[] = {
    {{0x1F, 0xFF}, 16, AES18_FATE_BEGUN, 1}, {{0xFF, 0xFF}, 16, AES18_FATE_BEGUN, 1}, {{0x3F, 0xFF}, 16, AES18_FATE_BEGUN, 1},
    {{0x1F, 0xFF}, 15, AES18_FATE_WRONG, 0}, {{0x1F, 0xFF}, 2, AES18_FATE_WRONG, 0},  {{0x1F, 0xFF}, 1, AES18_FATE_WRONG, 0},
    {{0x1F, 0xFE}, 16, AES18_FATE_BEGUN, 0}, {{0x1F, 0xFE}, 15, AES18_FATE_WRONG, 0}, {{0x0F, 0xFF}, 16, AES18_FATE_WHOLE, 0},
};

static void test_first_packets(void)
{
    static struct call r;
    size_t i;

    for (i = 0; i < COUNT(firsts); i++) {
        uint8_t segment[SEGMENT];
        size_t most = firsts[i].is_long ? AES18_LONGEST_LONG_MESSAGE : firsts[i].fate == AES18_FATE_BEGUN ? AES18_LONGEST_MESSAGE : 0;

        memcpy(segment, firsts[i].header, HEADER);
        memcpy(segment + HEADER, text, SEGMENT - HEADER);
        prepare_receiver(&r);
        HEAR(&r, FIRST, 5, segment, firsts[i].segment);
        IS_TOLD(&r, 0, firsts[i].fate, firsts[i].fate == AES18_FATE_WHOLE ? 15 : 0);
        IS_HEARD(&r, 5, most, most > 0 ? 14 : 0);
        IS_COLLECTED(&r, text, firsts[i].is_long ? 14 : 0);
        if (firsts[i].is_long || firsts[i].fate == AES18_FATE_WRONG)
            ALL(r.bytes[STORE], OLD, AES18_RECEIVER_STORE);
    }
}

/* At circuit 1, and without a buffer, such a first packet is wrong, and what comes behind it has no message. */
static void test_elsewhere(void)
{
    static struct call r;
    uint8_t packet[AES18_LONGEST_PACKET] = {0x02, 0xA0, 0x07, 0x1F, 0xFF};

    prepare_receiver(&r);
    hear(__LINE__, &r, packet, sizeof packet);
    IS(r.bytes[ANSWER][AES18_READ_CIRCUIT], 1);
    IS(r.bytes[ANSWER][AES18_READ_FATE], AES18_FATE_WRONG);
    packet[1] = 0x24;
    hear(__LINE__, &r, packet, sizeof packet);
    IS(r.bytes[ANSWER][AES18_READ_FATE], AES18_FATE_ORPHAN);
    IS_COLLECTED(&r, text, 0);
    lend_alone();
    prepare_end(&r, &list_receiver, &read_alone);
    HEAR(&r, FIRST, 0, packet + 3, SEGMENT);
    IS_TOLD(&r, 0, AES18_FATE_WRONG, 0);
    HEAR(&r, BETWEEN, 1, packet + 3, SEGMENT);
    IS_TOLD(&r, 0, AES18_FATE_ORPHAN, 0);
    lend_beside();
    ALL(r.bytes[STORE], OLD, AES18_RECEIVER_STORE);
}

/* Goes on with an open message by packets between, up to so many of its bytes, of which `place` are collected. The index of the next packet. */
static size_t go_on(struct call *r, size_t index, const uint8_t *bytes, size_t place, size_t length)
{
    for (; place < length; place += SEGMENT) {
        HEAR(r, BETWEEN, index++, bytes + place, SEGMENT);
        IS_TOLD(r, 0, AES18_FATE_HELD, 0);
    }
    IS(place, length);
    IS_HEARD(r, (index + 7) % 8, AES18_LONGEST_LONG_MESSAGE, length);
    EQUAL(r->bytes[BUFFER], bytes, length);
    return index;
}

/* Begins a message and goes on with it, up to so many bytes: 14 and a multiple of 16. */
static size_t collect(struct call *r, size_t index, const uint8_t *bytes, size_t length)
{
    uint8_t segment[SEGMENT] = {0x1F, 0xFF};

    memcpy(segment + HEADER, bytes, SEGMENT - HEADER);
    HEAR(r, FIRST, index, segment, SEGMENT);
    IS_TOLD(r, 0, AES18_FATE_BEGUN, 0);
    return go_on(r, index + 1, bytes, SEGMENT - HEADER, length);
}

/* Messages that end at the edges: so many bytes, of each case as many as of the one before or more, then a packet between or last. */
static void test_edges(void)
{
    static const struct {
        size_t place;
        unsigned link;
        size_t bytes;
        uint8_t fate;
    } cases[] = {
        {14, LAST, 16, AES18_FATE_WRONG},      {4078, LAST, 15, AES18_FATE_WRONG},     {4078, LAST, 16, AES18_FATE_WRONG},
        {4078, BETWEEN, 15, AES18_FATE_WRONG}, {4094, LAST, 1, AES18_FATE_WHOLE},      {4094, LAST, 16, AES18_FATE_WHOLE},
        {4110, LAST, 1, AES18_FATE_WHOLE},     {65502, BETWEEN, 16, AES18_FATE_HELD},  {65518, BETWEEN, 16, AES18_FATE_HELD},
        {65518, LAST, 16, AES18_FATE_WHOLE},   {65534, BETWEEN, 16, AES18_FATE_WRONG}, {65534, BETWEEN, 1, AES18_FATE_WRONG},
        {65534, LAST, 1, AES18_FATE_WHOLE},    {65534, LAST, 2, AES18_FATE_WRONG},     {65534, LAST, 16, AES18_FATE_WRONG},
    };
    static struct call before, r;
    size_t i, place = SEGMENT - HEADER, index;

    prepare_receiver(&before);
    index = collect(&before, 0, text, place);
    for (i = 0; i < COUNT(cases); i++) {
        size_t end = cases[i].place + cases[i].bytes;
        int held = cases[i].fate == AES18_FATE_HELD, whole = cases[i].fate == AES18_FATE_WHOLE;

        index = go_on(&before, index, text, place, cases[i].place);
        place = cases[i].place;
        r = before;
        HEAR(&r, cases[i].link, index, text + place, cases[i].bytes);
        IS_TOLD(&r, 0, cases[i].fate, whole ? end : 0);
        IS_HEARD(&r, index % 8, held ? AES18_LONGEST_LONG_MESSAGE : 0, held ? end : 0);
        IS_COLLECTED(&r, text, held || whole ? end : place);
        ALL(r.bytes[STORE], OLD, AES18_RECEIVER_STORE);
    }
}

/* What a packet makes of a message that may have `most` bytes and has `place`, as a record says that no call need have made. */
static void hear_at(size_t most, size_t place, unsigned link, size_t bytes)
{
    static struct call r;
    size_t end = place + bytes;
    int open = place < most, whole = open && link == LAST && end >= AES18_SHORTEST_LONG_MESSAGE && end <= most;
    int held = open && link == BETWEEN && bytes == SEGMENT && end < most;

    prepare_receiver(&r);
    r.bytes[RECORD][13] = 1;
    r.bytes[RECORD][14] = 6;
    put_number(r.bytes[RECORD] + 15, most);
    put_number(r.bytes[RECORD] + 17, place);
    HEAR(&r, link, 7, text, bytes);
    IS_TOLD(&r, 0, !open ? AES18_FATE_ORPHAN : whole ? AES18_FATE_WHOLE : held ? AES18_FATE_HELD : AES18_FATE_WRONG, whole ? end : 0);
    if (open)
        IS_HEARD(&r, 7, held ? most : 0, held ? end : 0);
    ALL(r.bytes[STORE], OLD, AES18_RECEIVER_STORE);
    ALL(r.bytes[BUFFER], OLD, place);
    if (whole || held)
        EQUAL(r.bytes[BUFFER] + place, text, bytes);
    else
        end = place;
    ALL(r.bytes[BUFFER] + end, OLD, FULL - end);
}

/* Every length that an open message may have at most, at its edges, and every place about them. */
static void test_open_lengths(void)
{
    static const size_t mosts[] = {4095, 4096, 4110, 20000, 65534, 65535};
    size_t i, k, bytes;

    for (i = 0; i < COUNT(mosts); i++) {
        const size_t places[] = {0, 14, 4078, 4079, 4080, 4094, mosts[i] - 17, mosts[i] - 16, mosts[i] - 15, mosts[i] - 2, mosts[i] - 1, mosts[i]};

        for (k = 0; k < COUNT(places); k++)
            for (bytes = 1; bytes <= SEGMENT; bytes++) {
                hear_at(mosts[i], places[k], LAST, bytes);
                if (bytes == 1 || bytes > SEGMENT - 2)
                    hear_at(mosts[i], places[k], BETWEEN, bytes);
            }
    }
}

/* A sender that has placed so many packets of a message, as a record says that no call need have made: the next block has the next packet. */
static void block_at(size_t length, size_t packet)
{
    static struct call s;
    static struct expected e;
    struct message m = {0};

    m.bytes = text;
    m.length = length;
    m.first = (unsigned)(8 - packet % 8) % 8;
    prepare_end(&s, &list_sender, &block_beside);
    memcpy(s.bytes[BUFFER], text, AES18_LONG_BUFFER);
    put_number(s.bytes[RECORD] + 17, length);
    put_number(s.bytes[RECORD] + 19, packet);
    put_number(s.bytes[RECORD] + 21, packets_of(&m) - packet);
    m.packet = packet;
    s.n = s.u = AES18_FEWEST_BLOCK_BITS;
    s.length[BLOCK] = AES18_FEWEST_BLOCK_BITS / 8;
    CALL(&s, &block_beside, AES18_ACCEPTED);
    expect_block(&e, &m, AES18_FEWEST_BLOCK_BITS, AES18_FEWEST_BLOCK_BITS);
    EQUAL(s.bytes[BLOCK], e.bits.bytes, s.length[BLOCK]);
    IS(number(s.bytes[ANSWER] + AES18_BLOCK_PLACED, 4), e.placed);
    is_sent(__LINE__, &s, &m);
}

static void test_placed(void)
{
    static const size_t lengths[] = {4095, 4096, 4110, 4111, 8191, 8192, 61439, 61440, 61441, 65519, 65534, 65535};
    size_t i, packets;

    for (i = 0; i < COUNT(lengths); i++) {
        packets = (lengths[i] + 17) / 16;
        block_at(lengths[i], 0);
        block_at(lengths[i], 1);
        block_at(lengths[i], 255);
        block_at(lengths[i], packets - 2);
        block_at(lengths[i], packets - 1);
        block_at(lengths[i], packets);
    }
}

/* Bytes of a record, from `place` on, with a length above 4094 at circuit 0 that is in range where a long buffer is given, or is not. */
struct ranged {
    size_t place;
    uint8_t bytes[6];
    size_t length;
    int inside;
};

static const struct ranged senders_ranged[] = {
    {17, {0xFF, 0x0F, 1, 0, 0x00, 0x01}, 6, 1},    {17, {0xFF, 0x0F, 0x01, 0x01, 0, 0}, 6, 1}, {17, {0xFF, 0xFF, 0, 0, 0x01, 0x10}, 6, 1},
    {17, {0xFF, 0xFF, 0x01, 0x10, 0, 0}, 6, 1},    {17, {0xFE, 0xFF, 0, 0, 0x00, 0x10}, 6, 1}, {17, {0x00, 0xF0, 0, 0, 0x01, 0x0F}, 6, 1},
    {17, {0xFF, 0xFF, 0x02, 0x10, 0, 0}, 6, 0},    {17, {0xFF, 0xFF, 0, 0, 0x00, 0x10}, 6, 0}, {17, {0xFF, 0xFF, 0, 0, 0x01, 0x00}, 6, 0},
    {17, {0xFF, 0x0F, 0, 0, 0x00, 0x01}, 6, 0},    {17, {0xFF, 0x0F, 0x02, 0x01, 0, 0}, 6, 0}, {17, {0xFF, 0x0F}, 2, 0},
    {17, {0xFE, 0xFF, 0x00, 0x10, 0x01, 0}, 6, 0},
};

static const struct ranged receivers_ranged[] = {
    {15, {0xFF, 0x0F}, 2, 1},             {15, {0xFF, 0x0F, 0xFF, 0x0F}, 4, 1}, {15, {0x00, 0x10, 14, 0}, 4, 1},
    {15, {0xFF, 0xFF}, 2, 1},             {15, {0xFF, 0xFF, 0xFF, 0xFF}, 4, 1}, {15, {0xFE, 0xFF, 0xFE, 0xFF}, 4, 1},
    {15, {0xFF, 0x0F, 0x00, 0x10}, 4, 0}, {15, {0xFE, 0xFF, 0xFF, 0xFF}, 4, 0},
};

/* A function with these records, with the bytes at a circuit number: it refuses those out of range, and answers the others so. */
static void test_ranged(const struct function *list, const struct function *f, const struct ranged *cases, size_t count, uint32_t answered)
{
    size_t slot = f->record == AES18_SENDER_RECORD ? AES18_SENDER_CIRCUIT_BYTES : 6, i, number;
    static struct call c;

    for (i = 0; i < count; i++)
        for (number = 0; number < 3; number++) {
            int inside = number == 2 || (number == 0 && f->buffer > 0 && cases[i].inside);

            prepare_end(&c, list, f);
            memcpy(c.bytes[RECORD] + cases[i].place + slot * number, cases[i].bytes, cases[i].length);
            c.length[INPUT] = 0;
            c.circuit = 1;
            c.to = 0;
            c.n = c.u = AES18_FEWEST_BLOCK_BITS;
            c.length[BLOCK] = AES18_FEWEST_BLOCK_BITS / 8;
            if (f->buffer > 0) {
                c.length[BUFFER] = 0;
                CALL(&c, f, inside ? AES18_REFUSED_LONG_BUFFER : AES18_REFUSED_RECORD);
            }
            c.length[BUFFER] = f->buffer;
            CALL(&c, f, inside ? answered : AES18_REFUSED_RECORD);
        }
}

/* What closes an open long message, or leaves it. What is collected stays; a shorter message goes to the region. */
static void test_closed(void)
{
    static const uint8_t whole[] = {0x02, 'o', 'n'}, begun[SEGMENT] = {0x10, 46}, elsewhere[] = {0x05, 0x80, 0x00}, system[] = {0xFF, 0xCF, 0x00};
    static struct call r;
    size_t index;

    prepare_receiver(&r);
    index = collect(&r, 0, text, 46);
    HEAR(&r, BETWEEN, index - 1, text + 30, SEGMENT);
    IS_TOLD(&r, 0, AES18_FATE_COPY, 0);
    hear(__LINE__, &r, elsewhere, sizeof elsewhere);
    hear(__LINE__, &r, system, sizeof system);
    IS_HEARD(&r, index - 1, AES18_LONGEST_LONG_MESSAGE, 46);
    HEAR(&r, BETWEEN, ++index, text, SEGMENT);
    IS_TOLD(&r, 1, AES18_FATE_ORPHAN, 0);
    IS_HEARD(&r, index, 0, 0);
    IS_COLLECTED(&r, text, 46);
    index = collect(&r, index + 1, text, 46);
    HEAR(&r, FIRST, index, whole, sizeof whole);
    IS_TOLD(&r, 0, AES18_FATE_WHOLE, 2);
    EQUAL(r.bytes[STORE], whole + 1, 2);
    ALL(r.bytes[STORE] + 2, OLD, AES18_SYSTEM_PLACE - 2);
    IS_COLLECTED(&r, text, 46);
    index = collect(&r, index + 1, text, 46);
    HEAR(&r, FIRST, index, begun, SEGMENT);
    IS_TOLD(&r, 0, AES18_FATE_BEGUN, 0);
    IS_HEARD(&r, index % 8, 46, 14);
    EQUAL(r.bytes[STORE], begun + 2, 14);
    ALL(r.bytes[STORE] + 14, OLD, AES18_SYSTEM_PLACE - 14);
    HEAR(&r, LAST, index + 1, text, SEGMENT);
    IS_TOLD(&r, 0, AES18_FATE_WRONG, 0);
    EQUAL(r.bytes[STORE], begun + 2, 14);
    IS_COLLECTED(&r, text, 46);
}

/* A long message over an open one, and over one that was longer: its bytes go over those from the start on. */
static void test_again(void)
{
    static struct call r;
    size_t index;

    prepare_receiver(&r);
    index = collect(&r, 0, text, 4094);
    HEAR(&r, LAST, index, text + 4094, SEGMENT);
    IS_TOLD(&r, 0, AES18_FATE_WHOLE, 4110);
    index = collect(&r, index + 1, text + 50, 62);
    index = collect(&r, index, text + 60, 4094);
    HEAR(&r, LAST, index, text + 60 + 4094, 1);
    IS_TOLD(&r, 0, AES18_FATE_WHOLE, 4095);
    EQUAL(r.bytes[BUFFER], text + 60, 4095);
    EQUAL(r.bytes[BUFFER] + 4095, text + 4095, 15);
    ALL(r.bytes[BUFFER] + 4110, OLD, FULL - 4110);
}

/* Packets lost in a row, behind 30 bytes of a message of 4,239. The index tells six; of seven and eight nothing is told, and 128 bytes are not there. */
static void test_lost(size_t lost)
{
    static struct call r;
    size_t index, place = 30 + SEGMENT * lost;

    prepare_receiver(&r);
    index = collect(&r, 0, text, 30) + lost;
    HEAR(&r, BETWEEN, index, text + place, SEGMENT);
    if (lost < 7) {
        IS_TOLD(&r, lost, lost == 0 ? AES18_FATE_HELD : AES18_FATE_ORPHAN, 0);
        return;
    }
    IS_TOLD(&r, 0, lost == 7 ? AES18_FATE_COPY : AES18_FATE_HELD, 0);
    for (place += SEGMENT; place < 4238; place += SEGMENT)
        HEAR(&r, BETWEEN, ++index, text + place, SEGMENT);
    HEAR(&r, LAST, index + 1, text + place, 1);
    IS_TOLD(&r, 0, AES18_FATE_WHOLE, 4239 - 128);
    EQUAL(r.bytes[BUFFER], text, 30);
    EQUAL(r.bytes[BUFFER] + 30, text + 158, 4239 - 158);
    ALL(r.bytes[BUFFER] + 4239 - 128, OLD, FULL - 4239 + 128);
}

/* What is offered in turn at each circuit, again and again: bytes of the text, from place `from` on. */
static const struct {
    size_t from, length;
    unsigned repetition, priority;
} offered[AES18_MOST_CIRCUITS][5] = {
    {{0, 4095, 0, 1}, {7, 4094, 1, 2}, {9, 20000, 0, 0}, {3, 0, 5, 3}, {60, 4110, 1, 1}},
    {{1, 15, 0, 3}, {2, 16, 1, 3}, {3, 4094, 0, 0}, {4, 300, 2, 1}, {5, 0, 0, 2}},
    {{6, 4094, 0, 1}, {5, 100, 5, 1}, {4, 200, 0, 2}, {3, 1, 0, 0}, {2, 4093, 0, 3}},
    {{1, 0, 5, 0}, {1, 1, 4, 1}, {1, 2, 3, 2}, {1, 17, 2, 3}, {1, 33, 1, 1}},
};

enum { MIXED = 2 * COUNT(offered[0]) };

/* How many messages are offered and handed over at each circuit: all those above, twice. */
struct mixed {
    struct call s, r;
    size_t sent[AES18_MOST_CIRCUITS], heard[AES18_MOST_CIRCUITS];
};

/* Offers the next message at a circuit where none is pending, in the way of its length. */
static void offer_mixed(struct mixed *t, size_t circuit)
{
    struct call *s = &t->s;
    size_t k = t->sent[circuit] % COUNT(offered[circuit]);

    put(s, INPUT, text + offered[circuit][k].from, offered[circuit][k].length);
    s->circuit = circuit;
    s->priority = offered[circuit][k].priority;
    s->repetition = offered[circuit][k].repetition;
    CALL(s, s->length[INPUT] > AES18_LONGEST_MESSAGE ? &offer_long : &offer_beside, AES18_ACCEPTED);
    t->sent[circuit]++;
}

/* Reads a block. At each whole message its place begins with the next one that was sent at its circuit. */
static void read_mixed(struct mixed *t)
{
    struct call *r = &t->r;
    const uint8_t *answer = r->bytes[ANSWER];

    put(r, INPUT, t->s.bytes[BLOCK], t->s.length[BLOCK]);
    r->from = 0;
    r->to = t->s.n;
    do {
        READ_ON(r);
        IS(answer[AES18_READ_LOSS], 0);
        if (answer[AES18_READ_NOTICE] == AES18_NOTICE_CIRCUIT && answer[AES18_READ_FATE] == AES18_FATE_WHOLE) {
            size_t c = answer[AES18_READ_CIRCUIT], k = t->heard[c]++ % COUNT(offered[c]), length = offered[c][k].length;
            const uint8_t *at = length > AES18_LONGEST_MESSAGE ? r->bytes[BUFFER] : r->bytes[STORE] + AES18_REGION * c;

            IS(number(answer + AES18_READ_MESSAGE, 2), length);
            EQUAL(at, text + offered[c][k].from, length);
        }
    } while (answer[AES18_READ_NOTICE] != AES18_NOTICE_END);
}

/* Long and shorter messages in turn at circuit 0, and others beside them. Regions and buffers are alike in the end, but for the receiver's system place. */
static void test_mixed(size_t n)
{
    static struct mixed t;
    size_t c;

    memset(&t, 0, sizeof t);
    prepare_listed(&t.s, &list_sender, &block_beside, four_circuits, sizeof four_circuits);
    prepare_listed(&t.r, &list_receiver, &read_beside, four_circuits, sizeof four_circuits);
    t.s.system = 0;
    t.s.n = t.s.u = n;
    t.s.length[BLOCK] = (n + 7) / 8;
    do {
        for (c = 0; c < AES18_MOST_CIRCUITS; c++)
            if (left(&t.s, c) == 0 && t.sent[c] < MIXED)
                offer_mixed(&t, c);
        CALL(&t.s, &block_beside, AES18_ACCEPTED);
        read_mixed(&t);
    } while (number(t.s.bytes[ANSWER] + AES18_BLOCK_PLACED, 4) > 0);
    for (c = 0; c < AES18_MOST_CIRCUITS; c++)
        IS(t.heard[c], MIXED);
    EQUAL(t.r.bytes[STORE], t.s.bytes[STORE], AES18_SENDER_STORE);
    EQUAL(t.r.bytes[BUFFER], t.s.bytes[BUFFER], AES18_LONG_BUFFER);
}

/* The arrays of a call side by side, the buffer between store and answer: arrays that touch do not overlap. */
static void test_side_by_side(void)
{
    enum { BITS = 256, KEPT = AES18_SENDER_RECORD, LENT = KEPT + AES18_RECEIVER_STORE, MADE = LENT + AES18_LONG_BUFFER, TOLD = MADE + BITS / 8 };
    static uint8_t s[TOLD + AES18_BLOCK_ANSWER], r[TOLD + AES18_READ_ANSWER];
    uint8_t record[AES18_RECEIVER_RECORD];

    memset(s, OLD, sizeof s);
    memset(r, OLD, sizeof r);
    IS(aes18_sender_list(s, AES18_SENDER_RECORD, two_circuits, sizeof two_circuits), AES18_ACCEPTED);
    IS(aes18_receiver_list(record, sizeof record, two_circuits, sizeof two_circuits), AES18_ACCEPTED);
    IS(aes18_sender_offer_long(s, KEPT, s + KEPT, LENT - KEPT, s + LENT, AES18_LONG_BUFFER, 0, 0, text, sizeof text - 64), AES18_ACCEPTED);
    IS(aes18_sender_block_beside(s, KEPT, s + KEPT, LENT - KEPT, s + LENT, AES18_LONG_BUFFER, BITS, BITS, 0, 0, 0, NULL, 0, s + MADE, BITS / 8,
                                 s + TOLD, AES18_BLOCK_ANSWER), AES18_ACCEPTED);
    ALL(s + KEPT, OLD, LENT - KEPT);
    EQUAL(s + LENT, text, AES18_LONG_BUFFER);
    IS(number(s + TOLD + AES18_BLOCK_PLACED, 4), 1);
    memcpy(r + MADE, s + MADE, BITS / 8);
    IS(aes18_receiver_read_beside(record, sizeof record, r + KEPT, LENT - KEPT, r + LENT, AES18_LONG_BUFFER, r + MADE, BITS / 8, 0, BITS, r + TOLD,
                                  AES18_READ_ANSWER), AES18_ACCEPTED);
    IS(r[TOLD + AES18_READ_FATE], AES18_FATE_BEGUN);
    ALL(r, OLD, LENT);
    EQUAL(r + LENT, text, SEGMENT - HEADER);
    ALL(r + LENT + SEGMENT - HEADER, OLD, AES18_LONG_BUFFER - (SEGMENT - HEADER));
    EQUAL(r + MADE, s + MADE, BITS / 8);
}

/* Arrays that are only read overlap: the message of a long offer is in the store, and information of a block in the buffer. */
static void test_overlap(void)
{
    enum { LENGTH = AES18_SENDER_STORE - 1, BITS = 512 };
    static uint8_t store[AES18_SENDER_STORE], buffer[AES18_LONG_BUFFER];
    uint8_t records[2][AES18_SENDER_RECORD], blocks[2][BITS / 8], answers[2][AES18_BLOCK_ANSWER], info[AES18_LONGEST_INFORMATION];
    size_t i;

    memcpy(store, text, sizeof store);
    memset(buffer, OLD, sizeof buffer);
    IS(aes18_sender_list(records[0], sizeof records[0], two_circuits, sizeof two_circuits), AES18_ACCEPTED);
    IS(aes18_sender_offer_long(records[0], sizeof records[0], store, sizeof store, buffer, sizeof buffer, 0, 0, store + 1, LENGTH), AES18_ACCEPTED);
    EQUAL(store, text, sizeof store);
    EQUAL(buffer, text + 1, LENGTH);
    ALL(buffer + LENGTH, OLD, sizeof buffer - LENGTH);
    memcpy(records[1], records[0], sizeof records[1]);
    memcpy(info, buffer + 2, sizeof info);
    for (i = 0; i < 2; i++)
        IS(aes18_sender_block_beside(records[i], sizeof records[i], store, sizeof store, buffer, sizeof buffer, BITS, BITS, 1, AES18_ALL_ENABLED, 0,
                                     i == 0 ? buffer + 2 : info, sizeof info, blocks[i], sizeof blocks[i], answers[i], sizeof answers[i]),
           AES18_ACCEPTED);
    EQUAL(blocks[0], blocks[1], sizeof blocks[0]);
    EQUAL(records[0], records[1], sizeof records[0]);
    EQUAL(answers[0], answers[1], sizeof answers[0]);
}

void test_long(void)
{
    size_t lost;

    make_text();
    test_offer_refusals();
    test_pending();
    test_sender_buffers();
    test_receiver_buffers();
    test_length(4095, 257, 0, 256, 256);
    test_length(4095, 257, 5, 1003, 900);
    test_length(4110, 257, 1, 1920, 1680);
    test_length(4111, 258, 0, 27000, 27000);
    test_length(65534, 4096, 0, 27000, 26999);
    test_length(65535, 4097, 0, 3000, 2993);
    test_placed();
    test_first_packets();
    test_elsewhere();
    test_edges();
    test_open_lengths();
    test_ranged(&list_sender, &offer_alone, senders_ranged, COUNT(senders_ranged), AES18_ACCEPTED);
    test_ranged(&list_sender, &offer_beside, senders_ranged, COUNT(senders_ranged), AES18_ACCEPTED);
    test_ranged(&list_sender, &offer_long, senders_ranged, COUNT(senders_ranged), AES18_REFUSED_LONG_LENGTH);
    test_ranged(&list_sender, &block_alone, senders_ranged, COUNT(senders_ranged), AES18_ACCEPTED);
    test_ranged(&list_sender, &block_beside, senders_ranged, COUNT(senders_ranged), AES18_ACCEPTED);
    test_ranged(&list_receiver, &read_alone, receivers_ranged, COUNT(receivers_ranged), AES18_ACCEPTED);
    test_ranged(&list_receiver, &read_beside, receivers_ranged, COUNT(receivers_ranged), AES18_ACCEPTED);
    test_closed();
    test_again();
    for (lost = 0; lost < 9; lost++)
        test_lost(lost);
    test_mixed(3001);
    test_mixed(AES18_MOST_BLOCK_BITS);
    test_side_by_side();
    test_overlap();
}
