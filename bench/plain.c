/* The channel in plain C, bit by bit, as a firmware would have it, and the serial line byte by byte. A record is a struct; each call checks it as
   refusal 14 asks, but takes any framing as it is. Noting takes any answer as that of a read. Where a function is given a long buffer, a null pointer
   says that there is none. */
#include "bench.h"
#include <string.h>

enum { CIRCUITS = 4, REGION = 4096, SYSTEM_PLACE = CIRCUITS * REGION, LONGEST = 4094, SEGMENT = 16 };
enum { SENDER_STORE = CIRCUITS * REGION, RECEIVER_STORE = SYSTEM_PLACE + 16 };
enum { LONG_HEADER = LONGEST + 1, LONGEST_LONG = 65535, LONG_BUFFER = LONGEST_LONG };
enum { FLAG = 0x7e, SYSTEM_ADDRESS = 0xff, ALL_ENABLED = 15, FCS_PRESET = 0xffff, FCS_GOOD = 0xf0b8 };
enum link { BETWEEN, LAST, FIRST, SYSTEM_LINK };

/* ---- both ends: circuits and the FCS */

struct circuit {
    uint8_t address, extended, extension;
};

struct circuits {
    uint8_t count;
    struct circuit list[CIRCUITS];
};

static int same(const struct circuit *a, const struct circuit *b)
{
    return a->address == b->address && a->extended == b->extended && a->extension == b->extension;
}

/* The refusal of circuit i beside those before it, or 0. */
static uint32_t circuit_refusal(const struct circuit *list, unsigned i)
{
    if (list[i].address == SYSTEM_ADDRESS)
        return 2;
    if (list[i].extended > 1 || (!list[i].extended && list[i].extension))
        return 3;
    for (unsigned j = 0; j < i; j++)
        if (same(&list[j], &list[i]))
            return 4;
    return 0;
}

/* The lowest refusal of all circuits, or 0. */
static uint32_t circuits_refusal(const struct circuits *c)
{
    uint32_t lowest = 0;
    for (unsigned i = 0; i < c->count; i++) {
        uint32_t refusal = circuit_refusal(c->list, i);
        if (refusal && (!lowest || refusal < lowest))
            lowest = refusal;
    }
    return lowest;
}

static uint32_t list_circuits(struct circuits *c, const uint8_t *list, size_t len)
{
    uint32_t refusal;
    memset(c, 0, sizeof *c);
    if (len == 0 || len > 3 * CIRCUITS || len % 3)
        return 1;
    for (size_t i = 0; i < len; i += 3)
        c->list[c->count++] = (struct circuit){list[i], list[i + 1], list[i + 2]};
    refusal = circuits_refusal(c);
    if (refusal)
        memset(c, 0, sizeof *c);
    return refusal;
}

static int circuits_in_range(const struct circuits *c)
{
    return c->count <= CIRCUITS && !circuits_refusal(c);
}

/* The most bytes that a message of circuit i has. */
static inline unsigned longest(unsigned i, int has_buffer)
{
    return i == 0 && has_buffer ? LONGEST_LONG : LONGEST;
}

/* Whether a message of that length stands in the long buffer. */
static inline int is_long(size_t length)
{
    return length > LONGEST;
}

/* Whether a long buffer is given that is too short. */
static inline int too_short(const uint8_t *buffer, size_t buffer_len)
{
    return buffer && buffer_len < LONG_BUFFER;
}

static inline uint16_t fcs_bit(uint16_t fcs, unsigned bit)
{
    return (uint16_t)(fcs >> 1 ^ ((fcs ^ bit) & 1 ? 0x8408 : 0));
}

/* ---- sending: bits put into a block */

/* `at` is the next bit's number, `last` holds the eight bits put last, the newest highest, and `zeros` counts those that were stuffed. Bytes from
   `room` on are not written. */
struct pen {
    uint8_t *block;
    size_t at, room;
    unsigned last, ones, zeros;
    uint16_t fcs;
};

static inline void put_bit(struct pen *p, unsigned bit)
{
    p->last = p->last >> 1 | bit << 7;
    if (++p->at % 8 == 0 && p->at / 8 <= p->room)
        p->block[p->at / 8 - 1] = (uint8_t)p->last;
}

static void put_flag(struct pen *p)
{
    for (int k = 0; k < 8; k++)
        put_bit(p, FLAG >> k & 1);
}

/* The ones are counted without a branch, which would be taken as often as not. */
static inline void put_stuffed(struct pen *p, unsigned bit)
{
    p->fcs = fcs_bit(p->fcs, bit);
    put_bit(p, bit);
    p->ones = bit * (p->ones + 1);
    if (p->ones == 5) {
        put_bit(p, 0);
        p->ones = 0;
        p->zeros++;
    }
}

/* The pen is a local copy here, so that its fields need not be read again after each byte written. */
static void put_bytes(struct pen *pen, const uint8_t *bytes, size_t n)
{
    struct pen p = *pen;
    for (size_t i = 0; i < n; i++)
        for (int k = 0; k < 8; k++)
            put_stuffed(&p, bytes[i] >> k & 1);
    *pen = p;
}

/* A frame and the flag behind it; its packet is a head and a part of a message. */
static void put_frame(struct pen *p, const uint8_t *head, size_t head_len, const uint8_t *part, size_t part_len)
{
    uint8_t fcs[2];
    p->ones = 0;
    p->fcs = FCS_PRESET;
    put_bytes(p, head, head_len);
    put_bytes(p, part, part_len);
    fcs[0] = (uint8_t)(~p->fcs & 0xff);
    fcs[1] = (uint8_t)(~p->fcs >> 8 & 0xff);
    put_bytes(p, fcs, 2);
    put_flag(p);
}

/* Ones up to bit n, and zeros in what is left of its byte. */
static void put_rest(struct pen *p, size_t n)
{
    while (p->at < n && p->at % 8)
        put_bit(p, 1);
    if (p->at < n) {
        memset(p->block + p->at / 8, 0xff, n / 8 - p->at / 8);
        p->at = n / 8 * 8;
    }
    while (p->at < n)
        put_bit(p, 1);
    while (p->at % 8)
        put_bit(p, 0);
}

/* ---- sending: the calls */

/* `place` counts the packets of the last message of which every copy is placed, `left` those still to go, `copy` the copies placed of the next one. */
struct sending {
    uint8_t index, priority, repetition, copy;
    uint16_t length, place, left;
};

/* `enable` are the enable bits in force. */
struct plain_sender {
    struct circuits circuits;
    struct sending slots[CIRCUITS];
    uint8_t last_served, enable;
};

const size_t plain_sender_size = sizeof(struct plain_sender);

static unsigned header_length(unsigned length)
{
    return length > 15 ? 2 : 1;
}

static unsigned packets(unsigned length)
{
    return (header_length(length) + length + SEGMENT - 1) / SEGMENT;
}

static int pending(const struct sending *t)
{
    return t->place < packets(t->length);
}

static int sender_in_range(const struct plain_sender *s, int has_buffer)
{
    if (!circuits_in_range(&s->circuits) || s->last_served >= CIRCUITS || s->enable > ALL_ENABLED)
        return 0;
    for (unsigned i = 0; i < s->circuits.count; i++) {
        const struct sending *t = &s->slots[i];
        if (t->index > 7 || t->priority > 3 || t->repetition > 5 || t->copy > t->repetition || t->length > longest(i, has_buffer)
            || t->place > packets(t->length) || t->left != packets(t->length) - t->place)
            return 0;
    }
    return 1;
}

/* The next packet of a circuit: address, control, extension, header, and a part of the message. */
static void put_packet(struct pen *p, const struct circuit *c, const struct sending *t, const uint8_t *message)
{
    unsigned header = header_length(t->length), held = is_long(t->length) ? LONG_HEADER : t->length, from = 0, part = SEGMENT, n = 2;
    enum link link = t->place == 0 ? FIRST : t->place + 1u == packets(t->length) ? LAST : BETWEEN;
    uint8_t head[5] = {c->address, (uint8_t)(link << 6 | c->extended << 5 | t->index << 2 | t->priority)};
    if (c->extended)
        head[n++] = c->extension;
    if (link == FIRST) {
        if (header == 2)
            head[n++] = (uint8_t)(0x10 | held >> 8);
        head[n++] = (uint8_t)(held & 0xff);
        part -= header;
    } else {
        from = SEGMENT * t->place - header;
    }
    if (part > t->length - from)
        part = t->length - from;
    put_frame(p, head, n, message + from, part);
}

/* The circuit of the next frame, or -1. */
static int pick(const struct plain_sender *s)
{
    int picked = -1;
    for (unsigned step = 1; step <= CIRCUITS; step++) {
        unsigned i = (s->last_served + step) % CIRCUITS;
        const struct sending *t = &s->slots[i];
        if (i < s->circuits.count && pending(t) && s->enable >> t->priority & 1
            && (picked < 0 || t->priority > s->slots[picked].priority))
            picked = (int)i;
    }
    return picked;
}

static void serve(struct plain_sender *s, int i)
{
    struct sending *t = &s->slots[i];
    s->last_served = (uint8_t)i;
    if (t->copy < t->repetition) {
        t->copy++;
        return;
    }
    t->copy = 0;
    t->place++;
    t->left--;
    t->index = (uint8_t)((t->index + 1) % 8);
}

/* Frames up to bit u: how many. The one that passes u is taken back. */
static uint32_t fill(struct plain_sender *s, const uint8_t *store, const uint8_t *buffer, struct pen *p, size_t u)
{
    uint32_t placed = 0;
    int i;
    while ((i = pick(s)) >= 0) {
        struct pen before = *p;
        put_packet(p, &s->circuits.list[i], &s->slots[i], is_long(s->slots[i].length) ? buffer : store + REGION * i);
        if (p->at > u) {
            *p = before;
            break;
        }
        serve(s, i);
        placed++;
    }
    return placed;
}

uint32_t plain_sender_list(struct plain_sender *s, const uint8_t *list, size_t list_len)
{
    memset(s->slots, 0, sizeof s->slots);
    for (int i = 0; i < CIRCUITS; i++)
        s->slots[i].place = 1;
    s->last_served = CIRCUITS - 1;
    s->enable = ALL_ENABLED;
    return list_circuits(&s->circuits, list, list_len);
}

/* The refusal of an offer by what comes before its message, or 0. */
static uint32_t offer_refusal(const struct plain_sender *s, size_t store_len, const uint8_t *buffer, size_t buffer_len, uint64_t circuit,
                              uint64_t priority, uint64_t repetition)
{
    if (!sender_in_range(s, buffer != NULL))
        return 14;
    if (store_len < SENDER_STORE)
        return 5;
    if (too_short(buffer, buffer_len))
        return 19;
    if (circuit >= s->circuits.count)
        return 6;
    if (priority > 3)
        return 7;
    if (repetition > 5)
        return 8;
    return 0;
}

/* Takes a message and copies it to its place, or refuses it behind one that is pending. */
static uint32_t take(struct sending *t, uint64_t priority, uint64_t repetition, uint8_t *place, const uint8_t *message, size_t message_len)
{
    if (pending(t))
        return 10;
    *t = (struct sending){t->index, (uint8_t)priority, (uint8_t)repetition, 0, (uint16_t)message_len, 0, (uint16_t)packets((unsigned)message_len)};
    if (message_len)
        memcpy(place, message, message_len);
    return 0;
}

uint32_t plain_sender_offer(struct plain_sender *s, uint8_t *store, size_t store_len, uint64_t circuit, uint64_t priority,
                            uint64_t repetition, const uint8_t *message, size_t message_len)
{
    return plain_sender_offer_beside(s, store, store_len, NULL, 0, circuit, priority, repetition, message, message_len);
}

uint32_t plain_sender_offer_beside(struct plain_sender *s, uint8_t *store, size_t store_len, const uint8_t *buffer, size_t buffer_len,
                                   uint64_t circuit, uint64_t priority, uint64_t repetition, const uint8_t *message, size_t message_len)
{
    uint32_t refusal = offer_refusal(s, store_len, buffer, buffer_len, circuit, priority, repetition);
    if (refusal)
        return refusal;
    if (message_len > LONGEST)
        return 9;
    return take(&s->slots[circuit], priority, repetition, store + REGION * circuit, message, message_len);
}

uint32_t plain_sender_offer_long(struct plain_sender *s, size_t store_len, uint8_t *buffer, size_t buffer_len, uint64_t priority,
                                 uint64_t repetition, const uint8_t *message, size_t message_len)
{
    uint32_t refusal = offer_refusal(s, store_len, buffer, buffer_len, 0, priority, repetition);
    if (refusal)
        return refusal;
    if (!is_long(message_len) || message_len > LONGEST_LONG)
        return 18;
    return take(&s->slots[0], priority, repetition, buffer, message, message_len);
}

static uint32_t block_refusal(const struct plain_sender *s, size_t store_len, const uint8_t *buffer, size_t buffer_len, uint64_t n, uint64_t u,
                              const struct plain_system *system, size_t block_len)
{
    if (!sender_in_range(s, buffer != NULL))
        return 14;
    if (store_len < SENDER_STORE)
        return 5;
    if (too_short(buffer, buffer_len))
        return 19;
    if (n < 256 || n > 27000 || u < 256 || u > n)
        return 11;
    if (block_len < (n + 7) / 8)
        return 12;
    if (system && (system->enable > ALL_ENABLED || system->code > 8 || system->info_len > 15))
        return 13;
    return 0;
}

uint32_t plain_sender_block(struct plain_sender *s, const uint8_t *store, size_t store_len, uint64_t n, uint64_t u,
                            const struct plain_system *system, uint8_t *block, size_t block_len, struct plain_block *answer)
{
    return plain_sender_block_beside(s, store, store_len, NULL, 0, n, u, system, block, block_len, answer);
}

uint32_t plain_sender_block_beside(struct plain_sender *s, const uint8_t *store, size_t store_len, const uint8_t *buffer, size_t buffer_len,
                                   uint64_t n, uint64_t u, const struct plain_system *system, uint8_t *block, size_t block_len,
                                   struct plain_block *answer)
{
    struct pen p = {block, 0, (n + 7) / 8, 0, 0, 0, 0};
    uint32_t refusal = block_refusal(s, store_len, buffer, buffer_len, n, u, system, block_len);
    if (refusal)
        return refusal;
    put_flag(&p);
    if (system) {
        uint8_t head[3] = {SYSTEM_ADDRESS, (uint8_t)(SYSTEM_LINK << 6 | system->enable),
                           (uint8_t)(system->code << 4 | system->info_len)};
        put_frame(&p, head, 3, system->info, system->info_len);
        s->enable = (uint8_t)system->enable;
    }
    answer->placed = fill(s, store, buffer, &p, u);
    answer->used = (uint32_t)p.at;
    answer->zeros = p.zeros;
    put_rest(&p, n);
    return 0;
}

/* ---- reading: bodies between flags */

/* The bits of a body that passes, and those that are kept of one. */
enum { LEAST = 32, MOST = 168, KEPT = 8 * sizeof((struct plain_framing *)0)->body };

static int passes(const uint8_t *body, unsigned bits)
{
    uint16_t fcs = FCS_PRESET;
    if (bits % 8 || bits > MOST)
        return 0;
    for (unsigned i = 0; i < bits; i++)
        fcs = fcs_bit(fcs, body[i / 8] >> (i % 8) & 1);
    return fcs == FCS_GOOD;
}

/* What the body before a flag gives: the length of its packet, -1 if it is spoilt, or 0. Seven bits of the flag were kept with it, or six where
   the flag's first 0 stands behind five ones and was dropped. */
static int judged(const uint8_t *body, unsigned count, unsigned window)
{
    int five_ones = (window & 0xf8) == 0xf8;
    unsigned kept = five_ones ? 6 : 7;
    if (count < kept + LEAST)
        return 0;
    if (five_ones || !passes(body, count - kept))
        return -1;
    return (int)(count - kept) / 8 - 2;
}

/* Reads the bits from *at to `to` up to the first body that gives something. A bit behind six ones ends a flag or voids the body; of the others
   those in a body are kept, except a 0 behind five ones. */
static int next_body(struct plain_framing *f, const uint8_t *bits, uint64_t *at, uint64_t to)
{
    unsigned window = f->window, inside = f->inside, count = f->count, last = f->last;
    uint64_t i = *at;
    int found = 0;
    while (i < to) {
        unsigned bit = bits[i / 8] >> (i % 8) & 1;
        i++;
        window = window >> 1 | bit << 15;
        if ((window >> 9 & 0x3f) != 0x3f) {
            if (inside && window >> 10 != 0x1f && count < KEPT) {
                last = last >> 1 | bit << 7;
                if (++count % 8 == 0)
                    f->body[count / 8 - 1] = (uint8_t)last;
            }
        } else if (bit) {
            inside = 0;
        } else if (window >> 8 == FLAG) {
            found = inside ? judged(f->body, count, window) : 0;
            inside = 1;
            count = 0;
            if (found)
                break;
        }
    }
    f->window = (uint16_t)window;
    f->inside = (uint8_t)inside;
    f->count = (uint8_t)count;
    f->last = (uint8_t)last;
    *at = i;
    return found;
}

/* ---- reading: notices */

enum notice { END, SPOILT, MALFORMED, SYSTEM, ELSEWHERE, CIRCUIT };
enum fate { COPY, BEGUN, HELD, WHOLE, ORPHAN, WRONG };

/* A message is open while `place` is below `length`, which of a long one is the most that it may have. */
struct hearing {
    uint8_t seen, last;
    uint16_t length, place;
};

struct plain_receiver {
    struct circuits circuits;
    struct hearing slots[CIRCUITS];
    struct plain_framing framing;
};

const size_t plain_receiver_size = sizeof(struct plain_receiver);

/* A packet that passed; its segment is what stands behind address, control and extension. */
struct packet {
    struct circuit circuit;
    enum link link;
    unsigned control;
    const uint8_t *segment;
    size_t length;
};

static int receiver_in_range(const struct plain_receiver *r, int has_buffer)
{
    if (!circuits_in_range(&r->circuits))
        return 0;
    for (unsigned i = 0; i < r->circuits.count; i++) {
        const struct hearing *t = &r->slots[i];
        if (t->seen > 1 || t->last > 7 || t->length > longest(i, has_buffer) || t->place > t->length)
            return 0;
    }
    return 1;
}

/* A first packet; no message is open. */
static enum fate begin(struct hearing *t, uint8_t *region, uint8_t *buffer, const uint8_t *segment, size_t n)
{
    size_t header = segment[0] & 0x10 ? 2 : 1, length = segment[0] & 0x0f;
    if (n < header)
        return WRONG;
    if (header == 2) {
        length = length << 8 | segment[1];
        if (length == LONG_HEADER && buffer)
            length = LONGEST_LONG;
        else if (length < 16 || length > LONGEST)
            return WRONG;
    }
    if (n - header > length || (n - header < length && n < SEGMENT))
        return WRONG;
    memcpy(is_long(length) ? buffer : region, segment + header, n - header);
    t->length = (uint16_t)length;
    t->place = (uint16_t)(n - header);
    return n - header == length ? WHOLE : BEGUN;
}

/* Whether n bytes end the open message, of which so many are due: a long one may be shorter, but not as short as others. */
static int ends(const struct hearing *t, size_t due, size_t n)
{
    return is_long(t->length) ? n <= due && is_long(t->place + n) : n == due;
}

/* A packet between, or the last one, which tells the length of a long message. */
static enum fate go_on(struct hearing *t, uint8_t *region, uint8_t *buffer, enum link link, const uint8_t *segment, size_t n)
{
    size_t due = t->length - t->place;
    if (due == 0)
        return ORPHAN;
    if (link == LAST ? !ends(t, due, n) : n != SEGMENT || due <= SEGMENT)
        return WRONG;
    memcpy((is_long(t->length) ? buffer : region) + t->place, segment, n);
    t->place = (uint16_t)(t->place + n);
    if (link != LAST)
        return HELD;
    t->length = t->place;
    return WHOLE;
}

static void hear_circuit(struct hearing *t, uint8_t *region, uint8_t *buffer, const struct packet *p, struct plain_read *told)
{
    unsigned index = p->control >> 2 & 7;
    enum fate fate;
    if (t->seen && index == t->last)
        return;
    if (t->seen)
        told->loss_or_code = (index - t->last - 1u) & 7;
    if (told->loss_or_code || p->link == FIRST)
        t->length = t->place = 0;
    fate = p->link == FIRST ? begin(t, region, buffer, p->segment, p->length) : go_on(t, region, buffer, p->link, p->segment, p->length);
    if (fate == WHOLE)
        told->length = t->length;
    if (fate == WHOLE || fate == WRONG)
        t->length = t->place = 0;
    told->fate_or_information = (uint8_t)fate;
    t->seen = 1;
    t->last = (uint8_t)index;
}

static void hear_system(uint8_t *store, const struct packet *p, struct plain_read *told)
{
    unsigned code = p->segment[0] >> 4;
    size_t length = p->segment[0] & 0x0f;
    if (p->link != SYSTEM_LINK || p->control & 0x10 || code > 8 || length != p->length - 1)
        return;
    told->notice = SYSTEM;
    told->number_or_enable = p->control & 0x0f;
    told->loss_or_code = (uint8_t)code;
    told->fate_or_information = (uint8_t)length;
    memcpy(store + SYSTEM_PLACE, p->segment + 1, length);
}

/* The notice of a packet of n bytes, at least two, that passed. */
static void hear(struct plain_receiver *r, uint8_t *store, uint8_t *buffer, const uint8_t *bytes, size_t n, struct plain_read *told)
{
    unsigned control = bytes[1], extended = control >> 5 & 1, lead = 2 + extended, i = 0;
    struct packet p = {{bytes[0], (uint8_t)extended, 0}, control >> 6, control, bytes + lead, n - lead};
    told->notice = MALFORMED;
    if (n <= lead || p.length > SEGMENT)
        return;
    if (p.circuit.address == SYSTEM_ADDRESS) {
        hear_system(store, &p, told);
        return;
    }
    if (p.link == SYSTEM_LINK)
        return;
    if (extended)
        p.circuit.extension = bytes[2];
    while (i < r->circuits.count && !same(&r->circuits.list[i], &p.circuit))
        i++;
    if (i == r->circuits.count) {
        told->notice = ELSEWHERE;
        return;
    }
    told->notice = CIRCUIT;
    told->number_or_enable = (uint8_t)i;
    hear_circuit(&r->slots[i], store + REGION * i, i == 0 ? buffer : NULL, &p, told);
}

/* ---- reading: the calls */

uint32_t plain_receiver_list(struct plain_receiver *r, const uint8_t *list, size_t list_len)
{
    memset(r, 0, sizeof *r);
    r->framing.window = 0xffff;
    return list_circuits(&r->circuits, list, list_len);
}

static int outside(uint64_t from, uint64_t to, size_t bits_len)
{
    return from > to || to / 8 > bits_len || (to / 8 == bits_len && to % 8);
}

uint32_t plain_receiver_read(struct plain_receiver *r, uint8_t *store, size_t store_len, const uint8_t *bits, size_t bits_len,
                             uint64_t from, uint64_t to, struct plain_read *answer)
{
    return plain_receiver_read_beside(r, store, store_len, NULL, 0, bits, bits_len, from, to, answer);
}

uint32_t plain_receiver_read_beside(struct plain_receiver *r, uint8_t *store, size_t store_len, uint8_t *buffer, size_t buffer_len,
                                    const uint8_t *bits, size_t bits_len, uint64_t from, uint64_t to, struct plain_read *answer)
{
    uint64_t at = from;
    int found;
    if (!receiver_in_range(r, buffer != NULL))
        return 14;
    if (store_len < RECEIVER_STORE)
        return 5;
    if (too_short(buffer, buffer_len))
        return 19;
    if (outside(from, to, bits_len))
        return 15;
    memset(answer, 0, sizeof *answer);
    found = next_body(&r->framing, bits, &at, to);
    if (found > 0)
        hear(r, store, buffer, r->framing.body, (size_t)found, answer);
    else if (found < 0)
        answer->notice = SPOILT;
    answer->bits = at - from;
    return 0;
}

uint32_t plain_framing_read(struct plain_framing *f, const uint8_t *bits, size_t bits_len, uint64_t from, uint64_t to, uint8_t *packet,
                            struct plain_framing_answer *answer)
{
    uint64_t at = from;
    int found;
    if (outside(from, to, bits_len))
        return 15;
    memset(answer, 0, sizeof *answer);
    found = next_body(f, bits, &at, to);
    if (found > 0) {
        answer->body = 2;
        answer->length = (uint8_t)found;
        memcpy(packet, f->body, (size_t)found);
    } else if (found < 0) {
        answer->body = 1;
    }
    answer->bits = at - from;
    return 0;
}

/* ---- totals */

/* The sum, or the highest number if it would pass that. */
static uint32_t capped(uint32_t figure, uint32_t more)
{
    return more > UINT32_MAX - figure ? UINT32_MAX : figure + more;
}

uint32_t plain_totals_note(struct plain_totals *t, const struct plain_read *answer)
{
    struct plain_figures *f;
    if (answer->notice != CIRCUIT || answer->number_or_enable >= CIRCUITS)
        return 0;
    f = &t->circuits[answer->number_or_enable];
    f->messages = capped(f->messages, answer->fate_or_information == WHOLE);
    f->bytes = capped(f->bytes, answer->length);
    f->lost = capped(f->lost, answer->loss_or_code);
    f->orphaned = capped(f->orphaned, answer->fate_or_information == ORPHAN);
    return 0;
}

/* ---- the serial line */

enum { ESCAPE = 0x7d, TURNED = 0x20, SHORTEST_PACKET = 2, LONGEST_PACKET = 19 };

static uint8_t *put_escaped(uint8_t *to, uint8_t byte)
{
    if (byte == FLAG || byte == ESCAPE) {
        *to++ = ESCAPE;
        byte ^= TURNED;
    }
    *to++ = byte;
    return to;
}

uint32_t plain_line_write(const uint8_t *packet, size_t packet_len, uint8_t *line, size_t line_len, uint64_t *written)
{
    uint16_t fcs = FCS_PRESET;
    uint8_t *to = line;
    if (packet_len < SHORTEST_PACKET || packet_len > LONGEST_PACKET)
        return 17;
    if (line_len < 2 * (packet_len + 2) + 2)
        return 16;
    *to++ = FLAG;
    for (size_t i = 0; i < packet_len; i++) {
        for (int k = 0; k < 8; k++)
            fcs = fcs_bit(fcs, packet[i] >> k & 1);
        to = put_escaped(to, packet[i]);
    }
    to = put_escaped(to, (uint8_t)(~fcs & 0xff));
    to = put_escaped(to, (uint8_t)(~fcs >> 8 & 0xff));
    *to++ = FLAG;
    *written = (uint64_t)(to - line);
    return 0;
}

/* Reads up to the first packet. A count of one more than there is room for stands for all above. */
uint32_t plain_line_read(struct plain_line *r, const uint8_t *line, size_t line_len, uint8_t *packet, struct plain_line_answer *answer)
{
    unsigned inside = r->inside, escape = r->escape, count = r->count, length = 0;
    size_t i = 0;
    while (i < line_len && !length) {
        uint8_t byte = line[i++];
        if (byte == FLAG) {
            if (inside && !escape && count >= SHORTEST_PACKET + 2 && passes(r->bytes, 8 * count)) {
                length = count - 2;
                memcpy(packet, r->bytes, length);
            }
            inside = 1;
            escape = count = 0;
        } else if (inside && byte == ESCAPE && !escape) {
            escape = 1;
        } else if (inside) {
            if (count < sizeof r->bytes)
                r->bytes[count] = escape ? byte ^ TURNED : byte;
            if (count <= sizeof r->bytes)
                count++;
            escape = 0;
        }
    }
    r->inside = (uint8_t)inside;
    r->escape = (uint8_t)escape;
    r->count = (uint8_t)count;
    answer->packet = length;
    answer->bytes = i;
    return 0;
}
