/* The channel in C as fast as it goes without instructions of one machine: words, tables, and each frame assembled once. Records, listing, offers,
   refusals and notices are those of plain.c, which is compiled here once more under other names; its loops over bits serve where no word fits. */
#define plain_sender_size bitwise_sender_size
#define plain_receiver_size bitwise_receiver_size
#define plain_sender_list bitwise_sender_list
#define plain_sender_offer bitwise_sender_offer
#define plain_sender_offer_beside bitwise_sender_offer_beside
#define plain_sender_offer_long bitwise_sender_offer_long
#define plain_sender_block bitwise_sender_block
#define plain_sender_block_beside bitwise_sender_block_beside
#define plain_receiver_list bitwise_receiver_list
#define plain_receiver_read bitwise_receiver_read
#define plain_receiver_read_beside bitwise_receiver_read_beside
#define plain_framing_read bitwise_framing_read
#define plain_totals_note bitwise_totals_note
#define plain_line_write bitwise_line_write
#define plain_line_read bitwise_line_read
#include "plain.c"

/* ---- both ends: words and tables */

/* The bytes of the longest body, and the bits that it has on the channel at most. */
enum { BODY = MOST / 8, STUFFED = MOST + MOST / 5 };

/* What a byte adds to an FCS when so many bytes follow it. */
static uint16_t fcs_of[BODY][256];
/* What the preset adds to the FCS of so many bytes. */
static uint16_t fcs_preset[BODY + 1];
/* A byte stuffed behind so many ones: its bits, and from bit 16 on how many. */
static uint32_t stuffed[5][256];
/* The ones behind a byte other than FF hex, those before a stuffed 0 not counted. */
static uint8_t ones_behind[256];
/* A byte of a body without its stuffed zeros, by the five bits before it and the byte: its bits, and from bit 8 on how many. */
static uint16_t unstuffed[1 << 13];
static int made;

/* Eight bytes as a word, the first lowest. Both ways are written out, as gcc then makes one instruction of them where it can. */
static inline uint64_t word_at(const uint8_t *b)
{
    return b[0] | (uint64_t)b[1] << 8 | (uint64_t)b[2] << 16 | (uint64_t)b[3] << 24 | (uint64_t)b[4] << 32 | (uint64_t)b[5] << 40
           | (uint64_t)b[6] << 48 | (uint64_t)b[7] << 56;
}

static inline void put_word(uint8_t *b, uint64_t word)
{
    b[0] = (uint8_t)word;
    b[1] = (uint8_t)(word >> 8);
    b[2] = (uint8_t)(word >> 16);
    b[3] = (uint8_t)(word >> 24);
    b[4] = (uint8_t)(word >> 32);
    b[5] = (uint8_t)(word >> 40);
    b[6] = (uint8_t)(word >> 48);
    b[7] = (uint8_t)(word >> 56);
}

static uint16_t fcs_byte(uint16_t fcs, unsigned byte)
{
    for (int k = 0; k < 8; k++)
        fcs = fcs_bit(fcs, byte >> k & 1);
    return fcs;
}

static void make_fcs_tables(void)
{
    fcs_preset[0] = FCS_PRESET;
    for (unsigned i = 0; i < BODY; i++)
        fcs_preset[i + 1] = fcs_byte(fcs_preset[i], 0);
    for (unsigned byte = 0; byte < 256; byte++) {
        fcs_of[0][byte] = fcs_byte(0, byte);
        for (unsigned i = 1; i < BODY; i++)
            fcs_of[i][byte] = fcs_byte(fcs_of[i - 1][byte], 0);
    }
}

static void make_stuffed(unsigned before, unsigned byte)
{
    unsigned ones = before, bits = 0, count = 0;
    for (int k = 0; k < 8; k++) {
        unsigned bit = byte >> k & 1;
        bits |= bit << count++;
        ones = bit * (ones + 1);
        if (ones == 5) {
            count++;
            ones = 0;
        }
    }
    stuffed[before][byte] = bits | count << 16;
    ones_behind[byte] = (uint8_t)ones;
}

static void make_unstuffed(unsigned window)
{
    unsigned bits = 0, count = 0;
    for (int k = 0; k < 8; k++)
        if ((window >> k & 0x3f) != 0x1f)
            bits |= (window >> (k + 5) & 1) << count++;
    unstuffed[window] = (uint16_t)(bits | count << 8);
}

static void make_tables(void)
{
    if (made)
        return;
    make_fcs_tables();
    for (unsigned before = 0; before < 5; before++)
        for (unsigned byte = 0; byte < 256; byte++)
            make_stuffed(before, byte);
    for (unsigned window = 0; window < 1 << 13; window++)
        make_unstuffed(window);
    made = 1;
}

/* ---- sending */

/* Bits put from `to` on: `word` holds the `have` bits behind the bytes that are written. `bare` counts the bits of a block without its stuffed zeros. */
struct quill {
    uint8_t *to;
    uint64_t word;
    unsigned have, ones, bare;
};

static inline void add(struct quill *q, uint64_t bits, unsigned n)
{
    q->word |= bits << q->have;
    q->have += n;
}

/* Writes the whole bytes; others behind them are written over. */
static inline void flush(struct quill *q)
{
    put_word(q->to, q->word);
    q->to += q->have / 8;
    q->word >>= q->have & 56;
    q->have &= 7;
}

/* The ones behind a byte do not depend on those before it, but for FF hex, so that no byte waits for the one before. */
static inline void add_byte(struct quill *q, unsigned byte)
{
    uint32_t bits = stuffed[q->ones][byte];
    add(q, bits & 0xffff, bits >> 16);
    if (byte != 0xff)
        q->ones = ones_behind[byte];
    else
        q->ones = q->ones < 2 ? q->ones + 3 : q->ones - 2;
}

/* A frame and the flag behind it, of a packet of n bytes. Five bytes and seven bits fit a word, stuffed. */
static inline void add_frame(struct quill *quill, const uint8_t *packet, size_t n)
{
    struct quill q = *quill;
    unsigned fcs = fcs_preset[n];
    q.ones = 0;
    for (; n > 3; n -= 4, packet += 4) {
#pragma GCC unroll 4
        for (unsigned i = 0; i < 4; i++) {
            fcs ^= fcs_of[n - 1 - i][packet[i]];
            add_byte(&q, packet[i]);
        }
        flush(&q);
    }
    for (; n > 0; n--, packet++) {
        fcs ^= fcs_of[n - 1][*packet];
        add_byte(&q, *packet);
    }
    fcs = ~fcs;
    add_byte(&q, fcs & 0xff);
    add_byte(&q, fcs >> 8 & 0xff);
    flush(&q);
    add(&q, FLAG, 8);
    flush(&q);
    *quill = q;
}

/* The next packet of a circuit whose message begins at `from` in a store of SENDER_STORE bytes: its length. */
static inline unsigned assemble(const struct circuit *c, const struct sending *t, const uint8_t *store, size_t from, uint8_t *packet)
{
    unsigned header = header_length(t->length), part = SEGMENT, n = 2, left = t->length;
    enum link link = t->place == 0 ? FIRST : t->left == 1 ? LAST : BETWEEN;
    uint64_t head = c->address | (uint64_t)(link << 6 | c->extended << 5 | t->index << 2 | t->priority) << 8;
    if (c->extended)
        head |= (uint64_t)c->extension << 8 * n++;
    if (link == FIRST) {
        if (header == 2)
            head |= (uint64_t)(0x10 | t->length >> 8) << 8 * n++;
        head |= (uint64_t)(t->length & 0xff) << 8 * n++;
        part -= header;
    } else {
        left -= SEGMENT * t->place - header;
        from += SEGMENT * t->place - header;
    }
    if (part > left)
        part = left;
    put_word(packet, head);
    if (from + SEGMENT <= SENDER_STORE)
        memcpy(packet + n, store + from, SEGMENT);
    else
        memcpy(packet + n, store + from, part);
    return n + part;
}

/* Puts a packet's frame into a block of `room` bytes if it ends at bit u or before: whether it does. */
static inline int put_within(struct quill *q, const uint8_t *block, size_t room, size_t u, const uint8_t *packet, size_t n)
{
    enum { SPARE = STUFFED / 8 + 16 };
    uint8_t spare[SPARE], *start = q->to;
    size_t before = (size_t)(start - block), written;
    int close = before + SPARE > room;
    struct quill next = *q;
    if (close)
        next.to = spare;
    add_frame(&next, packet, n);
    written = (size_t)(next.to - (close ? spare : start));
    if (8 * (before + written) + next.have > u)
        return 0;
    if (close)
        memcpy(start, spare, written);
    next.to = start + written;
    next.bare += 8 * (unsigned)(n + 2) + 8;
    *q = next;
    return 1;
}

static uint32_t fill_fast(struct plain_sender *s, const uint8_t *store, struct quill *q, const uint8_t *block, size_t room, size_t u)
{
    uint8_t packet[8 + SEGMENT];
    uint32_t placed = 0;
    int i;
    while ((i = pick(s)) >= 0) {
        size_t n = assemble(&s->circuits.list[i], &s->slots[i], store, REGION * (size_t)i, packet);
        if (!put_within(q, block, room, u, packet, n))
            break;
        serve(s, i);
        placed++;
    }
    return placed;
}

/* Ones up to bit n, and zeros in what is left of its byte. */
static void put_ones(const struct quill *q, uint8_t *block, size_t n)
{
    size_t at = (size_t)(q->to - block);
    uint8_t first = (uint8_t)(q->word | 0xffu << q->have), last = (uint8_t)((1u << n % 8) - 1);
    if (at < n / 8) {
        block[at] = first;
        memset(block + at + 1, 0xff, n / 8 - at - 1);
        first = 0xff;
    }
    if (n % 8)
        block[n / 8] = first & last;
}

uint32_t fast_sender_block(struct plain_sender *s, const uint8_t *store, size_t store_len, uint64_t n, uint64_t u,
                           const struct plain_system *system, uint8_t *block, size_t block_len, struct plain_block *answer)
{
    struct quill q = {block, FLAG, 8, 0, 8};
    uint32_t refusal = block_refusal(s, store_len, NULL, 0, n, u, system, block_len);
    if (refusal)
        return refusal;
    make_tables();
    flush(&q);
    if (system) {
        uint8_t packet[3 + 15] = {SYSTEM_ADDRESS, (uint8_t)(SYSTEM_LINK << 6 | system->enable),
                                  (uint8_t)(system->code << 4 | system->info_len)};
        memcpy(packet + 3, system->info, system->info_len);
        put_within(&q, block, (n + 7) / 8, u, packet, 3 + system->info_len);
        s->enable = (uint8_t)system->enable;
    }
    answer->placed = fill_fast(s, store, &q, block, (n + 7) / 8, u);
    answer->used = (uint32_t)(8 * (q.to - block) + q.have);
    answer->zeros = answer->used - q.bare;
    put_ones(&q, block, n);
    return 0;
}

/* ---- reading */

/* The bits that are there behind any place where a word is looked at, and the bytes for a body, which is written behind as many as the longest has. */
enum { AHEAD = 128, ROOM = BODY + 40 };

/* Takes the stuffed zeros out of `length` bits from bit `from` on: how many are left. Their last byte is filled up with ones. */
static inline unsigned unstuff(const uint8_t *bits, uint64_t from, unsigned length, uint8_t *body)
{
    enum { STEP = 48 };
    uint64_t word = 0, window = 0;
    unsigned have = 0, done = 0;
    uint8_t *to = body;
    for (; done < length; done += STEP) {
        uint64_t next = word_at(bits + (from + done) / 8) >> (from + done) % 8;
        if (length - done < STEP)
            next |= ~(uint64_t)0 << (length - done);
        window = (window >> STEP & 0x1f) | next << 5;
#pragma GCC unroll 6
        for (unsigned i = 0; i < STEP; i += 8) {
            unsigned byte = unstuffed[window >> i & 0x1fff];
            word |= (uint64_t)(byte & 0xff) << have;
            have += byte >> 8;
        }
        put_word(to, word);
        to += have / 8;
        word >>= have & 56;
        have &= 7;
    }
    return 8 * (unsigned)(to - body) + have - (done - length);
}

/* What a body gives, as `judged` has it, whose bits stand from bit `from` on. Zeros are put before its bytes, which add nothing to their FCS. */
static inline int judged_at(const uint8_t *bits, uint64_t from, uint64_t length, uint8_t *body)
{
    unsigned count, fcs, n;
    uint64_t end = from + length;
    if (length < LEAST)
        return 0;
    if (length > STUFFED)
        return -1;
    count = unstuff(bits, from, (unsigned)length, body);
    if (count < LEAST)
        return 0;
    if (count % 8 || count > MOST || ((bits[(end - 5) / 8] | bits[(end - 1) / 8] << 8) >> (end - 5) % 8 & 0x1f) == 0x1f)
        return -1;
    n = count / 8;
    fcs = fcs_preset[n];
    memset(body - BODY, 0, BODY);
#pragma GCC unroll 21
    for (int i = 0; i < BODY; i++)
        fcs ^= fcs_of[i][body[(int)n - 1 - i]];
    return fcs == FCS_GOOD ? (int)n - 2 : -1;
}

/* The place of the first 0 from bit `at` on, or of a bit before it where too few bits are ahead. */
static inline uint64_t ones_end(const uint8_t *bits, uint64_t at, uint64_t to)
{
    uint64_t zeros = ~word_at(bits + at / 8) & ~(uint64_t)0 << at % 8;
    at = at / 8 * 8;
    while (!zeros && at + 64 + AHEAD <= to)
        zeros = ~word_at(bits + (at += 64) / 8);
    return at + (zeros ? (unsigned)__builtin_ctzll(zeros) : 63);
}

/* The place of the first six ones from bit `at` on, or `to` where too few bits are ahead. */
static inline uint64_t six_ones(const uint8_t *bits, uint64_t at, uint64_t to)
{
    uint64_t word = word_at(bits + at / 8) & ~(uint64_t)0 << at % 8;
    at = at / 8 * 8;
    for (;;) {
        uint64_t two = word & word >> 1, six = two & two >> 2 & two >> 4;
        if (six)
            return at + (unsigned)__builtin_ctzll(six);
        at += 56;
        if (at + AHEAD > to)
            return to;
        word = word_at(bits + at / 8);
    }
}

/* Whether a framing stands behind a 0 with no bit of a body read, or behind seven ones. */
static inline int between_bodies(const struct plain_framing *f)
{
    return f->window < 0x8000 ? !f->inside || f->count == 0 : f->window >> 9 == 0x7f;
}

/* As next_body, from a place between bodies to one between bodies, while there are bits enough. A packet is left in `body`. */
static int next_by_words(struct plain_framing *f, const uint8_t *bits, uint64_t *at, uint64_t to, uint8_t *body)
{
    unsigned in_ones = f->window >= 0x8000, inside = f->inside;
    uint64_t i = *at;
    int found = 0;
    while (!found && i + AHEAD <= to) {
        uint64_t six;
        if (in_ones) {
            i = ones_end(bits, i, to);
            if (bits[i / 8] >> i % 8 & 1)
                break;
            i++;
            in_ones = 0;
            continue;
        }
        six = six_ones(bits, i, to);
        if (six == to)
            break;
        in_ones = bits[(six + 6) / 8] >> (six + 6) % 8 & 1;
        if (!in_ones && inside && six > i)
            found = judged_at(bits, i, six - 1 - i, body);
        inside = !in_ones;
        i = six + 7;
    }
    f->window = in_ones ? 0xffff : inside ? FLAG << 8 : 0;
    f->inside = (uint8_t)inside;
    f->count = 0;
    *at = i;
    return found;
}

/* As next_body. A packet is left in `body`. */
static inline int next_body_fast(struct plain_framing *f, const uint8_t *bits, uint64_t *at, uint64_t to, uint8_t *body)
{
    int found = 0;
    while (!found && *at + AHEAD <= to && !between_bodies(f))
        found = next_body(f, bits, at, *at + 1);
    if (!found && *at + AHEAD <= to) {
        found = next_by_words(f, bits, at, to, body);
        if (found)
            return found;
    }
    if (!found)
        found = next_body(f, bits, at, to);
    if (found > 0)
        memcpy(body, f->body, (size_t)found);
    return found;
}

uint32_t fast_receiver_read(struct plain_receiver *r, uint8_t *store, size_t store_len, const uint8_t *bits, size_t bits_len,
                            uint64_t from, uint64_t to, struct plain_read *answer)
{
    uint8_t room[ROOM], *body = room + BODY;
    uint64_t at = from;
    int found;
    if (!receiver_in_range(r, 0))
        return 14;
    if (store_len < RECEIVER_STORE)
        return 5;
    if (outside(from, to, bits_len))
        return 15;
    make_tables();
    memset(answer, 0, sizeof *answer);
    found = next_body_fast(&r->framing, bits, &at, to, body);
    if (found > 0)
        hear(r, store, NULL, body, (size_t)found, answer);
    else if (found < 0)
        answer->notice = SPOILT;
    answer->bits = at - from;
    return 0;
}

uint32_t fast_framing_read(struct plain_framing *f, const uint8_t *bits, size_t bits_len, uint64_t from, uint64_t to, uint8_t *packet,
                           struct plain_framing_answer *answer)
{
    uint8_t room[ROOM], *body = room + BODY;
    uint64_t at = from;
    int found;
    if (outside(from, to, bits_len))
        return 15;
    make_tables();
    memset(answer, 0, sizeof *answer);
    found = next_body_fast(f, bits, &at, to, body);
    if (found > 0) {
        answer->body = 2;
        answer->length = (uint8_t)found;
        memcpy(packet, body, (size_t)found);
    } else if (found < 0) {
        answer->body = 1;
    }
    answer->bits = at - from;
    return 0;
}
