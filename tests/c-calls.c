/* The calls that the tests of the interface in C share. */
#define _DEFAULT_SOURCE
#include "c-calls.h"

#include <stdio.h>
#include <stdlib.h>
#include <string.h>
#include <sys/mman.h>

static const size_t rooms[ARRAYS] = {PAGE, 5 * PAGE, ARENA, ARENA, PAGE, PAGE};
static uint8_t *arenas[ARRAYS]; /* each of its room, between two pages that must not be touched */
static uint8_t *nowhere;        /* where an array of no bytes is said to be */

const char *testing;
int failures, refused[256], noticed[6], became[6];

const uint8_t two_circuits[] = {0x01, 0, 0, 0x02, 1, 0x07};
const uint8_t four_circuits[] = {0x01, 0, 0, 0x01, 1, 0, 0x7E, 1, 0xFF, 0xFE, 0, 0};
const uint8_t two_listed[13] = {2, 0x01, 0, 0, 0x02, 1, 0x07};

void is(int line, uint64_t found, uint64_t wanted)
{
    if (found == wanted)
        return;
    printf("%s:%d: %lu where %lu is wanted\n", testing, line, (unsigned long)found, (unsigned long)wanted);
    failures++;
}

void equal(int line, const uint8_t *found, const uint8_t *wanted, size_t length)
{
    size_t i = 0;

    if (length == 0 || memcmp(found, wanted, length) == 0)
        return;
    while (found[i] == wanted[i])
        i++;
    printf("%s:%d: byte %lu is %u where %u is wanted\n", testing, line, (unsigned long)i, found[i], wanted[i]);
    failures++;
}

void all(int line, const uint8_t *found, uint8_t wanted, size_t length)
{
    size_t i = 0;

    if (length == 0 || (found[0] == wanted && memcmp(found, found + 1, length - 1) == 0))
        return;
    while (found[i] == wanted)
        i++;
    is(line, i, length);
}

static uint32_t sender_list(const struct call *c, uint8_t *const at[ARRAYS])
{
    return aes18_sender_list(at[RECORD], c->length[RECORD], at[INPUT], c->length[INPUT]);
}

static uint32_t sender_offer(const struct call *c, uint8_t *const at[ARRAYS])
{
    return aes18_sender_offer(at[RECORD], c->length[RECORD], at[STORE], c->length[STORE], c->circuit, c->priority, c->repetition, at[INPUT],
                              c->length[INPUT]);
}

static uint32_t sender_offer_beside(const struct call *c, uint8_t *const at[ARRAYS])
{
    return aes18_sender_offer_beside(at[RECORD], c->length[RECORD], at[STORE], c->length[STORE], at[BUFFER], c->length[BUFFER], c->circuit,
                                     c->priority, c->repetition, at[INPUT], c->length[INPUT]);
}

static uint32_t sender_offer_long(const struct call *c, uint8_t *const at[ARRAYS])
{
    return aes18_sender_offer_long(at[RECORD], c->length[RECORD], at[STORE], c->length[STORE], at[BUFFER], c->length[BUFFER], c->priority,
                                   c->repetition, at[INPUT], c->length[INPUT]);
}

static uint32_t sender_block(const struct call *c, uint8_t *const at[ARRAYS])
{
    return aes18_sender_block(at[RECORD], c->length[RECORD], at[STORE], c->length[STORE], c->n, c->u, c->system, c->enable, c->code, at[INPUT],
                              c->length[INPUT], at[BLOCK], c->length[BLOCK], at[ANSWER], c->length[ANSWER]);
}

static uint32_t sender_block_beside(const struct call *c, uint8_t *const at[ARRAYS])
{
    return aes18_sender_block_beside(at[RECORD], c->length[RECORD], at[STORE], c->length[STORE], at[BUFFER], c->length[BUFFER], c->n, c->u,
                                     c->system, c->enable, c->code, at[INPUT], c->length[INPUT], at[BLOCK], c->length[BLOCK], at[ANSWER],
                                     c->length[ANSWER]);
}

static uint32_t receiver_list(const struct call *c, uint8_t *const at[ARRAYS])
{
    return aes18_receiver_list(at[RECORD], c->length[RECORD], at[INPUT], c->length[INPUT]);
}

static uint32_t receiver_read(const struct call *c, uint8_t *const at[ARRAYS])
{
    return aes18_receiver_read(at[RECORD], c->length[RECORD], at[STORE], c->length[STORE], at[INPUT], c->length[INPUT], c->from, c->to, at[ANSWER],
                               c->length[ANSWER]);
}

static uint32_t receiver_read_beside(const struct call *c, uint8_t *const at[ARRAYS])
{
    return aes18_receiver_read_beside(at[RECORD], c->length[RECORD], at[STORE], c->length[STORE], at[BUFFER], c->length[BUFFER], at[INPUT],
                                      c->length[INPUT], c->from, c->to, at[ANSWER], c->length[ANSWER]);
}

static uint32_t framing_read(const struct call *c, uint8_t *const at[ARRAYS])
{
    return aes18_framing_read(at[RECORD], c->length[RECORD], at[INPUT], c->length[INPUT], c->from, c->to, at[PACKET], c->length[PACKET], at[ANSWER],
                              c->length[ANSWER]);
}

static uint32_t totals_note(const struct call *c, uint8_t *const at[ARRAYS])
{
    return aes18_totals_note(at[RECORD], c->length[RECORD], at[INPUT], c->length[INPUT]);
}

static uint32_t line_write(const struct call *c, uint8_t *const at[ARRAYS])
{
    return aes18_line_write(at[INPUT], c->length[INPUT], at[LINE], c->length[LINE], at[ANSWER], c->length[ANSWER]);
}

static uint32_t line_read(const struct call *c, uint8_t *const at[ARRAYS])
{
    return aes18_line_read(at[RECORD], c->length[RECORD], at[INPUT], c->length[INPUT], at[PACKET], c->length[PACKET], at[ANSWER],
                           c->length[ANSWER]);
}

enum { OFFERED = 1 << RECORD | 1 << STORE, MADE = 1 << RECORD | 1 << BLOCK | 1 << ANSWER, READ = 1 << RECORD | 1 << STORE | 1 << ANSWER };

const struct function list_sender = {sender_list, 1 << RECORD, 1 << RECORD, AES18_SENDER_RECORD, 0, 0, 0};
const struct function offer_alone = {sender_offer, OFFERED, 0, AES18_SENDER_RECORD, AES18_SENDER_STORE, 0, 0};
const struct function offer_beside = {sender_offer_beside, OFFERED, 0, AES18_SENDER_RECORD, AES18_SENDER_STORE, AES18_LONG_BUFFER, 0};
const struct function offer_long = {
    sender_offer_long, 1 << RECORD | 1 << BUFFER, 0, AES18_SENDER_RECORD, AES18_SENDER_STORE, AES18_LONG_BUFFER, 0};
const struct function block_alone = {sender_block, MADE, 0, AES18_SENDER_RECORD, AES18_SENDER_STORE, 0, AES18_BLOCK_ANSWER};
const struct function block_beside = {
    sender_block_beside, MADE, 0, AES18_SENDER_RECORD, AES18_SENDER_STORE, AES18_LONG_BUFFER, AES18_BLOCK_ANSWER};
const struct function list_receiver = {receiver_list, 1 << RECORD, 1 << RECORD, AES18_RECEIVER_RECORD, 0, 0, 0};
const struct function read_alone = {receiver_read, READ, 0, AES18_RECEIVER_RECORD, AES18_RECEIVER_STORE, 0, AES18_READ_ANSWER};
const struct function read_beside = {
    receiver_read_beside, READ | 1 << BUFFER, 0, AES18_RECEIVER_RECORD, AES18_RECEIVER_STORE, AES18_LONG_BUFFER, AES18_READ_ANSWER};
const struct function framing_reading = {
    framing_read, 1 << RECORD | 1 << PACKET | 1 << ANSWER, 0, AES18_FRAMING_RECORD, 0, 0, AES18_FRAMING_ANSWER};
const struct function noting = {totals_note, 1 << RECORD, 0, AES18_TOTALS_RECORD, 0, 0, 0};
const struct function line_writing = {line_write, 1 << LINE | 1 << ANSWER, 0, 0, 0, 0, AES18_LINE_WRITE_ANSWER};
const struct function line_reading = {
    line_read, 1 << RECORD | 1 << PACKET | 1 << ANSWER, 0, AES18_LINE_RECORD, 0, 0, AES18_LINE_READ_ANSWER};

struct function offer, block, reading;

void make_arenas(void)
{
    int a;

    for (a = 0; a < ARRAYS; a++) {
        uint8_t *pages = (uint8_t *)mmap(NULL, rooms[a] + 2 * PAGE, PROT_NONE, MAP_PRIVATE | MAP_ANONYMOUS, -1, 0);

        if (pages == MAP_FAILED || mprotect(pages + PAGE, rooms[a], PROT_READ | PROT_WRITE) != 0) {
            perror("tests/c-calls.c: mmap");
            exit(EXIT_FAILURE);
        }
        arenas[a] = pages + PAGE;
    }
}

void lend_nowhere(void)
{
    nowhere = NULL;
}

void lend_behind(void)
{
    nowhere = arenas[INPUT] + rooms[INPUT];
}

void lend_alone(void)
{
    offer = offer_alone;
    block = block_alone;
    reading = read_alone;
}

void lend_beside(void)
{
    offer = offer_beside;
    block = block_beside;
    reading = read_beside;
}

uint32_t call(int line, struct call *c, const struct function *f)
{
    uint8_t *at[ARRAYS];
    uint32_t refusal;
    unsigned writes;
    int a;

    for (a = 0; a < ARRAYS; a++) {
        size_t free = rooms[a] - c->length[a];

        memset(arenas[a], BEFORE, free);
        memcpy(arenas[a] + free, c->bytes[a], c->length[a]);
        at[a] = c->length[a] == 0 ? nowhere : arenas[a] + free;
    }
    refusal = f->run(c, at);
    writes = refusal == AES18_ACCEPTED ? f->writes : refusal == AES18_REFUSED_SHORT ? 0 : f->writes_refused;
    for (a = 0; a < ARRAYS; a++) {
        size_t free = rooms[a] - c->length[a];

        all(line, arenas[a], BEFORE, free);
        if (writes >> a & 1)
            memcpy(c->bytes[a], arenas[a] + free, c->length[a]);
        else
            equal(line, arenas[a] + free, c->bytes[a], c->length[a]);
    }
    refused[refusal & 255] = 1;
    return refusal;
}

void read_on(int line, struct call *c)
{
    const uint8_t *answer = c->bytes[ANSWER];

    is(line, call(line, c, &reading), AES18_ACCEPTED);
    c->from += number(answer + AES18_READ_BITS, 8);
    noticed[answer[AES18_READ_NOTICE] % 6] = 1;
    if (answer[AES18_READ_NOTICE] == AES18_NOTICE_CIRCUIT)
        became[answer[AES18_READ_FATE] % 6] = 1;
}

void too_high(int line, struct call *c, const struct function *f, uint64_t *number, uint64_t highest, uint32_t refusal)
{
    const uint64_t numbers[] = {highest + 1, highest + 256, highest + 65536, highest + 4294967296u, UINT64_MAX};
    size_t i;

    for (i = 0; i < COUNT(numbers); i++) {
        *number = numbers[i];
        is(line, call(line, c, f), refusal);
    }
    *number = highest;
}

void put(struct call *c, int array, const void *bytes, size_t length)
{
    memcpy(c->bytes[array], bytes, length);
    c->length[array] = length;
}

void prepare(struct call *c, const struct function *f)
{
    memset(c->bytes, OLD, sizeof c->bytes);
    memset(c->length, 0, sizeof c->length);
    c->length[RECORD] = f->record;
    c->length[STORE] = f->store;
    c->length[BUFFER] = f->buffer;
    c->length[ANSWER] = f->answer;
}

void prepare_listed(struct call *c, const struct function *list, const struct function *f, const void *circuits, size_t length)
{
    prepare(c, list);
    put(c, INPUT, circuits, length);
    CALL(c, list, AES18_ACCEPTED);
    c->length[STORE] = f->store;
    c->length[BUFFER] = f->buffer;
    c->length[ANSWER] = f->answer;
}

void test_lent(struct call *c, const struct function *f)
{
    c->bytes[RECORD][0] = AES18_MOST_CIRCUITS + 1;
    c->length[STORE] = c->length[BUFFER] = 0;
    c->length[RECORD] = 0;
    CALL(c, f, AES18_REFUSED_SHORT);
    c->length[RECORD] = f->record - 1;
    CALL(c, f, AES18_REFUSED_SHORT);
    c->length[RECORD] = f->record;
    if (f->answer > 0) {
        c->length[ANSWER] = 0;
        CALL(c, f, AES18_REFUSED_SHORT);
        c->length[ANSWER] = f->answer - 1;
        CALL(c, f, AES18_REFUSED_SHORT);
        c->length[ANSWER] = f->answer;
    }
    CALL(c, f, AES18_REFUSED_RECORD);
    c->bytes[RECORD][0] = 2;
    CALL(c, f, AES18_REFUSED_STORE);
    c->length[STORE] = f->store - 1;
    CALL(c, f, AES18_REFUSED_STORE);
    c->length[STORE] = f->store;
    if (f->buffer > 0) {
        CALL(c, f, AES18_REFUSED_LONG_BUFFER);
        c->length[BUFFER] = f->buffer - 1;
        CALL(c, f, AES18_REFUSED_LONG_BUFFER);
        c->length[BUFFER] = f->buffer;
    }
}

uint64_t number(const uint8_t *bytes, size_t size)
{
    uint64_t value = 0;

    while (size-- > 0)
        value = value << 8 | bytes[size];
    return value;
}

uint64_t left(const struct call *c, size_t circuit)
{
    const uint8_t *bytes = c->bytes[RECORD] + AES18_SENDER_LEFT + AES18_SENDER_CIRCUIT_BYTES * circuit;

    return bytes[0] + 256u * bytes[1];
}
