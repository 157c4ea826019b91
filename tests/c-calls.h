/*
 * What the tests of the interface in C share: the calls, with every array lent so that it ends at a page that must not be touched, and with known bytes
 * before it. After every call what must not change is compared. A failed comparison is printed with its line.
 */
#ifndef C_CALLS_H
#define C_CALLS_H

#include "aes18.h"

enum { PAGE = 4096, ARENA = 17 * PAGE, BEFORE = 0xA5, OLD = 0x5A };

/*
 * The arrays of a call. RECORD is that of an end, of totals or of a line's reader, or a framing; BUFFER is the long buffer; INPUT a list, a message,
 * system information, bits, an answer to note, a packet to write or a line to read. What a call makes stands in BLOCK, which has another name where it is
 * a line or a packet.
 */
enum { RECORD, STORE, BUFFER, INPUT, BLOCK, ANSWER, ARRAYS, LINE = BLOCK, PACKET = BLOCK };

struct call {
    uint8_t bytes[ARRAYS][ARENA];
    size_t length[ARRAYS];
    uint64_t circuit, priority, repetition;
    uint64_t n, u, system, enable, code;
    uint64_t from, to;
};

/* One of the thirteen functions, the arrays that it writes where it accepts and where it refuses, and how long those that it is lent have to be. */
struct function {
    uint32_t (*run)(const struct call *c, uint8_t *const at[ARRAYS]);
    unsigned writes, writes_refused;
    size_t record, store, buffer, answer;
};

extern const struct function list_sender, list_receiver, offer_alone, offer_beside, offer_long, block_alone, block_beside, read_alone, read_beside;
extern const struct function framing_reading, noting, line_writing, line_reading;

/* Those by which ends offer, make blocks and read: `_alone` or `_beside`. */
extern struct function offer, block, reading;

/* The file whose tests run, comparisons that failed, and the refusals, notices and fates that calls answered. */
extern const char *testing;
extern int failures, refused[256], noticed[6], became[6];

extern const uint8_t two_circuits[6], four_circuits[12];

/* The circuit part of the record of two_circuits. */
extern const uint8_t two_listed[13];

void is(int line, uint64_t found, uint64_t wanted);
void equal(int line, const uint8_t *found, const uint8_t *wanted, size_t length);

/* All bytes are the same. */
void all(int line, const uint8_t *found, uint8_t wanted, size_t length);

/* Lends a copy of every array, calls, compares what must not have changed, and takes back what may have. */
uint32_t call(int line, struct call *c, const struct function *f);

/* Reads on to the next notice. */
void read_on(int line, struct call *c);

/* Numbers above the highest one accepted, some of which are equal to it in their low bytes, are refused. The highest one is left there. */
void too_high(int line, struct call *c, const struct function *f, uint64_t *number, uint64_t highest, uint32_t refusal);

#define COUNT(array) (sizeof array / sizeof array[0])
#define IS(found, wanted) is(__LINE__, found, wanted)
#define EQUAL(found, wanted, length) equal(__LINE__, found, wanted, length)
#define ALL(found, wanted, length) all(__LINE__, found, wanted, length)
#define CALL(c, f, wanted) is(__LINE__, call(__LINE__, c, f), wanted)
#define READ_ON(c) read_on(__LINE__, c)
#define TOO_HIGH(c, f, number, highest, refusal) too_high(__LINE__, c, f, number, highest, refusal)

/* Makes the arenas, before the first call. */
void make_arenas(void);

/* Where an array of no bytes is said to be from then on: nowhere, or behind the last byte that may be touched. */
void lend_nowhere(void);
void lend_behind(void);

/* How ends offer, make blocks and read from then on: without a long buffer or with one. */
void lend_alone(void);
void lend_beside(void);

void put(struct call *c, int array, const void *bytes, size_t length);

/* All arrays hold old bytes, and are as long as the function has them, or of no bytes. */
void prepare(struct call *c, const struct function *f);

/* A freshly listed end, ready to call a function. */
void prepare_listed(struct call *c, const struct function *list, const struct function *f, const void *circuits, size_t length);

/* A call of which everything is wrong is refused for record, answer, store and long buffer, in this order, as one after the other is put right. */
void test_lent(struct call *c, const struct function *f);

/* A number of `size` bytes, lowest first. */
uint64_t number(const uint8_t *bytes, size_t size);

/* The packets still to go at a circuit number, as a panel reads them. */
uint64_t left(const struct call *c, size_t circuit);

/* The tests of long messages. */
void test_long(void);

#endif
