/*
 * A pass in C. A sender lists two circuits, takes messages and makes blocks of user bits, the first with a system packet; the packets still to go are
 * printed before and behind each block. A stretch of the bits is damaged. A receiver reads them in two parts, cut inside a byte; every notice is
 * printed and noted in totals, and the totals are printed in the end. examples/c/run builds and runs it; the file `expected` has what it prints.
 */
#include "aes18.h"

#include <stdio.h>
#include <stdlib.h>
#include <string.h>

enum { CIRCUITS = 2, BLOCKS = 3, BLOCK_BITS = 1000, USABLE_BITS = 960, BLOCK_BYTES = BLOCK_BITS / 8 };
enum { DAMAGED_FROM = 1240, DAMAGED_TO = 1300, CUT = 1203 };

/* Address 01 without extension, and address 02 with extension 07, both in base 16. Both ends list the circuits in this order. */
static const uint8_t circuits[CIRCUITS * AES18_CIRCUIT_BYTES] = {0x01, 0, 0, 0x02, 1, 0x07};
static const uint64_t priority[CIRCUITS] = {1, AES18_HIGHEST_PRIORITY};
static const uint64_t repetition[CIRCUITS] = {0, 1};

/* What each circuit is offered before each block. */
static const char *const messages[BLOCKS][CIRCUITS] = {
    {"charge 71% 3.92 V 24 C", "heater on"},
    {"charge 70% 3.91 V 23 C, array in shadow", "heater off"},
    {"charge 72% 3.93 V 25 C, array in sunlight", "beacon low"},
};

static const char *const fates[] = {"Copy", "Begun", "Held", "Whole", "Orphan", "Wrong"};

/* A receiver, and totals beside it. These are empty while all their bytes are 0, as those of a static struct are at first. */
struct receiver {
    uint8_t record[AES18_RECEIVER_RECORD];
    uint8_t store[AES18_RECEIVER_STORE];
    uint8_t totals[AES18_TOTALS_RECORD];
};

/* Ends the program if a call was refused. */
static void check(const char *call, uint32_t refusal)
{
    if (refusal != AES18_ACCEPTED) {
        fprintf(stderr, "pass: %s is refused: %lu\n", call, (unsigned long)refusal);
        exit(EXIT_FAILURE);
    }
}

/* A number of `size` bytes, lowest first. */
static uint64_t number(const uint8_t *bytes, size_t size)
{
    uint64_t value = 0;

    while (size-- > 0)
        value = value << 8 | bytes[size];
    return value;
}

/* Prints the packets still to go at each circuit, as a panel reads them in the sender's record. Copies are not counted. */
static void tell_left(const uint8_t *record)
{
    size_t c;

    printf("packets still to go:");
    for (c = 0; c < CIRCUITS; c++)
        printf("%s %lu at circuit %lu", c == 0 ? "" : ",",
               (unsigned long)number(record + AES18_SENDER_LEFT + AES18_SENDER_CIRCUIT_BYTES * c, 2), (unsigned long)c);
    printf("\n");
}

/*
 * Makes the blocks, one behind the other, and offers the messages of each before it is made. The system packet of the first block enables the priorities
 * of the two circuits and no others, in that block and in the later ones.
 */
static void make_blocks(uint8_t *bits)
{
    static uint8_t store[AES18_SENDER_STORE];
    static const uint8_t info[] = {'p', 'a', 's', 's', ' ', '1', '7'};
    const uint64_t enable = 1u << priority[0] | 1u << priority[1];
    uint8_t record[AES18_SENDER_RECORD], answer[AES18_BLOCK_ANSWER];
    size_t b, c;

    check("listing", aes18_sender_list(record, sizeof record, circuits, sizeof circuits));
    for (b = 0; b < BLOCKS; b++) {
        for (c = 0; c < CIRCUITS; c++)
            check("offering",
                  aes18_sender_offer(record, sizeof record, store, sizeof store, c, priority[c], repetition[c],
                                     (const uint8_t *)messages[b][c], strlen(messages[b][c])));
        tell_left(record);
        check("block making",
              aes18_sender_block(record, sizeof record, store, sizeof store, BLOCK_BITS, USABLE_BITS, b == 0, enable, 1, info, sizeof info,
                                 bits + b * BLOCK_BYTES, BLOCK_BYTES, answer, sizeof answer));
        printf("block %lu: %lu frames, %lu bits used, stuffed zeros among them %lu, enable bits in force %u\n", (unsigned long)b,
               (unsigned long)number(answer + AES18_BLOCK_PLACED, 4), (unsigned long)number(answer + AES18_BLOCK_USED, 4),
               (unsigned long)number(answer + AES18_BLOCK_ZEROS, 4), record[AES18_SENDER_ENABLE]);
        tell_left(record);
    }
}

/* Writes zeros over some bits. */
static void damage(uint8_t *bits, size_t from, size_t to)
{
    printf("bits %lu to %lu become zeros\n", (unsigned long)from, (unsigned long)to - 1);
    for (; from < to; from++)
        bits[from / 8] = (uint8_t)(bits[from / 8] & ~(1u << from % 8));
}

/* Prints a notice that names a circuit. */
static void tell_circuit(const struct receiver *r, const uint8_t *answer)
{
    unsigned c = answer[AES18_READ_CIRCUIT], loss = answer[AES18_READ_LOSS], fate = answer[AES18_READ_FATE];

    printf("circuit %u, loss %u, %s", c, loss, fates[fate]);
    if (fate == AES18_FATE_WHOLE) {
        printf(": ");
        fwrite(r->store + c * AES18_REGION, 1, (size_t)number(answer + AES18_READ_MESSAGE, 2), stdout);
    }
    printf("\n");
}

/* Prints a notice. */
static void tell(const struct receiver *r, const uint8_t *answer)
{
    switch (answer[AES18_READ_NOTICE]) {
    case AES18_NOTICE_END: printf("End\n"); break;
    case AES18_NOTICE_SPOILT: printf("Spoilt\n"); break;
    case AES18_NOTICE_MALFORMED: printf("Malformed\n"); break;
    case AES18_NOTICE_SYSTEM:
        printf("System, enable bits %u, code %u: %.*s\n", answer[AES18_READ_ENABLE], answer[AES18_READ_CODE], answer[AES18_READ_INFORMATION],
               (const char *)r->store + AES18_SYSTEM_PLACE);
        break;
    case AES18_NOTICE_ELSEWHERE: printf("Elsewhere\n"); break;
    case AES18_NOTICE_CIRCUIT: tell_circuit(r, answer); break;
    }
}

/* Reads the bits from one number up to another, from notice to notice, until End, and notes each of them. */
static void read_bits(struct receiver *r, const uint8_t *bits, size_t length, uint64_t from, uint64_t to)
{
    uint8_t answer[AES18_READ_ANSWER];

    do {
        check("reading",
              aes18_receiver_read(r->record, sizeof r->record, r->store, sizeof r->store, bits, length, from, to, answer, sizeof answer));
        check("noting", aes18_totals_note(r->totals, sizeof r->totals, answer, sizeof answer));
        from += number(answer + AES18_READ_BITS, 8);
        printf("bit %4lu: ", (unsigned long)from);
        tell(r, answer);
    } while (answer[AES18_READ_NOTICE] != AES18_NOTICE_END);
}

/* Prints a circuit's totals. */
static void tell_totals(const struct receiver *r, size_t c)
{
    const uint8_t *figures = r->totals + c * AES18_TOTALS_CIRCUIT;

    printf("circuit %lu: messages whole %lu, their bytes %lu, packets lost %lu, orphaned %lu\n", (unsigned long)c,
           (unsigned long)number(figures + AES18_TOTALS_MESSAGES, 4), (unsigned long)number(figures + AES18_TOTALS_BYTES, 4),
           (unsigned long)number(figures + AES18_TOTALS_LOST, 4), (unsigned long)number(figures + AES18_TOTALS_ORPHANED, 4));
}

int main(void)
{
    static uint8_t bits[BLOCKS * BLOCK_BYTES];
    static struct receiver r;
    size_t c;

    make_blocks(bits);
    damage(bits, DAMAGED_FROM, DAMAGED_TO);
    check("listing", aes18_receiver_list(r.record, sizeof r.record, circuits, sizeof circuits));
    read_bits(&r, bits, sizeof bits, 0, CUT);
    read_bits(&r, bits, sizeof bits, CUT, BLOCKS * BLOCK_BITS);
    for (c = 0; c < CIRCUITS; c++)
        tell_totals(&r, c);
    return EXIT_SUCCESS;
}
