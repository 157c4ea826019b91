/* What the benchmark calls in C: the channel and the serial line in plain C (plain.c), the channel in fast C (fast.c), and the depth of a call on the
   stack (stack.c). */
#ifndef AES18_BENCH_H
#define AES18_BENCH_H

#include <stddef.h>
#include <stdint.h>

/* The records. Each call answers 0 or the number of the documents' refusal, as the library's do. */
struct plain_sender;
struct plain_receiver;
extern const size_t plain_sender_size, plain_receiver_size;

/* The answers. On a little-endian machine their bytes are those of the library's answers; `none` is 0. */
struct plain_block {
    uint32_t placed, used, zeros;
};
struct plain_read {
    uint8_t notice, number_or_enable, loss_or_code, fate_or_information;
    uint16_t length, none;
    uint64_t bits;
};

/* A framing: the last 16 bits, the newest highest, which are ones in a fresh one; whether a body is open, how many bits of it are kept, the last eight
   of them, and their whole bytes: one more than the longest body that passes has, as the closing flag's first bits are kept too. */
struct plain_framing {
    uint16_t window;
    uint8_t inside, count, last;
    uint8_t body[22];
};

/* The answer of a framing's read. On a little-endian machine its bytes are those of the library's answer; `none` is 0. */
struct plain_framing_answer {
    uint8_t body, length, none[6];
    uint64_t bits;
};

/* Totals: the figures of each circuit number. On a little-endian machine their bytes are those of the library's record. */
struct plain_totals {
    struct plain_figures {
        uint32_t messages, bytes, lost, orphaned;
    } circuits[4];
};

/* A reader of the serial line, fresh while all its bytes are 0: whether a flag is read, whether an escape waits for its byte, how many bytes stand
   behind the flag, and these. */
struct plain_line {
    uint8_t inside, escape, count, bytes[21];
};

/* The answer of a line's read: the packet's length, and the bytes read. On a little-endian machine its bytes are those of the library's answer. */
struct plain_line_answer {
    uint64_t packet, bytes;
};

/* A system packet; a block call is given a null pointer where none is wanted, and then the enable bits in force stay. */
struct plain_system {
    uint64_t enable, code;
    const uint8_t *info;
    size_t info_len;
};

uint32_t plain_sender_list(struct plain_sender *s, const uint8_t *list, size_t list_len);
uint32_t plain_sender_offer(struct plain_sender *s, uint8_t *store, size_t store_len, uint64_t circuit, uint64_t priority,
                            uint64_t repetition, const uint8_t *message, size_t message_len);
uint32_t plain_sender_offer_beside(struct plain_sender *s, uint8_t *store, size_t store_len, const uint8_t *buffer, size_t buffer_len,
                                   uint64_t circuit, uint64_t priority, uint64_t repetition, const uint8_t *message, size_t message_len);
uint32_t plain_sender_offer_long(struct plain_sender *s, size_t store_len, uint8_t *buffer, size_t buffer_len, uint64_t priority,
                                 uint64_t repetition, const uint8_t *message, size_t message_len);
uint32_t plain_sender_block(struct plain_sender *s, const uint8_t *store, size_t store_len, uint64_t n, uint64_t u,
                            const struct plain_system *system, uint8_t *block, size_t block_len, struct plain_block *answer);
uint32_t plain_sender_block_beside(struct plain_sender *s, const uint8_t *store, size_t store_len, const uint8_t *buffer, size_t buffer_len,
                                   uint64_t n, uint64_t u, const struct plain_system *system, uint8_t *block, size_t block_len,
                                   struct plain_block *answer);
uint32_t plain_receiver_list(struct plain_receiver *r, const uint8_t *list, size_t list_len);
uint32_t plain_receiver_read(struct plain_receiver *r, uint8_t *store, size_t store_len, const uint8_t *bits, size_t bits_len,
                             uint64_t from, uint64_t to, struct plain_read *answer);
uint32_t plain_receiver_read_beside(struct plain_receiver *r, uint8_t *store, size_t store_len, uint8_t *buffer, size_t buffer_len,
                                    const uint8_t *bits, size_t bits_len, uint64_t from, uint64_t to, struct plain_read *answer);
uint32_t plain_framing_read(struct plain_framing *f, const uint8_t *bits, size_t bits_len, uint64_t from, uint64_t to, uint8_t *packet,
                            struct plain_framing_answer *answer);
uint32_t plain_totals_note(struct plain_totals *t, const struct plain_read *answer);
uint32_t plain_line_write(const uint8_t *packet, size_t packet_len, uint8_t *line, size_t line_len, uint64_t *written);
uint32_t plain_line_read(struct plain_line *r, const uint8_t *line, size_t line_len, uint8_t *packet, struct plain_line_answer *answer);

/* Fast C, over the same records. */
uint32_t fast_sender_block(struct plain_sender *s, const uint8_t *store, size_t store_len, uint64_t n, uint64_t u,
                           const struct plain_system *system, uint8_t *block, size_t block_len, struct plain_block *answer);
uint32_t fast_receiver_read(struct plain_receiver *r, uint8_t *store, size_t store_len, const uint8_t *bits, size_t bits_len,
                            uint64_t from, uint64_t to, struct plain_read *answer);
uint32_t fast_framing_read(struct plain_framing *f, const uint8_t *bits, size_t bits_len, uint64_t from, uint64_t to, uint8_t *packet,
                           struct plain_framing_answer *answer);

/* How many bytes of a stack of its own `call` touches. */
size_t stack_depth(void (*call)(void *), void *given);

#endif
