/*
 * The AES18 user-bit channel: messages in the user bits of AES3 audio (ITU-R BS.776 with HDLC framing).
 *
 * A sender lists circuits, takes messages and makes blocks of user bits. A receiver lists circuits and reads bits, cut anywhere, up to the next
 * notice. Totals, kept beside a receiver, are what the notices of a pass add up to at each circuit. A framing lists nothing: it reads bits, cut
 * anywhere, up to the next packet of whatever circuit, as one looks for the circuits in bits that nobody described. Apart from the user bits, packets
 * are written to a serial line and read from one: that to a telemetry terminal, in the octet-stuffed frames of RFC 1662. These are the functions of
 * the static library libaes18.a for x86-64, which `tools/staticlib` has proved and writes; docs/PROOFS.md says what is proved of them. Document 01 is
 * the specification: refusals have its numbers, and its words stand in quotation marks. The totals are those of document 02, ask 1; the serial line,
 * with refusals 16 and 17, is that of its ask 3; that enable bits hold over from block to block is its ask 4; the packets still to go in a sender's
 * record are those of its ask 5, the stuffed zeros in a block's answer those of its ask 6, and messages above 4094 bytes, with refusals 18 and 19,
 * those of its ask 7. No document asks for the framing's call; what it reads is what document 01 says of flags and bodies.
 *
 * Long messages. A message of 4095 to 65535 bytes is a long one. It is sent and received at circuit number 0 alone, by ends that are lent a long buffer
 * of 65535 bytes or more beside their store. aes18_sender_offer_long takes it; the other calls of an end that has such a buffer are those whose names
 * end in _beside, and do for all other messages what the calls without a buffer do.
 *
 * What is lent. Every array is lent as a pointer and its length in bytes, for the time of the call. With length 0 any pointer will do, a null
 * pointer too, and is not followed. An array that a call writes (record, framing, totals, block, the store of a read and of every offer but a long one,
 * the buffer of a long offer and of a read, the line of a line write, the packet of a framing read and of a line read, and the answer of a block, a
 * read, a framing read, a line write and a line read) must not overlap any other array of the same call: a long message is offered from elsewhere than
 * the buffer. Arrays that are only read may overlap each other.
 *
 * Ends. All that a sender or a receiver is stands in its record, its store and, if it has one, its long buffer. The calls keep no other state, take no
 * memory from the system and wait for nothing, so calls for different ends may interrupt each other or run at the same time. Each end lends the record
 * as the call before left it, and the same store in all its calls; nobody else writes either in between. And of the buffer document 02 says: "From its
 * listing on, an end has this buffer, the same one, in all its calls or in none, and nobody else writes it between them." A record of totals, a framing
 * and the record of a line's reader are lent as an end's record is.
 *
 * Answers. Every call returns AES18_ACCEPTED or the number of a refusal, for any input; nothing has to be checked before. A refused call leaves
 * every lent byte as it was, but for a refused listing, which writes the record of no circuits.
 *
 * Bits. Bit k of a block, or of bits lent for reading, is the bit of value 1 << (k % 8) in byte k / 8: a byte's lowest bit is sent first.
 * Numbers of several bytes, in answers and records, have their lowest byte first.
 *
 * Other makers' gear. Flags, frames, packets and system packets are those of BS.776. In these places documents 01 and 02 decide otherwise than BS.776,
 * whose sections stand in brackets:
 *   Message continuity index [5.2.1.1]. BS.776 counts the messages of an application modulo 8 in bits A7 to A5 of a message's header. Here they are
 *     sent as 0 and not looked at: a receiver of another make that tells lost messages by them is misled. Losses are told by the packet continuity
 *     index [5.2.2.1], up to six in a row; BS.776 counts seven [4.5], but the last packet's index again is a copy's.
 *   Block start [6.1.2]. BS.776 has a block begin with the 0 behind at least seven ones, which end the block before. Here no ones need stand there: a
 *     block may be used up to its end, and a receiver looks for no block starts. With u at most n - 7 every block ends in seven ones or more; those
 *     before the first block are the caller's.
 *   Justification [6.3.1]. From 42 to 54 kHz BS.776 makes it mandatory to leave bits free at a block's end. Here u may be n. The numbers of its
 *     table 1 are had with a u of 42 bits for each millisecond of the block: 1680 of the 1920 bits of 40 ms at 48 kHz.
 *   Packets in a block [6.3.2.1]. BS.776 has a table of the most packets of a message that a block takes, by priority and block length; where that is
 *     less than one, a rule spreads them over several blocks. Here there is neither: a block takes packets by priority as long as they fit, and
 *     may leave no room to gear behind it. A smaller u, the enable bits in force and the time of an offer hold packets back.
 *   Message length [5.2.1.2]. BS.776 codes a length that is above 4094 bytes or unknown as 4095, and the message's first and last packets are its limits
 *     then. A long message is just such a one, with the header 1F FF in base 16: a receiver of another make takes it if it has the room. BS.776 has
 *     these messages at every address and of any length; here they go over at circuit number 0, with a long buffer, and have 4095 to 65535 bytes. On
 *     these terms those of another maker's sender are handed over too, whether it knew their length or not, and others are not.
 * And this is not covered: sending a message whose length is not known when it is offered [5.2.1.2]; inserting packets into blocks that are made
 * already [6.3.1]; and the channel status, which has to tell of this use of the user bits [5.2.4.2]. An address extension of a system packet [6.2.1.2]
 * is never sent, and skipped by a receiver. Whether the enable bits of a system packet [6.2.1.1] rule later blocks that have none, BS.776 does not say;
 * here they do, and gear that takes each block by itself needs a system packet in every block.
 */
#ifndef AES18_H
#define AES18_H

#include <stddef.h>
#include <stdint.h>

#ifdef __cplusplus
extern "C" {
#endif

/*
 * Lengths in bytes of what is lent. Records, stores, long buffers and answers may be longer; the bytes behind are not looked at and keep their values.
 * Header and archive have to be of one version: an archive made before a record or an answer grew takes the longer one too, lays it out as before and
 * leaves its last bytes unwritten.
 */
#define AES18_SENDER_RECORD 55
#define AES18_RECEIVER_RECORD 61
#define AES18_SENDER_STORE 16384
#define AES18_RECEIVER_STORE 16400
#define AES18_LONG_BUFFER 65535
#define AES18_BLOCK_ANSWER 12
#define AES18_READ_ANSWER 16
#define AES18_FRAMING_RECORD 24
#define AES18_FRAMING_ANSWER 16
#define AES18_TOTALS_RECORD 64
#define AES18_LINE_RECORD 24
#define AES18_LINE_WRITE_ANSWER 8
#define AES18_LINE_READ_ANSWER 16

/*
 * The store. Region c begins at byte 4096 * c and belongs to circuit number c, 0 to 3. At a sender the message last taken stands at the start of
 * the region; blocks are made from there while a copy of it is to be placed. At a receiver message bytes are collected from the region's start, and
 * the 16 bytes from byte 16384 on, the system place, hold the information of the system packet last heard.
 *
 * The long buffer. It belongs to circuit number 0, as region 0 of the store does. A message of circuit 0 that is longer than 4094 bytes stands at the
 * start of the buffer, or is collected there, and any other in the region. A message that goes to one of the two leaves the other as it is.
 */
#define AES18_REGION 4096
#define AES18_SYSTEM_PLACE 16384

/*
 * The circuit list: one to four circuits, numbered from 0 in the order of the list, of three bytes each: the address, 1 or 0 for extension
 * present or not, and the extension, which is 0 where there is none. An address may have different numbers at the two ends.
 */
#define AES18_CIRCUIT_BYTES 3
#define AES18_MOST_CIRCUITS 4

/* What the calls take: a message in bytes, its priority (3 is the highest) and repetition; a block in bits and in bytes; a system packet. */
#define AES18_LONGEST_MESSAGE 4094
#define AES18_SHORTEST_LONG_MESSAGE 4095
#define AES18_LONGEST_LONG_MESSAGE 65535
#define AES18_HIGHEST_PRIORITY 3
#define AES18_MOST_REPETITIONS 5
#define AES18_FEWEST_BLOCK_BITS 256
#define AES18_MOST_BLOCK_BITS 27000
#define AES18_LONGEST_BLOCK 3375
#define AES18_ALL_ENABLED 15
#define AES18_HIGHEST_CODE 8
#define AES18_LONGEST_INFORMATION 15

/*
 * A packet in bytes, as a framing or the reader of a line gives it; and the longest frame of the serial line: two bytes for each byte of the longest
 * packet and of its FCS, and two flags.
 */
#define AES18_SHORTEST_PACKET 2
#define AES18_LONGEST_PACKET 19
#define AES18_LONGEST_LINE_FRAME 44

/*
 * Refusals, in the words of document 01, and of document 02 from 16 on. Where several apply, a call gives the first in its own order, which stands
 * at its declaration by the names without AES18_REFUSED_. SHORT is no number of these documents: it comes before all others, with nothing read or
 * written.
 */
#define AES18_ACCEPTED 0
#define AES18_REFUSED_LIST 1        /* "length not 3, 6, 9 or 12" */
#define AES18_REFUSED_ADDRESS 2     /* "an address FF hex" */
#define AES18_REFUSED_EXTENSION 3   /* "a middle byte above 1, or 0 with an extension byte other than 0" */
#define AES18_REFUSED_ALIKE 4       /* "two circuits alike" */
#define AES18_REFUSED_STORE 5       /* "store too short" */
#define AES18_REFUSED_CIRCUIT 6     /* "circuit number not listed" */
#define AES18_REFUSED_PRIORITY 7    /* "priority above 3" */
#define AES18_REFUSED_REPETITION 8  /* "repetition above 5" */
#define AES18_REFUSED_MESSAGE 9     /* "message above 4,094" */
#define AES18_REFUSED_PENDING 10    /* "an earlier message there still has a copy to place" */
#define AES18_REFUSED_BLOCK 11      /* "N outside 256 to 27,000 or U outside 256 to N" */
#define AES18_REFUSED_BUFFER 12     /* "buffer under N bits" */
#define AES18_REFUSED_SYSTEM 13     /* "only if a system packet is wanted, enable bits above 15, code above 8 or information above 15 bytes" */
#define AES18_REFUSED_RECORD 14     /* "a record out of range .., which no record made by calls is"; the ranges stand at the records below */
#define AES18_REFUSED_BITS 15       /* "from above to, or to past the bytes lent" */
#define AES18_REFUSED_LINE 16       /* "output shorter than that": than "the worst case, 2 bytes for each packet and FCS byte plus 2 flags" */
#define AES18_REFUSED_PACKET 17     /* "a packet outside 2 to 19 bytes, looked at before 16" */
#define AES18_REFUSED_LONG_LENGTH 18 /* "length outside 4,095 to 65,535, in place of 9" */
#define AES18_REFUSED_LONG_BUFFER 19 /* "long buffer too short, after 5 in every call given one" */
#define AES18_REFUSED_SHORT 255     /* the record, the answer, or the packet's place of a framing or line read is shorter than it has to be */

/*
 * Records. A record is a value: it may be copied, and a copy of record, store and long buffer together is a copy of the end. Its layout is told for
 * those who display it or look into it. It is no storage format, and a later version may lay records out differently; what is worth keeping of a pass
 * is its user bits.
 *
 * The sender's record, 55 bytes:
 *   0        number of circuits, 0 to 4
 *   1 to 12  the circuits, as in a list; the places behind the listed ones are 0
 *   13 to 52 for each circuit number 10 bytes:
 *              0     continuity index of its next packet, 0 to 7
 *              1     priority of its last message, 0 to 3
 *              2     repetition of its last message, 0 to 5
 *              3     copy: how many copies are placed of the packet that is next, at most the repetition
 *              4, 5  length of its last message, 0 to 4094; at number 0, in a call that is given a long buffer, 0 to 65535
 *              6, 7  place: how many packets of that message have every copy placed
 *              8, 9  left: the packets still to go, how many packets of that message have some copy still to place
 *            A message of up to 15 bytes has 1 packet, a longer one of n bytes (n + 17) / 16, rounded down. Place is never above this number, and
 *            left is this number less place. The message has a copy to place as long as left is not 0.
 *   53       number of the circuit last served, 0 to 3
 *   54       the enable bits in force, 0 to 15, those of the last system packet sent: priority p is enabled if the bit of value 1 << p is set
 * As listed, every circuit number has 0, 0, 0, 0, 0, 0, 1, 0, 0, 0 (nothing to place), the circuit last served is 3, so that circuit 0 comes first, and
 * the enable bits in force are 15: all four priorities are enabled. The record of no circuits, which a refused listing writes, is 13 times 0, four
 * times 0, 0, 0, 0, 0, 0, 1, 0, 0, 0, then 3 and 15.
 *
 * The receiver's record, 61 bytes:
 *   0 to 12  number of circuits and circuits, as above
 *   13 to 36 for each circuit number 6 bytes:
 *              0     1 if a packet of it came, else 0
 *              1     continuity index of the last packet that came, 0 to 7
 *              2, 3  length of the open message, 0 to 4094; at number 0, in a call that is given a long buffer, 0 to 65535
 *              4, 5  place: how many bytes of it are written
 *            A message is open exactly if place is below length, and place is never above it; where none is open, calls leave both 0. An open long
 *            message, whose length its header does not tell, has the most that it may have: 65535 in records made by calls.
 *   37 to 60 framing, what is kept between one bit and the next:
 *              37       phase: 0 no zero is read that could begin a flag (at first, and after seven ones); 1 outside a body, behind such a zero;
 *                       in a body: 2 the last zero is the opening flag's own, 3 it is a plain bit, 4 it stands behind five ones
 *              38       how many ones stand behind that zero, 0 to 6
 *              39       how many unstuffed bits the body has before that zero, 0 to 168, or 169 for more
 *              40 to 60 these bits, lowest first; 0 where there is none, and all 0 where there are more than 168
 * As listed, everything behind the circuits is 0. The record of no circuits is 61 times 0.
 *
 * Out of range, and refused by RECORD, are: more than four circuits, circuits that a listing refuses by ADDRESS, EXTENSION or ALIKE, a number of a
 * listed circuit outside what stands here, so also a left that is not its message's packets less place, a circuit last served above 3, enable bits in
 * force above 15, a framing that no bits leave, and in a receiver's record, at any circuit number, 2 or more where a byte tells whether a packet came.
 * Nothing else is judged at numbers that are not listed. A call is given a long buffer if it has the parameter, however few bytes are lent there. The
 * record of an end that has one is out of range for the calls without: a sender's from a long offer on until a message of up to 4094 bytes is taken at
 * circuit number 0, a receiver's while a long message is open.
 *
 * A framing alone, 24 bytes, is that of a receiver's record, its bytes 37 to 60: phase, ones, count, and 21 bytes of bits. A fresh one is 24 times 0,
 * which a caller writes itself. Out of range is one that no bits leave.
 *
 * The record of totals, 64 bytes:
 *   0 to 63  for each circuit number, 0 to 3, 16 bytes:
 *              0 to 3    messages whole
 *              4 to 7    their bytes
 *              8 to 11   packets lost
 *              12 to 15  packets orphaned
 * The empty one is 64 times 0, which a caller writes itself. None is out of range.
 *
 * The record of a line's reader, 24 bytes, what is kept between one byte of the line and the next:
 *   0        1 if a flag is read, else 0
 *   1        1 if an escape is read and what it escapes is not, else 0
 *   2        how many unescaped bytes stand behind the last flag, 0 to 21, or 22 for more
 *   3 to 23  these bytes; 0 where there is none, and all 0 where there are more than 21
 * A fresh one is 24 times 0, which a caller writes itself. None is out of range. In bytes 0 and 1 any number above 1 counts as 1, and a call writes 1
 * there; in byte 2 any number above 21 says that there are more, and it and bytes 3 to 23 stay as they are until a byte of a frame or a flag is read.
 */

/*
 * Makes a sender: writes the record for the circuits of the list.
 * Refusals, in order: SHORT, LIST, ADDRESS, EXTENSION, ALIKE, each looked for in the whole list. All but SHORT write the record of no circuits,
 * and only the first AES18_SENDER_RECORD bytes.
 */
uint32_t aes18_sender_list(uint8_t *record, size_t record_len, const uint8_t *list, size_t list_len);

/*
 * Offers a message of 0 to 4094 bytes at a circuit number. It is copied to the start of the circuit's region, so the caller's own is not needed any
 * longer. Its packets wait to be placed in blocks, each once and then as often again as the repetition says. A circuit takes its next message when
 * the last copy of the one before is placed. A message is taken whether its priority is enabled or not; while it is not, its packets wait. A panel
 * reads in the record how many are still to go at each circuit: see AES18_SENDER_LEFT.
 * Refusals, in order: SHORT, RECORD, STORE, CIRCUIT, PRIORITY, REPETITION, MESSAGE, PENDING.
 */
uint32_t aes18_sender_offer(uint8_t *record, size_t record_len, uint8_t *store, size_t store_len, uint64_t circuit, uint64_t priority,
                            uint64_t repetition, const uint8_t *message, size_t message_len);

/*
 * aes18_sender_offer of a sender that has a long buffer. Of the buffer only the length is looked at.
 * Refusals, in order: SHORT, RECORD, STORE, LONG_BUFFER, CIRCUIT, PRIORITY, REPETITION, MESSAGE, PENDING.
 */
uint32_t aes18_sender_offer_beside(uint8_t *record, size_t record_len, uint8_t *store, size_t store_len, const uint8_t *buffer, size_t buffer_len,
                                   uint64_t circuit, uint64_t priority, uint64_t repetition, const uint8_t *message, size_t message_len);

/*
 * Offers a long message, of 4095 to 65535 bytes, at circuit number 0. It is copied to the start of the buffer, of which the bytes behind keep their
 * values; of the store only the length is looked at. All else is as with a shorter message, which aes18_sender_offer_beside takes: circuit 0 takes its
 * next message, long or not, when the last copy of the one before is placed.
 * Refusals, in order: SHORT, RECORD, STORE, LONG_BUFFER, CIRCUIT (no circuit is listed), PRIORITY, REPETITION, LONG_LENGTH, PENDING.
 */
uint32_t aes18_sender_offer_long(uint8_t *record, size_t record_len, const uint8_t *store, size_t store_len, uint8_t *buffer, size_t buffer_len,
                                 uint64_t priority, uint64_t repetition, const uint8_t *message, size_t message_len);

/*
 * Makes a block of n user bits, of which the first u may be used, and writes it to the (n + 7) / 8 first bytes of `block`. Spare bits of the last
 * of them are 0; bytes behind it keep their values. In the block are a flag, the system packet's frame and a flag if one is wanted, then frames of
 * packets that wait and whose priority is enabled, the highest first, each with a flag after it, as long as they do not pass u, and ones up to n.
 * `system` is 0 for no system packet; then enable, code and info are not looked at, and the enable bits in force stay. Any other number asks for one
 * with these enable bits (1 << p enables priority p), this block code and these information bytes. Its enable bits are in force from then on: they
 * rule this block and all later ones, until another system packet is sent. A fresh sender has all four priorities enabled. Packets whose priority is
 * not enabled wait, with enable bits 0 all of them, for as many blocks as are made, until a system packet enables them: one with AES18_ALL_ENABLED
 * enables all. Only an accepted block with a system packet changes the enable bits in force; offers and refused blocks do not. A panel may read them
 * at byte AES18_SENDER_ENABLE of the record.
 * The answer, 12 bytes, is three numbers of 4 bytes each: the frames placed, without the system packet's; the bits used, which are those before the
 * closing ones; and the stuffed zeros, which are those that stuffing added to the frames in the block, the system packet's and every placed copy's.
 * Flags and closing ones have none, and a frame that does not fit is not counted. Stuffed zeros are among the bits used: where a frame's packet has b
 * bytes, these are 8 and, for each frame, 8 * (b + 2) + its stuffed zeros + 8. A frame has at most 8 * (b + 2) / 5 of them, rounded down.
 * Refusals, in order: SHORT, RECORD, STORE, BLOCK, BUFFER, SYSTEM.
 */
uint32_t aes18_sender_block(uint8_t *record, size_t record_len, const uint8_t *store, size_t store_len, uint64_t n, uint64_t u, uint64_t system,
                            uint64_t enable, uint64_t code, const uint8_t *info, size_t info_len, uint8_t *block, size_t block_len, uint8_t *answer,
                            size_t answer_len);

/*
 * aes18_sender_block of a sender that has a long buffer, from whose start the packets of a long message are made. Where none waits, only the length of
 * the buffer is looked at.
 * Refusals, in order: SHORT, RECORD, STORE, LONG_BUFFER, BLOCK, BUFFER, SYSTEM.
 */
uint32_t aes18_sender_block_beside(uint8_t *record, size_t record_len, const uint8_t *store, size_t store_len, const uint8_t *buffer,
                                   size_t buffer_len, uint64_t n, uint64_t u, uint64_t system, uint64_t enable, uint64_t code, const uint8_t *info,
                                   size_t info_len, uint8_t *block, size_t block_len, uint8_t *answer, size_t answer_len);

/* Where the numbers stand in a block's answer. */
#define AES18_BLOCK_PLACED 0
#define AES18_BLOCK_USED 4
#define AES18_BLOCK_ZEROS 8

/*
 * Where a sender's record has what a panel reads: the enable bits in force, and for each circuit number the packets still to go. Those of circuit 0
 * stand at byte AES18_SENDER_LEFT and the next, lowest byte first, and those of each next number AES18_SENDER_CIRCUIT_BYTES bytes on. So circuit c has
 *
 *     record[AES18_SENDER_LEFT + AES18_SENDER_CIRCUIT_BYTES * c] + 256 * record[AES18_SENDER_LEFT + AES18_SENDER_CIRCUIT_BYTES * c + 1]
 *
 * packets still to go. This is 0 exactly where nothing is pending, so where no offer is refused by PENDING. An accepted offer sets it to the number of
 * the message's packets, 1 to 256, and of a long one 257 to 4097. Copies are not counted: a packet counts until its last copy is placed. A panel reads
 * the record between calls: while one runs, its bytes may be half written.
 */
#define AES18_SENDER_LEFT 21
#define AES18_SENDER_CIRCUIT_BYTES 10
#define AES18_SENDER_ENABLE 54

/*
 * Makes a receiver: writes the record for the circuits of the list. The refusals are those of aes18_sender_list; a refused listing writes the
 * first AES18_RECEIVER_RECORD bytes.
 */
uint32_t aes18_receiver_list(uint8_t *record, size_t record_len, const uint8_t *list, size_t list_len);

/*
 * Reads the bits from number `from` on, up to and without number `to`, of the bytes lent. It stops behind the first bit that gives a notice, or at
 * the end with the notice END. So a stretch of bits is read by a loop:
 *
 *     do {
 *         refusal = aes18_receiver_read(record, sizeof record, store, sizeof store, bits, bits_len, from, to, answer, sizeof answer);
 *         (leave the loop if it is refused)
 *         from += (the bits read: the number in bytes 8 to 15 of the answer);
 *         (take what the notice tells)
 *     } while (answer[AES18_READ_NOTICE] != AES18_NOTICE_END);
 *
 * The next call, with other bytes or the same, goes on as if the bits had never been cut. A cut may be anywhere, inside a flag too.
 *
 * The answer, 16 bytes; what does not apply to a notice is 0:
 *   0        the notice
 *   1        CIRCUIT: the circuit's number; SYSTEM: the enable bits
 *   2        CIRCUIT: the loss; SYSTEM: the block code
 *   3        CIRCUIT: the fate; SYSTEM: the length of the information
 *   4, 5     WHOLE: the length of the message
 *   6, 7     0
 *   8 to 15  the bits read by this call
 *
 * At WHOLE the message is handed over: it begins the circuit's region, at byte AES18_REGION * number of the store, and stays there until a later
 * read tells BEGUN or WHOLE at that circuit and so writes the region. At SYSTEM the information begins at byte AES18_SYSTEM_PLACE of the store and
 * stays there until the next SYSTEM. BEGUN, HELD and WHOLE write their message bytes, SYSTEM its information, and nothing else in the store changes.
 * Refusals, in order: SHORT, RECORD, STORE, BITS.
 */
uint32_t aes18_receiver_read(uint8_t *record, size_t record_len, uint8_t *store, size_t store_len, const uint8_t *bits, size_t bits_len,
                             uint64_t from, uint64_t to, uint8_t *answer, size_t answer_len);

/*
 * aes18_receiver_read of a receiver that has a long buffer. Here a first packet of circuit number 0 whose header has the length 4095 is BEGUN if its
 * segment has 16 bytes, and WRONG if not. Its message is ended by the packet that is last: WHOLE if it then has 4095 to 65535 bytes, else WRONG. A packet
 * between is WRONG if with it the message has 65535 bytes or more. Its bytes are collected from the buffer's start on, and none of them in the store.
 *
 * At WHOLE the length tells where the message is handed over: up to AES18_LONGEST_MESSAGE in the circuit's region, and above that at the start of the
 * buffer, where it stays until a later read tells BEGUN at circuit 0. BEGUN, HELD, WHOLE and SYSTEM change nothing else in store and buffer.
 *
 * No loss above 6 is told. Where more packets in a row are lost inside a message, the length in its header mostly betrays it, and WRONG is told. A long
 * message has no such length: it may then be handed over without the bytes of the packets lost.
 * Refusals, in order: SHORT, RECORD, STORE, LONG_BUFFER, BITS.
 */
uint32_t aes18_receiver_read_beside(uint8_t *record, size_t record_len, uint8_t *store, size_t store_len, uint8_t *buffer, size_t buffer_len,
                                    const uint8_t *bits, size_t bits_len, uint64_t from, uint64_t to, uint8_t *answer, size_t answer_len);

/* Where the numbers stand in a read's answer. */
#define AES18_READ_NOTICE 0
#define AES18_READ_CIRCUIT 1
#define AES18_READ_ENABLE 1
#define AES18_READ_LOSS 2
#define AES18_READ_CODE 2
#define AES18_READ_FATE 3
#define AES18_READ_INFORMATION 3
#define AES18_READ_MESSAGE 4
#define AES18_READ_BITS 8

/*
 * Notices. A body is the bits between one flag and the next. It passes if it unstuffs to 4 to 21 whole bytes, the FCS at their end is right, and
 * it does not end in five ones. Bodies that do not pass give no notice if they unstuff to less than 32 bits or have seven ones in a row.
 */
#define AES18_NOTICE_END 0       /* the bits up to `to` are read */
#define AES18_NOTICE_SPOILT 1    /* a body that does not pass */
#define AES18_NOTICE_MALFORMED 2 /* a body that passes and is no packet: document 01, "Notices", has the cases */
#define AES18_NOTICE_SYSTEM 3    /* a system packet */
#define AES18_NOTICE_ELSEWHERE 4 /* a packet of no listed circuit */
#define AES18_NOTICE_CIRCUIT 5   /* a packet of a listed circuit */

/*
 * Fates: what became of a circuit's packet. The loss beside it, 0 to 6, is how many packets of the circuit are missing before this one by the
 * continuity index. A loss drops the open message, and so does the first packet of another one.
 */
#define AES18_FATE_COPY 0   /* the index of the circuit's last packet again; loss 0, and nothing changes */
#define AES18_FATE_BEGUN 1  /* the first packet of a message that more are due to, which is open now */
#define AES18_FATE_HELD 2   /* the next packet of the open message; more are due */
#define AES18_FATE_WHOLE 3  /* the last or only packet of a message, which is handed over */
#define AES18_FATE_ORPHAN 4 /* a packet between or last, and no message is open */
#define AES18_FATE_WRONG 5  /* its header or length does not fit; no message is open behind it */

/*
 * Reads the bits from number `from` on, up to and without number `to`, of the bytes lent. It stops behind the first body that passes or is spoilt, so
 * where aes18_receiver_read gives a notice, or at the end. Whose packet it is does not matter, and whether it is one that a sender makes: each body
 * that passes gives its packet. So every packet in a stretch of bits is had by a loop, with one framing for all stretches:
 *
 *     uint8_t framing[AES18_FRAMING_RECORD] = {0}, packet[AES18_LONGEST_PACKET], answer[AES18_FRAMING_ANSWER];
 *     uint32_t refusal;
 *     uint64_t from;
 *
 *     from = 0; (for each stretch)
 *     do {
 *         refusal = aes18_framing_read(framing, sizeof framing, bits, bits_len, from, to, packet, sizeof packet, answer, sizeof answer);
 *         (leave the loop if it is refused)
 *         from += (the bits read: the number in bytes 8 to 15 of the answer);
 *         (take the packet, if answer[AES18_FRAMING_STOP] is AES18_FRAMING_PACKET: its first byte is the address)
 *     } while (answer[AES18_FRAMING_STOP] != AES18_FRAMING_END);
 *
 * The next call, with other bytes or the same, goes on as if the bits had never been cut. A cut may be anywhere, inside a flag too.
 *
 * The answer, 16 bytes:
 *   0        END, SPOILT or PACKET
 *   1        PACKET: the packet's length, 2 to 19; else 0
 *   2 to 7   0
 *   8 to 15  the bits read by this call
 *
 * The packet, without its FCS, goes to the start of `packet`, which is lent with at least AES18_LONGEST_PACKET bytes. The bytes behind it keep their
 * values, and so do all at END and SPOILT.
 *
 * The framing is the one in a receiver's record, from byte AES18_RECEIVER_FRAMING on. A copy of these 24 bytes that is taken before a read of that
 * receiver, and lent with the bits that this read says it read, gives the packet that the notice tells of, and ends as the receiver's framing does.
 * Refusals, in order: SHORT, RECORD, BITS.
 */
uint32_t aes18_framing_read(uint8_t *framing, size_t framing_len, const uint8_t *bits, size_t bits_len, uint64_t from, uint64_t to, uint8_t *packet,
                            size_t packet_len, uint8_t *answer, size_t answer_len);

/* Where the numbers stand in a framing read's answer, and where a receiver's record has its framing. */
#define AES18_FRAMING_STOP 0
#define AES18_FRAMING_LENGTH 1
#define AES18_FRAMING_BITS 8
#define AES18_RECEIVER_FRAMING 37

/* What a framing read stops at. */
#define AES18_FRAMING_END 0    /* the bits up to `to` are read */
#define AES18_FRAMING_SPOILT 1 /* a body that does not pass, of 32 bits or more and not void: where the notice SPOILT is told */
#define AES18_FRAMING_PACKET 2 /* a body that passes */

/*
 * Notes the notice of a read's answer in a record of totals. A CIRCUIT notice adds at its circuit number:
 *   1 to the messages whole, and the message's length to their bytes, if the fate is WHOLE;
 *   the loss to the packets lost, whatever the fate;
 *   1 to the packets orphaned if the fate is ORPHAN; WRONG adds nothing there.
 * So each figure is the smaller of its total over all notices noted since the record was empty and AES18_TOTALS_MOST, which stands for that many or
 * more. Packets lost before the first that came or behind the last are in no figure: no notice tells of them. Other notices, circuit numbers above 3
 * and bytes that are the answer of no notice change nothing. The bits read are not looked at.
 * Note an answer only if its read was accepted: behind a refused one the answer still holds the notice before, which would count twice.
 * Refusals: SHORT.
 */
uint32_t aes18_totals_note(uint8_t *totals, size_t totals_len, const uint8_t *answer, size_t answer_len);

/* Where the figures stand in totals: those of circuit number c from byte AES18_TOTALS_CIRCUIT * c on, and there each at its own place. */
#define AES18_TOTALS_CIRCUIT 16
#define AES18_TOTALS_MESSAGES 0
#define AES18_TOTALS_BYTES 4
#define AES18_TOTALS_LOST 8
#define AES18_TOTALS_ORPHANED 12

/* The highest figure. */
#define AES18_TOTALS_MOST 4294967295u

/*
 * Writes the frame of a packet of 2 to 19 bytes to the start of `line`; bytes behind it keep their values. In base 16, the frame is the flag 7E, the
 * bytes of the packet, its FCS, which is that of the user bits, low byte first, and the flag 7E. Each 7E and 7D between the flags is written as the
 * escape 7D and the byte exclusive-ored with 20; nothing else is escaped. A line is written by one call for each packet, each frame behind the one
 * before, with two flags of its own.
 * `line` has to hold the worst case, 2 * (packet_len + 2) + 2 bytes, even if this frame is shorter; AES18_LONGEST_LINE_FRAME is always enough.
 * The answer, 8 bytes, is the number of bytes written.
 * Refusals, in order: SHORT, PACKET, LINE.
 */
uint32_t aes18_line_write(const uint8_t *packet, size_t packet_len, uint8_t *line, size_t line_len, uint8_t *answer, size_t answer_len);

/* Where the number stands in a line write's answer. */
#define AES18_LINE_WRITE_BYTES 0

/*
 * Reads bytes of a line. It stops behind the first packet, or at the end of the bytes. So a stretch of bytes is read by a loop, with one record for all
 * stretches of a line:
 *
 *     uint8_t record[AES18_LINE_RECORD] = {0}, packet[AES18_LONGEST_PACKET], answer[AES18_LINE_READ_ANSWER];
 *     uint32_t refusal;
 *     size_t at;
 *
 *     at = 0; (for each stretch)
 *     do {
 *         refusal = aes18_line_read(record, sizeof record, line + at, line_len - at, packet, sizeof packet, answer, sizeof answer);
 *         (leave the loop if it is refused)
 *         at += (the bytes read: the number in bytes 8 to 15 of the answer);
 *         (take the packet, if there is one)
 *     } while (answer[AES18_LINE_READ_PACKET] != 0);
 *
 * The next call, with the bytes that follow, goes on as if the bytes had never been cut. A cut may be anywhere, between an escape and what it escapes
 * too.
 *
 * The answer, 16 bytes:
 *   0        the length of the packet, 2 to 19, or 0 where the bytes end before any
 *   1 to 7   0
 *   8 to 15  the bytes read by this call
 *
 * The packet, without its FCS, goes to the start of `packet`, which is lent with at least AES18_LONGEST_PACKET bytes. The bytes behind it keep their
 * values, and so do all where there is none.
 * Bytes before the first flag are skipped. Two flags in a row hold no frame, and one flag may end a frame and begin the next. An escape and any byte
 * but a flag stand for that byte exclusive-ored with 20 in base 16. A frame is dropped if its FCS is wrong, if its packet is outside 2 to 19 bytes,
 * or if its escape is followed by a flag, which is a flag all the same. So what stands behind any 7E is read as it would be behind a first flag.
 * Refusals: SHORT.
 */
uint32_t aes18_line_read(uint8_t *record, size_t record_len, const uint8_t *line, size_t line_len, uint8_t *packet, size_t packet_len,
                         uint8_t *answer, size_t answer_len);

/* Where the numbers stand in a line read's answer. */
#define AES18_LINE_READ_PACKET 0
#define AES18_LINE_READ_BYTES 8

#ifdef __cplusplus
}
#endif

#endif
