/*
 * Quimdoral: SYNC frames of 3GPP TS 25.446 v17.0.0 on the M1 interface, and the account of what was received of them.
 *
 * Link crates/quimdoral/out/libquimdoral.a, which `rt lib` in crates/quimdoral writes (x86-64 Linux). C99 and C++.
 *
 * What every function keeps to:
 *
 * - It takes every input: any number, any octets, any content of lent memory. What it cannot use, it refuses.
 * - A slice `x` is a pointer `x` and the number of its elements, `x_length`. The pointer has to be aligned, valid for all the elements, and
 *   not NULL, also where the number is 0: where a pointer may be NULL, put quimdoral_lend_u8 or its like around it (below).
 * - Memory that a function writes to (a pointer without const) overlaps no other memory that is given to the same call. So no record is
 *   joined with itself in place: see quimdoral_join.
 * - These two are what a caller has to see to, and the only things that nothing can check.
 * - Nothing is kept between calls, nothing is allocated, nothing is shared: calls may run at the same time on different memory.
 * - A refusal has a number of the table below. Where several apply, the first in the order that is given with each function is told.
 * - After a refusal no lent memory differs from what it held before the call. After a success only what is described as written differs;
 *   elements behind that stay.
 *
 * Answers. Most functions answer 0 or a refusal's number. Those that answer a value beside that put both into one number: the lowest
 * eight bits are the refusal's number, or 0, and the bits above are the value, or 0. QUIMDORAL_REFUSAL and QUIMDORAL_VALUE take them apart.
 *
 * Where reading or hearing refuses a frame with 4 or 7, the value has both checks: the one found in the frame, and the one worked out over
 * the octets that it covers. QUIMDORAL_FOUND and QUIMDORAL_WORKED_OUT take them out. They differ, and either may be 0. Over several frames
 * they tell a maker's wrong polynomial from a noisy link: a wrong polynomial gives the same difference for the same octets every time, noise
 * does not. Ask QUIMDORAL_REFUSAL first: with 4 and 7 alone the value is made of checks; with any other refusal of these functions it is 0,
 * and where quimdoral_read_lengths accepts it is a count. Keep such an answer in a uint64_t, since fewer bits cut the check worked out; and
 * compare QUIMDORAL_REFUSAL of it with a refusal's number, not the answer itself.
 *
 * Packets and octets are counted apart: no number here is a sum of both.
 */
#ifndef QUIMDORAL_H
#define QUIMDORAL_H

#include <stddef.h>
#include <stdint.h>

#ifdef __cplusplus
extern "C" {
#endif

/* The two parts of an answer with a value. */
#define QUIMDORAL_REFUSAL(answer) ((unsigned)((answer) & 255u))
#define QUIMDORAL_VALUE(answer) ((uint64_t)(answer) >> 8)

/* The two parts of the value with refusals 4 and 7 of reading and hearing: the check found in the frame, and the check worked out. */
#define QUIMDORAL_FOUND(answer) ((unsigned)((uint64_t)(answer) >> 8 & 65535u))
#define QUIMDORAL_WORKED_OUT(answer) ((unsigned)((uint64_t)(answer) >> 24 & 65535u))

/*
 * Slices of nothing. Many callers in C give NULL and 0 where they have nothing; here that is an error, which no test in the library could
 * find. Put one of these around a pointer that may be NULL: where it is, it becomes the address of memory that is there and aligned, and
 * any other pointer stays as it is. The number has to be 0 there all the same, so that nothing is read or written behind the address:
 *
 *     quimdoral_write_data(stamp, number, elapsed, quimdoral_lend_const_u8(payload), payload_length, out, out_length)
 */
static inline void *quimdoral_nothing(void) { static uint64_t nothing; return &nothing; }
static inline uint8_t *quimdoral_lend_u8(uint8_t *list) { return list ? list : (uint8_t *)quimdoral_nothing(); }
static inline uint16_t *quimdoral_lend_u16(uint16_t *list) { return list ? list : (uint16_t *)quimdoral_nothing(); }
static inline uint32_t *quimdoral_lend_u32(uint32_t *list) { return list ? list : (uint32_t *)quimdoral_nothing(); }
static inline uint64_t *quimdoral_lend_u64(uint64_t *list) { return list ? list : (uint64_t *)quimdoral_nothing(); }
static inline const uint8_t *quimdoral_lend_const_u8(const uint8_t *list) { return list ? list : (uint8_t *)quimdoral_nothing(); }
static inline const uint16_t *quimdoral_lend_const_u16(const uint16_t *list) { return list ? list : (uint16_t *)quimdoral_nothing(); }
static inline const uint32_t *quimdoral_lend_const_u32(const uint32_t *list) { return list ? list : (uint32_t *)quimdoral_nothing(); }
static inline const uint64_t *quimdoral_lend_const_u64(const uint64_t *list) { return list ? list : (uint64_t *)quimdoral_nothing(); }

/* Refusal numbers. No function gives a number that is not here. */
enum {
    QUIMDORAL_TOO_SHORT = 1,           /* frame empty, or shorter than its type's least size */
    QUIMDORAL_TYPE_TWO = 2,            /* Type 2, which M1 does not have */
    QUIMDORAL_TYPE_UNKNOWN = 3,        /* Types 4 to 15 */
    QUIMDORAL_HEADER_CHECK_WRONG = 4,  /* told with the check found and the check worked out, six bits each */
    QUIMDORAL_STAMP_TOO_HIGH = 5,      /* stamp above 59,999 */
    QUIMDORAL_SIZE_WRONG = 6,          /* a size that the frame's type does not have */
    QUIMDORAL_PAYLOAD_CHECK_WRONG = 7, /* told with the check found and the check worked out, ten bits each */
    QUIMDORAL_COUNTS_IMPOSSIBLE = 8,   /* counts that no sending has, or that are too wide for their fields */
    QUIMDORAL_OTHER_SEQUENCE = 9,      /* bearer, period or stamp is another sequence's */
    QUIMDORAL_BEYOND_CAPACITY = 10,    /* packet number at or above capacity, or closing count above it */
    QUIMDORAL_CONTRADICTION = 11,      /* no sending explains what is held together with what is brought */
    QUIMDORAL_NO_ROOM = 12,            /* lent output shorter than what is to be written */
    QUIMDORAL_RECORD_DAMAGED = 13,
    QUIMDORAL_CAPACITIES_DIFFER = 14,  /* a record's lists differ, or two records' do, or one is above 65,535; or a head too short */
    QUIMDORAL_OUT_OF_TURN = 15,        /* sender call out of turn */
    QUIMDORAL_STAMP_NOT_LATER = 16,    /* stamp not later than the last one of this period */
    QUIMDORAL_SEQUENCE_FULL = 17,      /* 65,535 data PDUs already in the sequence */
    QUIMDORAL_PERIOD_FULL = 18,        /* 16,777,215 packets already in the period */
    QUIMDORAL_PAYLOAD_TOO_LONG = 20,   /* payload above 4,095 octets to be written */
    QUIMDORAL_SENDER_DAMAGED = 21,
    QUIMDORAL_LENGTHS_WRONG = 22,      /* lengths for Type 3 are not N values of at most 4,095 with the elapsed octets as sum */
    QUIMDORAL_PERIOD_OVER = 23         /* clock is 60,000 ticks or more past the period's start */
};

/* Limits, each the largest value that is still accepted. */
#define QUIMDORAL_MOST_PAYLOAD 4095u                /* octets of one payload */
#define QUIMDORAL_MOST_IN_SEQUENCE 65535u           /* data PDUs of one sequence, numbered from 0 */
#define QUIMDORAL_MOST_CAPACITY 65535u              /* packet numbers of one record */
#define QUIMDORAL_LAST_STAMP 59999u                 /* units of 10 ms */
#define QUIMDORAL_MOST_PERIOD_PACKETS 16777215u

/* Octets of a frame: Type 0; as they are written, Type 1 with a payload of so many octets, and Type 3 with so many lengths. */
#define QUIMDORAL_CLOSING_SIZE 18u
#define QUIMDORAL_DATA_SIZE(payload_length) (11u + (payload_length))
#define QUIMDORAL_LENGTHS_SIZE(count) (19u + (3u * (count) + 1u) / 2u)

/*
 * ------------------------------------------------------------------------------------------------------------------ Checks
 *
 * The remainders of clause 5.6.2: of the octets followed by six zero bits, divided by D^6+D^5+D^3+D^2+D+1, and of the octets followed by
 * ten zero bits, divided by D^10+D^9+D^5+D^4+D+1. Of no octets each is 0. Nothing is refused.
 */
uint8_t quimdoral_header_check(const uint8_t *octets, size_t octets_length);
uint16_t quimdoral_payload_check(const uint8_t *octets, size_t octets_length);

/*
 * ----------------------------------------------------------------------------------------------------------------- Reading
 *
 * quimdoral_read_frame: what a frame says, as seven numbers in front of `said`.
 *
 * Answers 0, or a refusal's number, in this order: 1 (empty), 2, 3, 1 (too short), 4, 5, 6, 7, 8, then 12 where `said` has fewer than
 * seven places. With 4 and 7 the answer has a value: the check found and the check worked out. `frame` is only read. A data PDU has no
 * totals, a closing PDU no payload: zeros stand there.
 *
 * Up to four octets behind an IP packet are an extension (clause 5.5.3.14): they are dropped, and 6 judges the payload without them. The
 * payload check covers them too. quimdoral_payload_kept, below, says of the octets from the twelfth on how many are payload.
 */
enum {
    QUIMDORAL_SAID_KIND = 0,     /* one more than the PDU type: 1 closing, 2 data, 4 closing with lengths */
    QUIMDORAL_SAID_STAMP = 1,
    QUIMDORAL_SAID_NUMBER = 2,   /* data: the packets of its sequence before it; closing: all of them */
    QUIMDORAL_SAID_ELAPSED = 3,  /* their octets */
    QUIMDORAL_SAID_PACKETS = 4,  /* closing: packets of the period */
    QUIMDORAL_SAID_OCTETS = 5,   /* closing: octets of the period */
    QUIMDORAL_SAID_PAYLOAD = 6,  /* data: octets of its payload, which stands from the twelfth octet of the frame on; up to four octets
                                    behind an IP packet are not counted */
    QUIMDORAL_SAID_NUMBERS = 7
};
uint64_t quimdoral_read_frame(const uint8_t *frame, size_t frame_length, uint64_t *said, size_t said_length);

/*
 * quimdoral_read_lengths: the payload lengths that a Type 3 frame carries, in front of `lengths`. Frames of Types 0 and 1 are accepted and
 * have none.
 *
 * Answers a value: how many lengths were written. Refuses in reading's order: 1, 2, 3, 1, 4, 5, 6, 7, 8, then 12 where the lengths have no
 * room. With 4 and 7 the value is the check found and the check worked out, as of quimdoral_read_frame. `frame` is only read.
 */
uint64_t quimdoral_read_lengths(const uint8_t *frame, size_t frame_length, uint16_t *lengths, size_t lengths_length);

/*
 * quimdoral_payload_kept: how many octets of a payload a reader takes. Answers the number itself, and refuses nothing. `payload` is only
 * read.
 *
 * Where an IPv4 or IPv6 header stands in front of `payload`, and up to four octets more are there than it says (IPv4: the total length;
 * IPv6: the payload length plus 40), the answer is the length that it says; the octets behind are an extension, which whoever reads or
 * hears the frame drops. In every other case the answer is `payload_length`: with fewer octets than the shortest header has (20 in IPv4,
 * 40 in IPv6), with a version that is neither 4 nor 6, in IPv4 with an IHL below 5 or a total length shorter than the header, and with a
 * length that is above `payload_length`, or five or more below it. Nothing else of the header is judged.
 *
 * Ask it of what is to be sent: a payload that is an IP packet with one to four octets behind it is written whole and read back shorter.
 */
uint64_t quimdoral_payload_kept(const uint8_t *payload, size_t payload_length);

/*
 * ------------------------------------------------------------------------------------- Writing frames from given fields
 *
 * For callers that count for themselves; the sender below counts. Each writes a frame in front of `out` and answers a value: how many
 * octets it has. Fields are given wider than the frame has them, so that what does not fit is refused and not cut.
 *
 * quimdoral_write_data: a data PDU (Type 1). `number` and `elapsed` count the packets of its sequence before it and their octets.
 * Refuses in this order: 5, 20, 8 (number of 65,535 or more, or elapsed above 4,095 times the number), 12. `payload` is only read. One
 * that is an IP packet with one to four octets behind it is written whole and read back shorter; quimdoral_payload_kept tells before.
 */
uint64_t quimdoral_write_data(uint32_t stamp, uint32_t number, uint64_t elapsed, const uint8_t *payload, size_t payload_length,
                              uint8_t *out, size_t out_length);

/*
 * quimdoral_write_closing: a closing PDU (Type 0). `number` and `elapsed` count the whole sequence, `packets` and `octets` the period,
 * this sequence included. Refuses in this order: 5, 8 (a count too wide for its field of 2, 4, 3 or 5 octets; elapsed above 4,095 times
 * the number; packets below the number; octets below elapsed; octets less elapsed above 4,095 times packets less number), 12.
 */
uint64_t quimdoral_write_closing(uint32_t stamp, uint32_t number, uint64_t elapsed, uint32_t packets, uint64_t octets,
                                 uint8_t *out, size_t out_length);

/*
 * quimdoral_write_closing_with_lengths: a closing PDU with the payload length of each packet (Type 3). Refuses in this order: 5, 8 (as
 * above), 22 (`lengths` are not `number` values of at most 4,095 whose sum is `elapsed`), 12. `lengths` is only read.
 */
uint64_t quimdoral_write_closing_with_lengths(uint32_t stamp, uint32_t number, uint64_t elapsed, uint32_t packets, uint64_t octets,
                                              const uint16_t *lengths, size_t lengths_length, uint8_t *out, size_t out_length);

/*
 * ------------------------------------------------------------------------------------------------------------- The sender
 *
 * The sender of one bearer counts packets and octets, and writes them into each frame. Its state is a list of six numbers that the caller
 * keeps; more elements than six are left alone. Make the state by quimdoral_sender_fresh, and change it by the calls below alone. It may
 * be copied and stored.
 *
 * A list of fewer than six numbers, and numbers that no sender has (a phase above 2, a stamp or packets of more than 32 bits), are a
 * damaged state, 21. So is a state that the calls cannot have made: stamp above 59,999; number above 65,535; packets above 16,777,215;
 * counts that are impossible in a closing PDU; number or elapsed not zero when closed; anything not zero when fresh.
 */
enum {
    QUIMDORAL_SENDER_PHASE = 0,    /* 0 fresh, 1 open, 2 closed */
    QUIMDORAL_SENDER_STAMP = 1,    /* of the sequence that is open, or was the last */
    QUIMDORAL_SENDER_NUMBER = 2,   /* packets of the sequence so far */
    QUIMDORAL_SENDER_ELAPSED = 3,  /* their octets */
    QUIMDORAL_SENDER_PACKETS = 4,  /* packets of the period so far */
    QUIMDORAL_SENDER_OCTETS = 5,   /* their octets */
    QUIMDORAL_SENDER_NUMBERS = 6
};

/* quimdoral_sender_fresh: a sender before its first sequence. Whatever `state` held is written over. Answers 0, or 12 where it has fewer
 * than six places. */
uint8_t quimdoral_sender_fresh(uint64_t *state, size_t state_length);

/* quimdoral_sender_open: opens a sequence, where none is open. Answers 0, or a refusal's number, in this order: 21, 15, 5, 16. */
uint8_t quimdoral_sender_open(uint64_t *state, size_t state_length, uint32_t stamp);

/* quimdoral_sender_data: sends a data PDU, within a sequence: writes a Type 1 frame in front of `out`, and counts the packet and the octets
 * of `payload`, which is only read. Answers a value: how many octets the frame has. Refuses in this order: 21, 15, 20, 17, 18, 12.
 *
 * A payload that is an IP packet with one to four octets behind it is sent and counted whole, and heard shorter, so that the next frame of
 * its sequence contradicts it; where that one is lost, the octets behind the packet count as missing with it. Give such a packet without
 * these octets: quimdoral_payload_kept tells how many to give. */
uint64_t quimdoral_sender_data(uint64_t *state, size_t state_length, const uint8_t *payload, size_t payload_length,
                               uint8_t *out, size_t out_length);

/* quimdoral_sender_close: closes the sequence with a Type 0 frame in front of `out`. A sequence without data is closed too. Answers a value:
 * how many octets the frame has. Refuses in this order: 21, 15, 12. */
uint64_t quimdoral_sender_close(uint64_t *state, size_t state_length, uint8_t *out, size_t out_length);

/* quimdoral_sender_close_with_lengths: the same with a Type 3 frame, which carries the payload length of each packet; the sender keeps no
 * lengths, so the caller gives them. `lengths` is only read. Answers a value: how many octets the frame has. Refuses in this order: 21, 15,
 * 22, 12. */
uint64_t quimdoral_sender_close_with_lengths(uint64_t *state, size_t state_length, const uint16_t *lengths, size_t lengths_length,
                                             uint8_t *out, size_t out_length);

/* quimdoral_sender_new_period: begins a new period, where no sequence is open: the sender is fresh again. Answers 0, or a refusal's number,
 * in this order: 21, 15. */
uint8_t quimdoral_sender_new_period(uint64_t *state, size_t state_length);

/*
 * ------------------------------------------------------------------------------------------------------ Reception records
 *
 * What was heard of one sequence: a head of six numbers, and three lists with one place for each packet number. The number of places is the
 * record's capacity, 0 to 65,535, and is the same in the three lists. More elements of the head than six are left alone.
 *
 * Make a record by quimdoral_fresh, and change it by the calls below alone. It may be copied and stored. Each call judges the record first:
 * one that no sending explains, or that holds something where zeros belong, is damaged, 13; so are head numbers that are too wide (bearer,
 * period, stamp and count have 32 bits, closed is 0 or 1). A head of fewer than six numbers is refused with 14.
 *
 *   marks[n]    1 where packet n was heard, 0 where not
 *   elapsed[n]  the octets of the packets before it, 0 where not heard
 *   sizes[n]    the octets of its payload, an extension not counted, 0 where not heard
 */
enum {
    QUIMDORAL_HEAD_BEARER = 0,
    QUIMDORAL_HEAD_PERIOD = 1,
    QUIMDORAL_HEAD_STAMP = 2,
    QUIMDORAL_HEAD_CLOSED = 3,  /* 1 where a closing PDU was heard, 0 where not */
    QUIMDORAL_HEAD_COUNT = 4,   /* its packets, 0 where none was heard */
    QUIMDORAL_HEAD_TOTAL = 5,   /* their octets, 0 where none was heard */
    QUIMDORAL_HEAD_NUMBERS = 6
};

/* quimdoral_fresh: an empty record of a sequence. Whatever the four lists held is written over. Answers 0, or a refusal's number, in this
 * order: 14, 5. */
uint8_t quimdoral_fresh(uint32_t bearer, uint32_t period, uint32_t stamp,
                        uint64_t *head, size_t head_length, uint8_t *marks, size_t marks_length,
                        uint32_t *elapsed, size_t elapsed_length, uint16_t *sizes, size_t sizes_length);

/* quimdoral_hear: takes a frame that came in a bearer and a period. What is held already is accepted and changes nothing. `frame` is only
 * read. Answers 0, or a refusal's number, in this order: 14, reading's order (1, 2, 3, 1, 4, 5, 6, 7, 8), 13, 9, 10, 11. With 4 and 7 the
 * answer has a value: the check found and the check worked out, as of quimdoral_read_frame. */
uint64_t quimdoral_hear(uint64_t *head, size_t head_length, uint8_t *marks, size_t marks_length,
                        uint32_t *elapsed, size_t elapsed_length, uint16_t *sizes, size_t sizes_length,
                        uint32_t bearer, uint32_t period, const uint8_t *frame, size_t frame_length);

/* quimdoral_hear_all: makes an empty record of a sequence and takes many frames into it, one after the other, which is quicker than a call
 * for each. The frames stand in one row of octets; ends[i] is the place behind the i-th, which begins where the one before it ends. A place
 * beyond the octets is taken as their end, and one before the frame's begin gives an empty frame. The answer to each frame, as of
 * quimdoral_hear, with the checks too, is written in front of `answers`. `octets` and `ends` are only read. Answers 0 where the frames were
 * taken or refused one by one, or the number of the refusal of all, in this order: 14, 5, 12 (fewer places in `answers` than frames). */
uint8_t quimdoral_hear_all(uint32_t bearer, uint32_t period, uint32_t stamp,
                           uint64_t *head, size_t head_length, uint8_t *marks, size_t marks_length,
                           uint32_t *elapsed, size_t elapsed_length, uint16_t *sizes, size_t sizes_length,
                           const uint8_t *octets, size_t octets_length, const uint32_t *ends, size_t ends_length,
                           uint64_t *answers, size_t answers_length);

/* quimdoral_join: adds to the left record what the right one heard. The right one, whose names begin with r_, is only read. Both are of one
 * sequence and capacity. Answers 0, or a refusal's number, in this order: 14, 13, 9, 11. With 11 the answer has a value: the lowest packet
 * number of the right record that alone contradicts the left, or QUIMDORAL_CLOSING_NAMED where only its closing does.
 *
 * A record is not joined with itself in place: the lists that are written to would be those that are read. Such a join would change nothing,
 * so leave it out; or copy the four lists, and give the copies as the right record. */
#define QUIMDORAL_CLOSING_NAMED 65536u
uint32_t quimdoral_join(uint64_t *head, size_t head_length, uint8_t *marks, size_t marks_length,
                        uint32_t *elapsed, size_t elapsed_length, uint16_t *sizes, size_t sizes_length,
                        const uint64_t *r_head, size_t r_head_length, const uint8_t *r_marks, size_t r_marks_length,
                        const uint32_t *r_elapsed, size_t r_elapsed_length, const uint16_t *r_sizes, size_t r_sizes_length);

/*
 * quimdoral_report: what was sent, heard and missing of the sequence, as seven figures in front of `figures`; and its gaps, in rising order,
 * each with its first packet number, its count of packets and their octets in front of `firsts`, `counts` and `octets`. A gap of no octets
 * is a gap. While no closing was heard, what was sent reaches to the last packet heard and counts it.
 *
 * The record is only read. Answers 0, or a refusal's number, in this order: 14, 13, 12 (fewer than seven figures, or fewer places in one of
 * the three lists than there are gaps). QUIMDORAL_MOST_GAPS places are always enough.
 */
enum {
    QUIMDORAL_FIGURE_SENT = 0,
    QUIMDORAL_FIGURE_SENT_OCTETS = 1,
    QUIMDORAL_FIGURE_HEARD = 2,
    QUIMDORAL_FIGURE_HEARD_OCTETS = 3,
    QUIMDORAL_FIGURE_MISSING = 4,
    QUIMDORAL_FIGURE_MISSING_OCTETS = 5,
    QUIMDORAL_FIGURE_GAPS = 6,
    QUIMDORAL_FIGURES = 7
};
#define QUIMDORAL_MOST_GAPS(capacity) (((capacity) + 1u) / 2u)
uint8_t quimdoral_report(const uint64_t *head, size_t head_length, const uint8_t *marks, size_t marks_length,
                         const uint32_t *elapsed, size_t elapsed_length, const uint16_t *sizes, size_t sizes_length,
                         uint32_t *firsts, size_t firsts_length, uint32_t *counts, size_t counts_length,
                         uint64_t *octets, size_t octets_length, uint64_t *figures, size_t figures_length);

/*
 * ---------------------------------------------------------------------------------------------------------------- The clock
 *
 * Ticks of 10 ms, which start over after 4,294,967,295. No two ticks are compared; only how far one is past another counts.
 */

/* quimdoral_stamp_of: the stamp of the moment `tick` in the period that started at `start`. Answers a value: the stamp. Refuses with 23. */
uint64_t quimdoral_stamp_of(uint32_t start, uint32_t tick);

/* quimdoral_due: when a frame with a stamp is due. Answers a value: the tick, which has 32 bits. Refuses with 5. */
uint64_t quimdoral_due(uint32_t start, uint32_t stamp);

/* quimdoral_lateness: how many ticks a frame came after it was due, from -2,147,483,648 to 2,147,483,647, negative when early. Answers the
 * lateness itself, and refuses nothing. */
int32_t quimdoral_lateness(uint32_t arrival, uint32_t due_at);

#ifdef __cplusplus
}
#endif

#endif
