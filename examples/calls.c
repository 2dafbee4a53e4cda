/*
 * Every function of quimdoral.h, called once or more on the bench examples A to D and I of the rules, and on a packet with an extension:
 * include/compare has compared the declarations, and this calls what was linked. Prints nothing but what is wrong, and ends with status 0
 * only if nothing is.
 */
#include <stdio.h>
#include <string.h>

#include "quimdoral.h"

static const uint8_t a[] = {0x10, 0, 0, 0, 0, 0, 0, 0, 0, 0x38, 0x00};
static const uint8_t b[] = {0x10, 0, 0, 0, 0, 0, 0, 0, 0, 0x3A, 0x33, 0x01};
static const uint8_t c[] = {0, 0, 0, 0, 1, 0, 0, 0, 1, 0, 0, 1, 0, 0, 0, 0, 1, 0x9C};
static const uint8_t d[] = {0x30, 0, 0, 0, 1, 0, 0, 0, 1, 0, 0, 1, 0, 0, 0, 0, 1, 0x00, 0x31, 0x00, 0x10};
/* C with the first bit of its header check turned, and D with the payload check that document 01 prints: each has one wrong check. */
static const uint8_t c_wrong[] = {0, 0, 0, 0, 1, 0, 0, 0, 1, 0, 0, 1, 0, 0, 0, 0, 1, 0x1C};
static const uint8_t d_wrong[] = {0x30, 0, 0, 0, 1, 0, 0, 0, 1, 0, 0, 1, 0, 0, 0, 0, 1, 0x02, 0x02, 0x00, 0x10};
/* A data PDU with an IPv4 packet of 20 octets, its header alone, and an extension of two octets behind it. */
static const uint8_t extended[] = {0x10, 0, 0, 0, 0, 0, 0, 0, 0, 0x3B, 0x98,
                                   0x45, 0, 0, 0x14, 0, 0, 0, 0, 0, 0, 0, 0, 0, 0, 0, 0, 0, 0, 0, 0, 0xAA, 0xBB};
static const uint8_t payload[] = {0x01};
static const uint16_t lengths[] = {1};
static int wrong;

static void expect(int right, const char *what)
{
    if (!right) {
        fprintf(stderr, "calls: %s\n", what);
        wrong = 1;
    }
}

/* The answer says that the frame was written, it stands in front of the memory, and behind it nothing differs. */
static void expect_frame(uint64_t answer, const uint8_t *out, const uint8_t *frame, size_t length, const char *what)
{
    expect(QUIMDORAL_REFUSAL(answer) == 0 && QUIMDORAL_VALUE(answer) == length, what);
    expect(memcmp(out, frame, length) == 0 && out[length] == 0xEE, what);
}

/* The answers to the frames with a wrong check: the number of the refusal, the check found, the check worked out, and nothing above. */
static void expect_c_wrong(uint64_t answer, const char *what)
{
    expect(QUIMDORAL_REFUSAL(answer) == QUIMDORAL_HEADER_CHECK_WRONG, what);
    expect(QUIMDORAL_FOUND(answer) == 7 && QUIMDORAL_WORKED_OUT(answer) == 39, what);
    expect(QUIMDORAL_VALUE(answer) == 7 + 65536ull * 39, what);
}

static void expect_d_wrong(uint64_t answer, const char *what)
{
    expect(QUIMDORAL_REFUSAL(answer) == QUIMDORAL_PAYLOAD_CHECK_WRONG, what);
    expect(QUIMDORAL_FOUND(answer) == 514 && QUIMDORAL_WORKED_OUT(answer) == 49, what);
    expect(QUIMDORAL_VALUE(answer) == 514 + 65536ull * 49, what);
}

static void checks(void)
{
    expect(quimdoral_header_check((const uint8_t *)"123456789", 9) == 0x2C, "header check");
    expect(quimdoral_payload_check((const uint8_t *)"123456789", 9) == 0x199, "payload check");
}

static void reading(void)
{
    static const uint64_t of_c[] = {1, 0, 1, 1, 1, 1, 0, 9};
    uint64_t said[] = {9, 9, 9, 9, 9, 9, 9, 9};
    uint16_t list[] = {9, 9};

    expect(quimdoral_read_frame(c, sizeof c, said, 6) == QUIMDORAL_NO_ROOM && said[0] == 9, "no room for what a frame says");
    expect(quimdoral_read_frame(c, sizeof c, said, 8) == 0 && memcmp(said, of_c, sizeof said) == 0, "what C says");
    expect(quimdoral_read_frame(b, sizeof b, said, 8) == 0 && said[QUIMDORAL_SAID_KIND] == 2 && said[QUIMDORAL_SAID_PAYLOAD] == 1, "what B says");
    expect(quimdoral_read_frame(b, 10, said, 8) == QUIMDORAL_TOO_SHORT, "B cut short");
    expect(quimdoral_read_lengths(d, sizeof d, list, 0) == QUIMDORAL_NO_ROOM && list[0] == 9, "no room for lengths");
    expect(quimdoral_read_lengths(d, sizeof d, list, 2) == 256 && list[0] == 1 && list[1] == 9, "the lengths of D");
    expect(quimdoral_read_lengths(a, sizeof a, list, 2) == 0, "the lengths of A");
}

static void reading_wrong_checks(void)
{
    uint64_t said[] = {9, 9, 9, 9, 9, 9, 9};
    uint16_t list[] = {9};

    expect_c_wrong(quimdoral_read_frame(c_wrong, sizeof c_wrong, said, 7), "the header check of C, read");
    expect_d_wrong(quimdoral_read_frame(d_wrong, sizeof d_wrong, said, 7), "the payload check of D, read");
    expect_d_wrong(quimdoral_read_frame(d_wrong, sizeof d_wrong, said, 0), "the same without room for what a frame says");
    expect_c_wrong(quimdoral_read_lengths(c_wrong, sizeof c_wrong, list, 1), "the header check of C, read for lengths");
    expect_d_wrong(quimdoral_read_lengths(d_wrong, sizeof d_wrong, list, 1), "the payload check of D, read for lengths");
    expect(said[0] == 9 && list[0] == 9, "wrong checks write nothing");
}

static void writing(void)
{
    uint8_t out[32];

    memset(out, 0xEE, sizeof out);
    expect(quimdoral_write_data(60000, 0, 0, payload, 1, out, sizeof out) == QUIMDORAL_STAMP_TOO_HIGH, "a stamp too high");
    expect(quimdoral_write_data(0, 65535, 0, payload, 1, out, sizeof out) == QUIMDORAL_COUNTS_IMPOSSIBLE, "a number too high");
    expect(quimdoral_write_closing(0, 1, 1, 1, 1ull << 40, out, sizeof out) == QUIMDORAL_COUNTS_IMPOSSIBLE, "octets too wide");
    expect(quimdoral_write_closing_with_lengths(0, 1, 0, 1, 0, lengths, 1, out, sizeof out) == QUIMDORAL_LENGTHS_WRONG, "another sum");
    expect(quimdoral_write_data(0, 0, 0, payload, 1, out, 11) == QUIMDORAL_NO_ROOM && out[0] == 0xEE, "no room for B");
    expect_frame(quimdoral_write_data(0, 0, 0, payload, 0, out, sizeof out), out, a, sizeof a, "A written");
    expect_frame(quimdoral_write_data(0, 0, 0, payload, 1, out, sizeof out), out, b, sizeof b, "B written");
    expect_frame(quimdoral_write_closing(0, 1, 1, 1, 1, out, sizeof out), out, c, sizeof c, "C written");
    expect_frame(quimdoral_write_closing_with_lengths(0, 1, 1, 1, 1, lengths, 1, out, sizeof out), out, d, sizeof d, "D written");
}

static void sending(void)
{
    uint64_t state[] = {9, 9, 9, 9, 9, 9, 9};
    uint64_t other[7];
    uint8_t out[32];

    memset(out, 0xEE, sizeof out);
    expect(quimdoral_sender_open(state, 7, 0) == QUIMDORAL_SENDER_DAMAGED && state[0] == 9, "a damaged sender");
    expect(quimdoral_sender_fresh(state, 5) == QUIMDORAL_NO_ROOM && state[0] == 9, "no room for a sender");
    expect(quimdoral_sender_fresh(state, 7) == 0 && state[5] == 0 && state[6] == 9, "a fresh sender");
    expect(quimdoral_sender_data(state, 7, payload, 1, out, sizeof out) == QUIMDORAL_OUT_OF_TURN, "data before opening");
    expect(quimdoral_sender_open(state, 5, 0) == QUIMDORAL_SENDER_DAMAGED, "a state cut short");
    expect(quimdoral_sender_open(state, 7, 0) == 0, "opening");
    expect_frame(quimdoral_sender_data(state, 7, payload, 1, out, sizeof out), out, b, sizeof b, "B sent");
    memcpy(other, state, sizeof other);
    expect_frame(quimdoral_sender_close(state, 7, out, sizeof out), out, c, sizeof c, "C sent");
    expect_frame(quimdoral_sender_close_with_lengths(other, 7, lengths, 1, out, sizeof out), out, d, sizeof d, "D sent");
    expect(memcmp(state, other, sizeof state) == 0 && state[QUIMDORAL_SENDER_PHASE] == 2, "the state after both closings");
    expect(state[QUIMDORAL_SENDER_NUMBER] == 0 && state[QUIMDORAL_SENDER_PACKETS] == 1 && state[QUIMDORAL_SENDER_OCTETS] == 1, "its counts");
    expect(quimdoral_sender_open(state, 7, 0) == QUIMDORAL_STAMP_NOT_LATER, "the same stamp again");
    expect(quimdoral_sender_new_period(state, 7) == 0 && state[QUIMDORAL_SENDER_PACKETS] == 0, "a new period");
}

static void records(void)
{
    static const uint32_t ends[] = {sizeof b, sizeof b + sizeof c};
    uint8_t row[sizeof b + sizeof c];
    uint64_t head[6], far_head[6], figures[7], gap_octets[1];
    uint64_t answers[3] = {9, 9, 9};
    uint8_t marks[2], far_marks[2];
    uint32_t elapsed[2], far_elapsed[2], firsts[1], counts[1];
    uint16_t sizes[2], far_sizes[2];

    memcpy(row, b, sizeof b);
    memcpy(row + sizeof b, c, sizeof c);
    expect(quimdoral_fresh(7, 3, 0, head, 5, marks, 2, elapsed, 2, sizes, 2) == QUIMDORAL_CAPACITIES_DIFFER, "a head cut short");
    expect(quimdoral_fresh(7, 3, 0, head, 6, marks, 2, elapsed, 2, sizes, 2) == 0 && head[0] == 7 && head[1] == 3, "a fresh record");
    expect(quimdoral_hear(head, 6, marks, 2, elapsed, 2, sizes, 2, 3, 7, c, sizeof c) == QUIMDORAL_OTHER_SEQUENCE, "another bearer");
    expect(quimdoral_hear(head, 6, marks, 2, elapsed, 2, sizes, 2, 7, 3, c, sizeof c) == 0 && head[3] == 1, "C heard");
    expect(quimdoral_report(head, 6, marks, 2, elapsed, 2, sizes, 2, firsts, 1, counts, 1, gap_octets, 1, figures, 7) == 0, "a report");
    expect(figures[QUIMDORAL_FIGURE_MISSING] == 1 && firsts[0] == 0 && counts[0] == 1 && gap_octets[0] == 1, "the gap");
    expect(quimdoral_hear_all(7, 3, 0, far_head, 6, far_marks, 2, far_elapsed, 2, far_sizes, 2, row, sizeof row, ends, 2, answers, 1)
           == QUIMDORAL_NO_ROOM && answers[0] == 9, "no room for the answers");
    expect(quimdoral_hear_all(7, 3, 0, far_head, 6, far_marks, 2, far_elapsed, 2, far_sizes, 2, row, sizeof row, ends, 2, answers, 3) == 0
           && answers[0] == 0 && answers[1] == 0 && answers[2] == 9 && far_marks[0] == 1, "B and C heard at once");
    expect(quimdoral_join(head, 6, marks, 2, elapsed, 2, sizes, 2, far_head, 6, far_marks, 2, far_elapsed, 2, far_sizes, 2) == 0
           && marks[0] == 1 && sizes[0] == 1, "the join");
    far_sizes[0] = 0;
    far_head[QUIMDORAL_HEAD_TOTAL] = 0;
    expect(quimdoral_join(head, 6, marks, 2, elapsed, 2, sizes, 2, far_head, 6, far_marks, 2, far_elapsed, 2, far_sizes, 2)
           == QUIMDORAL_CONTRADICTION, "packet 0 contradicts");
    far_marks[0] = 0;
    expect(QUIMDORAL_VALUE(quimdoral_join(head, 6, marks, 2, elapsed, 2, sizes, 2, far_head, 6, far_marks, 2, far_elapsed, 2, far_sizes, 2))
           == QUIMDORAL_CLOSING_NAMED, "the closing contradicts");
}

/* One by one and at once: a wrong check is told, and nothing is held of its frame. */
static void hearing_wrong_checks(void)
{
    enum { C_END = sizeof c_wrong, D_END = C_END + sizeof d_wrong, A_END = D_END + sizeof a };
    static const uint32_t ends[] = {C_END, D_END, A_END, A_END};
    uint8_t row[A_END];
    uint64_t head[6], answers[] = {9, 9, 9, 9, 9};
    uint8_t marks[2];
    uint32_t elapsed[2];
    uint16_t sizes[2];

    expect(quimdoral_fresh(7, 3, 0, head, 6, marks, 2, elapsed, 2, sizes, 2) == 0, "a fresh record for wrong checks");
    expect_c_wrong(quimdoral_hear(head, 6, marks, 2, elapsed, 2, sizes, 2, 7, 3, c_wrong, sizeof c_wrong), "the header check of C, heard");
    expect_d_wrong(quimdoral_hear(head, 6, marks, 2, elapsed, 2, sizes, 2, 7, 3, d_wrong, sizeof d_wrong), "the payload check of D, heard");
    expect(head[QUIMDORAL_HEAD_CLOSED] == 0 && marks[0] == 0, "wrong checks leave a record");
    memcpy(row, c_wrong, sizeof c_wrong);
    memcpy(row + C_END, d_wrong, sizeof d_wrong);
    memcpy(row + D_END, a, sizeof a);
    expect(quimdoral_hear_all(7, 3, 0, head, 6, marks, 2, elapsed, 2, sizes, 2, row, sizeof row, ends, 4, answers, 5) == 0, "all at once");
    expect_c_wrong(answers[0], "the header check of C, heard with others");
    expect_d_wrong(answers[1], "the payload check of D, heard with others");
    expect(answers[2] == 0 && marks[0] == 1, "A heard behind them");
    expect(answers[3] == QUIMDORAL_TOO_SHORT && answers[4] == 9, "an empty frame behind it, and an answer that is no frame's");
    expect(head[QUIMDORAL_HEAD_CLOSED] == 0, "wrong checks among others leave a record");
}

/* What stands behind an IP packet is written, and then dropped: whoever reads or hears it gets the packet alone. */
static void extension_dropped(void)
{
    const uint8_t *packet = extended + QUIMDORAL_DATA_SIZE(0u);
    const size_t there = sizeof extended - QUIMDORAL_DATA_SIZE(0u);
    uint64_t head[6], said[7], cut;
    uint8_t marks[1], out[sizeof extended + 1];
    uint32_t elapsed[1];
    uint16_t sizes[1];

    expect(there == 22 && quimdoral_payload_kept(packet, there) == 20, "two octets behind a packet are not kept");
    expect(quimdoral_payload_kept(packet, 20) == 20 && quimdoral_payload_kept(packet, 19) == 19, "a whole packet, and one cut short");
    memset(out, 0xEE, sizeof out);
    expect_frame(quimdoral_write_data(0, 0, 0, packet, there, out, sizeof out), out, extended, sizeof extended, "all of it written");
    expect(quimdoral_read_frame(out, sizeof extended, said, 7) == 0 && said[QUIMDORAL_SAID_PAYLOAD] == 20, "the packet read");
    expect(quimdoral_fresh(7, 3, 0, head, 6, marks, 1, elapsed, 1, sizes, 1) == 0, "a fresh record for the packet");
    expect(quimdoral_hear(head, 6, marks, 1, elapsed, 1, sizes, 1, 7, 3, out, sizeof extended) == 0 && sizes[0] == 20, "the packet heard");
    cut = quimdoral_read_frame(out, sizeof extended - 1, said, 7);
    expect(QUIMDORAL_REFUSAL(cut) == QUIMDORAL_PAYLOAD_CHECK_WRONG && QUIMDORAL_FOUND(cut) == 0x398
           && QUIMDORAL_WORKED_OUT(cut) == quimdoral_payload_check(packet, there - 1), "the check covers the extension");
}

/* A join of a record with a copy of itself changes nothing; in place, it would write to what it reads. */
static void joined_with_itself(void)
{
    struct record {
        uint64_t head[6];
        uint8_t marks[2];
        uint32_t elapsed[2];
        uint16_t sizes[2];
    };
    const struct record held = {{7, 3, 0, 1, 2, 9}, {0, 1}, {0, 5}, {0, 4}};
    struct record left = held;

    expect(quimdoral_join(left.head, 6, left.marks, 2, left.elapsed, 2, left.sizes, 2,
                          held.head, 6, held.marks, 2, held.elapsed, 2, held.sizes, 2) == 0, "a join with a copy");
    expect(memcmp(left.head, held.head, sizeof held.head) == 0 && memcmp(left.marks, held.marks, sizeof held.marks) == 0
           && memcmp(left.elapsed, held.elapsed, sizeof held.elapsed) == 0
           && memcmp(left.sizes, held.sizes, sizeof held.sizes) == 0, "what a join with a copy left");
}

/* Any pointer stays as it is, and NULL becomes one that is not NULL and is aligned for every list. */
static void lending(void)
{
    static uint8_t u8[1];
    static uint16_t u16[1];
    static uint32_t u32[1];
    static uint64_t u64[1];

    expect(quimdoral_lend_u8(u8) == u8 && quimdoral_lend_u16(u16) == u16 && quimdoral_lend_u32(u32) == u32
           && quimdoral_lend_u64(u64) == u64, "what was lent stays");
    expect(quimdoral_lend_const_u8(u8) == u8 && quimdoral_lend_const_u16(u16) == u16 && quimdoral_lend_const_u32(u32) == u32
           && quimdoral_lend_const_u64(u64) == u64, "what was lent to be read stays");
    expect(quimdoral_nothing() != NULL && (uintptr_t)quimdoral_nothing() % sizeof(uint64_t) == 0, "memory for nothing");
    expect(quimdoral_lend_u8(NULL) == quimdoral_nothing() && quimdoral_lend_u16(NULL) == quimdoral_nothing()
           && quimdoral_lend_u32(NULL) == quimdoral_nothing() && quimdoral_lend_u64(NULL) == quimdoral_nothing(), "nothing lent");
    expect(quimdoral_lend_const_u8(NULL) == quimdoral_nothing() && quimdoral_lend_const_u16(NULL) == quimdoral_nothing()
           && quimdoral_lend_const_u32(NULL) == quimdoral_nothing() && quimdoral_lend_const_u64(NULL) == quimdoral_nothing(),
           "nothing lent to be read");
}

/* Calls with slices of nothing: no octets, no lengths, no frames, no state, and records of capacity 0. */
static void nothing_lent(void)
{
    const uint8_t *octets = quimdoral_lend_const_u8(NULL);
    const uint16_t *no_lengths = quimdoral_lend_const_u16(NULL);
    uint64_t head[6], far_head[6], figures[7];
    uint64_t *gap_octets = quimdoral_lend_u64(NULL), *answers = gap_octets;
    uint32_t *elapsed = quimdoral_lend_u32(NULL), *firsts = elapsed;
    uint16_t *sizes = quimdoral_lend_u16(NULL);
    uint8_t *marks = quimdoral_lend_u8(NULL);
    uint8_t out[32];

    memset(out, 0xEE, sizeof out);
    expect(quimdoral_header_check(octets, 0) == 0 && quimdoral_payload_check(octets, 0) == 0, "the checks of no octets");
    expect(quimdoral_read_frame(octets, 0, gap_octets, 0) == QUIMDORAL_TOO_SHORT, "a frame of no octets");
    expect(quimdoral_read_lengths(a, sizeof a, sizes, 0) == 0, "no lengths in A");
    expect(quimdoral_payload_kept(octets, 0) == 0, "nothing to keep");
    expect_frame(quimdoral_write_data(0, 0, 0, octets, 0, out, sizeof out), out, a, sizeof a, "A written with nothing");
    expect(quimdoral_write_data(0, 0, 0, octets, 0, marks, 0) == QUIMDORAL_NO_ROOM, "A without room");
    expect(QUIMDORAL_VALUE(quimdoral_write_closing_with_lengths(0, 0, 0, 0, 0, no_lengths, 0, out, sizeof out))
           == QUIMDORAL_LENGTHS_SIZE(0u), "a closing with no lengths");
    expect(quimdoral_sender_fresh(gap_octets, 0) == QUIMDORAL_NO_ROOM, "no state");
    expect(quimdoral_fresh(7, 3, 0, head, 6, marks, 0, elapsed, 0, sizes, 0) == 0, "a record of capacity 0");
    expect(quimdoral_hear(head, 6, marks, 0, elapsed, 0, sizes, 0, 7, 3, c, sizeof c) == QUIMDORAL_BEYOND_CAPACITY, "no place for C");
    expect(quimdoral_hear_all(7, 3, 0, far_head, 6, marks, 0, elapsed, 0, sizes, 0, octets, 0, quimdoral_lend_const_u32(NULL), 0,
                              answers, 0) == 0, "no frames heard");
    expect(quimdoral_join(head, 6, marks, 0, elapsed, 0, sizes, 0, far_head, 6, octets, 0, quimdoral_lend_const_u32(NULL), 0,
                          no_lengths, 0) == 0, "two records of capacity 0");
    expect(quimdoral_join(head, 6, marks, 0, elapsed, 0, sizes, 0, quimdoral_lend_const_u64(NULL), 0, octets, 0,
                          quimdoral_lend_const_u32(NULL), 0, no_lengths, 0) == QUIMDORAL_CAPACITIES_DIFFER, "no head");
    expect(quimdoral_report(head, 6, marks, 0, elapsed, 0, sizes, 0, firsts, 0, firsts, 0, gap_octets, 0, figures, 7) == 0
           && figures[QUIMDORAL_FIGURE_SENT] == 0 && figures[QUIMDORAL_FIGURE_GAPS] == 0, "a report without gaps");
}

static void clock_calls(void)
{
    expect(QUIMDORAL_VALUE(quimdoral_due(4294967290u, 10)) == 4, "example I, due");
    expect(quimdoral_due(0, 60000) == QUIMDORAL_STAMP_TOO_HIGH, "due at no stamp");
    expect(QUIMDORAL_VALUE(quimdoral_due(4294967295u, 0)) == 4294967295u, "the last tick");
    expect(QUIMDORAL_VALUE(quimdoral_stamp_of(4294967290u, 4)) == 10, "the stamp of a moment");
    expect(quimdoral_stamp_of(0, 60000) == QUIMDORAL_PERIOD_OVER, "the period is over");
    expect(quimdoral_lateness(3, 4) == -1 && quimdoral_lateness(2147483652u, 4) == INT32_MIN, "example I, lateness");
}

int main(void)
{
    checks();
    reading();
    reading_wrong_checks();
    writing();
    sending();
    records();
    hearing_wrong_checks();
    extension_dropped();
    joined_with_itself();
    lending();
    nothing_lent();
    clock_calls();
    return wrong;
}
