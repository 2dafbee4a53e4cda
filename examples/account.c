/*
 * One sequence of a public information service, from the gateway that sends it to the account of what two transmitters lacked.
 *
 * The gateway sends five packets and closes the sequence. The transmitter in the north loses two of them, the one in the south loses two
 * and the closing, and hears what is left in another order. Each keeps a record and reports on it. Then the south's record is joined into
 * the north's: what is still missing, neither of them heard.
 *
 * Prints the accounts, and ends with status 0 only if they are right.
 */
#include <stdio.h>
#include <stdlib.h>
#include <string.h>

#include "quimdoral.h"

enum { BEARER = 7, PERIOD = 3, CAPACITY = 8, MOST_GAPS = QUIMDORAL_MOST_GAPS(CAPACITY), ROOM = 64, PACKETS = 5 };

struct frame {
    uint8_t octets[ROOM];
    size_t length;
};

struct record {
    uint64_t head[QUIMDORAL_HEAD_NUMBERS];
    uint8_t marks[CAPACITY];
    uint32_t elapsed[CAPACITY];
    uint16_t sizes[CAPACITY];
};

struct report {
    uint64_t figures[QUIMDORAL_FIGURES];
    uint32_t firsts[MOST_GAPS];
    uint32_t counts[MOST_GAPS];
    uint64_t octets[MOST_GAPS];
};

static void expect(int right, const char *what)
{
    if (!right) {
        fprintf(stderr, "account: %s\n", what);
        exit(EXIT_FAILURE);
    }
}

/* The value of an answer that must not be a refusal. */
static uint64_t accepted(uint64_t answer, const char *what)
{
    if (QUIMDORAL_REFUSAL(answer) != 0) {
        fprintf(stderr, "account: %s: refused with %u\n", what, QUIMDORAL_REFUSAL(answer));
        exit(EXIT_FAILURE);
    }
    return QUIMDORAL_VALUE(answer);
}

/* Sends the packets as one sequence: a frame for each, and a Type 3 closing behind them. One packet has nothing in it. */
static void send_sequence(uint32_t stamp, struct frame frames[PACKETS + 1])
{
    static const char *const packets[PACKETS] = {"Flood warning", "River Dove", NULL, "Avoid the bridge at", "Mill Lane"};
    uint64_t sender[QUIMDORAL_SENDER_NUMBERS];
    uint16_t lengths[PACKETS];
    size_t i;

    accepted(quimdoral_sender_fresh(sender, QUIMDORAL_SENDER_NUMBERS), "a fresh sender");
    accepted(quimdoral_sender_open(sender, QUIMDORAL_SENDER_NUMBERS, stamp), "opening the sequence");
    for (i = 0; i < PACKETS; i++) {
        struct frame *f = &frames[i];
        lengths[i] = packets[i] == NULL ? 0 : (uint16_t)strlen(packets[i]);
        f->length = (size_t)accepted(quimdoral_sender_data(sender, QUIMDORAL_SENDER_NUMBERS,
                                                           quimdoral_lend_const_u8((const uint8_t *)packets[i]), lengths[i],
                                                           f->octets, ROOM), "a data PDU");
        expect(f->length == QUIMDORAL_DATA_SIZE(lengths[i]), "the size of a data PDU");
    }
    frames[PACKETS].length = (size_t)accepted(quimdoral_sender_close_with_lengths(sender, QUIMDORAL_SENDER_NUMBERS, lengths, PACKETS,
                                                                                  frames[PACKETS].octets, ROOM), "the closing PDU");
    expect(frames[PACKETS].length == QUIMDORAL_LENGTHS_SIZE(PACKETS), "the size of the closing PDU");

    /* A sequence that is closed takes no more data. */
    expect(quimdoral_sender_close(sender, QUIMDORAL_SENDER_NUMBERS, frames[0].octets, ROOM) == QUIMDORAL_OUT_OF_TURN, "closing twice");
    accepted(quimdoral_sender_new_period(sender, QUIMDORAL_SENDER_NUMBERS), "a new period");
}

/* The lengths that a closing PDU carries are those of the payloads. */
static void print_lengths(const struct frame *closing)
{
    uint16_t lengths[PACKETS];
    uint64_t count = accepted(quimdoral_read_lengths(closing->octets, closing->length, lengths, PACKETS), "reading lengths");
    uint64_t i;

    printf("lengths");
    for (i = 0; i < count; i++)
        printf(" %u", (unsigned)lengths[i]);
    printf("\n");
}

static void make_fresh(struct record *r, uint32_t stamp)
{
    accepted(quimdoral_fresh(BEARER, PERIOD, stamp, r->head, QUIMDORAL_HEAD_NUMBERS, r->marks, CAPACITY, r->elapsed, CAPACITY,
                             r->sizes, CAPACITY), "a fresh record");
}

static uint64_t hear(struct record *r, const struct frame *f)
{
    return quimdoral_hear(r->head, QUIMDORAL_HEAD_NUMBERS, r->marks, CAPACITY, r->elapsed, CAPACITY, r->sizes, CAPACITY,
                          BEARER, PERIOD, f->octets, f->length);
}

static uint32_t join(struct record *left, const struct record *right)
{
    return quimdoral_join(left->head, QUIMDORAL_HEAD_NUMBERS, left->marks, CAPACITY, left->elapsed, CAPACITY, left->sizes, CAPACITY,
                          right->head, QUIMDORAL_HEAD_NUMBERS, right->marks, CAPACITY, right->elapsed, CAPACITY, right->sizes, CAPACITY);
}

static void print_report(const char *name, const struct record *r, struct report *p)
{
    uint64_t i;

    accepted(quimdoral_report(r->head, QUIMDORAL_HEAD_NUMBERS, r->marks, CAPACITY, r->elapsed, CAPACITY, r->sizes, CAPACITY,
                              p->firsts, MOST_GAPS, p->counts, MOST_GAPS, p->octets, MOST_GAPS, p->figures, QUIMDORAL_FIGURES), "a report");
    printf("%s, %s\n", name, r->head[QUIMDORAL_HEAD_CLOSED] == 1 ? "closed" : "open");
    printf("  sent %llu packets, %llu octets\n", (unsigned long long)p->figures[QUIMDORAL_FIGURE_SENT],
           (unsigned long long)p->figures[QUIMDORAL_FIGURE_SENT_OCTETS]);
    printf("  heard %llu packets, %llu octets\n", (unsigned long long)p->figures[QUIMDORAL_FIGURE_HEARD],
           (unsigned long long)p->figures[QUIMDORAL_FIGURE_HEARD_OCTETS]);
    printf("  missing %llu packets, %llu octets\n", (unsigned long long)p->figures[QUIMDORAL_FIGURE_MISSING],
           (unsigned long long)p->figures[QUIMDORAL_FIGURE_MISSING_OCTETS]);
    for (i = 0; i < p->figures[QUIMDORAL_FIGURE_GAPS]; i++)
        printf("  gap from packet %u: %u packets, %llu octets\n", (unsigned)p->firsts[i], (unsigned)p->counts[i],
               (unsigned long long)p->octets[i]);
}

int main(void)
{
    /* Ticks start over within this period; only how far one is past another counts. */
    const uint32_t start = 4294967290u;
    const uint32_t now = 4u;
    const uint32_t stamp = (uint32_t)accepted(quimdoral_stamp_of(start, now), "the stamp of a moment");
    const uint32_t due = (uint32_t)accepted(quimdoral_due(start, stamp), "the due time");
    struct frame frames[PACKETS + 1];
    struct frame spoilt;
    struct record north, south;
    struct report report;

    expect(stamp == 10 && due == now, "the clock");
    printf("stamp %u, due at tick %u; at tick 3 the lateness is %d\n", (unsigned)stamp, (unsigned)due, (int)quimdoral_lateness(3, due));

    send_sequence(stamp, frames);
    print_lengths(&frames[PACKETS]);

    /* North: packets 0, 2 and 4, and the closing. A frame that was spoilt on the way is refused, and changes nothing. */
    make_fresh(&north, stamp);
    accepted(hear(&north, &frames[0]), "north, packet 0");
    accepted(hear(&north, &frames[2]), "north, packet 2");
    accepted(hear(&north, &frames[4]), "north, packet 4");
    accepted(hear(&north, &frames[PACKETS]), "north, closing");
    spoilt = frames[1];
    spoilt.octets[spoilt.length - 1] ^= 1u;
    expect(QUIMDORAL_REFUSAL(hear(&north, &spoilt)) == QUIMDORAL_PAYLOAD_CHECK_WRONG, "a spoilt frame");

    /* South: packets 2, 1 and 0, in this order and one of them twice, and no closing. */
    make_fresh(&south, stamp);
    accepted(hear(&south, &frames[2]), "south, packet 2");
    accepted(hear(&south, &frames[1]), "south, packet 1");
    accepted(hear(&south, &frames[1]), "south, packet 1 again");
    accepted(hear(&south, &frames[0]), "south, packet 0");

    print_report("north", &north, &report);
    expect(report.figures[QUIMDORAL_FIGURE_GAPS] == 2, "the gaps of the north");
    print_report("south", &south, &report);
    expect(report.figures[QUIMDORAL_FIGURE_GAPS] == 0, "the gaps of the south");

    accepted(join(&north, &south), "the join");
    print_report("both", &north, &report);
    expect(report.figures[QUIMDORAL_FIGURE_MISSING] == 1 && report.firsts[0] == 3, "what neither heard");
    return EXIT_SUCCESS;
}
