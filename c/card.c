/*
 * How a card driver calls the library: two points with two links between them, real clocks, and a card that falls over and comes back.
 * Point 1 hands numbered messages over to point 2 all the while; in the end it says which the other side got.
 */
#include "transfer_point.h"

#include <stdio.h>
#include <string.h>
#include <time.h>

enum { LINKS = 2, WIRE = 8, MESSAGES = 4000, WORDS = TRANSFER_POINT_REPORTS };

/* A message under way on a link, and whether the far end has taken it. */
struct frame {
    uint8_t fsn, octets[TRANSFER_POINT_MESSAGE];
    size_t length;
    bool taken;
};

struct point {
    struct transfer_point node;
    struct transfer_point_record record[LINKS];
    struct frame wire[LINKS][WIRE]; /* what this point sent and nobody acknowledged */
    size_t waiting[LINKS];
    long link_clock[LINKS][5], other_clock[11]; /* when T1 to T4 of a link, T6, T8 and T10 of the other point expire; 0: stopped */
    bool in_service[LINKS];
    unsigned other;
};

static struct point points[2];
static unsigned got[MESSAGES], open_then, taken_then;
static uint64_t reports[TRANSFER_POINT_REPORTS];

static long milliseconds(void) {
    struct timespec now;
    clock_gettime(CLOCK_MONOTONIC, &now);
    return now.tv_sec * 1000 + now.tv_nsec / 1000000 + 1;
}

/* One clock is started, goes on, is stopped, or expires. */
static bool expires(long *clock, bool runs, long length, long now) {
    bool expired = runs && *clock != 0 && now >= *clock;
    *clock = !runs || expired ? 0 : *clock == 0 ? now + length : *clock;
    return expired;
}

/* Read which timers run, and tell the node of each that expires. Q.704 says how long they are. */
static void run_clocks(struct point *point, long now) {
    struct transfer_point *node = &point->node;
    for (unsigned link = 0; link < LINKS; link++) {
        long *clock = point->link_clock[link];
        if (expires(&clock[1], transfer_point_link_timer_runs(node, link, TRANSFER_POINT_T1), 800, now))
            transfer_point_t1(node, link, reports, WORDS);
        if (expires(&clock[2], transfer_point_link_timer_runs(node, link, TRANSFER_POINT_T2), 1400, now))
            transfer_point_t2(node, link, reports, WORDS);
        if (expires(&clock[3], transfer_point_link_timer_runs(node, link, TRANSFER_POINT_T3), 800, now))
            transfer_point_t3(node, link);
        if (expires(&clock[4], transfer_point_link_timer_runs(node, link, TRANSFER_POINT_T4), 800, now))
            transfer_point_t4(node, link);
    }
    if (expires(&point->other_clock[6], transfer_point_destination_timer_runs(node, point->other, TRANSFER_POINT_T6), 800, now))
        transfer_point_t6(node, point->other, reports, WORDS);
    if (expires(&point->other_clock[8], transfer_point_destination_timer_runs(node, point->other, TRANSFER_POINT_T8), 1000, now))
        transfer_point_t8(node, point->other);
    if (expires(&point->other_clock[10], transfer_point_route_timer_runs(node, point->other, 0), 30000, now))
        transfer_point_t10(node, point->other, 0);
}

/* The card has room on the wire: the node gives the next message and the number that it leaves with. */
static void send(struct point *point, unsigned link) {
    struct frame *frame = &point->wire[link][point->waiting[link]];
    if (point->waiting[link] == WIRE)
        return;
    struct transfer_point_answer answer = transfer_point_send(&point->node, link, frame->octets, sizeof frame->octets);
    if (answer.reply != TRANSFER_POINT_DONE)
        return;
    frame->fsn = transfer_point_note_sent(&point->record[link]), frame->length = answer.octets, frame->taken = false;
    point->waiting[link]++;
    if (frame->fsn != answer.fsn)
        puts("the driver's record and the node disagree");
}

/*
 * Whether the node took a message that came in: it did what the message asks, dropped it for good, or found nothing to do. With any other
 * reply it is as if the message hadn't come, and the node still waits for its number. So the message stays first, is offered again with that
 * number until it is taken, and those behind it wait. A driver that goes on to the next loses it, and the link with it, since every number
 * from then on is a wrong one.
 */
static bool is_taken(uint8_t reply) {
    switch (reply) {
    case TRANSFER_POINT_DONE:
    case TRANSFER_POINT_MALFORMED:
    case TRANSFER_POINT_FOREIGN_NETWORK:
    case TRANSFER_POINT_NO_DESTINATION:
    case TRANSFER_POINT_NO_EFFECT: return true;
    default: return false;
    }
}

/* The far end is offered the first message that it hasn't taken; one for its own users has its number behind the label. */
static void take(struct point *from, struct point *to, unsigned link) {
    struct frame *frame = from->wire[link], *end = frame + from->waiting[link];
    while (frame < end && frame->taken)
        frame++;
    if (frame == end)
        return;
    struct transfer_point_answer answer = transfer_point_received(&to->node, link, frame->fsn, frame->octets, frame->length, reports, WORDS);
    unsigned number;
    frame->taken = is_taken(answer.reply);
    if (answer.delivers && (memcpy(&number, transfer_point_delivered(frame->octets), sizeof number), number < MESSAGES))
        got[number]++;
}

/* Five at a time the far end acknowledges what it took, so that some are always open. What the node refuses hasn't happened. */
static void acknowledge(struct point *point, unsigned link) {
    if (point->waiting[link] < 5 || !point->wire[link][4].taken)
        return;
    uint8_t number = point->wire[link][4].fsn;
    if (transfer_point_acknowledgement(&point->node, link, number).reply != TRANSFER_POINT_DONE)
        return;
    transfer_point_note_acknowledged(&point->record[link], number);
    point->waiting[link] -= 5;
    memmove(point->wire[link], point->wire[link] + 5, point->waiting[link] * sizeof point->wire[link][0]);
}

/* A card falls over, and what it had on the wire is gone. */
static void fall_over(struct point *point, unsigned link) {
    for (; point->waiting[link] > 0; open_then++)
        taken_then += point->wire[link][--point->waiting[link]].taken;
    point->in_service[link] = false;
    transfer_point_failure(&point->node, link, reports, WORDS);
}

/* A card is aligned. A node that has no room for what it must tell others then refuses (reply 8), and hears of it again. */
static void come_up(struct point *point, unsigned link) {
    point->record[link] = transfer_point_begun();
    point->in_service[link] = transfer_point_into_service(&point->node, link, reports, WORDS).reply == TRANSFER_POINT_DONE;
}

/* What level 2 says of a link, told to a point that doesn't know it yet. */
static void tell(struct point *point, unsigned link, bool aligned) {
    if (point->in_service[link] && !aligned)
        fall_over(point, link);
    else if (!point->in_service[link] && aligned)
        come_up(point, link);
}

/* A user's message for point 2: NI 2, SI 5, DPC 2, OPC 1, the SLS, and its number. A full node takes none. */
static bool hand_over(unsigned number) {
    uint8_t message[9] = {0x85, 0x02, 0x40, 0x00, (uint8_t)(number % 16 << 4)};
    memcpy(message + TRANSFER_POINT_LABEL, &number, sizeof number);
    return transfer_point_from_host(&points[0].node, message, sizeof message).reply == TRANSFER_POINT_DONE;
}

int main(void) {
    static const char *texts[] = {"node\t1\t2\nset\t0\t2\nlink\t0\t0\t0\nlink\t1\t0\t1\nroute\t2\t0\t0\n",
        "node\t2\t2\nset\t0\t1\nlink\t0\t0\t0\nlink\t1\t0\t1\nroute\t1\t0\t0\n"};
    unsigned next = 0, lost = 0, doubled = 0;
    for (unsigned i = 0; i < 2; i++) {
        points[i].other = 2 - i;
        if (transfer_point_start(&points[i].node, (const uint8_t *)texts[i], strlen(texts[i])).fault != 0)
            return 2;
    }
    for (long begun = milliseconds(), now = begun; now < begun + 4000; now = milliseconds()) {
        for (unsigned i = 0; i < 2; i++)
            tell(&points[i], 0, now < begun + 500 || now >= begun + 1500), tell(&points[i], 1, true);
        while (next < MESSAGES && hand_over(next))
            next++;
        for (unsigned i = 0; i < 2; run_clocks(&points[i++], now))
            for (unsigned link = 0; link < LINKS; link++)
                if (points[i].in_service[link])
                    send(&points[i], link), send(&points[i], link), take(&points[i], &points[1 - i], link), acknowledge(&points[i], link);
        nanosleep(&(struct timespec){.tv_nsec = 1000000}, NULL);
    }
    for (unsigned number = 0; number < next; number++)
        lost += got[number] == 0, doubled += got[number] > 1;
    printf("%u messages handed over; %u open when the card fell over, of which the other side had %u; %u lost, %u doubled\n",
        next, open_then, taken_then, lost, doubled);
    return lost + doubled == 0 ? 0 : 1;
}
