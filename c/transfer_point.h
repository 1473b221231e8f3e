/*
 * The transfer point: the level 3 part (ITU-T Q.704) of a node with the transfer function, for a host that drives level 2 and the clocks.
 *
 *     #include "transfer_point.h"         cc host.c libtransfer_point.a
 *
 * A host keeps one `struct transfer_point` for each node, makes it a node by a configuration, and calls a function for each event. The
 * library keeps nothing between calls, asks for no memory and has no variable of its own: nodes don't know of each other, and calls on
 * different nodes may run at the same time. Of one node, one call at a time.
 *
 * Whatever is passed, one of the numbered replies comes back. A number out of range is reply 1, however wide; an area that is too short or
 * NULL is reply 1 where the call needs it, and a NULL message or text is an empty one. An area that isn't NULL has the length that is said
 * of it and lies apart from the node and from the others.
 *
 * Every function of the library is proved to give what docs/PROMISES.md says. What stands in this file isn't: it is held to the proved
 * program by running.
 */
#ifndef TRANSFER_POINT_H
#define TRANSFER_POINT_H

#include <stdbool.h>
#include <stddef.h>
#include <stdint.h>

/* ---- Sizes */

enum {
    TRANSFER_POINT_LINKS = 32,             /* numbered 0 to 31 */
    TRANSFER_POINT_SETS = 8,               /* numbered 0 to 7, of at most 8 links */
    TRANSFER_POINT_DESTINATIONS = 64,      /* named by their point codes, 0 to 16383 */
    TRANSFER_POINT_MESSAGE = 273,          /* octets of the longest message; room for a send */
    TRANSFER_POINT_LABEL = 5,              /* octets of SIO and label, before what is delivered */
    TRANSFER_POINT_ROUTE_LIST = 4096,      /* room for a route list */
    TRANSFER_POINT_REPORTS = 1024,         /* words of a report area: 512 records of two */
    TRANSFER_POINT_CONFIGURATION = 16384,  /* octets of the longest configuration */
};

/* ---- Replies: the first of them, in this order, that applies */

enum transfer_point_reply {
    TRANSFER_POINT_DONE = 0,
    TRANSFER_POINT_OUT_OF_RANGE = 1,          /* an argument, or an area too short */
    TRANSFER_POINT_NOT_CONFIGURED = 2,        /* the node, link, set or destination named */
    TRANSFER_POINT_DOES_NOT_FIT = 5,          /* the link's or timer's state */
    TRANSFER_POINT_WRONG_NUMBER = 6,          /* a received FSN that isn't the next, an acknowledgement not in range */
    TRANSFER_POINT_MALFORMED = 3,             /* from a link: taken and dropped, as with 4 and 9 */
    TRANSFER_POINT_FOREIGN_NETWORK = 4,
    TRANSFER_POINT_NO_DESTINATION = 9,        /* DPC not configured, inaccessible, or from the host our own */
    TRANSFER_POINT_NO_EFFECT = 11,            /* a management message that names nothing or fits no state: taken */
    TRANSFER_POINT_FULL = 7,                  /* 192 user messages are held */
    TRANSFER_POINT_MANAGEMENT_FULL = 8,       /* more management messages are needed than have room */
    TRANSFER_POINT_NO_ARRIVAL_NUMBER = 10,
};

/* ---- Reports: two words for each record, what it is and what it is about */

enum transfer_point_report {
    TRANSFER_POINT_DROPPED_NO_ROUTE = 1,      /* a held message was dropped: its arrival number */
    TRANSFER_POINT_DROPPED_NO_NUMBER = 2,     /* it was sent, and an ECO or ECA ended the changeover: nothing told whether it arrived */
    /* 3 is given no more, and not used again: after T1, T2 or a number not in range the whole queue is sent again */
    TRANSFER_POINT_PAUSE = 4,                 /* a destination can't be reached any more: its code */
    TRANSFER_POINT_RESUME = 5,                /* it can be reached again */
};

/* ---- Faults of a configuration: the first faulty line, and the first of its faults in this order */

enum transfer_point_fault_code {
    TRANSFER_POINT_NO_NODE_LINE = 25,
    TRANSFER_POINT_WRONG_LINE = 20,           /* wrong word, field count or no LF */
    TRANSFER_POINT_WRONG_NUMERAL = 21,        /* not a plain decimal, or out of range */
    TRANSFER_POINT_NOT_GIVEN_ABOVE = 23,
    TRANSFER_POINT_REPEATED = 22,
    TRANSFER_POINT_TABLE_FULL = 24,           /* at line 0: the text is too long */
};

/* ---- Timers: T1 to T4 of a link, T6 and T8 of a destination, T10 of a route; their lengths are the host's */

enum transfer_point_timer {
    TRANSFER_POINT_T1 = 1,
    TRANSFER_POINT_T2 = 2,
    TRANSFER_POINT_T3 = 3,
    TRANSFER_POINT_T4 = 4,
    TRANSFER_POINT_T6 = 6,
    TRANSFER_POINT_T8 = 8,
};

/* ---- What a host keeps of a node. Only the library writes it; zeros are no node yet, and every call but a start is reply 2 */

struct transfer_point {
    uint16_t plan[1024];     /* what the configuration says, in an order of the library's own */
    uint32_t links[256];     /* eight words for each link; the first is its state: 0 out, 1 waiting, 2 open, 3 changing */
    uint32_t marks[512];     /* eight for each destination */
    uint16_t spans[70];      /* head and count of each of 35 queues */
    uint8_t rings[8960];     /* the slots in them */
    uint64_t rows[2048];     /* eight words for each of 256 slots */
    uint8_t octets[52416];   /* the user messages */
    uint64_t arrivals[1];    /* the next arrival number */
};

/* ---- What comes back */

struct transfer_point_answer {
    size_t octets;     /* how many stand at the start of the output: of a send, of a route list */
    size_t reports;    /* how many records stand at the start of the report area */
    uint8_t reply;
    uint8_t fsn;       /* of a send: the number with which the message leaves */
    bool delivers;     /* of a received message: it is for this point's own users */
};

/* Fault 0: the node is made. Any other: nothing is changed, and a node that runs goes on. */
struct transfer_point_fault {
    size_t line;
    uint8_t fault;
};

/* What a card driver keeps of one link, where it wants to: the last sent and the last acknowledged number. */
struct transfer_point_record {
    uint8_t sent;
    uint8_t acknowledged;
};

/* ---- The library's own functions: every area lent by itself, a slice as its place and its length. Call those below instead. */

struct transfer_point_fault transfer_point_start_lent(uint16_t *plan, uint32_t *links, uint32_t *marks, uint16_t *spans, uint8_t *rings,
    uint64_t *arrivals, const uint8_t *text, size_t length);
struct transfer_point_answer transfer_point_into_service_lent(const uint16_t *plan, uint32_t *links, const uint32_t *marks,
    uint16_t *spans, uint8_t *rings, uint64_t *rows, uint64_t *arrivals, uint8_t link, uint64_t *reports, size_t words);
struct transfer_point_answer transfer_point_fail_lent(const uint16_t *plan, uint32_t *links, const uint32_t *marks,
    uint16_t *spans, uint8_t *rings, uint64_t *rows, uint64_t *arrivals, uint8_t link, uint64_t *reports, size_t words);
struct transfer_point_answer transfer_point_send_lent(const uint16_t *plan, uint32_t *links, const uint16_t *spans,
    const uint8_t *rings, const uint64_t *rows, const uint8_t *octets, uint8_t link, uint8_t *out, size_t room);
uint8_t transfer_point_acknowledge_lent(const uint16_t *plan, uint32_t *links, uint16_t *spans, uint8_t *rings, uint8_t link, uint8_t number);
struct transfer_point_answer transfer_point_receive_lent(const uint16_t *plan, uint32_t *links, uint32_t *marks, uint16_t *spans,
    uint8_t *rings, uint64_t *rows, uint8_t *octets, uint64_t *arrivals, uint8_t link, uint8_t fsn, const uint8_t *message, size_t length,
    uint64_t *reports, size_t words);
struct transfer_point_answer transfer_point_send_host_lent(const uint16_t *plan, const uint32_t *links, const uint32_t *marks,
    uint16_t *spans, uint8_t *rings, uint64_t *rows, uint8_t *octets, uint64_t *arrivals, const uint8_t *message, size_t length);
struct transfer_point_answer transfer_point_expire_lent(const uint16_t *plan, uint32_t *links, const uint32_t *marks,
    uint16_t *spans, uint8_t *rings, const uint64_t *rows, uint8_t link, uint8_t timer, uint64_t *reports, size_t words);
uint8_t transfer_point_expire_wait_lent(const uint16_t *plan, uint32_t *links, uint8_t link, uint8_t timer);
struct transfer_point_answer transfer_point_expire_t6_lent(const uint16_t *plan, const uint32_t *links, uint32_t *marks,
    uint16_t *spans, uint8_t *rings, const uint64_t *rows, uint16_t code, uint64_t *reports, size_t words);
uint8_t transfer_point_expire_t8_lent(const uint16_t *plan, uint32_t *marks, uint16_t code);
struct transfer_point_answer transfer_point_expire_t10_lent(const uint16_t *plan, const uint32_t *links, const uint32_t *marks,
    uint16_t *spans, uint8_t *rings, uint64_t *rows, uint64_t *arrivals, uint16_t code, uint8_t set);
struct transfer_point_answer transfer_point_route_list_lent(const uint16_t *plan, const uint32_t *links, const uint32_t *marks,
    uint8_t *out, size_t room);
bool transfer_point_link_timer_lent(const uint16_t *plan, const uint32_t *links, uint8_t link, uint8_t timer);
bool transfer_point_destination_timer_lent(const uint16_t *plan, const uint32_t *marks, uint16_t code, uint8_t timer);
bool transfer_point_route_timer_lent(const uint16_t *plan, const uint32_t *marks, uint16_t code, uint8_t set);

/* A number too wide for the library's parameter is passed as the widest one, which is out of range too. */
static inline uint8_t transfer_point_8(uint64_t number) { return number < UINT8_MAX ? (uint8_t)number : UINT8_MAX; }
static inline uint16_t transfer_point_16(uint64_t number) { return number < UINT16_MAX ? (uint16_t)number : UINT16_MAX; }

/* An area that is NULL is one of no length: nothing is read or written at the place that is passed for it. */
static inline void *transfer_point_area(const void *area, size_t *length) {
    if (area != NULL)
        return (void *)area;
    *length = 0;
    return (void *)(uintptr_t)sizeof(uint64_t);
}

static inline struct transfer_point_answer transfer_point_plain(uint8_t reply) {
    struct transfer_point_answer answer = {.reply = reply};
    return answer;
}

/* ---- The calls: one for each event */

/* A configuration's text makes the node anew, all links out and empty, or is refused. */
static inline struct transfer_point_fault transfer_point_start(struct transfer_point *node, const uint8_t *text, size_t length) {
    const uint8_t *from = transfer_point_area(text, &length);
    return transfer_point_start_lent(node->plan, node->links, node->marks, node->spans, node->rings, node->arrivals, from, length);
}

/* Level 2 says that a link is aligned. */
static inline struct transfer_point_answer transfer_point_into_service(struct transfer_point *node, uint64_t link, uint64_t *reports, size_t words) {
    uint64_t *to = transfer_point_area(reports, &words);
    return transfer_point_into_service_lent(node->plan, node->links, node->marks, node->spans, node->rings, node->rows, node->arrivals,
        transfer_point_8(link), to, words);
}

/* Level 2 says that a link failed. */
static inline struct transfer_point_answer transfer_point_failure(struct transfer_point *node, uint64_t link, uint64_t *reports, size_t words) {
    uint64_t *to = transfer_point_area(reports, &words);
    return transfer_point_fail_lent(node->plan, node->links, node->marks, node->spans, node->rings, node->rows, node->arrivals,
        transfer_point_8(link), to, words);
}

/* Level 2 can send: the link's next message, at the start of `out`, and the number it leaves with. */
static inline struct transfer_point_answer transfer_point_send(struct transfer_point *node, uint64_t link, uint8_t *out, size_t room) {
    uint8_t *to = transfer_point_area(out, &room);
    return transfer_point_send_lent(node->plan, node->links, node->spans, node->rings, node->rows, node->octets, transfer_point_8(link), to, room);
}

/* The far end acknowledged every message up to that number. */
static inline struct transfer_point_answer transfer_point_acknowledgement(struct transfer_point *node, uint64_t link, uint64_t number) {
    return transfer_point_plain(transfer_point_acknowledge_lent(
        node->plan, node->links, node->spans, node->rings, transfer_point_8(link), transfer_point_8(number)));
}

/* A message came in. With replies 1, 2, 5, 6, 7, 8 and 10 it isn't taken: offer it again with the same number. */
static inline struct transfer_point_answer transfer_point_received(struct transfer_point *node, uint64_t link, uint64_t fsn,
    const uint8_t *message, size_t length, uint64_t *reports, size_t words) {
    const uint8_t *from = transfer_point_area(message, &length);
    uint64_t *to = transfer_point_area(reports, &words);
    return transfer_point_receive_lent(node->plan, node->links, node->marks, node->spans, node->rings, node->rows, node->octets,
        node->arrivals, transfer_point_8(link), transfer_point_8(fsn), from, length, to, words);
}

/* The part of a delivered message behind its label, of `length - TRANSFER_POINT_LABEL` octets. */
static inline const uint8_t *transfer_point_delivered(const uint8_t *message) { return message + TRANSFER_POINT_LABEL; }

/* A user of this point hands a message over. */
static inline struct transfer_point_answer transfer_point_from_host(struct transfer_point *node, const uint8_t *message, size_t length) {
    const uint8_t *from = transfer_point_area(message, &length);
    return transfer_point_send_host_lent(node->plan, node->links, node->marks, node->spans, node->rings, node->rows, node->octets,
        node->arrivals, from, length);
}

/* A link's timer expired. */
static inline struct transfer_point_answer transfer_point_t1(struct transfer_point *node, uint64_t link, uint64_t *reports, size_t words) {
    uint64_t *to = transfer_point_area(reports, &words);
    return transfer_point_expire_lent(
        node->plan, node->links, node->marks, node->spans, node->rings, node->rows, transfer_point_8(link), TRANSFER_POINT_T1, to, words);
}

static inline struct transfer_point_answer transfer_point_t2(struct transfer_point *node, uint64_t link, uint64_t *reports, size_t words) {
    uint64_t *to = transfer_point_area(reports, &words);
    return transfer_point_expire_lent(
        node->plan, node->links, node->marks, node->spans, node->rings, node->rows, transfer_point_8(link), TRANSFER_POINT_T2, to, words);
}

static inline struct transfer_point_answer transfer_point_t3(struct transfer_point *node, uint64_t link) {
    return transfer_point_plain(transfer_point_expire_wait_lent(node->plan, node->links, transfer_point_8(link), TRANSFER_POINT_T3));
}

static inline struct transfer_point_answer transfer_point_t4(struct transfer_point *node, uint64_t link) {
    return transfer_point_plain(transfer_point_expire_wait_lent(node->plan, node->links, transfer_point_8(link), TRANSFER_POINT_T4));
}

/* A destination's timer expired. */
static inline struct transfer_point_answer transfer_point_t6(struct transfer_point *node, uint64_t code, uint64_t *reports, size_t words) {
    uint64_t *to = transfer_point_area(reports, &words);
    return transfer_point_expire_t6_lent(
        node->plan, node->links, node->marks, node->spans, node->rings, node->rows, transfer_point_16(code), to, words);
}

static inline struct transfer_point_answer transfer_point_t8(struct transfer_point *node, uint64_t code) {
    return transfer_point_plain(transfer_point_expire_t8_lent(node->plan, node->marks, transfer_point_16(code)));
}

/* The timer of the route to a destination by a set expired; it restarts by itself. */
static inline struct transfer_point_answer transfer_point_t10(struct transfer_point *node, uint64_t code, uint64_t set) {
    return transfer_point_expire_t10_lent(node->plan, node->links, node->marks, node->spans, node->rings, node->rows, node->arrivals,
        transfer_point_16(code), transfer_point_8(set));
}

/* The route list, a text, at the start of `out`. */
static inline struct transfer_point_answer transfer_point_routes(const struct transfer_point *node, uint8_t *out, size_t room) {
    uint8_t *to = transfer_point_area(out, &room);
    return transfer_point_route_list_lent(node->plan, node->links, node->marks, to, room);
}

/* ---- Which timers run: read them after a call, and start or stop the clocks */

static inline bool transfer_point_link_timer_runs(const struct transfer_point *node, uint64_t link, enum transfer_point_timer timer) {
    return transfer_point_link_timer_lent(node->plan, node->links, transfer_point_8(link), transfer_point_8(timer));
}

static inline bool transfer_point_destination_timer_runs(const struct transfer_point *node, uint64_t code, enum transfer_point_timer timer) {
    return transfer_point_destination_timer_lent(node->plan, node->marks, transfer_point_16(code), transfer_point_8(timer));
}

static inline bool transfer_point_route_timer_runs(const struct transfer_point *node, uint64_t code, uint64_t set) {
    return transfer_point_route_timer_lent(node->plan, node->marks, transfer_point_16(code), transfer_point_8(set));
}

/* ---- A card driver's own record of a link, brought up to date where it lies with each send and acknowledgement whose reply is 0 */

/* The record of a link that has just come into service. */
struct transfer_point_record transfer_point_begun(void);

/* A message was sent: its number, which is the last sent from now on. */
uint8_t transfer_point_note_sent(struct transfer_point_record *);

/* Whether the number is in range; if so it is the last acknowledged from now on, if not the record is unchanged. */
bool transfer_point_note_acknowledged(struct transfer_point_record *, uint8_t number);

/* ---- A shift kept: the line of a call in a record that `replay` runs again, proved to read back as that call */

enum transfer_point_kind {
    TRANSFER_POINT_KEEP_SERVICE,   /* link */
    TRANSFER_POINT_KEEP_FAILURE,   /* link */
    TRANSFER_POINT_KEEP_SEND,      /* link */
    TRANSFER_POINT_KEEP_ACK,       /* link, number */
    TRANSFER_POINT_KEEP_RECEIVED,  /* link, FSN, and the message */
    TRANSFER_POINT_KEEP_HOST,      /* the message */
    TRANSFER_POINT_KEEP_T1,        /* link */
    TRANSFER_POINT_KEEP_T2,        /* link */
    TRANSFER_POINT_KEEP_T3,        /* link */
    TRANSFER_POINT_KEEP_T4,        /* link */
    TRANSFER_POINT_KEEP_T6,        /* destination */
    TRANSFER_POINT_KEEP_T8,        /* destination */
    TRANSFER_POINT_KEEP_T10,       /* destination, set */
    TRANSFER_POINT_KEEP_ROUTES,
};

enum { TRANSFER_POINT_LINE = 18 + 2 * 1024 };  /* room for the longest line, which carries 1,024 octets */

size_t transfer_point_keep_lent(uint8_t *out, size_t room, uint8_t kind, uint16_t first, uint8_t second, const uint8_t *message, size_t length);

/* Writes the line of a call, with its LF, at the start of `out`, and gives its length; 0 where it has no room or the message is too long. */
static inline size_t transfer_point_keep(uint8_t *out, size_t room, enum transfer_point_kind kind, uint64_t first, uint64_t second,
    const uint8_t *message, size_t length) {
    uint8_t *to = transfer_point_area(out, &room);
    const uint8_t *from = transfer_point_area(message, &length);
    return transfer_point_keep_lent(to, room, transfer_point_8(kind), transfer_point_16(first), transfer_point_8(second), from, length);
}

#endif
