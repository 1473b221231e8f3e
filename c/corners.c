/*
 * What no record of calls can reach, tried through the library: no node, areas too short, the last arrival number, a second configuration. A line for
 * each step, the word that a record has for the call and its reply; above them what is tried.
 */
#include "transfer_point.h"

#include <stdio.h>

static const char configuration[] = "node\t2\t2\nset\t0\t1\nset\t1\t3\nlink\t0\t0\t0\nlink\t1\t0\t1\nlink\t4\t1\t0\nroute\t1\t0\t0\nroute\t7\t1\t0\nroute\t9\t0\t0\n";

/* From the host to 9; from point 1 to 9, to 7, which no link reaches, and to us. */
static const uint8_t messages[][6] = {{133, 9, 128, 0, 0, 160}, {133, 9, 64, 0, 0, 187}, {133, 7, 64, 0, 0, 187}, {133, 2, 64, 0, 0, 187}};

struct step {
    enum transfer_point_kind kind;
    uint64_t first, second;
    const uint8_t *message;
};

/* Every call once, about link 0 and destination 9. */
static const struct step every[] = {
    {TRANSFER_POINT_KEEP_SERVICE, 0, 0, NULL},
    {TRANSFER_POINT_KEEP_FAILURE, 0, 0, NULL},
    {TRANSFER_POINT_KEEP_SEND, 0, 0, NULL},
    {TRANSFER_POINT_KEEP_ACK, 0, 127, NULL},
    {TRANSFER_POINT_KEEP_RECEIVED, 0, 0, messages[1]},
    {TRANSFER_POINT_KEEP_HOST, 0, 0, messages[1]},
    {TRANSFER_POINT_KEEP_T1, 0, 0, NULL},
    {TRANSFER_POINT_KEEP_T2, 0, 0, NULL},
    {TRANSFER_POINT_KEEP_T3, 0, 0, NULL},
    {TRANSFER_POINT_KEEP_T4, 0, 0, NULL},
    {TRANSFER_POINT_KEEP_T6, 9, 0, NULL},
    {TRANSFER_POINT_KEEP_T8, 9, 0, NULL},
    {TRANSFER_POINT_KEEP_T10, 9, 0, NULL},
    {TRANSFER_POINT_KEEP_ROUTES, 0, 0, NULL},
};

/* A short life of link 0. */
static const struct step life[] = {
    {TRANSFER_POINT_KEEP_SERVICE, 0, 0, NULL},
    {TRANSFER_POINT_KEEP_HOST, 0, 0, messages[0]},
    {TRANSFER_POINT_KEEP_HOST, 0, 0, messages[0]},
    {TRANSFER_POINT_KEEP_SERVICE, 1, 0, NULL},
    {TRANSFER_POINT_KEEP_RECEIVED, 0, 0, messages[1]},
    {TRANSFER_POINT_KEEP_RECEIVED, 0, 0, messages[2]},
    {TRANSFER_POINT_KEEP_RECEIVED, 0, 0, messages[3]},
    {TRANSFER_POINT_KEEP_SEND, 0, 0, NULL},
    {TRANSFER_POINT_KEEP_ACK, 0, 0, NULL},
    {TRANSFER_POINT_KEEP_FAILURE, 0, 0, NULL},
    {TRANSFER_POINT_KEEP_T2, 0, 0, NULL},
    {TRANSFER_POINT_KEEP_T1, 0, 0, NULL},
    {TRANSFER_POINT_KEEP_HOST, 0, 0, messages[0]},
    {TRANSFER_POINT_KEEP_ROUTES, 0, 0, NULL},
};

enum { STEPS = sizeof life / sizeof *life };

static const char *const words[] = {"service", "failure", "send", "ack", "received", "host", "t1", "t2", "t3", "t4", "t6", "t8", "t10", "routes"};

static struct transfer_point_answer answer(
    struct transfer_point *node, const struct step *step, uint8_t *out, size_t room, uint64_t *reports, size_t length) {
    switch (step->kind) {
    case TRANSFER_POINT_KEEP_SERVICE: return transfer_point_into_service(node, step->first, reports, length);
    case TRANSFER_POINT_KEEP_FAILURE: return transfer_point_failure(node, step->first, reports, length);
    case TRANSFER_POINT_KEEP_SEND: return transfer_point_send(node, step->first, out, room);
    case TRANSFER_POINT_KEEP_ACK: return transfer_point_acknowledgement(node, step->first, step->second);
    case TRANSFER_POINT_KEEP_RECEIVED:
        return transfer_point_received(node, step->first, step->second, step->message, sizeof *messages, reports, length);
    case TRANSFER_POINT_KEEP_HOST: return transfer_point_from_host(node, step->message, sizeof *messages);
    case TRANSFER_POINT_KEEP_T1: return transfer_point_t1(node, step->first, reports, length);
    case TRANSFER_POINT_KEEP_T2: return transfer_point_t2(node, step->first, reports, length);
    case TRANSFER_POINT_KEEP_T3: return transfer_point_t3(node, step->first);
    case TRANSFER_POINT_KEEP_T4: return transfer_point_t4(node, step->first);
    case TRANSFER_POINT_KEEP_T6: return transfer_point_t6(node, step->first, reports, length);
    case TRANSFER_POINT_KEEP_T8: return transfer_point_t8(node, step->first);
    case TRANSFER_POINT_KEEP_T10: return transfer_point_t10(node, step->first, step->second);
    default: return transfer_point_routes(node, out, room);
    }
}

/* Some steps, with an output and a report area of these lengths. */
static void run(struct transfer_point *node, const struct step *steps, size_t count, size_t room, size_t length) {
    uint8_t out[TRANSFER_POINT_ROUTE_LIST] = {0};
    uint64_t reports[TRANSFER_POINT_REPORTS] = {0};
    for (size_t i = 0; i < count; i++)
        printf("%s\t%u\n", words[steps[i].kind], answer(node, &steps[i], out, room, reports, length).reply);
}

static void run_life(struct transfer_point *node, size_t from, size_t count) {
    run(node, life + from, count, TRANSFER_POINT_ROUTE_LIST, TRANSFER_POINT_REPORTS);
}

static unsigned start(struct transfer_point *node, const char *text, size_t length) {
    return transfer_point_start(node, (const uint8_t *)text, length).fault;
}

/* Every call on a node that isn't made, and on a fresh one. */
static void tries_areas(struct transfer_point *node) {
    puts("no node");
    run(node, every, STEPS, TRANSFER_POINT_ROUTE_LIST, TRANSFER_POINT_REPORTS);
    puts("no node, hardly any areas");
    run(node, every, STEPS, 1, 1);
    start(node, configuration, sizeof configuration - 1);
    puts("areas one too short");
    run(node, every, STEPS, TRANSFER_POINT_MESSAGE - 1, TRANSFER_POINT_REPORTS - 1);
    puts("areas just long enough but for the route list");
    run(node, every, STEPS, TRANSFER_POINT_ROUTE_LIST - 1, TRANSFER_POINT_REPORTS);
}

/* One arrival number is left, and then none. */
static void tries_the_last_number(struct transfer_point *node) {
    start(node, configuration, sizeof configuration - 1);
    puts("the last arrival number");
    run_life(node, 0, 1);
    node->arrivals[0] = INT64_MAX;
    run_life(node, 1, STEPS - 1);
}

/* A configuration that is refused leaves the node that runs; one that is accepted makes a fresh one. */
static void tries_another_configuration(struct transfer_point *node) {
    static const char wrong[] = "node\t2\t4\n";
    start(node, configuration, sizeof configuration - 1);
    puts("configured again");
    run_life(node, 0, 1);
    printf("configuration\t%u\n", start(node, wrong, sizeof wrong - 1));
    run_life(node, 1, 1);
    run_life(node, 7, 1);
    printf("configuration\t%u\n", start(node, configuration, sizeof configuration - 1));
    run_life(node, 7, 1);
    run_life(node, 0, 1);
}

int main(void) {
    static struct transfer_point node;
    tries_areas(&node);
    tries_the_last_number(&node);
    tries_another_configuration(&node);
    return 0;
}
