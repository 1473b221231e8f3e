/*
 * Random octets through the boundary: arguments, messages, configurations, areas of any length, and nodes whose memory is noise.
 *
 *     fuzz SECONDS [SEED]
 *
 * A crash, a reply that the call doesn't have, a refused call that changes something, or an octet written beyond what the answer says ends
 * it with status 1 and the seed to see it again. Every lent area ends at a page that can't be touched, so that a step beyond it crashes.
 */
#include "transfer_point.h"

#include <stdio.h>
#include <stdlib.h>
#include <string.h>
#include <sys/mman.h>
#include <time.h>

enum { PAGE = 4096, LENT = 8 * PAGE, CALLS = 2000 };

/* ---- Random numbers, the same for the same seed on every machine */

static uint64_t state;

static uint64_t any(void) {
    state ^= state << 13;
    state ^= state >> 7;
    state ^= state << 17;
    return state;
}

static uint64_t below(uint64_t top) { return (any() >> 11) % top; }
static bool once_in(uint64_t times) { return below(times) == 0; }

static void noise(void *area, size_t length) {
    uint8_t *octets = area;
    for (size_t i = 0; i < length; i++)
        octets[i] = (uint8_t)(any() >> 24);
}

/* ---- Areas: the end of each is the last octet that may be touched */

struct area {
    uint8_t *end;
    uint8_t *kept; /* what stood in it before the call */
};

static struct area area(size_t room) {
    size_t pages = (room + PAGE - 1) / PAGE * PAGE;
    uint8_t *from = mmap(NULL, pages + PAGE, PROT_READ | PROT_WRITE, MAP_PRIVATE | MAP_ANONYMOUS, -1, 0);
    struct area made = {.end = from + pages, .kept = malloc(room)};
    if (from == MAP_FAILED || !made.kept || mprotect(from + pages, PAGE, PROT_NONE) != 0) {
        perror("fuzz: no memory");
        exit(2);
    }
    return made;
}

static void keep(struct area lent, size_t length) { memcpy(lent.kept, lent.end - length, length); }

/* Whether all but the first so many octets are as they were. */
static bool untouched(struct area lent, size_t length, size_t written) {
    return written <= length && memcmp(lent.kept + written, lent.end - length + written, length - written) == 0;
}

/* ---- What is tried */

static struct area node_area, text_area, message_area, out_area, reports_area;
static struct transfer_point *node;
static const size_t plan_words = sizeof node->plan / sizeof *node->plan;
static uint64_t seed, calls, seen[12], faults;
static bool scrambled;

static const char *trying = "nothing";

static void wrong(const char *what) {
    fprintf(stderr, "fuzz: %s: %s; again: fuzz 60 %llu\n", trying, what, (unsigned long long)seed);
    exit(1);
}

/* Mostly a number that may name something, sometimes one that can't. */
static uint64_t number(uint64_t top) {
    switch (below(40)) {
    case 0: return any();
    case 1: return below(300);
    case 2: return top + below(3);
    default: return below(top);
    }
}

/* A length for an area that needs so much: enough, one too few, or any. */
static size_t length(size_t needed, size_t most) {
    switch (below(30)) {
    case 0: return needed - 1;
    case 1: return (size_t)below(most + 1);
    case 2: return needed + (size_t)below(most - needed + 1);
    default: return needed;
    }
}

static size_t put(uint8_t *text, size_t at, const char *word, uint64_t a, uint64_t b, uint64_t c, int fields) {
    char line[96];
    int count = fields == 2 ? snprintf(line, sizeof line, "%s\t%u\t%u\n", word, (unsigned)a, (unsigned)b)
                            : snprintf(line, sizeof line, "%s\t%u\t%u\t%u\n", word, (unsigned)a, (unsigned)b, (unsigned)c);
    memcpy(text + at, line, (size_t)count);
    return at + (size_t)count;
}

/* A configuration's text at the end of its area: some of them spoilt, noise or too long. Codes are small, so that they meet. */
static size_t make_text(uint8_t *text) {
    if (once_in(20)) {
        size_t most = once_in(2) ? 64 : TRANSFER_POINT_CONFIGURATION + 8;
        size_t count = (size_t)below(most);
        noise(text, count);
        return count;
    }
    size_t at = put(text, 0, "node", 2, 2, 0, 2);
    unsigned sets = 4 + (unsigned)below(5);
    for (unsigned set = 0; set < sets; set++)
        at = put(text, at, "set", set, 10 + set, 0, 2);
    for (unsigned link = 0; link < 32; link++)
        if (!once_in(8))
            at = put(text, at, "link", link, link % sets, link / sets % 16, 3);
    for (unsigned destination = 0; destination < 20; destination++)
        for (unsigned rank = 0; rank < 4; rank++)
            if (once_in(2))
                at = put(text, at, "route", 8 + destination, (destination + rank) % sets, rank, 3);
    for (bool spoilt = once_in(4); spoilt; spoilt = once_in(2))
        text[below(at)] = once_in(2) ? (uint8_t)any() : (uint8_t)"0123456789\t\n"[below(12)];
    return at;
}

/* A message: mostly with a label that means something, and from a link often one of level 3; else noise. */
static size_t make_message(uint8_t *message, bool own) {
    static const struct {
        uint8_t heading, total;
    } forms[] = {{0x51, 7}, {0x51, 7}, {0x51, 7}, {0x11, 7}, {0x21, 7}, {0x61, 7}, {0x12, 6}, {0x22, 6}, {0x14, 8}, {0x54, 8}, {0x15, 8}};
    noise(message, 300);
    if (once_in(16))
        return (size_t)below(300);
    bool management = own ? once_in(16) : once_in(2);
    uint32_t destination = management && !once_in(8) ? 2 : (uint32_t)(8 + below(20)), origin = own ? 2 : (uint32_t)(10 + below(8));
    uint32_t label = destination + 16384 * origin + 268435456u * (uint32_t)below(8);
    message[0] = (uint8_t)((once_in(40) ? 0 : 0x80) | (management ? 0 : 1 + below(15)));
    memcpy(message + 1, &label, 4);
    size_t form = (size_t)below(sizeof forms / sizeof *forms);
    if (!management)
        return 5 + (size_t)below(270);
    message[5] = forms[form].heading;
    message[6] &= 0x7f;
    if (forms[form].total == 8)
        message[6] = (uint8_t)(8 + below(22)), message[7] = 0;
    return once_in(8) ? 5 + (size_t)below(10) : forms[form].total;
}

/* ---- A call and what must hold after it */

#define REPLY(number) (1u << (number))
enum {
    ON_A_LINK = REPLY(0) | REPLY(1) | REPLY(2) | REPLY(5),
    FROM_A_LINK = ON_A_LINK | REPLY(6) | REPLY(3) | REPLY(4) | REPLY(9) | REPLY(11) | REPLY(7) | REPLY(8) | REPLY(10),
    FROM_THE_HOST = REPLY(0) | REPLY(2) | REPLY(3) | REPLY(4) | REPLY(9) | REPLY(7) | REPLY(10),
    UNCHANGED = REPLY(1) | REPLY(2) | REPLY(5) | REPLY(6) | REPLY(7) | REPLY(8) | REPLY(10),
};

struct lent {
    size_t message, out, words;
};

/* Drops come first. A node that a configuration made drops at most the 256 messages that it holds, and 64 destinations change. */
static void see_reports(size_t count, size_t words) {
    const uint64_t *reports = (const uint64_t *)(const void *)(reports_area.end - 8 * words);
    if (!scrambled && count > 256 + TRANSFER_POINT_DESTINATIONS)
        wrong("more reports than there can be");
    for (size_t i = 0; i < count; i++) {
        if (reports[2 * i] < TRANSFER_POINT_DROPPED_NO_ROUTE || reports[2 * i] == 3 || reports[2 * i] > TRANSFER_POINT_RESUME)
            wrong("a report that isn't listed");
        if (i > 0 && reports[2 * i] < TRANSFER_POINT_PAUSE && reports[2 * i - 2] >= TRANSFER_POINT_PAUSE)
            wrong("a drop reported behind a pause");
    }
}

static void see(const char *what, struct transfer_point_answer answer, unsigned replies, unsigned unchanged, struct lent lent) {
    trying = what;
    calls++;
    if (answer.reply > 11 || (replies & REPLY(answer.reply)) == 0)
        wrong("a reply that it doesn't have");
    seen[answer.reply]++;
    if (answer.fsn > 127 || (answer.reply != 0 && (answer.octets != 0 || answer.reports != 0 || answer.delivers)))
        wrong("an answer that says too much");
    if (!untouched(out_area, lent.out, answer.octets))
        wrong("the output is written beyond what is said");
    if (!untouched(reports_area, 8 * lent.words, 16 * answer.reports))
        wrong("the report area is written beyond what is said");
    if (!untouched(message_area, lent.message, 0))
        wrong("the message is written");
    see_reports(answer.reports, lent.words);
    if (memcmp(node_area.kept, node, sizeof node->plan) != 0)
        wrong("the plan is written");
    if ((unchanged & REPLY(answer.reply)) && !untouched(node_area, sizeof *node, 0))
        wrong("a refused call changes the node");
}

/* What a call is handed: numbers, and areas with their lengths. */
struct handed {
    struct lent lent;
    uint64_t link, code, set, fsn, acknowledged;
    uint8_t *message, *out;
    uint64_t *reports;
};

static struct handed hand(unsigned kind) {
    uint8_t made[300];
    struct handed h = {.lent = {.words = length(TRANSFER_POINT_REPORTS, LENT / 8)}, .link = number(32), .set = number(8)};
    h.lent.out = length(kind == 10 ? TRANSFER_POINT_ROUTE_LIST : TRANSFER_POINT_MESSAGE, LENT);
    h.lent.message = make_message(made, kind == 5 ? !once_in(8) : once_in(8));
    h.message = h.lent.message == 0 && once_in(2) ? NULL : memcpy(message_area.end - h.lent.message, made, h.lent.message);
    h.out = once_in(40) ? NULL : out_area.end - h.lent.out;
    h.reports = once_in(40) ? NULL : (uint64_t *)(void *)(reports_area.end - 8 * h.lent.words);
    h.code = once_in(4) ? number(16384) : 8 + below(22);
    h.fsn = once_in(2) ? number(128) : (node->links[8 * (h.link % 32) + 2] + 1) % 128;
    h.acknowledged = once_in(2) ? number(128) : (node->links[8 * (h.link % 32) + 1] + below(4)) % 128;
    return h;
}

static void keep_all(struct lent lent) {
    keep(node_area, sizeof *node);
    keep(out_area, lent.out);
    keep(reports_area, 8 * lent.words);
    keep(message_area, lent.message);
}

static void on_a_link(unsigned kind, struct handed h) {
    switch (kind) {
    case 0: see("service", transfer_point_into_service(node, h.link, h.reports, h.lent.words), ON_A_LINK | REPLY(8) | REPLY(10), UNCHANGED, h.lent); break;
    case 1: see("failure", transfer_point_failure(node, h.link, h.reports, h.lent.words), ON_A_LINK, UNCHANGED, h.lent); break;
    case 2: see("send", transfer_point_send(node, h.link, h.out, h.lent.out), ON_A_LINK, UNCHANGED, h.lent); break;
    case 3: see("ack", transfer_point_acknowledgement(node, h.link, h.acknowledged), ON_A_LINK | REPLY(6), UNCHANGED, h.lent); break;
    default: see("received", transfer_point_received(node, h.link, h.fsn, h.message, h.lent.message, h.reports, h.lent.words), FROM_A_LINK, UNCHANGED, h.lent);
    }
}

static void expiry(unsigned kind, struct handed h) {
    switch (kind) {
    case 6: see("t1", transfer_point_t1(node, h.link, h.reports, h.lent.words), ON_A_LINK, UNCHANGED, h.lent); break;
    case 7: see("t3", transfer_point_t3(node, h.link), ON_A_LINK, UNCHANGED, h.lent); break;
    case 8: see("t6", transfer_point_t6(node, h.code, h.reports, h.lent.words), ON_A_LINK, UNCHANGED, h.lent); break;
    default: see("t10", transfer_point_t10(node, h.code, h.set), ON_A_LINK | REPLY(8) | REPLY(10), UNCHANGED, h.lent); return;
    }
    keep_all(h.lent);
    switch (kind) {
    case 6: see("t2", transfer_point_t2(node, h.link, h.reports, h.lent.words), ON_A_LINK, UNCHANGED, h.lent); break;
    case 7: see("t4", transfer_point_t4(node, h.link), ON_A_LINK, UNCHANGED, h.lent); break;
    default: see("t8", transfer_point_t8(node, h.code), ON_A_LINK, UNCHANGED, h.lent);
    }
}

static void call(void) {
    static const uint8_t kinds[] = {2, 2, 2, 3, 3, 0, 0, 1, 4, 4, 4, 4, 4, 4, 4, 5, 5, 5, 5, 5, 5, 5, 6, 7, 8, 9, 10};
    size_t unsent = seed % 8 == 1 ? 5 : 0; /* nothing leaves, so that the node fills */
    unsigned kind = kinds[unsent + below(sizeof kinds - unsent)];
    struct handed h = hand(kind);
    keep_all(h.lent);
    if (kind < 5)
        on_a_link(kind, h);
    else if (kind == 5)
        see("host", transfer_point_from_host(node, h.message, h.lent.message), FROM_THE_HOST, FROM_THE_HOST & ~REPLY(0), h.lent);
    else if (kind < 10)
        expiry(kind, h);
    else
        see("routes", transfer_point_routes(node, h.out, h.lent.out), REPLY(0) | REPLY(1) | REPLY(2), REPLY(0) | UNCHANGED, h.lent);
    (void)transfer_point_link_timer_runs(node, h.link, (enum transfer_point_timer)below(12));
    (void)transfer_point_destination_timer_runs(node, h.code, (enum transfer_point_timer)below(12));
    (void)transfer_point_route_timer_runs(node, h.code, h.set);
}

/* Most links come into service, and those that wait open; of some nodes nearly all arrival numbers are gone. */
static void open_links(void) {
    for (unsigned link = 0; link < TRANSFER_POINT_LINKS; link++) {
        uint64_t words[TRANSFER_POINT_REPORTS];
        if (once_in(8))
            continue;
        (void)transfer_point_into_service(node, link, words, TRANSFER_POINT_REPORTS);
        (void)transfer_point_t3(node, link);
        (void)transfer_point_t4(node, link);
    }
    if (once_in(8))
        node->arrivals[0] = (UINT64_C(1) << 63) - 1 - below(200);
}

/* A line kept: with an LF at its end and nowhere else, or nothing. */
static void keep_line(void) {
    struct lent lent = {.out = (size_t)below(700), .message = (size_t)below(320)};
    noise(message_area.end - lent.message, lent.message);
    keep(out_area, lent.out);
    uint8_t *line = out_area.end - lent.out;
    size_t length = transfer_point_keep(line, lent.out, (enum transfer_point_kind)below(16), number(300), number(300),
        message_area.end - lent.message, lent.message);
    trying = "keep";
    calls++;
    if (!untouched(out_area, lent.out, length))
        wrong("the line is written beyond what is said");
    if (length > 0 && memchr(line, '\n', length) != line + length - 1)
        wrong("a line that doesn't end once");
}

/* A node made anew has nothing of what stood there before: one of zeros becomes the same. The rings keep what no queue holds any more. */
static void see_anew(const uint8_t *text, size_t count) {
    static struct transfer_point fresh;
    memset(&fresh, 0, sizeof fresh);
    if (transfer_point_start(&fresh, text, count).fault != 0 || fresh.arrivals[0] != node->arrivals[0])
        wrong("a node of zeros is made otherwise");
    if (memcmp(&fresh, node, offsetof(struct transfer_point, rings)) != 0)
        wrong("what stood in the node before is there still");
}

static void start(void) {
    static uint8_t text[LENT];
    size_t count = make_text(text);
    uint8_t *at = count == 0 ? NULL : memcpy(text_area.end - count, text, count);
    keep(text_area, count);
    keep(node_area, sizeof *node);
    struct transfer_point_fault made = transfer_point_start(node, at, count);
    trying = "start";
    calls++;
    if (!untouched(text_area, count, 0))
        wrong("the text is written");
    if (made.fault != 0 && (made.fault < 20 || made.fault > 25))
        wrong("a fault that isn't listed");
    scrambled = scrambled && made.fault != 0;
    if (made.fault != 0 && !untouched(node_area, sizeof *node, 0))
        wrong("a refused configuration changes the node");
    faults += made.fault != 0;
    if (made.fault == 0)
        see_anew(at, count), open_links();
}

/* A word of a plan that may mean something: nothing, a small number, one with a bit above its octet, or noise. */
static uint16_t word(void) {
    switch (below(4)) {
    case 0: return 0;
    case 1: return (uint16_t)below(40);
    case 2: return (uint16_t)(256 + below(10));
    default: return (uint16_t)any();
    }
}

/* A node of noise; its plan is noise too, or words that may mean something. */
static void scramble(void) {
    noise(node, sizeof *node);
    for (size_t i = once_in(2) ? plan_words : 0; i < plan_words; i++)
        node->plan[i] = word();
}

/* A node that was made, some words of whose plan are changed then. */
static void spoil(void) {
    start();
    for (uint64_t spoilt = 1 + below(64); spoilt > 0; spoilt--)
        node->plan[below(plan_words)] = word();
}

int main(int count, char **arguments) {
    if (count < 2 || count > 3 || atol(arguments[1]) <= 0) {
        fputs("fuzz: say for how many seconds, and perhaps a seed: fuzz SECONDS [SEED]\n", stderr);
        return 2;
    }
    time_t started = time(NULL), until = started + atol(arguments[1]);
    uint64_t first = count == 3 ? strtoull(arguments[2], NULL, 10) : (uint64_t)started;
    node_area = area(sizeof *node), text_area = area(LENT), message_area = area(LENT), out_area = area(LENT), reports_area = area(LENT);
    node = (struct transfer_point *)(void *)(node_area.end - sizeof *node);
    noise(out_area.end - LENT, LENT);
    uint64_t rounds = 0;
    do {
        seed = first + rounds++;
        state = 0x9e3779b97f4a7c15u ^ (seed << 20 | 1);
        memset(node, 0, sizeof *node);
        scrambled = false;
        if (seed % 8 == 3)
            scramble();
        if (seed % 8 == 7)
            spoil();
        scrambled = seed % 4 == 3;
        for (unsigned i = 0; i < CALLS; i++)
            if ((i == 0 && !scrambled) || once_in(1000))
                start();
            else if (once_in(50))
                keep_line();
            else
                call();
    } while (time(NULL) < until);
    printf("fuzz: %llu rounds from seed %llu, %llu calls: nothing wrong; replies", (unsigned long long)rounds, (unsigned long long)first,
        (unsigned long long)calls);
    for (size_t reply = 0; reply < 12; reply++)
        printf(" %zu: %llu,", reply, (unsigned long long)seen[reply]);
    printf(" configurations refused: %llu\n", (unsigned long long)faults);
    return 0;
}
