// Moves messages through a node and counts them, to be timed from outside, as a host does it: the calls of transfer_point.h on one node, with a
// configuration on standard input. What it writes is what the floor writes.
#include "transfer_point.h"

#include <stdio.h>
#include <stdlib.h>
#include <string.h>

enum { MOST_HELD = 126, WINDOW = 127 };

static struct transfer_point node;
static uint64_t reports[TRANSFER_POINT_REPORTS];
static uint8_t out[TRANSFER_POINT_MESSAGE];

// The length of a message: a variable that the compiler can't fold, since a message may have any.
size_t letter_size = 40;

// What the configuration says of our code, our NI, the neighbours, and the destination behind all others.
static unsigned own, ni, last, adjacent[TRANSFER_POINT_SETS];

static void read_codes(const char *line)
{
    char word[8];
    unsigned a, b;
    for (; sscanf(line, "%7s %u %u", word, &a, &b) == 3; line = strchr(line, '\n') + 1)
        if (!strcmp(word, "node"))
            own = a, ni = b;
        else if (!strcmp(word, "set"))
            adjacent[a] = b;
        else if (!strcmp(word, "route") && last < a)
            last = a;
}

static int configure(void)
{
    static uint8_t text[TRANSFER_POINT_CONFIGURATION + 2];
    size_t length = fread(text, 1, sizeof text - 1, stdin);
    if (transfer_point_start(&node, text, length).fault != 0)
        return 0;
    read_codes((const char *)text);
    return 1;
}

// All messages of a link are sent; how many, and the number of the last.
static unsigned send_all(unsigned link, uint8_t *number)
{
    unsigned many = 0;
    while (many < WINDOW) {
        struct transfer_point_answer answer = transfer_point_send(&node, link, out, sizeof out);
        if (answer.reply != TRANSFER_POINT_DONE)
            break;
        *number = answer.fsn;
        many++;
    }
    return many;
}

// The same, and they are acknowledged.
static unsigned empty(unsigned link)
{
    uint8_t number = 0;
    unsigned many = send_all(link, &number);
    if (many > 0)
        transfer_point_acknowledgement(&node, link, number);
    return many;
}

static unsigned long empty_all(void)
{
    unsigned long left = 0;
    for (unsigned link = 1; link < 4; link++)
        left += empty(link);
    return left;
}

// A link comes into service; where it waits, its timers expire, and it opens. What it made the others send leaves.
static void open_link(unsigned link)
{
    transfer_point_into_service(&node, link, reports, TRANSFER_POINT_REPORTS);
    transfer_point_t3(&node, link);
    transfer_point_t4(&node, link);
    empty(0);
    empty_all();
}

static void label(uint8_t *message, unsigned service, unsigned to, unsigned from)
{
    uint32_t word = to | from << 14;
    message[0] = (uint8_t)(ni << 6 | service);
    for (int i = 0; i < 4; i++)
        message[1 + i] = (uint8_t)(word >> 8 * i);
}

static void letter(uint8_t message[TRANSFER_POINT_MESSAGE], unsigned from)
{
    memset(message, 90, TRANSFER_POINT_MESSAGE);
    label(message, 5, last, from);
}

static int take_in(unsigned link, unsigned long number, const uint8_t *message, size_t size)
{
    return transfer_point_received(&node, link, number % 128, message, size, reports, TRANSFER_POINT_REPORTS).reply == TRANSFER_POINT_DONE;
}

static int hand_over(const uint8_t *message)
{
    return transfer_point_from_host(&node, message, letter_size).reply == TRANSFER_POINT_DONE;
}

static void show(const char *what, unsigned long count) { printf("%s\t%lu\n", what, count); }

// Messages from the neighbour over link 0, or from the host; 64 at a time they leave.
static void move(int host, unsigned long count)
{
    uint8_t message[TRANSFER_POINT_MESSAGE];
    unsigned long queued = 0, left = 0;
    letter(message, host ? own : adjacent[0]);
    for (unsigned long i = 0; i < count;) {
        message[4] = (uint8_t)(message[4] % 16 | i % 16 << 4);
        queued += (unsigned)(host ? hand_over(message) : take_in(0, i, message, letter_size));
        if (++i % 64 == 0)
            left += empty_all();
    }
    left += empty_all();
    show(host ? "handed over" : "received", count), show(host ? "queued" : "passed on", queued), show("sent and acknowledged", left);
}

// The COA for link 1 comes in over link 2: the far end has none of the messages.
static void take_answer(unsigned long round)
{
    uint8_t order[7];
    label(order, 0, own, adjacent[1]);
    order[5] = 0x21;
    order[6] = (uint8_t)node.links[8 * 1 + 1];
    take_in(2, round, order, sizeof order);
}

// Link 1 fails with messages sent and unacknowledged; the COA moves them to another link, where they leave. Then it opens again.
static void change_over(unsigned long messages, unsigned long times)
{
    uint8_t message[TRANSFER_POINT_MESSAGE], number = 0;
    unsigned long again = 0;
    letter(message, own);
    for (unsigned long round = 0; round < times; round++) {
        for (unsigned long i = 0; i < messages; i++)
            hand_over(message);
        send_all(1, &number);
        transfer_point_failure(&node, 1, reports, TRANSFER_POINT_REPORTS);
        take_answer(round);
        again += empty_all();
        open_link(1);
    }
    show("changeovers", times), show("messages each", messages), show("sent again and acknowledged, with the COO", again);
}

int main(int count, char **arguments)
{
    const char *what = count < 3 ? "" : arguments[1];
    int changeover = !strcmp(what, "changeover"), needed = changeover ? 3 : 2;
    unsigned long first = count < 3 ? 0 : strtoul(arguments[2], 0, 10);
    int known = changeover ? count > needed && first <= MOST_HELD : !strcmp(what, "transit") || !strcmp(what, "host");
    if (count > needed + 1)
        letter_size = strtoul(arguments[needed + 1], 0, 10);
    if (!known || letter_size < TRANSFER_POINT_LABEL || letter_size > TRANSFER_POINT_MESSAGE)
        return fputs("library: transit COUNT, host COUNT or changeover MESSAGES TIMES, a configuration on standard input, and the messages' length where it isn't 40\n", stderr), 2;
    if (!configure())
        return fputs("library: the configuration on standard input is faulty\n", stderr), 2;
    for (unsigned link = 0; link < 4; link++)
        open_link(link);
    if (changeover)
        change_over(first, strtoul(arguments[3], 0, 10));
    else
        move(!strcmp(what, "host"), first);
    return 0;
}
