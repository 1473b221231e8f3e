// The least that a transfer point must do with the messages of `library`: read the label, look the link up, copy the message into a
// slot, queue it, take it off, copy it out, free the slot. It knows no states, no numbers and no management. And the walk round a set, which
// `choosing` is timed beside.
#include <stdint.h>
#include <stdio.h>
#include <stdlib.h>
#include <string.h>

enum { LINKS = 32, SETS = 8, CODES = 16384, LONGEST = 273 };

// A queue of slots: from `head` on those that are sent, from `unsent` on those that aren't.
struct queue {
    uint8_t slots[256];
    uint8_t head, unsent, end;
};

static struct queue queues[LINKS], unused;
static uint8_t octets[256][LONGEST];
static uint16_t sizes[256];
uint8_t out[LONGEST];

// Lengths of a message and of a changeover order: variables that the compiler can't fold, since a message may have any length.
size_t letter_size = 40, order_size = 7;

// The link of a destination and an SLS; what the configuration says of our code, our NI and the neighbours.
static uint8_t ways[CODES][16];
static unsigned own, ni, last, adjacent[SETS];

// The links of the last destination's best set in SLC order, and eight words for each link, the first its state.
static unsigned round_size, round_links[16];
static uint32_t words[8 * LINKS];

static void set_ways(const int best[CODES], int of[SETS][16])
{
    for (int code = 0; code < CODES; code++) {
        int count = 0, links[16];
        for (int slc = 0; best[code] && slc < 16; slc++)
            if (of[best[code] - 1][slc])
                links[count++] = of[best[code] - 1][slc] - 1;
        for (int sls = 0; count && sls < 16; sls++)
            ways[code][sls] = (uint8_t)links[sls % count];
        if (count)
            last = (unsigned)code, round_size = (unsigned)count;
        for (int place = 0; place < count; place++)
            round_links[place] = (unsigned)links[place];
    }
}

// The configuration on standard input, in which each destination's first route is its best.
static void configure(void)
{
    static int best[CODES], of[SETS][16];
    char word[16];
    unsigned a, b, c;
    while (scanf("%15s %u %u", word, &a, &b) == 3) {
        if (!strcmp(word, "node"))
            own = a, ni = b;
        else if (!strcmp(word, "set"))
            adjacent[a % SETS] = b;
        else if (scanf("%u", &c) == 1 && !strcmp(word, "link"))
            of[b % SETS][c % 16] = (int)(a % LINKS) + 1;
        else if (!best[a % CODES])
            best[a % CODES] = (int)(b % SETS) + 1;
    }
    set_ways(best, of);
    for (int i = 0; i < 192; i++)
        unused.slots[unused.end++] = (uint8_t)i;
}

// A message into a free slot, and its slot into a queue; 0 where no slot is free.
static int put(struct queue *to, const uint8_t *message, size_t size)
{
    if (unused.head == unused.end)
        return 0;
    uint8_t slot = unused.slots[unused.head++];
    memcpy(octets[slot], message, size);
    sizes[slot] = (uint16_t)size;
    to->slots[to->end++] = slot;
    return 1;
}

static int pass(const uint8_t *message, size_t size)
{
    uint32_t label = message[1] | message[2] << 8 | message[3] << 16 | (uint32_t)message[4] << 24;
    return put(&queues[ways[label % CODES][label >> 28]], message, size);
}

static int take_off(struct queue *from)
{
    if (from->unsent == from->end)
        return 0;
    uint8_t slot = from->slots[from->unsent++];
    memcpy(out, octets[slot], sizes[slot]);
    return 1;
}

static void acknowledge(struct queue *from)
{
    while (from->head != from->unsent)
        unused.slots[unused.end++] = from->slots[from->head++];
}

// All messages of links 1 to 3 leave; how many.
static unsigned long empty_all(void)
{
    unsigned long left = 0;
    for (int link = 1; link < 4; link++) {
        while (take_off(&queues[link]))
            left++;
        acknowledge(&queues[link]);
    }
    return left;
}

static void letter(uint8_t message[LONGEST], unsigned from)
{
    uint32_t label = last | from << 14;
    memset(message, 90, letter_size);
    message[0] = (uint8_t)(ni << 6 | 5);
    for (int i = 0; i < 4; i++)
        message[1 + i] = (uint8_t)(label >> 8 * i);
}

static void show(const char *what, unsigned long count) { printf("%s\t%lu\n", what, count); }

static void move(unsigned from, unsigned long count, const char *came, const char *kept)
{
    uint8_t message[LONGEST];
    unsigned long passed = 0, left = 0;
    letter(message, from);
    for (unsigned long i = 0; i < count;) {
        message[4] = (uint8_t)(message[4] % 16 | i % 16 << 4);
        passed += (unsigned)pass(message, letter_size);
        if (++i % 64 == 0)
            left += empty_all();
    }
    left += empty_all();
    show(came, count), show(kept, passed), show("sent and acknowledged", left);
}

// Link 1's messages are sent; then they move to link 2 behind the order that tells of it, and are sent again.
static void change_over(unsigned long messages, unsigned long times)
{
    uint8_t message[LONGEST];
    unsigned long again = 0;
    struct queue *one = &queues[1], *two = &queues[2];
    letter(message, own);
    for (unsigned long round = 0; round < times; round++) {
        for (unsigned long i = 0; i < messages; i++)
            pass(message, letter_size), take_off(one);
        put(two, message, order_size);
        while (one->head != one->end)
            two->slots[two->end++] = one->slots[one->head++];
        one->unsent = one->end;
        again += empty_all();
    }
    show("changeovers", times), show("messages each", messages), show("sent again and acknowledged, with the COO", again);
}

// The first links are out. Each message that is sent is counted on its link, so that the compiler can't choose once for all.
static void choose(unsigned long out, unsigned long count)
{
    unsigned long sum = 0;
    for (unsigned long link = out; link < LINKS; link++)
        words[8 * link] = 2;
    while (count-- > 0) {
        unsigned link = LINKS;
        for (unsigned passed = 0; passed < round_size && link == LINKS; passed++) {
            unsigned next = round_links[(count % 16 + passed) % round_size];
            if (words[8 * next] % 4)
                link = next;
        }
        if (link < LINKS)
            words[8 * link + 3] = count % 128;
        sum += link;
    }
    show("links, added up", sum);
}

int main(int count, char **arguments)
{
    const char *what = count < 3 ? "" : arguments[1];
    int last = strcmp(what, "changeover") && strcmp(what, "choose") ? 2 : 3;
    if (count > last + 1)
        letter_size = strtoul(arguments[last + 1], 0, 10) % (LONGEST + 1);
    unsigned long first = count < 3 ? 0 : strtoul(arguments[2], 0, 10);
    configure();
    if (!strcmp(what, "transit"))
        move(adjacent[0], first, "received", "passed on");
    else if (!strcmp(what, "host"))
        move(own, first, "handed over", "queued");
    else if (!strcmp(what, "changeover") && count > last)
        change_over(first, strtoul(arguments[3], 0, 10));
    else if (!strcmp(what, "choose") && count > last)
        choose(first, strtoul(arguments[3], 0, 10));
    else
        return fputs("floor: transit COUNT, changeover MESSAGES TIMES, host COUNT or choose OUT COUNT, a configuration on standard input, and the messages' length where it isn't 40\n", stderr), 2;
    return 0;
}
