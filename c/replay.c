/*
 * A host that reads its calls from a record and writes what each answers, as the proved program `replay` does:
 *
 *     replay CONFIGURATION RECORD [KEPT]
 *
 * It shows every call of the library; docs/FORMATS.md has the texts. With a third name it keeps its shift there, as a host of its own would.
 */
#include "transfer_point.h"

#include <errno.h>
#include <inttypes.h>
#include <stdio.h>
#include <stdlib.h>
#include <string.h>

enum { MOST_OCTETS = 1024, MOST_FIELDS = 4 };

static struct transfer_point node;
static uint64_t reports[TRANSFER_POINT_REPORTS];
static uint8_t out[TRANSFER_POINT_ROUTE_LIST];

/* What stands behind each kind: numbers, and behind them perhaps octets. The kinds stand in the order of `enum transfer_point_kind`. */
enum kind { SERVICE, FAILURE, SEND, ACK, RECEIVED, HOST, T1, T2, T3, T4, T6, T8, T10, ROUTES, KINDS };

static const struct {
    const char *word;
    size_t numbers;
    bool octets;
} kinds[KINDS] = {
    {"service", 1, false}, {"failure", 1, false}, {"send", 1, false}, {"ack", 2, false}, {"received", 2, true},
    {"host", 0, true}, {"t1", 1, false}, {"t2", 1, false}, {"t3", 1, false}, {"t4", 1, false},
    {"t6", 1, false}, {"t8", 1, false}, {"t10", 2, false}, {"routes", 0, false},
};

struct call {
    enum kind kind;
    uint64_t numbers[2];
    uint8_t message[MOST_OCTETS];
    size_t length;
};

struct field {
    const char *at;
    size_t length;
};

static int fail(const char *what, const char *name) {
    fprintf(stderr, "replay: %s: %s: %s\n", what, name, strerror(errno));
    return 1;
}

/* ---- A line of the record */

/* The fields of a line; more than four are told as five. */
static size_t split(const char *line, size_t length, struct field *fields) {
    size_t count = 0;
    for (;;) {
        const char *tab = memchr(line, '\t', length);
        if (count == MOST_FIELDS)
            return MOST_FIELDS + 1;
        fields[count].at = line;
        fields[count++].length = tab ? (size_t)(tab - line) : length;
        if (!tab)
            return count;
        length -= (size_t)(tab - line) + 1;
        line = tab + 1;
    }
}

/* A plain decimal of 64 bits: digits alone, no leading zero. */
static bool read_number(struct field field, uint64_t *number) {
    if (field.length == 0 || (field.at[0] == '0' && field.length > 1))
        return false;
    *number = 0;
    for (size_t i = 0; i < field.length; i++) {
        unsigned digit = (unsigned char)field.at[i] - (unsigned)'0';
        if (digit > 9 || *number > (UINT64_MAX - digit) / 10)
            return false;
        *number = 10 * *number + digit;
    }
    return true;
}

static int hex_digit(char digit) {
    if (digit >= '0' && digit <= '9')
        return digit - '0';
    if (digit >= 'a' && digit <= 'f')
        return digit - 'a' + 10;
    return digit >= 'A' && digit <= 'F' ? digit - 'A' + 10 : -1;
}

static bool read_octets(struct field field, struct call *call) {
    if (field.length % 2 != 0 || field.length > 2 * MOST_OCTETS)
        return false;
    for (size_t i = 0; i < field.length; i += 2) {
        int high = hex_digit(field.at[i]), low = hex_digit(field.at[i + 1]);
        if (high < 0 || low < 0)
            return false;
        call->message[i / 2] = (uint8_t)(16 * high + low);
    }
    call->length = field.length / 2;
    return true;
}

static bool read_kind(struct field field, enum kind *kind) {
    for (*kind = 0; *kind < KINDS; ++*kind)
        if (field.length == strlen(kinds[*kind].word) && memcmp(field.at, kinds[*kind].word, field.length) == 0)
            return true;
    return false;
}

/* Whether a line, with its LF, says a call. */
static bool read_call(const char *line, size_t length, struct call *call) {
    struct field fields[MOST_FIELDS];
    if (length == 0 || line[length - 1] != '\n')
        return false;
    size_t count = split(line, length - 1, fields);
    if (!read_kind(fields[0], &call->kind))
        return false;
    size_t numbers = kinds[call->kind].numbers;
    if (count != 1 + numbers + kinds[call->kind].octets)
        return false;
    for (size_t i = 0; i < numbers; i++)
        if (!read_number(fields[1 + i], &call->numbers[i]))
            return false;
    return !kinds[call->kind].octets || read_octets(fields[count - 1], call);
}

/* ---- The call */

static struct transfer_point_answer make(const struct call *call) {
    uint64_t first = call->numbers[0], second = call->numbers[1];
    switch (call->kind) {
    case SERVICE: return transfer_point_into_service(&node, first, reports, TRANSFER_POINT_REPORTS);
    case FAILURE: return transfer_point_failure(&node, first, reports, TRANSFER_POINT_REPORTS);
    case SEND: return transfer_point_send(&node, first, out, sizeof out);
    case ACK: return transfer_point_acknowledgement(&node, first, second);
    case RECEIVED: return transfer_point_received(&node, first, second, call->message, call->length, reports, TRANSFER_POINT_REPORTS);
    case HOST: return transfer_point_from_host(&node, call->message, call->length);
    case T1: return transfer_point_t1(&node, first, reports, TRANSFER_POINT_REPORTS);
    case T2: return transfer_point_t2(&node, first, reports, TRANSFER_POINT_REPORTS);
    case T3: return transfer_point_t3(&node, first);
    case T4: return transfer_point_t4(&node, first);
    case T6: return transfer_point_t6(&node, first, reports, TRANSFER_POINT_REPORTS);
    case T8: return transfer_point_t8(&node, first);
    case T10: return transfer_point_t10(&node, first, second);
    default: return transfer_point_routes(&node, out, sizeof out);
    }
}

/* ---- What it answers */

static void put_octets(const uint8_t *octets, size_t count) {
    static const char digits[] = "0123456789abcdef";
    putchar('\t');
    for (size_t i = 0; i < count; i++) {
        putchar(digits[octets[i] >> 4]);
        putchar(digits[octets[i] & 15]);
    }
}

static void put_reports(uint64_t number, size_t count) {
    for (size_t i = 0; i < count; i++) {
        uint64_t what = reports[2 * i], about = reports[2 * i + 1];
        if (what == TRANSFER_POINT_PAUSE || what == TRANSFER_POINT_RESUME)
            printf("%" PRIu64 "\t%s\t%" PRIu64 "\n", number, what == TRANSFER_POINT_PAUSE ? "pause" : "resume", about);
        else
            printf("%" PRIu64 "\tdrop\t%" PRIu64 "\t%" PRIu64 "\n", number, about, what);
    }
}

static void put_routes(uint64_t number, size_t count) {
    for (size_t at = 0; at < count;) {
        const uint8_t *end = memchr(out + at, '\n', count - at);
        size_t length = end ? (size_t)(end - out) + 1 - at : count - at;
        printf("%" PRIu64 "\troute\t", number);
        fwrite(out + at, 1, length, stdout);
        at += length;
    }
}

static void put_answer(uint64_t number, const struct call *call, struct transfer_point_answer answer) {
    printf("%" PRIu64 "\treply\t%u", number, answer.reply);
    if (answer.reply == TRANSFER_POINT_DONE && call->kind == SEND) {
        printf("\t%u", answer.fsn);
        put_octets(out, answer.octets);
    }
    if (answer.delivers)
        put_octets(transfer_point_delivered(call->message), call->length - TRANSFER_POINT_LABEL);
    putchar('\n');
    if (call->kind == ROUTES)
        put_routes(number, answer.octets);
    put_reports(number, answer.reports);
}

/* The call's own line, for the shift's record. */
static void keep(FILE *kept, const struct call *call) {
    uint8_t line[TRANSFER_POINT_LINE];
    size_t length = transfer_point_keep(
        line, sizeof line, (enum transfer_point_kind)call->kind, call->numbers[0], call->numbers[1], call->message, call->length);
    fwrite(line, 1, length, kept);
}

static void run(FILE *record, FILE *kept) {
    static struct call call;
    char *line = NULL;
    size_t room = 0;
    ssize_t length;
    for (uint64_t number = 1; (length = getline(&line, &room, record)) > 0; number++) {
        if (!read_call(line, (size_t)length, &call)) {
            printf("%" PRIu64 "\trefused\t30\n", number);
            break;
        }
        if (kept)
            keep(kept, &call);
        put_answer(number, &call, make(&call));
        if (number % 1000000 == 0)
            fprintf(stderr, "replay: %" PRIu64 " lines\n", number);
    }
    free(line);
}

int main(int count, char **arguments) {
    static uint8_t text[TRANSFER_POINT_CONFIGURATION + 1];
    if (count != 3 && count != 4) {
        fputs("replay: name two files, and a third to keep the shift in: replay CONFIGURATION RECORD [KEPT]\n", stderr);
        return 1;
    }
    FILE *configuration = fopen(arguments[1], "rb");
    if (!configuration)
        return fail("can't open", arguments[1]);
    size_t length = fread(text, 1, sizeof text, configuration);
    if (ferror(configuration))
        return fail("can't read", arguments[1]);
    fclose(configuration);
    FILE *record = fopen(arguments[2], "rb");
    if (!record)
        return fail("can't open", arguments[2]);
    FILE *kept = count == 4 ? fopen(arguments[3], "wb") : NULL;
    if (count == 4 && !kept)
        return fail("can't write", arguments[3]);
    struct transfer_point_fault fault = transfer_point_start(&node, text, length);
    if (fault.fault != 0)
        printf("config\t%zu\t%u\n", fault.line, fault.fault);
    else
        run(record, kept);
    fclose(record);
    if (kept && fclose(kept) != 0)
        return fail("can't write", arguments[3]);
    return fflush(stdout) == 0 ? 0 : fail("can't write", "standard output");
}
