/* Plays a trace through the library, and prints each outcome as `eip_line step` does: its verdict or fault, and then the
 * frames, the datagrams and the notices of its answer.
 *
 * play [ROOM] < TRACE: with a number, answers get that much room at first, and those that need more are asked for again. */
#define _POSIX_C_SOURCE 200809L
#include "eip.h"

#include <stdio.h>
#include <stdlib.h>
#include <string.h>
#include <sys/types.h>

/* The words of a trace, each at the place of its enumerator. */
static const char *const faults[] = {
    [EIP_REFUSED_NO_MEMORY] = "OutOfMemory", [EIP_TICK_TOO_LONG] = "TickTooLong",    [EIP_CLOCK_END] = "ClockEnd",
    [EIP_NO_SUCH_POINT] = "NoSuchPoint",     [EIP_WRONG_LENGTH] = "WrongLength",     [EIP_NO_SUCH_SLOT] = "NoSuchSlot",
    [EIP_NOT_ALLOWED_NOW] = "NotAllowedNow",
};
static const char *const deliveries[] = {
    [EIP_APPLIED] = "applied",       [EIP_IDLE] = "idle",             [EIP_HEARTBEAT] = "heartbeat",
    [EIP_DUPLICATE] = "duplicate",   [EIP_OLD] = "old",               [EIP_UNKNOWN_ID] = "unknown",
    [EIP_WRONG_SIZE] = "wrong-size", [EIP_MALFORMED] = "malformed",
};
static const char *const verdicts[] = {
    [EIP_ITEM_DONE] = "done", [EIP_ITEM_BAD_FRAME] = "bad-frame", [EIP_ITEM_IGNORED] = "ignored",
};
static const char *const notices[] = {
    [EIP_ITEM_OPENED] = "opened",   [EIP_ITEM_CLOSED] = "closed",     [EIP_ITEM_EXPIRED] = "expired",
    [EIP_ITEM_DROPPED] = "dropped", [EIP_ITEM_REPLACED] = "replaced",
};

static eip_device device;
static unsigned long number;
static size_t first_room = 1;
static uint8_t *answer;
static size_t room;
static size_t size;

static void stop(const char *why)
{
    fprintf(stderr, "play: event %lu: %s\n", number, why);
    exit(2);
}

static void print_bytes(const uint8_t *bytes, size_t len)
{
    size_t i;
    if (!len)
        putchar('-');
    for (i = 0; i < len; i++)
        printf("%02x", bytes[i]);
}

static void print_node(uint32_t node)
{
    printf("%u.%u.%u.%u", node >> 24, node >> 16 & 255, node >> 8 & 255, node & 255);
}

static void print_refusal(const eip_item *item)
{
    printf("refused %u cip %02x ", item->a, item->b);
    if (item->c)
        printf("%04x\n", item->d);
    else
        puts("-");
}

static void print_notice(const eip_item *item)
{
    printf("%lu note ", number);
    if (item->kind < sizeof notices / sizeof *notices)
        printf("%s %u %u %u", notices[item->kind], item->a, item->b, item->c);
    switch (item->kind) {
    case EIP_ITEM_OPENED: printf(" %08x\n", item->d); break;
    case EIP_ITEM_STREAM_CLOSED: printf("stream-closed %u\n", item->a); break;
    case EIP_ITEM_SLOT: printf("slot %u %u\n", item->a, item->b); break;
    case EIP_ITEM_NO_IDS: printf("no-ids %u\n", item->a); break;
    case EIP_ITEM_RESET: printf("reset %u\n", item->a); break;
    case EIP_ITEM_REFUSED_ENCAP: printf("refused %u encap %u\n", item->a, item->b); break;
    case EIP_ITEM_UNREADABLE: printf("refused %u unreadable\n", item->a); break;
    case EIP_ITEM_OTHER_TRIAD: printf("refused %u mismatch Triad\n", item->a); break;
    case EIP_ITEM_OTHER_ID: printf("refused %u mismatch Id\n", item->a); break;
    case EIP_ITEM_OTHER_API: printf("refused %u mismatch Api\n", item->a); break;
    case EIP_ITEM_REFUSED:
    case EIP_ITEM_MISMATCH: print_refusal(item); break;
    case EIP_ITEM_NO_REPLY_TIMED_OUT: printf("unanswered %u timed-out\n", item->a); break;
    case EIP_ITEM_NO_REPLY_LOST: printf("unanswered %u lost\n", item->a); break;
    case EIP_ITEM_NO_REPLY_ENCAP: printf("unanswered %u encap %u\n", item->a, item->b); break;
    case EIP_ITEM_NO_REPLY_UNREADABLE: printf("unanswered %u unreadable\n", item->a); break;
    default: puts(""); break;
    }
}

/* The nodes that consume the datagram before *at. */
static void print_consumers(size_t *at)
{
    eip_item item;
    size_t behind = *at, count = 0;
    while (eip_next(answer, size, &behind, &item) && item.kind == EIP_ITEM_CONSUMER) {
        if (count++)
            putchar(',');
        print_node(item.a);
        *at = behind;
    }
    if (!count)
        putchar('-');
}

/* A reply to an explicit request. Its additional status is the item at *at. */
static void print_reply(const eip_item *item, size_t *at)
{
    eip_item additional;
    if (!eip_next(answer, size, at, &additional) || additional.kind != EIP_ITEM_ADDITIONAL_STATUS)
        stop("a reply has no additional status");
    printf("replied %u %02x ", item->a, item->b);
    print_bytes(additional.bytes, additional.size);
    putchar(' ');
    print_bytes(item->bytes, item->size);
    putchar('\n');
}

/* A request that the application is to answer. Its path is the item at *at. */
static void print_asked(const eip_item *item, size_t *at)
{
    eip_item path;
    if (!eip_next(answer, size, at, &path) || path.kind != EIP_ITEM_ASKED_PATH)
        stop("a request has no path");
    printf("asked %llu %u %u %u ", (unsigned long long)eip_asked(item), item->c, path.a, path.b);
    if (path.c)
        printf("%u ", path.d);
    else
        printf("- ");
    print_bytes(item->bytes, item->size);
    putchar('\n');
}

static void print_item(const eip_item *item, size_t *at)
{
    if (item->kind >= EIP_ITEM_OPENED) {
        print_notice(item);
        return;
    }
    printf("%lu ", number);
    if (item->kind == EIP_ITEM_REPLIED) {
        print_reply(item, at);
        return;
    }
    if (item->kind == EIP_ITEM_ASKED) {
        print_asked(item, at);
        return;
    }
    if (item->kind < sizeof verdicts / sizeof *verdicts) {
        puts(verdicts[item->kind]);
        return;
    }
    if (item->kind == EIP_ITEM_DELIVERED) {
        puts(deliveries[item->a]);
        return;
    }
    if (item->kind == EIP_ITEM_VALUE)
        printf("value ");
    if (item->kind == EIP_ITEM_FRAME)
        printf("frame %u ", item->a);
    if (item->kind == EIP_ITEM_REPLY || item->kind == EIP_ITEM_DATAGRAM) {
        printf(item->kind == EIP_ITEM_REPLY ? "reply " : "send ");
        print_node(item->a);
        putchar(' ');
    }
    if (item->kind == EIP_ITEM_DATAGRAM) {
        print_consumers(at);
        putchar(' ');
    }
    print_bytes(item->bytes, item->size);
    putchar('\n');
}

/* Asks for the kept answer with the room that it needs. */
static uint32_t asked_again(uint32_t status)
{
    if (status != EIP_KEPT_NO_ROOM)
        return status;
    room = size;
    answer = (uint8_t *)realloc(answer, room);
    if (!answer)
        stop("no memory");
    return eip_answer(&device, answer, room, &size);
}

static void print_answer(uint32_t status)
{
    eip_item item;
    size_t at = 0;
    status = asked_again(status);
    if (status >= EIP_KEPT_NO_ROOM)
        stop("a status that no event has");
    if (status != EIP_DONE) {
        printf("%lu fault %s\n", number, faults[status]);
        return;
    }
    while (eip_next(answer, size, &at, &item))
        print_item(&item, &at);
    if (at != size)
        stop("an answer that is no list of items");
}

static void print_value(uint32_t point)
{
    uint32_t status = eip_read(&device, point, answer, room, &size);
    if (status == EIP_KEPT_NO_ROOM) {
        answer = (uint8_t *)realloc(answer, room = size);
        status = eip_read(&device, point, answer, room, &size);
    }
    if (status != EIP_DONE) {
        printf("%lu fault %s\n", number, faults[status]);
        return;
    }
    printf("%lu value ", number);
    print_bytes(answer, size);
    putchar('\n');
}

static uint32_t node_of(const char *word)
{
    unsigned a, b, c, d;
    if (sscanf(word, "%u.%u.%u.%u", &a, &b, &c, &d) != 4)
        stop("no address");
    return a << 24 | b << 16 | c << 8 | d;
}

/* Puts the bytes of a word in its place. */
static size_t bytes_of(char *word)
{
    size_t len = 0;
    unsigned byte;
    for (; sscanf(word + 2 * len, "%2x", &byte) == 1; len++)
        word[len] = (char)byte;
    return len;
}

static void deliver(uint32_t peer, const uint8_t *bytes, size_t len)
{
    enum eip_delivery delivery;
    if (eip_datagram(&device, peer, bytes, len, &delivery) != EIP_DONE)
        stop("a datagram was not taken");
    printf("%lu %s\n", number, deliveries[delivery]);
}

/* Performs an event that has bytes behind its first word. */
static void bytes_event(const char *word, const char *one, char *two)
{
    const uint8_t *bytes = (const uint8_t *)two;
    size_t len = bytes_of(two);
    uint32_t n = (uint32_t)strtoul(one, NULL, 10);
    if (!strcmp(word, "datagram"))
        deliver(node_of(one), bytes, len);
    else if (!strcmp(word, "request"))
        print_answer(eip_request(&device, node_of(one), bytes, len, answer, room, &size));
    else if (!strcmp(word, "inquiry"))
        print_answer(eip_inquire(&device, node_of(one), bytes, len, answer, room, &size));
    else if (!strcmp(word, "frame"))
        print_answer(eip_frame(&device, (uint16_t)n, bytes, len, answer, room, &size));
    else
        print_answer(eip_write(&device, n, bytes, len, answer, room, &size));
}

/* The application has a scanner send a request to a target. */
static void explicit_event(const char *target, const char *asked, char *request)
{
    size_t len = bytes_of(request);
    uint32_t n = (uint32_t)strtoul(asked, NULL, 10);
    print_answer(eip_explicit(&device, node_of(target), n, (const uint8_t *)request, len, answer, room, &size));
}

/* The application answers a request of its device. */
static void answer_event(const char *asked, const char *general, char *data)
{
    size_t len = bytes_of(data);
    uint64_t n = strtoull(asked, NULL, 10);
    uint8_t status = (uint8_t)strtoul(general, NULL, 16);
    print_answer(eip_respond(&device, n, status, (const uint8_t *)data, len, answer, room, &size));
}

/* Time passes. A tick that comes before the device needs one answers nothing. */
static uint32_t passed(uint32_t ms)
{
    uint32_t quiet = 0, status;
    if (eip_next_wake(&device, &quiet) != EIP_DONE)
        stop("no next wake");
    status = asked_again(eip_tick(&device, ms, answer, room, &size));
    if (status == EIP_DONE && ms < quiet && size != EIP_ITEM_HEAD)
        stop("a tick that was not needed answers more");
    return status;
}

/* Performs an event of words alone. */
static void plain_event(const char *word, const char *one, const char *two)
{
    uint32_t n = (uint32_t)strtoul(one, NULL, 10), status;
    if (!strcmp(word, "stream"))
        status = eip_stream(&device, (uint16_t)n, node_of(two), answer, room, &size);
    else if (!strcmp(word, "cut"))
        status = eip_cut(&device, (uint16_t)n, answer, room, &size);
    else if (!strcmp(word, "tick"))
        status = passed(n);
    else if (!strcmp(word, "mode"))
        status = eip_mode(&device, !strcmp(one, "run"), answer, room, &size);
    else if (!strcmp(word, "ids"))
        status = eip_ids(&device, n, (uint32_t)strtoul(two, NULL, 10), answer, room, &size);
    else if (!strcmp(word, "start"))
        status = eip_start(&device, n, answer, room, &size);
    else
        status = eip_stop(&device, n, answer, room, &size);
    print_answer(status);
}

/* Performs the event of a line. A line of a recorded outcome, a comment or an empty line is none. */
static void event(char *line)
{
    static const char *const with_bytes[] = {"datagram", "request", "inquiry", "frame", "write"};
    char *word = strtok(line, " \n"), *one = strtok(NULL, " \n"), *two = strtok(NULL, " \n");
    size_t i;
    if (!word || !one || *word == '#' || (*word >= '0' && *word <= '9'))
        return;
    number++;
    answer = (uint8_t *)realloc(answer, room = first_room);
    if (!strcmp(word, "read")) {
        print_value((uint32_t)strtoul(one, NULL, 10));
        return;
    }
    if (!strcmp(word, "counters")) {
        size_t len = bytes_of(one);
        print_answer(eip_counters(&device, (const uint8_t *)one, len, answer, room, &size));
        return;
    }
    if (!strcmp(word, "explicit") || !strcmp(word, "answer")) {
        char *bytes = strtok(NULL, " \n");
        if (!two || !bytes)
            return;
        if (!strcmp(word, "explicit"))
            explicit_event(one, two, bytes);
        else
            answer_event(one, two, bytes);
        return;
    }
    for (i = 0; two && i < 5; i++)
        if (!strcmp(word, with_bytes[i])) {
            bytes_event(word, one, two);
            return;
        }
    plain_event(word, one, two ? two : "");
}

static bool begins_with(const char *line, const char *word)
{
    return !strncmp(line, word, strlen(word));
}

/* Reads the lines of the profile, and the first line behind them. The line of the heartbeats or the last slot ends a profile. */
static char *profile(char **line, size_t *room_of_line)
{
    char *text = (char *)calloc(1, 1);
    size_t length = 0;
    ssize_t len;
    bool may_end = false;
    while (text && (len = getline(line, room_of_line, stdin)) > 0) {
        bool is_last = begins_with(*line, "slot ") || begins_with(*line, "heartbeat ");
        if (may_end && !is_last && **line != '#' && **line != '\n')
            break;
        may_end = may_end || is_last;
        text = (char *)realloc(text, length + (size_t)len + 1);
        if (text)
            memcpy(text + length, *line, (size_t)len + 1);
        length += (size_t)len;
    }
    return text;
}

int main(int count, char **words)
{
    char *line = NULL, *text;
    size_t room_of_line = 0;
    uint64_t wrong = 0;
    uint32_t status;
    if (count > 1)
        first_room = strtoul(words[1], NULL, 10);
    text = profile(&line, &room_of_line);
    status = text ? eip_new(&device, text, strlen(text), &wrong) : EIP_REFUSED_NO_MEMORY;
    free(text);
    if (status == EIP_DONE) {
        if (!feof(stdin))
            do
                event(line);
            while (getline(&line, &room_of_line, stdin) > 0);
        eip_free(&device);
    } else if (status == EIP_REFUSED_NO_MEMORY)
        fputs("no memory\n", stderr);
    else
        fprintf(stderr, status == EIP_BAD_LINE ? "bad line %lu\n" : "bad profile %lu\n", (unsigned long)wrong);
    free(line);
    free(answer);
    return status != EIP_DONE;
}
