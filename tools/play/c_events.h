/* The events of a trace as calls of the library: a line of a trace is read as an event, and an event is performed at a device.
 * And all that a device says of itself, which can be compared. Of tools/play/c_memory.c and tools/long/fuzz_main.c. */
#ifndef C_EVENTS_H
#define C_EVENTS_H

#include "eip.h"

#include <stdio.h>
#include <stdlib.h>
#include <string.h>

enum event_kind {
    NO_EVENT, REQUEST, STREAM, FRAME, CUT, DATAGRAM, INQUIRY, WRITE, READ, TICK, MODE, START, STOP, EXPLICIT, RESPOND,
    COUNTERS, IDS
};

/* An event. What its kind has no use for is 0. */
typedef struct event {
    enum event_kind kind;
    uint32_t node;      /* the peer, or the target */
    uint32_t number;    /* the stream, point or slot, the milliseconds, the mode, the number of an explicit request, or an id */
    uint32_t count;     /* how many ids */
    uint64_t asked;     /* the number of the request that is answered */
    uint8_t status;     /* its general status */
    const uint8_t *bytes;
    size_t len;
} event;

/* Performs an event. A delivery is one byte at out. */
static inline uint32_t perform(eip_device *device, const event *it, uint8_t *out, size_t room, size_t *size)
{
    enum eip_delivery delivery = EIP_APPLIED;
    uint32_t status;
    switch (it->kind) {
    case REQUEST: return eip_request(device, it->node, it->bytes, it->len, out, room, size);
    case STREAM: return eip_stream(device, (uint16_t)it->number, it->node, out, room, size);
    case FRAME: return eip_frame(device, (uint16_t)it->number, it->bytes, it->len, out, room, size);
    case CUT: return eip_cut(device, (uint16_t)it->number, out, room, size);
    case INQUIRY: return eip_inquire(device, it->node, it->bytes, it->len, out, room, size);
    case WRITE: return eip_write(device, it->number, it->bytes, it->len, out, room, size);
    case READ: return eip_read(device, it->number, out, room, size);
    case TICK: return eip_tick(device, it->number, out, room, size);
    case MODE: return eip_mode(device, it->number != 0, out, room, size);
    case START: return eip_start(device, it->number, out, room, size);
    case STOP: return eip_stop(device, it->number, out, room, size);
    case IDS: return eip_ids(device, it->number, it->count, out, room, size);
    case EXPLICIT: return eip_explicit(device, it->node, it->number, it->bytes, it->len, out, room, size);
    case RESPOND: return eip_respond(device, it->asked, it->status, it->bytes, it->len, out, room, size);
    case COUNTERS: return eip_counters(device, it->bytes, it->len, out, room, size);
    case DATAGRAM:
        status = eip_datagram(device, it->node, it->bytes, it->len, &delivery);
        if (status == EIP_DONE && room) {
            *out = (uint8_t)delivery;
            *size = 1;
        }
        return status;
    default: return EIP_NULL;
    }
}

/* An address in dotted form, or 0. */
static inline uint32_t node_of(const char *word)
{
    unsigned a = 0, b = 0, c = 0, d = 0;
    return sscanf(word, "%u.%u.%u.%u", &a, &b, &c, &d) == 4 ? a << 24 | b << 16 | c << 8 | d : 0;
}

/* Puts the bytes of a word in its place. */
static inline void take_bytes(event *it, char *word)
{
    unsigned byte;
    size_t len = 0;
    for (; sscanf(word + 2 * len, "%2x", &byte) == 1; len++)
        word[len] = (char)byte;
    it->bytes = (const uint8_t *)word;
    it->len = len;
}

/* The kind of the event that begins with a word, and how many words follow it. */
static inline enum event_kind kind_of(const char *word, int *behind)
{
    static const struct {
        const char *word;
        enum event_kind kind;
        int behind;
    } kinds[] = {{"request", REQUEST, 2}, {"stream", STREAM, 2}, {"frame", FRAME, 2},       {"cut", CUT, 1},
                 {"datagram", DATAGRAM, 2}, {"inquiry", INQUIRY, 2}, {"write", WRITE, 2},   {"read", READ, 1},
                 {"tick", TICK, 1},       {"mode", MODE, 1},     {"start", START, 1},       {"stop", STOP, 1},
                 {"explicit", EXPLICIT, 3}, {"answer", RESPOND, 3}, {"counters", COUNTERS, 1}, {"ids", IDS, 2}};
    size_t i;
    for (i = 0; i < sizeof kinds / sizeof *kinds; i++)
        if (!strcmp(word, kinds[i].word)) {
            *behind = kinds[i].behind;
            return kinds[i].kind;
        }
    return NO_EVENT;
}

/* Reads a line of a trace. It changes the line, where the bytes of the event then lie. False if the line has no event. */
static inline bool read_event(char *line, event *it)
{
    char *word = strtok(line, " \r\n"), *words[3] = {NULL, NULL, NULL};
    int behind = 0, i;
    memset(it, 0, sizeof *it);
    it->kind = word ? kind_of(word, &behind) : NO_EVENT;
    for (i = 0; i < behind; i++)
        if (!(words[i] = strtok(NULL, " \r\n")))
            return false;
    switch (it->kind) {
    case NO_EVENT: return false;
    case REQUEST:
    case DATAGRAM:
    case INQUIRY:
    case EXPLICIT: it->node = node_of(words[0]); break;
    case RESPOND: it->asked = strtoull(words[0], NULL, 10); break;
    case COUNTERS: break;
    case MODE: it->number = !strcmp(words[0], "run"); break;
    default: it->number = (uint32_t)strtoul(words[0], NULL, 10); break;
    }
    if (it->kind == STREAM)
        it->node = node_of(words[1]);
    else if (it->kind == IDS)
        it->count = (uint32_t)strtoul(words[1], NULL, 10);
    else if (it->kind == EXPLICIT)
        it->number = (uint32_t)strtoul(words[1], NULL, 10);
    else if (it->kind == RESPOND)
        it->status = (uint8_t)strtoul(words[1], NULL, 16);
    if (it->kind == COUNTERS || (it->kind != STREAM && it->kind != IDS && behind > 1))
        take_bytes(it, words[behind - 1]);
    return true;
}

/* WHAT A DEVICE SAYS */

enum { LOOK_ROOM = 1 << 19, POINTS = 96 };

/* All that a device says: its next wake, its connections and slots, the values of its points and the answer that it keeps. */
typedef struct look {
    uint8_t bytes[LOOK_ROOM];
    size_t size;
} look;

static inline void put(look *to, uint32_t status, const void *bytes, size_t len)
{
    if (LOOK_ROOM - to->size < sizeof status + len) {
        fputs("c_events: a device says more than there is room for\n", stderr);
        exit(2);
    }
    memcpy(to->bytes + to->size, &status, sizeof status);
    memcpy(to->bytes + to->size + sizeof status, bytes, len);
    to->size += sizeof status + len;
}

/* Looks at a device: at its points of these numbers, and at the slots with the numbers below POINTS. */
static inline void look_at(eip_device *device, const uint32_t *points, size_t count, look *to)
{
    static uint8_t out[LOOK_ROOM];
    eip_connection_state connection;
    eip_slot_report slot;
    uint32_t status, ms = 0, number;
    size_t size = 0, i;
    to->size = 0;
    put(to, eip_next_wake(device, &ms), &ms, sizeof ms);
    for (number = 0; eip_connection(device, number, &connection) == EIP_DONE; number++)
        put(to, EIP_DONE, &connection, sizeof connection);
    for (number = 0; number < POINTS && eip_slot(device, number, &slot) == EIP_DONE; number++) {
        put(to, EIP_DONE, &slot, sizeof slot);
        status = eip_read(device, number, out, sizeof out, &size);
        put(to, status, out, status == EIP_DONE ? size : 0);
    }
    for (i = 0; i < count; i++) {
        status = eip_read(device, points[i], out, sizeof out, &size);
        put(to, status, out, status == EIP_DONE ? size : 0);
    }
    status = eip_answer(device, out, sizeof out, &size);
    put(to, status, out, status == EIP_DONE ? size : 0);
}

static inline bool are_same(const look *one, const look *other)
{
    return one->size == other->size && !memcmp(one->bytes, other->bytes, one->size);
}

/* The numbers of the points that the lines of an adapter's profile have, at most POINTS. */
static inline size_t points_of(const char *text, uint32_t *points)
{
    static const char *const words[] = {"output ", "input ", "config "};
    const char *line = text;
    size_t count = 0, i;
    while (line && *line) {
        for (i = 0; i < 3; i++)
            if (count < POINTS && !strncmp(line, words[i], strlen(words[i])))
                points[count++] = (uint32_t)strtoul(line + strlen(words[i]), NULL, 10);
        line = strchr(line, '\n');
        line = line ? line + 1 : NULL;
    }
    return count;
}

#endif
