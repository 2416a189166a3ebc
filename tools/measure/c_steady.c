/* The work of tools/measure/by_hand at devices of the library: c_steady steady|sum WORK SIZE COUNT. `sum` prints a sum over all
 * answers, which has to be that of the devices that are written by hand. A profiler counts what a piece of work costs as the
 * difference of two counts, divided by the difference of their numbers: tools/measure/steady. */
#include "eip.h"

#include <stdio.h>
#include <stdlib.h>
#include <string.h>

enum { MOST = 64, ROOM = 1 << 16, TEXT = 8192 };

#define PEER 0xC0A80114u
#define TARGET 0xC0A8010Au

#define ADAPTER(outputs) "adapter 16 192.168.1.10 255.255.255.0 1 12 7 2 3\n" outputs \
                         "input 100 4\ninput 101 4\ninput 102 4\ninput 103 4\ninput 104 4\ninput 105 4\n" \
                         "input 106 4\ninput 107 4\nconfig 151 0\nheartbeat 152 153\n"

static const char adapter_profile[] = ADAPTER("output 150 4 zero zero\n");
static const char of_eight_outputs[] =
    ADAPTER("output 160 4 zero hold\noutput 161 4 zero hold\noutput 162 4 zero hold\noutput 163 4 zero hold\n"
            "output 164 4 zero hold\noutput 165 4 zero hold\noutput 166 4 zero hold\noutput 167 4 zero hold\n");

/* A Forward_Open of an exclusive owner of output 150 for input 100, O->T at 10 s with the longest time-out, T->O at 10 ms. */
static const uint8_t own[50] = {
    0x54, 2, 0x20, 6, 0x24, 1, 0x0A, 0x0E, 0, 0, 0, 0, 1, 0, 0, 0x20, 1, 0, 0x34, 0x12, 0x78, 0x56, 0x34, 0x12, 7,
    0, 0, 0, 0x80, 0x96, 0x98, 0, 0x0A, 0x48, 0x10, 0x27, 0, 0, 6, 0x48, 1, 4, 0x20, 4, 0x24, 0x97, 0x2C, 0x96,
    0x2C, 0x64};

/* A Forward_Close of the connection of serial number 0. */
static const uint8_t close_request[24] = {0x4E, 2, 0x20, 6, 0x24, 1, 0x0A, 0x0E, 0, 0, 0x34, 0x12,
                                          0x78, 0x56, 0x34, 0x12, 3, 0, 0x20, 4, 0x24, 0x97, 0x2C, 0x98};

/* The reply to RegisterSession, with session 1. */
static const uint8_t registered[28] = {0x65, 0, 4, 0, 1, [24] = 1};

/* The reply to the first request, which opens the first slot. */
static const uint8_t open_reply[70] = {
    0x6F, 0, 0x2E, 0, 1, [12] = 1, [30] = 2, [36] = 0xB2, 0, 0x1E, 0, 0xD4, 0, 0, 0, 1, 0, 0, 0x10, 1, 0, 0, 0x20, 1, 0,
    0x34, 0x12, 0x78, 0x56, 0x34, 0x12, 0x10, 0x27, 0, 0, 0x10, 0x27, 0, 0, 0, 0};

/* The reply to a Forward_Close of request 0. */
static const uint8_t close_reply[54] = {0x6F, 0, 0x1E, 0, 1, [30] = 2, [36] = 0xB2, 0, 0x0E, 0, 0xCE, 0,
                                        0, 0, 1, 0, 0x34, 0x12, 0x78, 0x56, 0x34, 0x12, 0, 0};

static const uint8_t new_value[4] = {9, 8, 7, 6};

static eip_device device;
static uint8_t answer[ROOM];
static size_t size;
static bool is_summing;
static uint64_t sum;

static void need(bool holds, const char *what)
{
    if (holds)
        return;
    fprintf(stderr, "c_steady: %s\n", what);
    exit(1);
}

static void add(uint64_t number)
{
    sum = sum * 31 + number;
}

static void add_bytes(const eip_item *item)
{
    size_t at;
    for (at = 0; at < item->size; at++)
        add(item->bytes[at]);
}

/* Adds what is sent, each datagram as its address, its consumers and its bytes, and the number of notices. */
static void add_answer(void)
{
    eip_item item, sent = {0};
    uint64_t notices = 0;
    size_t at = 0;
    while (eip_next(answer, size, &at, &item)) {
        if (item.kind == EIP_ITEM_CONSUMER) {
            add(item.a);
            continue;
        }
        add_bytes(&sent);
        sent.size = 0;
        if (item.kind == EIP_ITEM_FRAME || item.kind == EIP_ITEM_REPLY)
            add_bytes(&item);
        else if (item.kind == EIP_ITEM_DATAGRAM) {
            add(item.a);
            sent = item;
        } else if (item.kind >= EIP_ITEM_OPENED)
            notices++;
    }
    add_bytes(&sent);
    add(notices);
}

/* Takes the answer to an event, which has to be done. */
static void take(uint32_t status)
{
    need(status == EIP_DONE && size >= EIP_ITEM_HEAD && eip_number(answer) == EIP_ITEM_DONE, "an event is not done");
    if (is_summing)
        add_answer();
}

static void tick(uint32_t ms)
{
    take(eip_tick(&device, ms, answer, ROOM, &size));
}

/* So many ticks, behind one of another length. */
static void ticks(uint32_t first, uint32_t ms, uint32_t count)
{
    tick(first);
    while (count--)
        tick(ms);
}

static void make(const char *profile)
{
    uint64_t wrong;
    need(eip_new(&device, profile, strlen(profile), &wrong) == EIP_DONE, "no device");
}

static void put(uint8_t *at, uint32_t number)
{
    int byte;
    for (byte = 0; byte < 4; byte++)
        at[byte] = (uint8_t)(number >> 8 * byte);
}

/* AN ADAPTER */

static void request(uint32_t place, const uint8_t *bytes, size_t len)
{
    take(eip_request(&device, PEER + place, bytes, len, answer, ROOM, &size));
    need(size > 2 * EIP_ITEM_HEAD, "a request is refused");
}

/* An input-only opening of input 100 by the peer at this place, with this T->O interval in microseconds. */
static void opening(uint8_t *bytes, uint32_t place, uint32_t interval)
{
    memcpy(bytes, own, sizeof own);
    bytes[12] = bytes[16] = (uint8_t)(place + 2);
    bytes[32] = 2;
    bytes[47] = 0x98;
    put(bytes + 34, interval);
}

/* An adapter with so many connections, behind each of whose openings so many milliseconds pass. */
static void fill(uint32_t count, uint32_t interval, uint32_t pause)
{
    uint8_t bytes[sizeof own];
    uint32_t place;
    make(adapter_profile);
    for (place = 0; place < count; place++) {
        opening(bytes, place, interval);
        request(place, bytes, sizeof bytes);
        tick(pause);
    }
    sum = 0;
}

static void deliver(uint32_t peer, const uint8_t *bytes, size_t len)
{
    enum eip_delivery delivery;
    need(eip_datagram(&device, peer, bytes, len, &delivery) == EIP_DONE && delivery == EIP_APPLIED, "a datagram is not applied");
}

/* A datagram of an owner, in run mode, with four bytes of data, and without an id and numbers. */
static const uint8_t owner_data[28] = {2, 0, 2, 0x80, 8, 0, [14] = 0xB1, 0, 10, 0, 0, 0, 1, 0, 0, 0, 9, 8, 7, 6};

static void deliver_numbered(uint32_t peer, uint8_t *bytes, uint32_t number)
{
    put(bytes + 10, number);
    bytes[18] = bytes[10];
    bytes[19] = bytes[11];
    deliver(peer, bytes, sizeof owner_data);
}

/* Datagrams of an owner, the last of so many connections. */
static void deliveries(uint32_t connections, uint32_t count)
{
    uint8_t bytes[sizeof owner_data];
    uint32_t number;
    fill(connections - 1, 10000, 0);
    request(0, own, sizeof own);
    sum = 0;
    memcpy(bytes, owner_data, sizeof bytes);
    put(bytes + 6, 0x10000000 + connections);
    for (number = 0; number < count; number++)
        deliver_numbered(PEER, bytes, number);
}

/* Datagrams of the owners of so many outputs, in turn. */
static void owners(uint32_t outputs, uint32_t count)
{
    uint8_t bytes[sizeof own], data[sizeof owner_data];
    uint32_t place, number = 0;
    make(of_eight_outputs);
    for (place = 0; place < outputs; place++) {
        memcpy(bytes, own, sizeof own);
        bytes[12] = bytes[16] = (uint8_t)(place + 2);
        bytes[47] = (uint8_t)(160 + place);
        request(place, bytes, sizeof bytes);
    }
    sum = 0;
    memcpy(data, owner_data, sizeof data);
    for (place = 0; count--; place++) {
        if (place >= outputs) {
            place = 0;
            number++;
        }
        put(data + 6, 0x10000001 + place);
        deliver_numbered(PEER + place, data, number);
    }
}

/* Multicast connections in eight groups, each of which shares a producer: all of them, or every second one. */
static void groups(uint32_t each, uint32_t count)
{
    uint8_t bytes[sizeof own];
    uint32_t place;
    make(adapter_profile);
    for (place = 0; place < MOST; place++) {
        opening(bytes, place, 10000);
        if (place % each == each - 1) {
            bytes[39] = 0x28;
            bytes[49] = (uint8_t)(100 + place / 2 % 8);
        }
        request(place, bytes, sizeof bytes);
    }
    tick(0);
    sum = 0;
    ticks(10, 10, count);
}

/* Writes of the input of 64 producers, the last of which, so many, produce at changes of state. */
static void writes(uint32_t last, uint32_t count)
{
    uint8_t bytes[sizeof own];
    uint32_t place;
    make(adapter_profile);
    for (place = 0; place < MOST; place++) {
        opening(bytes, place, 10000000);
        bytes[40] = place + last >= MOST ? 0x11 : 1;
        request(place, bytes, sizeof bytes);
    }
    tick(1);
    sum = 0;
    while (count--)
        take(eip_write(&device, 100, new_value, sizeof new_value, answer, ROOM, &size));
}

/* Writes of the inputs of so many cyclic producers, up to eight inputs, in turn. */
static void inputs(uint32_t producers, uint32_t count)
{
    uint8_t bytes[sizeof own];
    uint32_t place, of = producers < 8 ? producers : 8;
    make(adapter_profile);
    for (place = 0; place < producers; place++) {
        opening(bytes, place, 10000000);
        bytes[49] = (uint8_t)(100 + place % 8);
        request(place, bytes, sizeof bytes);
    }
    tick(1);
    sum = 0;
    for (place = 0; count--; place++)
        take(eip_write(&device, 100 + place % of, new_value, sizeof new_value, answer, ROOM, &size));
}

/* The last connection is opened, and times out in the fourth of five ticks. */
static void time_outs(uint32_t count)
{
    uint8_t bytes[sizeof own];
    fill(63, 10000, 0);
    opening(bytes, 63, 10000);
    bytes[24] = 0;
    put(bytes + 28, 100000);
    while (count--) {
        request(63, bytes, sizeof bytes);
        ticks(2500, 2500, 4);
    }
}

/* The last connection is opened and closed. */
static void openings(uint32_t count)
{
    uint8_t bytes[sizeof own], closing[sizeof close_request];
    fill(63, 10000, 0);
    opening(bytes, 63, 10000);
    memcpy(closing, close_request, sizeof closing);
    closing[8] = 65;
    while (count--) {
        request(63, bytes, sizeof bytes);
        request(63, closing, sizeof closing);
    }
}

/* A multicast connection and so many listeners are opened, and drop with it as it is closed. There are 64 connections. */
static void listeners(uint32_t number, uint32_t count)
{
    uint8_t bytes[MOST][sizeof own], closing[sizeof close_request];
    uint32_t place, first = MOST - 1 - number;
    fill(first, 10000, 0);
    for (place = first; place < MOST; place++) {
        opening(bytes[place], place, 10000);
        bytes[place][39] = 0x28;
        bytes[place][47] = place > first ? 0x99 : 0x98;
    }
    memcpy(closing, close_request, sizeof closing);
    closing[8] = (uint8_t)(first + 2);
    while (count--) {
        for (place = first; place < MOST; place++)
            request(place, bytes[place], sizeof bytes[place]);
        request(first, closing, sizeof closing);
    }
}

/* A SCANNER */

/* Both intervals of a target's replies, in microseconds. */
static uint32_t o_t_interval = 10000, t_o_interval = 10000;

static void frame(const uint8_t *bytes, size_t len)
{
    take(eip_frame(&device, 0, bytes, len, answer, ROOM, &size));
}

/* A slot is started. The reply of this request's number and this opening's number opens it. */
static void start(uint32_t slot, uint32_t number, uint32_t connection)
{
    uint8_t bytes[sizeof open_reply];
    take(eip_start(&device, slot, answer, ROOM, &size));
    memcpy(bytes, open_reply, sizeof bytes);
    put(bytes + 12, number);
    put(bytes + 44, 0x10000000 + connection);
    put(bytes + 48, 0x20000000 + connection);
    bytes[52] = (uint8_t)connection;
    bytes[53] = (uint8_t)(connection >> 8);
    put(bytes + 60, o_t_interval);
    put(bytes + 64, t_o_interval);
    frame(bytes, sizeof bytes);
}

/* A scanner with so many slots, without a session. */
static void scanner(uint32_t slots)
{
    char text[TEXT];
    uint32_t slot;
    size_t at = (size_t)snprintf(text, TEXT, "scanner 32 192.168.1.20 4660 305419896 2000 3000\n");
    for (slot = 0; slot < slots; slot++)
        at += (size_t)snprintf(text + at, TEXT - at, "slot 192.168.1.10 exclusive - 150 %u 4 4 10000 10000 2 p2p - -\n", slot);
    make(text);
}

/* A scanner with so many slots, each of which is established, behind each of which so many milliseconds pass. */
static void established(uint32_t slots, uint32_t pause)
{
    uint32_t slot;
    scanner(slots);
    take(eip_stream(&device, 0, TARGET, answer, ROOM, &size));
    frame(registered, sizeof registered);
    for (slot = 0; slot < slots; slot++) {
        start(slot, slot + 1, slot + 1);
        if (pause)
            tick(pause);
    }
    sum = 0;
}

/* Datagrams for all slots in turn. */
static void slot_deliveries(uint32_t slots, uint32_t count)
{
    uint8_t bytes[24] = {2, 0, 2, 0x80, 8, 0, [9] = 0x20, [14] = 0xB1, 0, 6, 0, 0, 0, 9, 8, 7, 6};
    uint32_t slot = 0, number = 0;
    while (count--) {
        if (slot >= slots) {
            slot = 0;
            number++;
        }
        bytes[6] = (uint8_t)++slot;
        put(bytes + 10, number);
        bytes[18] = bytes[10];
        bytes[19] = bytes[11];
        deliver(TARGET, bytes, sizeof bytes);
    }
}

/* A slot is stopped and started again, with both replies. */
static void restarts(uint32_t slot, uint32_t count)
{
    uint8_t bytes[sizeof close_reply];
    uint32_t round, number = MOST + 1;
    memcpy(bytes, close_reply, sizeof bytes);
    for (round = 0; round < count; round++) {
        take(eip_stop(&device, slot, answer, ROOM, &size));
        put(bytes + 12, number);
        frame(bytes, sizeof bytes);
        start(slot, number + 1, MOST + 1 + round);
        number += 2;
    }
}

/* Ticks of no time at a scanner whose slots are started and wait for a session. */
static void waiting(uint32_t slots, uint32_t count)
{
    uint32_t slot;
    scanner(slots);
    for (slot = 0; slot < slots; slot++)
        take(eip_start(&device, slot, answer, ROOM, &size));
    sum = 0;
    while (count--)
        tick(0);
}

/* Ticks in which all slots are due, the last one first. */
static void reversed(uint32_t slots, uint32_t count)
{
    o_t_interval = 100000;
    t_o_interval = 10000000;
    established(slots, 99);
    while (count--)
        tick(100);
}

static bool at_scanner(const char *work, uint32_t slots, uint32_t count)
{
    bool is_of_last = !strcmp(work, "slot-restart") || !strcmp(work, "slot-write");
    if (!strcmp(work, "slot-waiting")) {
        waiting(slots, count);
        return true;
    }
    if (!strcmp(work, "slot-reversed")) {
        reversed(slots, count);
        return true;
    }
    established(is_of_last ? MOST : slots, 0);
    if (!strcmp(work, "slot-datagram"))
        slot_deliveries(slots, count);
    else if (!strcmp(work, "slot-production"))
        while (count--)
            tick(10);
    else if (!strcmp(work, "slot-idle"))
        while (count--)
            tick(0);
    else if (!strcmp(work, "slot-restart"))
        restarts(slots - 1, count);
    else if (!strcmp(work, "slot-write"))
        while (count--)
            take(eip_write(&device, slots - 1, new_value, sizeof new_value, answer, ROOM, &size));
    else
        return false;
    return true;
}

/* WORDS */

/* Opens so many connections, and lets time pass in so many ticks behind a first one. */
static bool at_filled(const char *work, uint32_t connections, uint32_t count)
{
    static const struct {
        const char *work;
        uint32_t interval, pause, first, ms;
    } rows[] = {{"production", 10000, 0, 10, 10}, {"reversed", 100000, 99, 100, 100},
                {"phases", 100000, 1, 100, 1}, {"idle", 10000000, 0, 1, 1}};
    size_t at;
    for (at = 0; at < sizeof rows / sizeof rows[0]; at++)
        if (!strcmp(work, rows[at].work)) {
            fill(connections, rows[at].interval, rows[at].pause);
            ticks(rows[at].first, rows[at].ms, count);
            return true;
        }
    return false;
}

static bool at_adapter(const char *work, uint32_t connections, uint32_t count)
{
    if (!strcmp(work, "datagram"))
        deliveries(connections, count);
    else if (!strcmp(work, "owners"))
        owners(connections, count);
    else if (!strcmp(work, "groups"))
        groups(connections, count);
    else if (!strcmp(work, "write"))
        writes(connections, count);
    else if (!strcmp(work, "inputs"))
        inputs(connections, count);
    else if (!strcmp(work, "listeners"))
        listeners(connections, count);
    else if (!strcmp(work, "time-out"))
        time_outs(count);
    else if (!strcmp(work, "opening"))
        openings(count);
    else
        return at_filled(work, connections, count);
    return true;
}

int main(int argc, char **argv)
{
    uint32_t number, count;
    bool is_done;
    if (argc != 5)
        return 2;
    number = (uint32_t)strtoul(argv[3], NULL, 10);
    count = (uint32_t)strtoul(argv[4], NULL, 10);
    need(number <= MOST, "at most 64");
    is_summing = !strcmp(argv[1], "sum");
    is_done = !strncmp(argv[2], "slot-", 5) ? at_scanner(argv[2], number, count) : at_adapter(argv[2], number, count);
    need(is_done, "an unknown work");
    eip_free(&device);
    if (is_summing)
        printf("%llu\n", (unsigned long long)sum);
    return 0;
}
