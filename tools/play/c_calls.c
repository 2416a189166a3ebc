/* Calls of a device at values worked by hand: when an adapter needs time, what its points take and hold, what a refused tick
 * leaves, two devices of one history, the life of a connection, and the number of a request to the application. Prints each check that fails. c_calls. */
#include "c_events.h"

static const char profile[] = "adapter 16 192.168.1.10 255.255.255.0 1 12 7 2 3\noutput 150 4 zero zero\ninput 100 4\n"
                              "config 151 0\nheartbeat 152 153\n";
static const uint32_t points[] = {150, 100, 151};

enum { OWNER = (int)0xC0A80114, ROOM = 4096 };

/* An owner of output 150 opens, every 10 ms both ways, with a time-out of 160 ms. */
static const uint8_t open_request[] = {
    0x54, 0x02, 0x20, 0x06, 0x24, 0x01, 0x0a, 0x0e, 0x00, 0x00, 0x00, 0x00, 0x01, 0x00, 0x00, 0x20, 0x01,
    0x00, 0x34, 0x12, 0x78, 0x56, 0x34, 0x12, 0x02, 0x00, 0x00, 0x00, 0x10, 0x27, 0x00, 0x00, 0x0a, 0x48,
    0x10, 0x27, 0x00, 0x00, 0x06, 0x48, 0x01, 0x04, 0x20, 0x04, 0x24, 0x97, 0x2c, 0x96, 0x2c, 0x64};

/* The same owner: it sends each 10 ms and is lost after 40 ms, and the adapter sends to it each 100 ms. */
static const uint8_t slow_request[] = {
    0x54, 0x02, 0x20, 0x06, 0x24, 0x01, 0x0a, 0x0e, 0x00, 0x00, 0x00, 0x00, 0x01, 0x00, 0x00, 0x20, 0x01,
    0x00, 0x34, 0x12, 0x78, 0x56, 0x34, 0x12, 0x00, 0x00, 0x00, 0x00, 0x10, 0x27, 0x00, 0x00, 0x0a, 0x48,
    0xa0, 0x86, 0x01, 0x00, 0x06, 0x48, 0x01, 0x04, 0x20, 0x04, 0x24, 0x97, 0x2c, 0x96, 0x2c, 0x64};

/* It closes, and the reply to that. */
static const uint8_t close_request[] = {0x4e, 0x02, 0x20, 0x06, 0x24, 0x01, 0x0a, 0x0e, 0x01, 0x00, 0x34, 0x12, 0x78,
                                        0x56, 0x34, 0x12, 0x04, 0x00, 0x20, 0x04, 0x24, 0x97, 0x2c, 0x96, 0x2c, 0x64};
static const uint8_t closed_reply[] = {0xce, 0, 0, 0, 0x01, 0x00, 0x34, 0x12, 0x78, 0x56, 0x34, 0x12, 0, 0};

static const uint8_t value[4] = {5, 6, 7, 8}, output_data[4] = {0x11, 0x22, 0x33, 0x44}, zeros[4];

static int failed;
static uint8_t out[ROOM];
static size_t size;

static void check(int holds, const char *what)
{
    if (holds)
        return;
    printf("%s\n", what);
    failed = 1;
}

static eip_device fresh(void)
{
    eip_device device = {0};
    uint64_t wrong = 0;
    if (eip_new(&device, profile, strlen(profile), &wrong) != EIP_DONE) {
        puts("no device");
        exit(1);
    }
    return device;
}

/* An adapter that has an owner since this request. */
static eip_device owned(const uint8_t *request)
{
    eip_device device = fresh();
    check(eip_request(&device, (uint32_t)OWNER, request, sizeof open_request, out, ROOM, &size) == EIP_DONE, "an opening");
    return device;
}

/* How the owner's datagram of this number is taken, in run mode. */
static enum eip_delivery owner_sends(eip_device *device, unsigned number)
{
    uint8_t low = (uint8_t)number, high = (uint8_t)(number >> 8);
    uint8_t bytes[28] = {2, 0, 2, 0x80, 8, 0, 1, 0, 0, 0x10, low, high, 0, 0, 0xb1, 0, 10, 0, low, high, 1};
    enum eip_delivery delivery = EIP_MALFORMED;
    memcpy(bytes + 24, output_data, 4);
    check(eip_datagram(device, (uint32_t)OWNER, bytes, sizeof bytes, &delivery) == EIP_DONE, "a datagram");
    return delivery;
}

static uint32_t wake(eip_device *device)
{
    uint32_t ms = 77;
    check(eip_next_wake(device, &ms) == EIP_DONE, "a next wake");
    return ms;
}

static void pass(eip_device *device, uint32_t ms)
{
    check(eip_tick(device, ms, out, ROOM, &size) == EIP_DONE, "a tick");
}

/* Whether a point holds these four bytes. */
static int holds(eip_device *device, uint32_t point, const uint8_t *bytes)
{
    uint8_t held[8];
    size_t len = 0;
    return eip_read(device, point, held, sizeof held, &len) == EIP_DONE && len == 4 && !memcmp(held, bytes, 4);
}

/* Whether the answer at out is that the event was processed, and these bytes. */
static int is_answer(enum eip_kind kind, const uint8_t *bytes, size_t len)
{
    eip_item item;
    size_t at = 0;
    return eip_next(out, size, &at, &item) && item.kind == EIP_ITEM_DONE && eip_next(out, size, &at, &item) &&
           item.kind == kind && item.size == len && !memcmp(item.bytes, bytes, len);
}

/* How often a device was stepped since it needed time, and how often it then did nothing. */
struct wakes {
    unsigned all, in_vain;
};

/* Time passes: the device is stepped each time that it needs time, and at the end. */
static void wait_for(eip_device *device, uint32_t ms, struct wakes *wakes)
{
    uint32_t next;
    while ((next = wake(device)) <= ms) {
        pass(device, next);
        ms -= next;
        wakes->all++;
        wakes->in_vain += size == EIP_ITEM_HEAD;
    }
    pass(device, ms);
}

/* In 30 seconds of an owner's data each 10 ms the adapter wakes for its own productions alone: at once, and then each 100 ms.
 * Each datagram moves the time-out. Behind the last one, which is 10 ms old, it wakes once more, and then for nothing. */
static void check_wakes(void)
{
    eip_device device = owned(slow_request);
    struct wakes wakes = {0, 0};
    eip_item item;
    size_t at = EIP_ITEM_HEAD;
    unsigned sent;
    for (sent = 1; sent <= 3000; sent++) {
        check(owner_sends(&device, sent) == EIP_APPLIED, "one of 3000 datagrams is not applied");
        wait_for(&device, 10, &wakes);
    }
    check(wakes.all == 301 && wakes.in_vain == 0, "the wakes of an adapter whose owner sends");
    check(wake(&device) == 30, "the wake for a time-out");
    pass(&device, 30);
    check(eip_next(out, size, &at, &item) && item.kind == EIP_ITEM_EXPIRED && at == size, "the time-out alone");
    check(wake(&device) == 60000, "the wake of an adapter without a connection");
    eip_free(&device);
}

/* Points are read and written, and take an owner's data. */
static void check_points(void)
{
    eip_device device = owned(open_request);
    uint8_t byte = 5;
    check(owner_sends(&device, 1) == EIP_APPLIED && holds(&device, 150, output_data), "the owner's data");
    check(holds(&device, 100, zeros), "an input that was not written");
    check(eip_write(&device, 100, value, 4, out, ROOM, &size) == EIP_DONE && holds(&device, 100, value), "a written input");
    check(eip_write(&device, 100, &byte, 1, out, ROOM, &size) == EIP_WRONG_LENGTH, "a byte for an input of four");
    check(eip_write(&device, 150, value, 4, out, ROOM, &size) == EIP_NO_SUCH_POINT, "a write of an output");
    check(eip_read(&device, 152, out, ROOM, &size) == EIP_NO_SUCH_POINT, "a read of a heartbeat");
    check(holds(&device, 100, value) && holds(&device, 150, output_data), "values after refused calls");
    eip_free(&device);
}

static look first_look, second_look;

/* Whether two devices say the same. */
static int are_alike(eip_device *device, eip_device *other)
{
    look_at(device, points, 3, &first_look);
    look_at(other, points, 3, &second_look);
    return are_same(&first_look, &second_look);
}

/* Whether the same tick is answered by the same bytes at two devices. */
static int ticks_alike(eip_device *device, eip_device *other, uint32_t ms)
{
    uint8_t answer[ROOM];
    size_t len = 0;
    uint32_t status = eip_tick(device, ms, answer, ROOM, &len);
    size = 0;
    return eip_tick(other, ms, out, ROOM, &size) == status && len == size && !memcmp(answer, out, len);
}

/* Two devices of one history are alike and go on alike, and each is its own: what is written to one is not at the other. A tick
 * that is too long changes nothing. */
static void check_two(void)
{
    eip_device device = owned(open_request), other = owned(open_request);
    pass(&device, 1);
    pass(&other, 1);
    check(are_alike(&device, &other), "two devices of one history");
    check(eip_tick(&device, 60001, out, ROOM, &size) == EIP_TICK_TOO_LONG && are_alike(&device, &other), "a tick too long");
    check(eip_write(&other, 100, value, 4, out, ROOM, &size) == EIP_DONE && holds(&other, 100, value) &&
              holds(&device, 100, zeros) && !are_alike(&device, &other), "a write to another device");
    check(eip_write(&device, 100, value, 4, out, ROOM, &size) == EIP_DONE && are_alike(&device, &other), "the same write");
    check(ticks_alike(&device, &other, 9) && are_alike(&device, &other), "the same tick");
    check(ticks_alike(&device, &other, 60001) && ticks_alike(&device, &other, 160), "a time-out at both");
    eip_free(&device);
    check(holds(&other, 100, value), "a device whose twin was freed");
    eip_free(&other);
}

/* The adapter's productions: at once, then each 10 ms. The count rises with what is written, the number with each. */
static void check_productions(eip_device *device)
{
    static const uint8_t first[] = {2, 0, 2, 0x80, 8, 0, 1, 0, 0, 0x20, 1, 0, 0, 0, 0xb1, 0, 6, 0, 1, 0, 0, 0, 0, 0};
    static const uint8_t second[] = {2, 0, 2, 0x80, 8, 0, 1, 0, 0, 0x20, 2, 0, 0, 0, 0xb1, 0, 6, 0, 2, 0, 5, 6, 7, 8};
    static const uint8_t third[] = {2, 0, 2, 0x80, 8, 0, 1, 0, 0, 0x20, 3, 0, 0, 0, 0xb1, 0, 6, 0, 2, 0, 5, 6, 7, 8};
    check(wake(device) == 0, "the first production is due at once");
    pass(device, 1);
    check(is_answer(EIP_ITEM_DATAGRAM, first, sizeof first) && wake(device) == 9, "the first production");
    check(eip_write(device, 100, value, 4, out, ROOM, &size) == EIP_DONE && size == EIP_ITEM_HEAD, "a write");
    pass(device, 8);
    check(size == EIP_ITEM_HEAD && wake(device) == 1, "no production before its time");
    pass(device, 1);
    check(is_answer(EIP_ITEM_DATAGRAM, second, sizeof second) && wake(device) == 10, "the second production");
    pass(device, 10);
    check(is_answer(EIP_ITEM_DATAGRAM, third, sizeof third), "a production without a write");
}

/* A connection opens, produces, accepts, times out, is found no more, and is closed. */
static void check_life(void)
{
    eip_device device = owned(open_request);
    eip_connection_state it;
    check_productions(&device);
    check(owner_sends(&device, 1) == EIP_APPLIED && owner_sends(&device, 1) == EIP_OLD, "a datagram, and again");
    check(eip_connection(&device, 0, &it) == EIP_DONE && it.established && it.accepted, "a connection that lives");
    pass(&device, 159);
    check(eip_owner(&device, 150, &it) == EIP_DONE && wake(&device) == 1, "a millisecond before its time-out");
    pass(&device, 1);
    check(eip_owner(&device, 150, &it) == EIP_NO_CONNECTION && holds(&device, 150, zeros), "its time-out");
    check(owner_sends(&device, 2) == EIP_UNKNOWN_ID, "a datagram after its time-out");
    check(eip_connection(&device, 0, &it) == EIP_DONE && !it.established, "a connection that timed out");
    check(eip_request(&device, (uint32_t)OWNER, close_request, sizeof close_request, out, ROOM, &size) == EIP_DONE &&
              is_answer(EIP_ITEM_REPLY, closed_reply, sizeof closed_reply), "its close");
    check(eip_connection(&device, 0, &it) == EIP_NO_CONNECTION, "a connection that was closed");
    eip_free(&device);
}

/* A request to the application has a number of 64 bits: both halves are read, and both halves are answered. */
static void check_asked(void)
{
    static const char own[] = "adapter 16 192.168.1.10 255.255.255.0 1 12 7 2 3\noutput 150 4 zero zero\ninput 100 4\nobject 100\n"
                              "heartbeat 152 153\n";
    static const uint8_t request[] = {0x4b, 0x02, 0x20, 0x64, 0x24, 0x01}, reply[] = {0xcb, 0, 0, 0};
    eip_item item = {0};
    eip_device device = {0};
    uint64_t wrong = 0;
    item.a = 5;
    item.b = 1;
    check(eip_asked(&item) == 0x100000005, "the number of a request has both halves");
    check(eip_new(&device, own, strlen(own), &wrong) == EIP_DONE, "an adapter with an object of its maker's own");
    check(eip_request(&device, (uint32_t)OWNER, request, sizeof request, out, ROOM, &size) == EIP_DONE, "a request to it");
    check(eip_respond(&device, 0x100000001, 0, NULL, 0, out, ROOM, &size) == EIP_NOT_ALLOWED_NOW, "an answer with another upper half");
    check(eip_respond(&device, 1, 0, NULL, 0, out, ROOM, &size) == EIP_DONE && is_answer(EIP_ITEM_REPLY, reply, sizeof reply), "its answer");
    eip_free(&device);
}

int main(void)
{
    check_wakes();
    check_points();
    check_two();
    check_life();
    check_asked();
    return failed;
}
