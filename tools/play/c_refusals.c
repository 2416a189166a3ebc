/* Calls of the library that are refused, answers that need more room, and the numbers of the header's enumerators: prints
 * each check that fails. c_refusals. */
#include "eip.h"

#include <stdint.h>
#include <stdio.h>
#include <string.h>

static const char profile[] = "adapter 16 192.168.1.10 255.255.255.0 1 12 7 2 3\noutput 150 4 zero zero\ninput 100 4\n"
                              "config 151 0\nheartbeat 152 153\n";
static const char bad_line[] = "adapter 16 192.168.1.10 255.255.255.0 1 12 7 2 3\noutput 150 4 zero\n";
static const char bad_profile[] = "adapter 0 192.168.1.10 255.255.255.0 1 12 7 2 3\noutput 150 4 zero zero\ninput 100 4\n"
                                  "config 151 0\nheartbeat 152 153\n";

static int failed;

static void check(int holds, const char *what)
{
    if (holds)
        return;
    printf("%s\n", what);
    failed = 1;
}

/* Whether the numbers are consecutive from the first one. */
static int counts_from(int first, const int *numbers, size_t count)
{
    size_t i;
    for (i = 0; i < count; i++)
        if (numbers[i] != first + (int)i)
            return 0;
    return 1;
}

/* Each enumerator has the number that the library gives it, so that no two are exchanged. */
static void check_numbers(void)
{
    static const int events[] = {EIP_DONE,          EIP_REFUSED_NO_MEMORY, EIP_TICK_TOO_LONG,   EIP_CLOCK_END,
                                 EIP_NO_SUCH_POINT, EIP_WRONG_LENGTH,      EIP_NO_SUCH_SLOT,    EIP_NOT_ALLOWED_NOW,
                                 EIP_KEPT_NO_ROOM};
    static const int others[] = {EIP_NO_ANSWER, EIP_BAD_LINE, EIP_BAD_PROFILE, EIP_NO_INQUIRY, EIP_LONG_NAME,
                                 EIP_NO_CONNECTION};
    static const int deliveries[] = {EIP_APPLIED, EIP_IDLE,       EIP_HEARTBEAT,  EIP_DUPLICATE,
                                     EIP_OLD,     EIP_UNKNOWN_ID, EIP_WRONG_SIZE, EIP_MALFORMED};
    static const int verdicts[] = {EIP_ITEM_DONE,      EIP_ITEM_BAD_FRAME, EIP_ITEM_IGNORED,          EIP_ITEM_VALUE,
                                   EIP_ITEM_DELIVERED, EIP_ITEM_REPLIED,   EIP_ITEM_ADDITIONAL_STATUS, EIP_ITEM_ASKED,
                                   EIP_ITEM_ASKED_PATH};
    static const int sent[] = {EIP_ITEM_FRAME, EIP_ITEM_REPLY};
    static const int datagrams[] = {EIP_ITEM_DATAGRAM, EIP_ITEM_CONSUMER};
    static const int notices[] = {EIP_ITEM_OPENED,   EIP_ITEM_CLOSED,        EIP_ITEM_EXPIRED, EIP_ITEM_DROPPED,
                                  EIP_ITEM_REPLACED, EIP_ITEM_STREAM_CLOSED, EIP_ITEM_SLOT,    EIP_ITEM_NO_IDS,
                                  EIP_ITEM_RESET};
    static const int unanswered[] = {EIP_ITEM_NO_REPLY_TIMED_OUT, EIP_ITEM_NO_REPLY_LOST, EIP_ITEM_NO_REPLY_ENCAP,
                                     EIP_ITEM_NO_REPLY_UNREADABLE};
    static const int reasons[] = {EIP_ITEM_REFUSED_ENCAP, EIP_ITEM_UNREADABLE, EIP_ITEM_REFUSED, EIP_ITEM_OTHER_TRIAD,
                                  EIP_ITEM_OTHER_ID,      EIP_ITEM_OTHER_API,  EIP_ITEM_MISMATCH};
    check(counts_from(0, events, sizeof events / sizeof *events), "the numbers of the statuses of events");
    check(counts_from(10, others, sizeof others / sizeof *others), "the numbers of the other statuses");
    check(eip_version() == EIP_VERSION_NUMBER, "the version of the library is that of its header");
    check(EIP_NULL == 20 && EIP_IN_USE == 21, "the numbers of the header's own statuses");
    check(counts_from(0, deliveries, sizeof deliveries / sizeof *deliveries), "the numbers of the deliveries");
    check(counts_from(1, verdicts, sizeof verdicts / sizeof *verdicts), "the numbers of the verdicts");
    check(counts_from(16, sent, sizeof sent / sizeof *sent), "the numbers of frames and replies");
    check(counts_from(32, datagrams, sizeof datagrams / sizeof *datagrams), "the numbers of datagrams and consumers");
    check(counts_from(72, unanswered, sizeof unanswered / sizeof *unanswered), "the numbers of requests without a reply");
    check(counts_from(48, notices, sizeof notices / sizeof *notices), "the numbers of the notices");
    check(counts_from(64, reasons, sizeof reasons / sizeof *reasons), "the numbers of the refusals of a slot");
}

static void check_profiles(void)
{
    eip_device device = {0};
    uint64_t number = 0;
    check(eip_new(NULL, profile, strlen(profile), &number) == EIP_NULL, "a device NULL");
    check(eip_new(&device, NULL, 1, &number) == EIP_NULL, "a text NULL");
    check(eip_new(&device, profile, strlen(profile), NULL) == EIP_NULL, "a number NULL");
    check(eip_new(&device, NULL, 0, &number) == EIP_BAD_LINE && number == 1, "an empty text");
    check(eip_new(&device, bad_line, strlen(bad_line), &number) == EIP_BAD_LINE && number == 2, "a bad line");
    check(eip_new(&device, bad_profile, strlen(bad_profile), &number) == EIP_BAD_PROFILE && number == 1, "a bad profile");
    check(device.at == NULL, "a handle of no device");
}

static void check_refusals(eip_device *device)
{
    static const uint8_t four[4] = {1, 2, 3, 4};
    uint8_t out[64];
    size_t size = 77;
    memset(out, 9, sizeof out);
    check(eip_answer(device, out, sizeof out, &size) == EIP_NO_ANSWER, "an answer before any event");
    check(eip_tick(device, 60001, out, sizeof out, &size) == EIP_TICK_TOO_LONG, "a long tick");
    check(eip_write(device, 101, four, 4, out, sizeof out, &size) == EIP_NO_SUCH_POINT, "a write of no point");
    check(eip_write(device, 100, four, 3, out, sizeof out, &size) == EIP_WRONG_LENGTH, "a short write");
    check(eip_read(device, 99, out, sizeof out, &size) == EIP_NO_SUCH_POINT, "a read of no point");
    check(eip_start(device, 0, out, sizeof out, &size) == EIP_NOT_ALLOWED_NOW, "a slot of an adapter");
    check(eip_frame(device, 3, four, 4, out, sizeof out, &size) == EIP_NOT_ALLOWED_NOW, "a frame of no stream");
    check(eip_respond(device, 1, 0, four, 4, out, sizeof out, &size) == EIP_NOT_ALLOWED_NOW, "an answer to no request");
    check(eip_counters(device, four, 4, out, sizeof out, &size) == EIP_NOT_ALLOWED_NOW, "counters of a device that is not described");
    check(eip_ids(device, 0, 1, out, sizeof out, &size) == EIP_NOT_ALLOWED_NOW, "ids from 0 on");
    check(eip_ids(device, 4294967295u, 2, out, sizeof out, &size) == EIP_NOT_ALLOWED_NOW, "ids behind the last one");
    check(eip_tick(device, 1, NULL, 1, &size) == EIP_NULL, "room NULL");
    check(eip_tick(device, 1, out, sizeof out, NULL) == EIP_NULL, "a size NULL");
    check(eip_request(device, 1, NULL, 1, out, sizeof out, &size) == EIP_NULL, "bytes NULL");
    check(eip_datagram(device, 1, four, 4, NULL) == EIP_NULL, "a delivery NULL");
    check(eip_next_wake(device, NULL) == EIP_NULL, "a time NULL");
    check(eip_ids_left(device, NULL) == EIP_NULL, "ids left NULL");
    check(size == 77 && out[0] == 9 && out[63] == 9, "memory after refused calls");
}

/* A device without connections needs no tick as long as one may last. */
static void check_wake(eip_device *device)
{
    uint32_t ms = 0;
    check(eip_next_wake(device, &ms) == EIP_DONE && ms == 60000, "the time without a tick");
}

/* A device has the ids of its incarnation, and those of each further block, once. */
static void check_ids(eip_device *device)
{
    uint32_t left = 0;
    uint8_t out[64];
    size_t size;
    check(eip_ids_left(device, &left) == EIP_DONE && left == 16777215, "the ids of an incarnation");
    check(eip_ids(device, 4000000000u, 10, out, sizeof out, &size) == EIP_DONE, "a further block of ids");
    check(eip_ids_left(device, &left) == EIP_DONE && left == 16777225, "the ids with a further block");
    check(eip_ids(device, 4000000009u, 10, out, sizeof out, &size) == EIP_NOT_ALLOWED_NOW, "an id that the device has");
    check(eip_ids_left(device, &left) == EIP_DONE && left == 16777225, "the ids behind a block that is refused");
}

/* A pointer NULL with a length is refused, however long; with the length 0 it is no bytes. */
static void check_null(eip_device *device)
{
    static const size_t lengths[] = {1, 2, 24, 65535, SIZE_MAX};
    enum eip_delivery delivery = EIP_IDLE;
    eip_device other = {0};
    uint64_t number = 7;
    uint8_t out[64] = {0};
    size_t size = 77, i;
    for (i = 0; i < sizeof lengths / sizeof *lengths; i++) {
        size_t len = lengths[i];
        check(eip_new(&other, NULL, len, &number) == EIP_NULL && number == 7 && !other.at, "a profile NULL");
        check(eip_request(device, 1, NULL, len, out, sizeof out, &size) == EIP_NULL, "a request NULL");
        check(eip_frame(device, 0, NULL, len, out, sizeof out, &size) == EIP_NULL, "a frame NULL");
        check(eip_inquire(device, 1, NULL, len, out, sizeof out, &size) == EIP_NULL, "an inquiry NULL of a device");
        check(eip_explicit(device, 1, 1, NULL, len, out, sizeof out, &size) == EIP_NULL, "an explicit request NULL");
        check(eip_respond(device, 1, 0, NULL, len, out, sizeof out, &size) == EIP_NULL, "the data of an answer NULL");
        check(eip_counters(device, NULL, len, out, sizeof out, &size) == EIP_NULL, "counters NULL");
        check(eip_datagram(device, 1, NULL, len, &delivery) == EIP_NULL && delivery == EIP_IDLE, "a datagram NULL");
        check(eip_write(device, 100, NULL, len, out, sizeof out, &size) == EIP_NULL, "a value NULL");
        check(eip_tick(device, 1, NULL, len, &size) == EIP_NULL, "room NULL of any length");
        check(eip_write(device, 100, out, 4, NULL, len, &size) == EIP_NULL, "room NULL of any length beside a value");
    }
    check(size == 77, "a size after calls with NULL");
    check(eip_datagram(device, 1, NULL, 0, &delivery) == EIP_DONE && delivery == EIP_MALFORMED, "a datagram of no bytes");
    check(eip_write(device, 100, NULL, 0, out, sizeof out, &size) == EIP_WRONG_LENGTH, "a value of no bytes");
}

/* A handle with a device takes no other: the device lives on. */
static void check_in_use(eip_device *device)
{
    uint64_t number = 7;
    void *at = device->at;
    uint32_t ms = 0;
    check(eip_new(device, profile, strlen(profile), &number) == EIP_IN_USE && number == 7, "a handle in use");
    check(device->at == at && eip_next_wake(device, &ms) == EIP_DONE && ms == 60000, "the device of a handle in use");
}

/* A walk over an answer that is none. */
static void check_walk(void)
{
    static const uint8_t answer[EIP_ITEM_HEAD] = {EIP_ITEM_DONE};
    static const uint8_t longer[EIP_ITEM_HEAD] = {EIP_ITEM_DONE, [20] = 1}, longest[EIP_ITEM_HEAD] = {EIP_ITEM_DONE, [24] = 1};
    static const size_t beyond[] = {1, EIP_ITEM_HEAD, EIP_ITEM_HEAD + 1, SIZE_MAX};
    eip_item item;
    size_t at = 0, i;
    check(!eip_next(NULL, 0, &at, &item) && !at, "an answer NULL");
    check(!eip_next(NULL, EIP_ITEM_HEAD, &at, &item) && !at, "an answer NULL with a size");
    check(!eip_next(answer, sizeof answer, NULL, &item), "a place NULL");
    check(!eip_next(answer, sizeof answer, &at, NULL) && !at, "an item NULL");
    check(!eip_next(answer, sizeof answer - 1, &at, &item) && !at, "an answer that is cut short");
    check(!eip_next(longer, sizeof longer, &at, &item) && !at, "an item whose data are cut short");
    check(!eip_next(longest, sizeof longest, &at, &item) && !at, "an item of 2^32 bytes of data");
    for (i = 0; i < sizeof beyond / sizeof *beyond; i++) {
        at = beyond[i];
        check(!eip_next(answer, sizeof answer, &at, &item) && at == beyond[i], "a place behind the answer");
    }
}

static const uint8_t identity_reply[] = {
    0x63, 0x00, 0x2c, 0x00, 0x00, 0x00, 0x00, 0x00, 0x00, 0x00, 0x00, 0x00, 0x01, 0x02, 0x03, 0x04, 0x05, 0x06, 0x07, 0x08,
    0x00, 0x00, 0x00, 0x00, 0x01, 0x00, 0x0c, 0x00, 0x26, 0x00, 0x01, 0x00, 0x00, 0x02, 0xaf, 0x12, 0xc0, 0xa8, 0x01, 0x0a,
    0x00, 0x00, 0x00, 0x00, 0x00, 0x00, 0x00, 0x00, 0x34, 0x12, 0x0c, 0x00, 0x07, 0x00, 0x02, 0x03, 0x30, 0x00, 0x78, 0x56,
    0x34, 0x12, 0x04, 'P',  'u',  'm',  'p',  0x03};

/* The replies to inquiries, worked by hand from the format. */
static void check_inquiries(void)
{
    eip_identity pump = {.address = 0xC0A8010A, .serial = 0x12345678, .port = 44818, .vendor = 0x1234, .device_type = 12,
                         .product = 7, .status = 0x30, .major = 2, .minor = 3, .state = 3, .name = "Pump"};
    uint8_t message[24] = {0x63, 0, 0, 0, 0, 0, 0, 0, 0, 0, 0, 0, 1, 2, 3, 4, 5, 6, 7, 8};
    uint8_t out[EIP_INQUIRY_ROOM + 1];
    size_t size = 77;
    memset(out, 9, sizeof out);
    check(eip_inquiry(&pump, message, 24, out, sizeof out, &size) == EIP_DONE && size == sizeof identity_reply &&
              !memcmp(out, identity_reply, size) && out[size] == 9, "the reply to ListIdentity");
    check(eip_inquiry(&pump, message, 24, out, size - 1, &size) == EIP_KEPT_NO_ROOM && size == sizeof identity_reply,
          "a reply without room");
    check(eip_inquiry(&pump, message, 24, NULL, 0, &size) == EIP_KEPT_NO_ROOM && size == sizeof identity_reply, "no room at all");
    message[0] = 0x04;
    check(eip_inquiry(&pump, message, 24, out, sizeof out, &size) == EIP_DONE && size == 50 &&
              !memcmp(out + 24, "\1\0\0\1\24\0\1\0\40\1Communications\0", 26), "the reply to ListServices");
    message[0] = 0x64;
    check(eip_inquiry(&pump, message, 24, out, sizeof out, &size) == EIP_DONE && size == 26 && !out[24] && !out[25],
          "the reply to ListInterfaces");
    message[0] = 0x65;
    out[0] = 9;
    check(eip_inquiry(&pump, message, 24, out, sizeof out, &size) == EIP_NO_INQUIRY && !size && out[0] == 9, "no inquiry");
    message[0] = 0x63;
    size = 77;
    check(eip_inquiry(&pump, message, 23, out, sizeof out, &size) == EIP_NO_INQUIRY && !size, "a short inquiry");
    check(eip_inquiry(&pump, NULL, 0, out, sizeof out, &size) == EIP_NO_INQUIRY && !size, "an inquiry of no bytes");
    pump.name = "a name of thirty-two bytes, here";
    check(eip_inquiry(&pump, message, 24, out, sizeof out, &size) == EIP_DONE && size == EIP_INQUIRY_ROOM && out[96] == 9,
          "the longest reply");
    pump.name = "a name of thirty-three bytes, see";
    size = 77;
    check(eip_inquiry(&pump, message, 24, out, sizeof out, &size) == EIP_LONG_NAME && size == 77, "a long name");
    pump.name = "";
    check(eip_inquiry(&pump, message, 24, out, sizeof out, &size) == EIP_DONE && size == 64, "no name");
    check(eip_inquiry(&pump, NULL, 24, out, sizeof out, &size) == EIP_NULL, "an inquiry NULL");
    check(eip_inquiry(&pump, message, 24, NULL, 1, &size) == EIP_NULL, "room NULL for an inquiry");
    check(eip_inquiry(&pump, message, 24, NULL, SIZE_MAX, &size) == EIP_NULL, "the longest room NULL for an inquiry");
    check(eip_inquiry(&pump, message, 24, out, sizeof out, NULL) == EIP_NULL, "a size NULL for an inquiry");
    check(eip_inquiry(NULL, message, 24, out, sizeof out, &size) == EIP_NULL, "an identity NULL");
    pump.name = NULL;
    check(eip_inquiry(&pump, message, 24, out, sizeof out, &size) == EIP_NULL && size == 64, "a name NULL");
}

static void check_room(eip_device *device)
{
    static const uint8_t four[4] = {1, 2, 3, 4};
    uint8_t out[64], other[64];
    size_t size = 0, again = 0, at = 0;
    eip_item item;
    memset(out, 9, sizeof out);
    check(eip_write(device, 100, four, 4, NULL, 0, &size) == EIP_KEPT_NO_ROOM && size == EIP_ITEM_HEAD, "no room");
    check(eip_answer(device, out, size - 1, &again) == EIP_KEPT_NO_ROOM && again == size && out[0] == 9, "a byte too little");
    check(eip_answer(device, out, size, &again) == EIP_DONE && again == size, "the very room");
    check(out[size] == 9, "a byte behind the answer");
    check(eip_answer(device, other, sizeof other, &again) == EIP_DONE && !memcmp(out, other, size), "an answer again");
    check(eip_next(out, size, &at, &item) && item.kind == EIP_ITEM_DONE && !item.size, "the item of a write");
    check(!eip_next(out, size, &at, &item) && at == size, "the end of an answer");
    check(eip_read(device, 100, out, 3, &size) == EIP_KEPT_NO_ROOM && size == 4, "a value without room");
    check(eip_read(device, 100, out, 4, &size) == EIP_DONE && !memcmp(out, four, 4), "the value that was written");
    check(eip_tick(device, 60001, out, 0, &size) == EIP_TICK_TOO_LONG, "a refused event");
    check(eip_answer(device, out, sizeof out, &again) == EIP_DONE && !memcmp(out, other, again), "the answer before it");
}

int main(void)
{
    eip_device device = {0};
    uint64_t number;
    uint8_t out[64];
    size_t size;
    uint32_t ms = 77;
    check_numbers();
    check_walk();
    check_inquiries();
    check_profiles();
    check(eip_new(&device, profile, strlen(profile), &number) == EIP_DONE && device.at, "a device");
    check_refusals(&device);
    check_wake(&device);
    check_ids(&device);
    check_null(&device);
    check_in_use(&device);
    check_room(&device);
    eip_free(&device);
    check(device.at == NULL && eip_tick(&device, 1, out, sizeof out, &size) == EIP_NULL, "a device that was freed");
    check(eip_next_wake(&device, &ms) == EIP_NULL && ms == 77, "the time of a device that was freed");
    check(eip_ids_left(&device, &ms) == EIP_NULL && ms == 77, "the ids of a device that was freed");
    eip_free(&device);
    return failed;
}
