/* What a device knows of its connections and slots, at values worked by hand: prints each check that fails. c_states. */
#include "eip.h"

#include <stdio.h>
#include <string.h>

static const char adapter_profile[] = "adapter 16 192.168.1.10 255.255.255.0 1 12 7 2 3\noutput 150 4 zero zero\n"
                                      "input 100 4\nconfig 151 0\nheartbeat 152 153\n";
static const char scanner_profile[] = "scanner 32 192.168.1.20 4660 305419896 2000 3000\n"
                                      "slot 192.168.1.10 exclusive 151 150 100 4 4 30000 10000 2 p2p - -\n";

#define OWNER 0xC0A80114
#define TARGET 0xC0A8010A

/* An owner of output 150 opens: it sends each 10 ms, with a time-out of 160 ms, and the adapter each 20 ms. */
static const uint8_t open_request[] = {
    0x54, 0x02, 0x20, 0x06, 0x24, 0x01, 0x0a, 0x0e, 0x00, 0x00, 0x00, 0x00, 0x01, 0x00, 0x00, 0x20, 0x01,
    0x00, 0x34, 0x12, 0x78, 0x56, 0x34, 0x12, 0x02, 0x00, 0x00, 0x00, 0x10, 0x27, 0x00, 0x00, 0x0a, 0x48,
    0x20, 0x4e, 0x00, 0x00, 0x06, 0x48, 0x01, 0x04, 0x20, 0x04, 0x24, 0x97, 0x2c, 0x96, 0x2c, 0x64};

/* An input-only connection of input 100: heartbeats to 152 each 30 ms, the input each 50 ms to a group. */
static const uint8_t input_request[] = {
    0x54, 0x02, 0x20, 0x06, 0x24, 0x01, 0x0a, 0x0e, 0x00, 0x00, 0x00, 0x00, 0x00, 0x00, 0x00, 0x00, 0x02,
    0x00, 0x34, 0x12, 0x78, 0x56, 0x34, 0x12, 0x02, 0x00, 0x00, 0x00, 0x30, 0x75, 0x00, 0x00, 0x02, 0x48,
    0x50, 0xc3, 0x00, 0x00, 0x06, 0x28, 0x01, 0x04, 0x20, 0x04, 0x24, 0x97, 0x2c, 0x98, 0x2c, 0x64};

/* A listen-only connection of that group: heartbeats to 153 each 40 ms. */
static const uint8_t listen_request[] = {
    0x54, 0x02, 0x20, 0x06, 0x24, 0x01, 0x0a, 0x0e, 0x00, 0x00, 0x00, 0x00, 0x00, 0x00, 0x00, 0x00, 0x03,
    0x00, 0x34, 0x12, 0x78, 0x56, 0x34, 0x12, 0x02, 0x00, 0x00, 0x00, 0x40, 0x9c, 0x00, 0x00, 0x02, 0x48,
    0x50, 0xc3, 0x00, 0x00, 0x06, 0x28, 0x01, 0x04, 0x20, 0x04, 0x24, 0x97, 0x2c, 0x99, 0x2c, 0x64};

/* The reply to RegisterSession: session 1. */
static const uint8_t registered[28] = {0x65, 0, 4, 0, 1, [24] = 1};

/* The reply to the scanner's first Forward_Open: O->T id 0x10000001, T->O id 0x20000001, 30 ms to the target and 10 ms back. */
static const uint8_t opened[] = {
    0x6f, 0x00, 0x2e, 0x00, 0x01, 0x00, 0x00, 0x00, 0x00, 0x00, 0x00, 0x00, 0x01, 0x00, 0x00, 0x00, 0x00, 0x00,
    0x00, 0x00, 0x00, 0x00, 0x00, 0x00, 0x00, 0x00, 0x00, 0x00, 0x00, 0x00, 0x02, 0x00, 0x00, 0x00, 0x00, 0x00,
    0xb2, 0x00, 0x1e, 0x00, 0xd4, 0x00, 0x00, 0x00, 0x01, 0x00, 0x00, 0x10, 0x01, 0x00, 0x00, 0x20, 0x01, 0x00,
    0x34, 0x12, 0x78, 0x56, 0x34, 0x12, 0x30, 0x75, 0x00, 0x00, 0x10, 0x27, 0x00, 0x00, 0x00, 0x00};

/* The reply to its Forward_Close. */
static const uint8_t closed[] = {
    0x6f, 0x00, 0x1e, 0x00, 0x01, 0x00, 0x00, 0x00, 0x00, 0x00, 0x00, 0x00, 0x02, 0x00, 0x00, 0x00, 0x00, 0x00,
    0x00, 0x00, 0x00, 0x00, 0x00, 0x00, 0x00, 0x00, 0x00, 0x00, 0x00, 0x00, 0x02, 0x00, 0x00, 0x00, 0x00, 0x00,
    0xb2, 0x00, 0x0e, 0x00, 0xce, 0x00, 0x00, 0x00, 0x01, 0x00, 0x34, 0x12, 0x78, 0x56, 0x34, 0x12, 0x00, 0x00};

static int failed;
static uint8_t out[4096];
static size_t size;

static void check(int holds, const char *what)
{
    if (holds)
        return;
    printf("%s\n", what);
    failed = 1;
}

/* The owner's datagram of this number and count. */
static void owner_sends(eip_device *device, uint8_t number, uint8_t count, uint8_t run, enum eip_delivery as)
{
    uint8_t bytes[28] = {0x02, 0, 0x02, 0x80, 0x08, 0, 0x01, 0, 0, 0x10, 0, 0, 0, 0, 0xb1, 0, 0x0a};
    enum eip_delivery delivery;
    bytes[10] = number;
    bytes[18] = count;
    bytes[20] = run;
    memset(bytes + 24, 0x11, 4);
    check(eip_datagram(device, OWNER, bytes, sizeof bytes, &delivery) == EIP_DONE && delivery == as, "a delivery");
}

static void pass(eip_device *device, uint32_t ms)
{
    check(eip_tick(device, ms, out, sizeof out, &size) == EIP_DONE, "a tick");
}

/* Whether the owner of output 150 has this mode, and data of this age. */
static int is_owned(eip_device *device, uint32_t mode, uint32_t accepted, uint64_t age_ms)
{
    eip_connection_state owner;
    return eip_owner(device, 150, &owner) == EIP_DONE && owner.peer == OWNER && owner.kind == EIP_EXCLUSIVE_OWNER &&
           owner.consumed == 150 && owner.produced == 100 && owner.o_t_api_ms == 10 && owner.t_o_api_ms == 20 &&
           owner.mode == mode && owner.established == 1 && owner.accepted == accepted && owner.age_ms == age_ms;
}

static void check_owner(eip_device *device)
{
    eip_connection_state owner = {.age_ms = 77}, first;
    check(eip_owner(device, 150, &owner) == EIP_NO_CONNECTION && owner.age_ms == 77, "an output without an owner");
    check(eip_request(device, OWNER, open_request, sizeof open_request, out, sizeof out, &size) == EIP_DONE, "an opening");
    check(is_owned(device, EIP_NO_MODE, 0, 0), "an owner that has sent nothing");
    pass(device, 5);
    check(is_owned(device, EIP_NO_MODE, 0, 5), "its age since its opening");
    owner_sends(device, 1, 1, 1, EIP_APPLIED);
    check(is_owned(device, EIP_MODE_RUN, 1, 0), "an owner that runs");
    pass(device, 7);
    check(is_owned(device, EIP_MODE_RUN, 1, 7), "the age of its data");
    owner_sends(device, 2, 1, 0, EIP_DUPLICATE);
    check(is_owned(device, EIP_MODE_RUN, 1, 0), "an owner that repeats its data");
    owner_sends(device, 3, 2, 0, EIP_IDLE);
    check(is_owned(device, EIP_MODE_IDLE, 1, 0), "an owner that is idle");
    check(eip_connection(device, 0, &first) == EIP_DONE && eip_owner(device, 150, &owner) == EIP_DONE &&
              !memcmp(&first, &owner, sizeof first), "the first connection is the owner");
    check(eip_connection(device, 1, &first) == EIP_NO_CONNECTION, "a second connection");
    pass(device, 159);
    check(is_owned(device, EIP_MODE_IDLE, 1, 159), "a millisecond before its time-out");
    pass(device, 1);
    check(eip_owner(device, 150, &owner) == EIP_NO_CONNECTION, "an owner after its time-out");
    check(eip_connection(device, 0, &first) == EIP_DONE && !first.established && first.mode == EIP_MODE_IDLE &&
              first.age_ms == 160, "a connection that timed out");
}

/* Whether a connection of input 100 has this kind, the peer's point and these intervals. */
static int is_reader(eip_device *device, uint32_t place, uint32_t kind, uint32_t consumed, uint32_t o_t_ms)
{
    eip_connection_state it;
    return eip_connection(device, place, &it) == EIP_DONE && it.peer == OWNER && it.kind == kind && it.consumed == consumed &&
           it.produced == 100 && it.o_t_api_ms == o_t_ms && it.t_o_api_ms == 50 && it.established == 1;
}

/* Connections of the other kinds, which own nothing. */
static void check_kinds(eip_device *device)
{
    eip_connection_state owner;
    check(eip_request(device, OWNER, input_request, sizeof input_request, out, sizeof out, &size) == EIP_DONE, "an input-only opening");
    check(eip_request(device, OWNER, listen_request, sizeof listen_request, out, sizeof out, &size) == EIP_DONE, "a listen-only opening");
    check(is_reader(device, 0, EIP_INPUT_ONLY, 152, 30), "an input-only connection");
    check(is_reader(device, 1, EIP_LISTEN_ONLY, 153, 40), "a listen-only connection");
    check(eip_owner(device, 150, &owner) == EIP_NO_CONNECTION, "the owner of an output beside them");
}

/* Whether slot 0 is in this state, with data of this age. An established one sends each 30 ms, and its target each 10 ms. */
static int is_slot(eip_device *device, uint32_t state, uint32_t accepted, uint64_t age_ms)
{
    int established = state == EIP_SLOT_ESTABLISHED;
    eip_slot_report slot;
    return eip_slot(device, 0, &slot) == EIP_DONE && slot.state == state && slot.o_t_api_ms == (established ? 30u : 0u) &&
           slot.t_o_api_ms == (established ? 10u : 0u) && slot.accepted == accepted && slot.age_ms == age_ms;
}

/* The slot of a scanner begins to open. */
static void start_slot(eip_device *device)
{
    eip_start(device, 0, out, sizeof out, &size);
    eip_stream(device, 0, TARGET, out, sizeof out, &size);
    eip_frame(device, 0, registered, sizeof registered, out, sizeof out, &size);
    check(is_slot(device, EIP_SLOT_OPENING, 0, 0), "an opening slot");
}

static void check_slot(eip_device *device)
{
    static const uint8_t data[] = {0x02, 0, 0x02, 0x80, 0x08, 0,    0x01, 0,    0,    0x20, 0x01, 0,
                                   0,    0, 0xb1, 0,    0x06, 0x00, 0x01, 0x00, 0x11, 0x22, 0x33, 0x44};
    enum eip_delivery delivery;
    eip_slot_report slot = {.age_ms = 77};
    check(eip_slot(device, 1, &slot) == EIP_NO_SUCH_SLOT && slot.age_ms == 77, "no such slot");
    check(is_slot(device, EIP_SLOT_IDLE, 0, 0), "an idle slot");
    start_slot(device);
    eip_frame(device, 0, opened, sizeof opened, out, sizeof out, &size);
    check(is_slot(device, EIP_SLOT_ESTABLISHED, 0, 0), "an established slot");
    pass(device, 6);
    check(is_slot(device, EIP_SLOT_ESTABLISHED, 0, 6), "its age since its opening");
    check(eip_datagram(device, TARGET, data, sizeof data, &delivery) == EIP_DONE && delivery == EIP_APPLIED, "its data");
    pass(device, 12);
    check(is_slot(device, EIP_SLOT_ESTABLISHED, 1, 12), "the age of its data");
    pass(device, 148);
    check(is_slot(device, EIP_SLOT_TIMED_OUT, 0, 0), "a slot that timed out");
}

/* A slot that is stopped closes its connection, and is idle once that is answered. */
static void check_closing(eip_device *device)
{
    start_slot(device);
    eip_frame(device, 0, opened, sizeof opened, out, sizeof out, &size);
    check(is_slot(device, EIP_SLOT_ESTABLISHED, 0, 0), "a slot before it is stopped");
    eip_stop(device, 0, out, sizeof out, &size);
    check(is_slot(device, EIP_SLOT_CLOSING, 0, 0), "a closing slot");
    eip_frame(device, 0, closed, sizeof closed - 1, out, sizeof out, &size);
    check(is_slot(device, EIP_SLOT_CLOSING, 0, 0), "a closing slot after a message that is cut short");
    eip_frame(device, 0, closed, sizeof closed, out, sizeof out, &size);
    check(is_slot(device, EIP_SLOT_IDLE, 0, 0), "a slot whose close is answered");
}

/* The other kind of device, pointers NULL, and a device that was freed. */
static void check_others(eip_device *adapter, eip_device *scanner)
{
    eip_connection_state connection;
    eip_slot_report slot;
    check(eip_owner(scanner, 150, &connection) == EIP_NO_CONNECTION, "an output of a scanner");
    check(eip_connection(scanner, 0, &connection) == EIP_NO_CONNECTION, "a connection of a scanner");
    check(eip_slot(adapter, 0, &slot) == EIP_NO_SUCH_SLOT, "a slot of an adapter");
    check(eip_owner(adapter, 150, NULL) == EIP_NULL && eip_connection(adapter, 0, NULL) == EIP_NULL, "a connection NULL");
    check(eip_slot(scanner, 0, NULL) == EIP_NULL, "a slot NULL");
    eip_free(adapter);
    check(eip_owner(adapter, 150, &connection) == EIP_NULL, "the owner at a device that was freed");
}

int main(void)
{
    eip_device adapter = {0}, reading = {0}, scanner = {0}, other = {0};
    uint64_t number;
    check(eip_new(&adapter, adapter_profile, strlen(adapter_profile), &number) == EIP_DONE, "an adapter");
    check(eip_new(&reading, adapter_profile, strlen(adapter_profile), &number) == EIP_DONE, "another adapter");
    check(eip_new(&scanner, scanner_profile, strlen(scanner_profile), &number) == EIP_DONE, "a scanner");
    check(eip_new(&other, scanner_profile, strlen(scanner_profile), &number) == EIP_DONE, "another scanner");
    check_owner(&adapter);
    check_kinds(&reading);
    check_slot(&scanner);
    check_closing(&other);
    check_others(&adapter, &scanner);
    eip_free(&reading);
    eip_free(&scanner);
    eip_free(&other);
    return failed;
}
