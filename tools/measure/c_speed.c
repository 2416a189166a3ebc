/* Takes ten thousand datagrams through the library, each followed by a tick that sends one, so that a profiler can count what
 * one costs: c_speed. */
#include "eip.h"

#include <stdio.h>
#include <string.h>

enum { DATAGRAMS = 10000, PEER = (int)0xC0A80114 };

static const char profile[] = "adapter 16 192.168.1.10 255.255.255.0 1 12 7 2 3\noutput 150 4 zero zero\ninput 100 4\n"
                              "config 151 0\nheartbeat 152 153\n";

static const uint8_t open_request[] = {0x54, 0x02, 0x20, 0x06, 0x24, 0x01, 0x0a, 0x0e, 0x00, 0x00, 0x00, 0x00, 0x01,
                                       0x00, 0x00, 0x20, 0x01, 0x00, 0x34, 0x12, 0x78, 0x56, 0x34, 0x12, 0x02, 0x00,
                                       0x00, 0x00, 0x10, 0x27, 0x00, 0x00, 0x0a, 0x48, 0x10, 0x27, 0x00, 0x00, 0x06,
                                       0x48, 0x01, 0x04, 0x20, 0x04, 0x24, 0x97, 0x2c, 0x96, 0x2c, 0x64};

/* The datagram of this number, in run mode. */
static void number(uint8_t *bytes, uint32_t count)
{
    bytes[10] = (uint8_t)count;
    bytes[11] = (uint8_t)(count >> 8);
    bytes[18] = bytes[10];
    bytes[19] = bytes[11];
}

int main(void)
{
    uint8_t bytes[28] = {0x02, 0x00, 0x02, 0x80, 0x08, 0x00, 0x01, 0x00, 0x00, 0x10, 0x00, 0x00, 0x00, 0x00,
                         0xb1, 0x00, 0x0a, 0x00, 0x00, 0x00, 0x01, 0x00, 0x00, 0x00, 0x11, 0x22, 0x33, 0x44};
    uint8_t answer[1024];
    eip_device device = {0};
    uint64_t wrong;
    size_t size;
    uint32_t count, applied = 0;
    if (eip_new(&device, profile, strlen(profile), &wrong) != EIP_DONE)
        return 1;
    if (eip_request(&device, (uint32_t)PEER, open_request, sizeof open_request, answer, sizeof answer, &size) != EIP_DONE)
        return 1;
    for (count = 1; count <= DATAGRAMS; count++) {
        enum eip_delivery delivery;
        number(bytes, count);
        if (eip_datagram(&device, (uint32_t)PEER, bytes, sizeof bytes, &delivery) == EIP_DONE && delivery == EIP_APPLIED)
            applied++;
        if (eip_tick(&device, 10, answer, sizeof answer, &size) != EIP_DONE)
            return 1;
    }
    eip_free(&device);
    printf("%u\n", applied);
    return applied != DATAGRAMS;
}
