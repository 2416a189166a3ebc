/* A gateway on real sockets between a controller and a field device: 4 bytes of outputs, and 4 of inputs. An adapter serves the
 * controller, a scanner opens the field device. One thread and one poll(2), and nothing else waits.
 *
 * The controller's input has 5 bytes: a status, and the field device's input. The status is 1 while the field device sends, and
 * else 0: then the 4 bytes are its last ones. The field device runs while a controller owns the output and runs, else it is idle.
 *
 * gateway ADDRESS FIELD INCARNATION [TCP UDP]: its own IPv4 address and the field device's; a number from 1 to 255, another one at
 * each start (remote_io.c counts its starts in a file); ports other than 44818 and 2222. */
#define _POSIX_C_SOURCE 200809L
#include "eip.h"

#include <arpa/inet.h>
#include <errno.h>
#include <fcntl.h>
#include <poll.h>
#include <stdio.h>
#include <stdlib.h>
#include <string.h>
#include <sys/socket.h>
#include <time.h>
#include <unistd.h>

/* The streams of controllers, and that to the field device, a listener, and a socket for datagrams. */
enum { STREAMS = 8, FIELD = STREAMS, LISTENER, UDP, SOCKETS };
enum { OUTPUT = 150, INPUT = 100, SLOT = 0, HEADER = 24, DIAL_MS = 1000, LONGEST_TICK_MS = 60000 };
#define END_OF(STREAM) ((STREAM) == FIELD ? &scanner : &adapter)
#define OUT answer, sizeof answer, &size
static eip_device adapter, scanner;
static struct pollfd sockets[SOCKETS];
static struct stream { size_t size; uint8_t bytes[HEADER + 65535]; } streams[STREAMS + 1]; /* a message that is not whole yet */
static uint8_t answer[1 << 17]; /* larger than any answer of these profiles */
static size_t size;
static uint32_t node, field;
static uint16_t tcp_port = 44818, udp_port = 2222;
static uint64_t now, dialled; /* the last reading of the clock, and when the field device was called last, in ms */

static struct sockaddr_in address(uint32_t of, uint16_t port)
{
    return (struct sockaddr_in){.sin_family = AF_INET, .sin_port = htons(port), .sin_addr = {htonl(of)}};
}

/* A socket at this port of which no call waits, or -1. */
static int bound(int type, uint16_t port)
{
    struct sockaddr_in at = address(node, port);
    int fd = socket(AF_INET, type, 0), on = type == SOCK_STREAM;
    if (fd >= 0 && !fcntl(fd, F_SETFL, O_NONBLOCK) && !setsockopt(fd, SOL_SOCKET, SO_REUSEADDR, &on, sizeof on) &&
        !bind(fd, (struct sockaddr *)&at, sizeof at))
        return fd;
    return close(fd), -1;
}

static void hang_up(uint32_t number)
{
    close(sockets[number].fd);
    sockets[number].fd = -1;
}

/* What every event of either device ends with: sends what its answer says. Whether the event happened. A stream that does not take
 * its bytes now ends, and that to the field device if its connection timed out: without power it would not end by itself. */
static bool done(uint32_t status)
{
    eip_item item;
    size_t at = 0;
    while (status == EIP_DONE && eip_next(answer, size, &at, &item)) {
        struct sockaddr_in to = address(item.a, udp_port);
        if (item.kind == EIP_ITEM_FRAME &&
            send(sockets[item.a].fd, item.bytes, item.size, MSG_NOSIGNAL | MSG_DONTWAIT) != (ssize_t)item.size)
            shutdown(sockets[item.a].fd, SHUT_RDWR);
        if (item.kind == EIP_ITEM_DATAGRAM)
            sendto(sockets[UDP].fd, item.bytes, item.size, MSG_DONTWAIT, (struct sockaddr *)&to, sizeof to);
        if (item.kind == EIP_ITEM_STREAM_CLOSED)
            hang_up(item.a);
        if (item.kind == EIP_ITEM_SLOT && item.b == EIP_SLOT_TIMED_OUT)
            shutdown(sockets[FIELD].fd, SHUT_RDWR);
    }
    return status == EIP_DONE;
}

/* A stream is open at this socket. */
static void opened(uint16_t number, int fd, uint32_t peer)
{
    sockets[number].fd = fd;
    sockets[number].events = POLLIN;
    streams[number].size = 0;
    if (!done(eip_stream(END_OF(number), number, peer, OUT)))
        hang_up(number);
}

/* Takes a stream of a controller. The places are taken in turn, so the oldest stream makes room. */
static void accept_stream(void)
{
    static uint16_t place;
    struct sockaddr_in peer;
    socklen_t len = sizeof peer;
    int fd = accept(sockets[LISTENER].fd, (struct sockaddr *)&peer, &len);
    if (fd < 0)
        return;
    place = (uint16_t)((place + 1) % STREAMS);
    hang_up(place), done(eip_cut(&adapter, place, OUT));
    opened(place, fd, ntohl(peer.sin_addr.s_addr));
}

/* Begins to open the stream to the field device. It is open when it can be written. */
static void dial(void)
{
    struct sockaddr_in to = address(field, tcp_port);
    hang_up(FIELD);
    dialled = now;
    sockets[FIELD].fd = bound(SOCK_STREAM, 0);
    sockets[FIELD].events = POLLOUT;
    if (connect(sockets[FIELD].fd, (struct sockaddr *)&to, sizeof to) && errno != EINPROGRESS)
        hang_up(FIELD);
}

/* Reads one message of a stream at most, so that all have their turn. */
static void read_stream(uint16_t number)
{
    struct stream *from = &streams[number];
    size_t wanted = from->size < HEADER ? HEADER : HEADER + (size_t)(from->bytes[2] | from->bytes[3] << 8);
    ssize_t got = recv(sockets[number].fd, from->bytes + from->size, wanted - from->size, MSG_DONTWAIT);
    if (got == 0 || (got < 0 && errno != EAGAIN && errno != EINTR))
        hang_up(number), done(eip_cut(END_OF(number), number, OUT));
    if (got <= 0)
        return;
    from->size += (size_t)got;
    wanted = HEADER + (size_t)(from->bytes[2] | from->bytes[3] << 8);
    if (from->size < HEADER || from->size < wanted)
        return;
    from->size = 0;
    done(eip_frame(END_OF(number), number, from->bytes, wanted, OUT));
}

/* A datagram of the field device is for the scanner, another one for the adapter. */
static void read_datagram(void)
{
    static uint8_t bytes[1500];
    struct sockaddr_in peer = {0};
    socklen_t len = sizeof peer;
    ssize_t got = recvfrom(sockets[UDP].fd, bytes, sizeof bytes, MSG_DONTWAIT, (struct sockaddr *)&peer, &len);
    uint32_t from = ntohl(peer.sin_addr.s_addr);
    enum eip_delivery delivery;
    if (got >= 0)
        eip_datagram(from == field ? &scanner : &adapter, from, bytes, (size_t)got, &delivery);
}

/* The controller's input: whether the field device sends, and its newest data. An equal value is no new data. */
static void carry_up(void)
{
    static uint8_t shown[5];
    uint8_t value[5];
    size_t len = 0;
    eip_slot_report slot;
    value[0] = eip_slot(&scanner, SLOT, &slot) == EIP_DONE && slot.state == EIP_SLOT_ESTABLISHED && slot.accepted;
    if (eip_read(&scanner, SLOT, value + 1, 4, &len) == EIP_DONE && memcmp(value, shown, sizeof value) &&
        done(eip_write(&adapter, INPUT, value, sizeof value, OUT)))
        memcpy(shown, value, sizeof value);
}

/* The field device's output and mode. It never runs with other data than the controller's newest. */
static void carry_down(void)
{
    static uint8_t sent[4];
    static bool running;
    uint8_t value[4];
    size_t len = 0;
    eip_connection_state owner;
    bool run = eip_owner(&adapter, OUTPUT, &owner) == EIP_DONE && owner.mode == EIP_MODE_RUN;
    if (eip_read(&adapter, OUTPUT, value, sizeof value, &len) != EIP_DONE ||
        (memcmp(value, sent, sizeof value) && !done(eip_write(&scanner, SLOT, value, len, OUT))))
        run = false;
    else
        memcpy(sent, value, sizeof value);
    if (run != running && done(eip_mode(&scanner, run, OUT)))
        running = run;
}

/* Time passes at a device as it passes here, a pause of any length too. */
static void pass(eip_device *device, uint64_t *reached)
{
    *reached = *reached ? *reached : now;
    for (uint64_t ms; *reached < now; *reached += ms) {
        ms = now - *reached < LONGEST_TICK_MS ? now - *reached : LONGEST_TICK_MS;
        if (!done(eip_tick(device, (uint32_t)ms, OUT)))
            return;
    }
}

static void turn(void)
{
    static uint64_t reached[2];
    struct timespec time;
    clock_gettime(CLOCK_MONOTONIC, &time);
    now = (uint64_t)time.tv_sec * 1000 + (uint64_t)time.tv_nsec / 1000000;
    pass(&adapter, &reached[0]);
    pass(&scanner, &reached[1]);
    if (sockets[UDP].revents)
        read_datagram();
    for (uint16_t i = 0; i <= FIELD; i++)
        if (sockets[i].fd >= 0 && sockets[i].revents && sockets[i].events == POLLOUT)
            opened(i, sockets[i].fd, field);
        else if (sockets[i].fd >= 0 && sockets[i].revents)
            read_stream(i);
    if ((sockets[FIELD].fd < 0 || sockets[FIELD].events == POLLOUT) && now - dialled >= DIAL_MS)
        dial();
    if (sockets[LISTENER].revents)
        accept_stream();
    carry_up();
    carry_down();
}

/* For how many milliseconds nothing is to be done. */
static int idle_ms(void)
{
    uint32_t own = 0, other = 0;
    eip_next_wake(&adapter, &own);
    eip_next_wake(&scanner, &other);
    own = other < own ? other : own;
    return own < DIAL_MS ? (int)own : DIAL_MS;
}

int main(int count, char **words)
{
    char profile[512];
    uint64_t wrong;
    if (count < 4)
        return fputs("usage: gateway ADDRESS FIELD INCARNATION [TCP UDP]\n", stderr), 2;
    node = ntohl(inet_addr(words[1]));
    field = ntohl(inet_addr(words[2]));
    if (count > 5)
        tcp_port = (uint16_t)atoi(words[4]), udp_port = (uint16_t)atoi(words[5]);
    snprintf(profile, sizeof profile, "adapter %s %s 255.255.255.0 0 12 8 1 1\noutput 150 4 zero zero\ninput 100 5\n"
             "config 151 0\nheartbeat 152 153\n", words[3], words[1]);
    if (eip_new(&adapter, profile, strlen(profile), &wrong) != EIP_DONE)
        return fputs("no adapter\n", stderr), 1;
    snprintf(profile, sizeof profile, "scanner %s %s 0 1 2000 1000\nslot %s exclusive 151 150 100 4 4 10000 10000 2 p2p - -\n",
             words[3], words[1], words[2]);
    if (eip_new(&scanner, profile, strlen(profile), &wrong) != EIP_DONE || !done(eip_start(&scanner, SLOT, OUT)))
        return fputs("no scanner\n", stderr), 1;
    for (uint16_t i = 0; i < SOCKETS; i++)
        sockets[i].fd = -1, sockets[i].events = POLLIN;
    sockets[LISTENER].fd = bound(SOCK_STREAM, tcp_port);
    sockets[UDP].fd = bound(SOCK_DGRAM, udp_port);
    if (sockets[UDP].fd < 0 || listen(sockets[LISTENER].fd, STREAMS))
        return perror("a socket"), 1;
    do
        turn();
    while (poll(sockets, SOCKETS, idle_ms()) >= 0 || errno == EINTR);
    return perror("poll"), 1;
}
