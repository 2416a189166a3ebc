/* Peers that do not behave, at a remote I/O that serves another one all the same: prints each thing that is otherwise.
 *
 * c_peers ADDRESS TCP UDP: the device's address and ports. The owner of its output is 127.0.0.2. A peer at 127.0.0.3 floods it
 * with requests and reads no reply; one at 127.0.0.4 takes all its streams and says nothing. Where this machine kept the owner itself
 * from sending for its time-out, a line says that it was not tried whether the flood holds the device up. */
#define _POSIX_C_SOURCE 200809L

#include <arpa/inet.h>
#include <errno.h>
#include <poll.h>
#include <stdbool.h>
#include <stdint.h>
#include <stdio.h>
#include <stdlib.h>
#include <string.h>
#include <sys/socket.h>
#include <time.h>
#include <unistd.h>

enum { HEADER = 24, STREAMS = 8, MOST = 4096, OWNER = 0x7F000002, FLOODER = 0x7F000003, SILENT = 0x7F000004 };
enum { FEED_MS = 20, TIME_OUT_MS = 400, FLOOD_MS = 2000, LATE_MS = 3000, QUIET_MS = 1000, PATIENCE_MS = 20000 };

static const uint8_t register_session[] = {0x65, 0, 4, 0, 0, 0, 0, 0, 0, 0, 0, 0, 1, 2, 3, 4, 5, 6, 7, 8, 0, 0, 0, 0, 1, 0, 0, 0};
static const uint8_t list_services[HEADER] = {0x04};
static const uint8_t list_identity[HEADER] = {0x63};

/* SendRRData with a Forward_Open: O->T every 100 ms, a time-out of 400 ms, T->O every 10 ms. */
static uint8_t forward_open[] = {
    0x6f, 0x00, 0x42, 0x00, 0x00, 0x00, 0x00, 0x00, 0x00, 0x00, 0x00, 0x00, 0x01, 0x02, 0x03, 0x04, 0x05, 0x06, 0x07, 0x08,
    0x00, 0x00, 0x00, 0x00, 0x00, 0x00, 0x00, 0x00, 0x00, 0x00, 0x02, 0x00, 0x00, 0x00, 0x00, 0x00, 0xb2, 0x00, 0x32, 0x00,
    0x54, 0x02, 0x20, 0x06, 0x24, 0x01, 0x0a, 0x0e, 0x00, 0x00, 0x00, 0x00, 0x01, 0x00, 0x00, 0x20, 0x01, 0x00, 0x34, 0x12,
    0x78, 0x56, 0x34, 0x12, 0x00, 0x00, 0x00, 0x00, 0xa0, 0x86, 0x01, 0x00, 0x0a, 0x48, 0x10, 0x27, 0x00, 0x00, 0x06, 0x48,
    0x01, 0x04, 0x20, 0x04, 0x24, 0x97, 0x2c, 0x96, 0x2c, 0x64};
static uint8_t data[] = {0x02, 0x00, 0x02, 0x80, 0x08, 0x00, 0x00, 0x00, 0x00, 0x00, 0x00, 0x00, 0x00, 0x00,
                         0xb1, 0x00, 0x0a, 0x00, 0x00, 0x00, 0x01, 0x00, 0x00, 0x00, 0x11, 0x22, 0x33, 0x44};

static struct sockaddr_in device, device_udp;
static int failed;

static void wrong(const char *what)
{
    printf("%s\n", what);
    failed = 1;
}

static void fail(const char *what)
{
    printf("%s\n", what);
    exit(1);
}

static uint64_t now_ms(void)
{
    struct timespec time;
    clock_gettime(CLOCK_MONOTONIC, &time);
    return (uint64_t)time.tv_sec * 1000 + (uint64_t)time.tv_nsec / 1000000;
}

static struct sockaddr_in address(uint32_t node, uint16_t port)
{
    struct sockaddr_in to;
    memset(&to, 0, sizeof to);
    to.sin_family = AF_INET;
    to.sin_port = htons(port);
    to.sin_addr.s_addr = htonl(node);
    return to;
}

static int bound(int type, uint32_t node, uint16_t port)
{
    struct sockaddr_in at = address(node, port);
    int fd = socket(AF_INET, type, 0);
    if (fd < 0 || bind(fd, (struct sockaddr *)&at, sizeof at))
        fail("no socket for a peer");
    return fd;
}

/* A stream to the device, which has a small buffer for what comes. */
static int stream(uint32_t node)
{
    uint64_t begin = now_ms();
    int little = 4096;
    while (now_ms() - begin < PATIENCE_MS) {
        struct timespec pause = {0, 10000000};
        int fd = bound(SOCK_STREAM, node, 0);
        setsockopt(fd, SOL_SOCKET, SO_RCVBUF, &little, sizeof little);
        if (!connect(fd, (struct sockaddr *)&device, sizeof device))
            return fd;
        close(fd);
        nanosleep(&pause, NULL);
    }
    fail("the device does not listen");
    return -1;
}

static bool comes(int fd, int ms)
{
    struct pollfd one;
    one.fd = fd;
    one.events = POLLIN;
    return poll(&one, 1, ms) == 1;
}

/* Sends a message, and reads its reply: its status, or -1 if the stream ends. */
static long asked(int fd, const uint8_t *message, size_t size, uint8_t *reply)
{
    size_t got = 0, wanted = HEADER;
    if (send(fd, message, size, MSG_NOSIGNAL) != (ssize_t)size)
        return -1;
    while (got < wanted) {
        ssize_t more = comes(fd, PATIENCE_MS) ? recv(fd, reply + got, wanted - got, 0) : -1;
        if (more <= 0)
            return -1;
        got += (size_t)more;
        if (got == HEADER)
            wanted = HEADER + (size_t)(reply[2] | reply[3] << 8);
        if (wanted > MOST)
            return -1;
    }
    return (long)(reply[8] | reply[9] << 8);
}

/* A stream with a session, whose handle is in the reply. */
static int session(uint32_t node, uint8_t *reply)
{
    int fd = stream(node);
    if (asked(fd, register_session, sizeof register_session, reply))
        fail("a session is not given");
    return fd;
}

/* Opens the owner's connection. */
static void open_connection(int fd, const uint8_t *handle)
{
    static uint8_t reply[MOST];
    memcpy(forward_open + 4, handle, 4);
    if (asked(fd, forward_open, sizeof forward_open, reply) || reply[42])
        fail("a connection is not opened");
    memcpy(data + 6, reply + 44, 4);
}

/* The owner sends its data, and takes what comes: whether something came. */
static bool feed(int udp)
{
    static uint32_t count;
    uint8_t bytes[1500];
    bool came = false;
    count++;
    memcpy(data + 10, &count, 4);
    memcpy(data + 18, &count, 2);
    sendto(udp, data, sizeof data, 0, (struct sockaddr *)&device_udp, sizeof device_udp);
    while (recv(udp, bytes, sizeof bytes, MSG_DONTWAIT) > 0)
        came = true;
    return came;
}

/* Sends as many requests as the stream takes now. Whether it is open. */
static bool flood(int fd)
{
    static uint8_t many[1000 * HEADER];
    static size_t at;
    size_t i;
    int turns;
    for (i = 0; i < sizeof many; i += HEADER)
        memcpy(many + i, list_services, HEADER);
    for (turns = 0; turns < 100; turns++) {
        ssize_t sent = send(fd, many + at, sizeof many - at, MSG_NOSIGNAL | MSG_DONTWAIT);
        if (sent < 0)
            return errno == EAGAIN || errno == EWOULDBLOCK;
        at = (at + (size_t)sent) % sizeof many;
    }
    return true;
}

/* While a peer floods the device and reads nothing, the owner is served. The flooder's stream ends. */
static void check_flood(int udp)
{
    static uint8_t reply[MOST];
    int fd = session(FLOODER, reply);
    uint64_t begin = now_ms(), last = begin, latest = 0, fed = begin, silent = 0;
    bool open = true;
    while (now_ms() - begin < FLOOD_MS || (open && now_ms() - begin < PATIENCE_MS)) {
        struct timespec pause = {0, FEED_MS * 1000000L};
        open = open && flood(fd);
        nanosleep(&pause, NULL);
        if (feed(udp))
            last = now_ms();
        if (now_ms() - fed > silent)
            silent = now_ms() - fed;
        fed = now_ms();
        if (now_ms() - last > latest)
            latest = now_ms() - last;
    }
    if (open)
        wrong("a peer that does not read keeps its stream");
    if (silent >= TIME_OUT_MS)
        printf("not tried: this machine kept the owner from sending for %u ms\n", (unsigned)silent);
    else if (latest > LATE_MS)
        wrong("a peer that does not read holds the device up");
    close(fd);
}

/* Without the owner's data its connection times out, and the device sends no more. */
static void check_watchdog(int udp)
{
    uint8_t bytes[1500];
    uint64_t begin = now_ms();
    while (comes(udp, QUIET_MS)) {
        recv(udp, bytes, sizeof bytes, MSG_DONTWAIT);
        if (now_ms() - begin > PATIENCE_MS) {
            wrong("a connection without data does not time out");
            return;
        }
    }
}

/* Streams that say nothing make room for one that does. */
static void check_silent(void)
{
    static uint8_t reply[MOST];
    int fds[STREAMS], i, fd;
    for (i = 0; i < STREAMS; i++)
        fds[i] = stream(SILENT);
    fd = session(OWNER, reply);
    close(fd);
    for (i = 0; i < STREAMS; i++)
        close(fds[i]);
}

/* An inquiry is answered with the device's address and port. */
static void check_inquiry(void)
{
    uint8_t reply[1500];
    int udp = bound(SOCK_DGRAM, OWNER, 0);
    sendto(udp, list_identity, sizeof list_identity, 0, (struct sockaddr *)&device, sizeof device);
    if (!comes(udp, PATIENCE_MS) || recv(udp, reply, sizeof reply, 0) < 64 || reply[0] != 0x63 ||
        memcmp(reply + 34, &device.sin_port, 2) || memcmp(reply + 36, &device.sin_addr, 4))
        wrong("an inquiry is not answered with the device's address");
    close(udp);
}

int main(int count, char **words)
{
    static uint8_t reply[MOST];
    int udp, owner;
    if (count != 4)
        fail("c_peers ADDRESS TCP UDP");
    device = address(ntohl(inet_addr(words[1])), (uint16_t)atoi(words[2]));
    device_udp = address(ntohl(inet_addr(words[1])), (uint16_t)atoi(words[3]));
    udp = bound(SOCK_DGRAM, OWNER, (uint16_t)atoi(words[3]));
    owner = session(OWNER, reply);
    open_connection(owner, reply + 4);
    check_flood(udp);
    check_watchdog(udp);
    close(owner);
    check_silent();
    check_inquiry();
    owner = session(OWNER, reply);
    open_connection(owner, reply + 4);
    if (!comes(udp, PATIENCE_MS))
        wrong("a connection that is opened again sends nothing");
    close(owner);
    close(udp);
    return failed;
}
