/* A remote I/O on real sockets: 4 bytes of outputs, which stand at its inputs again. One thread and one poll(2), and nothing
 * else waits: no peer, reader or disk stops the device.
 *
 * remote_io ADDRESS [TCP UDP [STATE]]: its own IPv4 address, ports other than 44818 and 2222, and the file that counts its
 * starts, remote_io.state if it is left out. */
#define _POSIX_C_SOURCE 200809L
#include "eip.h"

#include <arpa/inet.h>
#include <errno.h>
#include <fcntl.h>
#include <netinet/in.h>
#include <netinet/tcp.h>
#include <poll.h>
#include <stdarg.h>
#include <stdio.h>
#include <stdlib.h>
#include <string.h>
#include <sys/socket.h>
#include <time.h>
#include <unistd.h>

enum { STREAMS = 8, LISTENER = STREAMS, UDP, INQUIRIES, BROADCASTS, SOCKETS, OUTPUT = 150, INPUT = 100, HEADER = 24 };
enum { REGISTER_SESSION = 0x65, SILENCE_MS = 120000, LONGEST_TICK_MS = 60000 };

static eip_device device;
static uint32_t node;
static uint16_t tcp_port = 44818;
static const char *starts = "remote_io.state"; /* the file that counts the starts */
static bool is_reset; /* whether a peer has requested a reset: the life ends */
static struct pollfd sockets[SOCKETS];
static struct stream {
    bool session, stuck; /* whether it has a session; whether it did not take its bytes */
    uint64_t heard;      /* when its last whole message came */
    size_t size;         /* of the message that is not whole yet */
    uint8_t bytes[HEADER + 65535];
} streams[STREAMS];
static uint8_t answer[1 << 17];
static size_t size;
static uint16_t udp_port = 2222;
static uint64_t now; /* the moment that the device has reached, in ms */
static uint64_t last; /* the last reading of the clock, in ms */
static struct sockaddr_in asker; /* where the last inquiry came from */
static uint8_t shown[4]; /* what stands at the inputs */

/* Writes a line on standard error, unless that would wait for its reader. */
static void say(const char *text, ...)
{
    struct pollfd err = {STDERR_FILENO, POLLOUT, 0};
    va_list words;
    va_start(words, text);
    if (poll(&err, 1, 0) == 1 && err.revents == POLLOUT)
        vfprintf(stderr, text, words);
    va_end(words);
}

static void fail(const char *what)
{
    perror(what);
    exit(1);
}

/* Counts the starts in a file, and answers the new count: 1 to 255, and 1 again. So the ids of two lives in a row differ, and
 * nothing of the last one is taken for this one. The count is on the disk before the first socket opens. */
static unsigned counted(const char *name)
{
    char fresh[4096];
    unsigned count = 0;
    FILE *file = fopen(name, "r");
    if (!file && errno != ENOENT)
        fail(name);
    if (file && (fscanf(file, "incarnation %u", &count) != 1 || count < 1 || count > 255))
        errno = EINVAL, fail(name);
    if (file)
        fclose(file);
    count = count % 255 + 1;
    snprintf(fresh, sizeof fresh, "%s.new", name);
    file = fopen(fresh, "w");
    /* (the second fsync is for the new name) */
    if (!file || fprintf(file, "incarnation %u\n", count) < 0 || fflush(file) || fsync(fileno(file)) ||
        rename(fresh, name) || fsync(fileno(file)) || fclose(file))
        fail(fresh);
    return count;
}

static struct sockaddr_in address(uint32_t node, uint16_t port)
{
    struct sockaddr_in to = {0};
    to.sin_family = AF_INET;
    to.sin_port = htons(port);
    to.sin_addr.s_addr = htonl(node);
    return to;
}

/* A socket of which no call waits, or -1. */
static int bound(int type, uint32_t node, uint16_t port)
{
    struct sockaddr_in at = address(node, port);
    int fd = socket(AF_INET, type, 0), on = 1;
    if (fd >= 0 && !fcntl(fd, F_SETFL, O_NONBLOCK) &&
        (type == SOCK_DGRAM || !setsockopt(fd, SOL_SOCKET, SO_REUSEADDR, &on, sizeof on)) &&
        !bind(fd, (struct sockaddr *)&at, sizeof at) && (type == SOCK_DGRAM || !listen(fd, STREAMS)))
        return fd;
    if (fd >= 0)
        close(fd);
    return -1;
}

static void hang_up(uint32_t number)
{
    if (number >= STREAMS || sockets[number].fd < 0)
        return;
    close(sockets[number].fd);
    sockets[number].fd = -1;
}

/* Sends a frame. A peer that does not take it whole now is as one that went away: `end_streams` ends its stream. */
static void send_frame(const eip_item *item)
{
    struct stream *to = &streams[item->a];
    if (send(sockets[item->a].fd, item->bytes, item->size, MSG_NOSIGNAL | MSG_DONTWAIT) != (ssize_t)item->size)
        to->stuck = true;
    else if (item->bytes[0] == REGISTER_SESSION && !eip_number(item->bytes + 8))
        to->session = true;
}

/* Sends what an answer says. */
static void carry_out(void)
{
    eip_item item;
    size_t at = 0;
    while (eip_next(answer, size, &at, &item)) {
        if (item.kind == EIP_ITEM_FRAME)
            send_frame(&item);
        if (item.kind == EIP_ITEM_DATAGRAM) {
            struct sockaddr_in to = address(item.a, udp_port);
            sendto(sockets[UDP].fd, item.bytes, item.size, MSG_DONTWAIT, (struct sockaddr *)&to, sizeof to);
        }
        if (item.kind == EIP_ITEM_STREAM_CLOSED)
            hang_up(item.a);
        if (item.kind == EIP_ITEM_REPLY)
            sendto(sockets[INQUIRIES].fd, item.bytes, item.size, MSG_DONTWAIT, (struct sockaddr *)&asker, sizeof asker);
        if (item.kind == EIP_ITEM_RESET) {
            say("reset %u\n", item.a);
            is_reset = true;
        }
        if (item.kind == EIP_ITEM_OPENED || item.kind == EIP_ITEM_EXPIRED)
            say("%s %u\n", item.kind == EIP_ITEM_OPENED ? "opened" : "expired", item.a);
    }
}

/* What every event ends with. The room is larger than any answer of this profile. Whether the event happened. */
static bool done(uint32_t status)
{
    if (status == EIP_DONE)
        carry_out();
    else
        say("status %u\n", status);
    return status == EIP_DONE;
}

/* A stream ends. The connections that were opened over it live on, until their own time-out. */
static void cut(uint16_t number)
{
    hang_up(number);
    done(eip_cut(&device, number, answer, sizeof answer, &size));
}

/* Ends each stream that did not take its bytes, and each over which no whole message came for two minutes. */
static void end_streams(void)
{
    uint16_t i;
    for (i = 0; i < STREAMS; i++)
        if (sockets[i].fd >= 0 && (streams[i].stuck || now - streams[i].heard >= SILENCE_MS))
            cut(i);
}

/* The place of a new stream. If all are taken, the stream that was silent longest without a session makes room. */
static uint16_t place(void)
{
    uint16_t i, silent = STREAMS;
    for (i = 0; i < STREAMS; i++) {
        if (sockets[i].fd < 0)
            return i;
        if (!streams[i].session && (silent == STREAMS || streams[i].heard < streams[silent].heard))
            silent = i;
    }
    if (silent < STREAMS)
        cut(silent);
    return silent;
}

static void accept_stream(void)
{
    struct sockaddr_in peer;
    socklen_t len = sizeof peer;
    int fd = accept(sockets[LISTENER].fd, (struct sockaddr *)&peer, &len), on = 1;
    uint16_t number = fd < 0 ? STREAMS : place();
    if (number < STREAMS) {
        /* (a reply leaves at once, and waits for no acknowledgement of the one before) */
        setsockopt(fd, IPPROTO_TCP, TCP_NODELAY, &on, sizeof on);
        sockets[number].fd = fd;
        streams[number].session = streams[number].stuck = false;
        streams[number].heard = now;
        streams[number].size = 0;
        if (!done(eip_stream(&device, number, ntohl(peer.sin_addr.s_addr), answer, sizeof answer, &size)))
            hang_up(number);
    } else if (fd >= 0)
        close(fd);
}

/* The size of a stream's message, of which its header is known. */
static size_t whole(const struct stream *from)
{
    return HEADER + (size_t)(from->bytes[2] | from->bytes[3] << 8);
}

/* Reads one message of a stream at most, so that all have their turn. */
static void read_stream(uint16_t number)
{
    struct stream *from = &streams[number];
    size_t wanted = from->size < HEADER ? HEADER : whole(from);
    ssize_t got = recv(sockets[number].fd, from->bytes + from->size, wanted - from->size, MSG_DONTWAIT);
    if (got < 0 && (errno == EAGAIN || errno == EWOULDBLOCK || errno == EINTR))
        return;
    if (got <= 0) {
        cut(number);
        return;
    }
    from->size += (size_t)got;
    if (from->size < HEADER || from->size < whole(from))
        return;
    wanted = from->size;
    from->size = 0;
    from->heard = now;
    done(eip_frame(&device, number, from->bytes, wanted, answer, sizeof answer, &size));
}

static void read_datagram(void)
{
    static uint8_t bytes[1500];
    struct sockaddr_in peer;
    socklen_t len = sizeof peer;
    ssize_t got = recvfrom(sockets[UDP].fd, bytes, sizeof bytes, MSG_DONTWAIT, (struct sockaddr *)&peer, &len);
    enum eip_delivery delivery;
    if (got >= 0)
        eip_datagram(&device, ntohl(peer.sin_addr.s_addr), bytes, (size_t)got, &delivery);
}

/* A peer inquires which device this is. */
static void read_inquiry(int fd)
{
    uint8_t bytes[1500];
    socklen_t len = sizeof asker;
    ssize_t got = recvfrom(fd, bytes, sizeof bytes, MSG_DONTWAIT, (struct sockaddr *)&asker, &len);
    if (got >= 0)
        done(eip_inquire(&device, ntohl(asker.sin_addr.s_addr), bytes, (size_t)got, answer, sizeof answer, &size));
}

/* The outputs stand at the inputs. */
static void copy_outputs(void)
{
    uint8_t value[4];
    size_t len = 0;
    if (eip_read(&device, OUTPUT, value, sizeof value, &len) == EIP_DONE && memcmp(value, shown, sizeof value) &&
        done(eip_write(&device, INPUT, value, len, answer, sizeof answer, &size)))
        memcpy(shown, value, sizeof value);
}

static uint64_t now_ms(void)
{
    struct timespec time;
    clock_gettime(CLOCK_MONOTONIC, &time);
    return (uint64_t)time.tv_sec * 1000 + (uint64_t)time.tv_nsec / 1000000;
}

/* Time passes at the device as it passes here, a pause of any length too. A clock that goes back costs that step alone. */
static void pass(void)
{
    uint64_t reading = now_ms();
    if (reading < last)
        last = reading;
    while (last < reading) {
        uint64_t ms = reading - last < LONGEST_TICK_MS ? reading - last : LONGEST_TICK_MS;
        if (!done(eip_tick(&device, (uint32_t)ms, answer, sizeof answer, &size)))
            return;
        now += ms;
        last += ms;
    }
}

/* For how many milliseconds nothing is to be done. */
static int idle_ms(void)
{
    uint32_t ms = 0;
    uint16_t i;
    eip_next_wake(&device, &ms);
    for (i = 0; i < STREAMS; i++)
        if (sockets[i].fd >= 0 && streams[i].heard + SILENCE_MS - now < ms)
            ms = (uint32_t)(streams[i].heard + SILENCE_MS - now);
    return (int)ms;
}

/* A life begins: a device of the next incarnation, whose points are zeros. */
static void begin(void)
{
    /* The vendor number is nobody's: a maker gets its own from ODVA (odva.org), and gives each device its own serial number.
     * The name is "Remote I/O example"; the inactivity time-out, 120 s, is SILENCE_MS. */
    static const char points[] = "output 150 4 zero zero\ninput 100 4\nconfig 151 0\n";
    static const char name[] = "52656d6f746520492f4f206578616d706c65";
    char profile[320];
    uint64_t wrong = 0;
    uint32_t status;
    int len = snprintf(profile, sizeof profile,
                       "adapter %u %u.%u.%u.%u 255.255.255.0 0 12 7 2 3\n%s"
                       "describe 1 %s %u 100 15 000000000000 120\nheartbeat 152 153\n",
                       counted(starts), node >> 24, node >> 16 & 255, node >> 8 & 255, node & 255, points, name, tcp_port);
    status = eip_new(&device, profile, (size_t)len, &wrong);
    if (status != EIP_DONE) {
        fprintf(stderr, "no device: status %u, number %lu\n", status, (unsigned long)wrong);
        exit(1);
    }
    memset(shown, 0, sizeof shown);
    now = last = now_ms();
}

/* A life ends after a reset as by a power cut: the streams end, and so do all connections. No output has an owner then, since the
 * device refuses a reset that would take one away. A maker of settings forgets them here, if the reset's type is 1. */
static void begin_again(void)
{
    uint16_t i;
    for (i = 0; i < STREAMS; i++)
        hang_up(i);
    eip_free(&device);
    is_reset = false;
    begin();
}

static void turn(void)
{
    uint16_t i;
    pass();
    if (sockets[UDP].revents)
        read_datagram();
    for (i = 0; i < STREAMS && !is_reset; i++)
        if (sockets[i].fd >= 0 && sockets[i].revents)
            read_stream(i);
    if (is_reset) {
        begin_again();
        return;
    }
    for (i = INQUIRIES; i <= BROADCASTS; i++)
        if (sockets[i].revents)
            read_inquiry(sockets[i].fd);
    end_streams();
    if (sockets[LISTENER].revents)
        accept_stream();
    copy_outputs();
}

int main(int count, char **words)
{
    uint16_t i;
    node = count > 1 ? ntohl(inet_addr(words[1])) : INADDR_LOOPBACK;
    tcp_port = count > 3 ? (uint16_t)atoi(words[2]) : tcp_port;
    udp_port = count > 3 ? (uint16_t)atoi(words[3]) : udp_port;
    starts = count > 4 ? words[4] : starts;
    begin();
    for (i = 0; i < SOCKETS; i++)
        sockets[i].fd = -1, sockets[i].events = POLLIN;
    sockets[LISTENER].fd = bound(SOCK_STREAM, node, tcp_port);
    sockets[UDP].fd = bound(SOCK_DGRAM, node, udp_port);
    sockets[INQUIRIES].fd = bound(SOCK_DGRAM, node, tcp_port);
    if (sockets[LISTENER].fd < 0 || sockets[UDP].fd < 0 || sockets[INQUIRIES].fd < 0)
        fail("a socket");
    /* (another program may have this one) */
    sockets[BROADCASTS].fd = bound(SOCK_DGRAM, INADDR_BROADCAST, tcp_port);
    while (poll(sockets, SOCKETS, idle_ms()) >= 0 || errno == EINTR)
        turn();
    fail("poll");
}
