/* A plant written by hand, whose processor time that of eip_station plant is compared with: all devices in one thread, with epoll.
 *
 * plant_by_hand ADAPTERS INTERVAL_US [FIRST [THREADS]]: so many adapters, and a scanner for each 16 of them, each at an address of its
 * own (127.0.FIRST.1 and those behind it, 200 a block, the scanners last) with TCP port 44818 and UDP port 2222. A scanner opens a
 * connection of each of its adapters over a stream, an exclusive owner, point to point, with 4 bytes both ways at this interval. Each
 * end sends by its own due time, in whole milliseconds, tests what comes (its connection, its sender, whether it is newer), keeps new
 * data, and notices that its peer is silent for 16 intervals. A line at the standard input asks for the datagrams that were sent and
 * received and the sequence numbers that were lost; its end ends the program. It tests no more than that work needs.
 *
 * What it saves beside a thread for each device: one wait finds all sockets that have something, and ends at the due time to the
 * microsecond (epoll_pwait2); due times lie in a wheel of milliseconds, and all ends that are due are served in one turn; datagrams of one
 * socket are sent by one call, and received by one. With THREADS the devices are dealt out to so many threads, each of which does that
 * with its own: as many as devices are the plant of a thread for each. */
#define _GNU_SOURCE

#include <arpa/inet.h>
#include <netinet/tcp.h>
#include <pthread.h>
#include <stdint.h>
#include <stdio.h>
#include <stdlib.h>
#include <string.h>
#include <sys/epoll.h>
#include <sys/socket.h>
#include <time.h>
#include <unistd.h>

enum { TCP = 44818, UDP = 2222, HEADER = 24, REGISTER_SESSION = 0x65, SEND_RR_DATA = 0x6F, REQUEST = 40, DATA = 4 };
enum { MOST_ADAPTERS = 112, TARGETS = 16, MOST_DEVICES = MOST_ADAPTERS + MOST_ADAPTERS / TARGETS, SLOTS = 1024, BLOCK = 200 };
enum kind { INPUT, LISTENER, ACCEPTED, DIALLED, DATAGRAMS };

#define O_T 0x10000000u
#define T_O 0x70000000u

/* One end of a connection: what it sends, made once but for three numbers, and what it has received. */
struct end {
    struct device *device;
    struct sockaddr_in peer;
    struct end *next;
    uint8_t packet[28], held[DATA];
    uint32_t size, receives, sequence, last;
    uint16_t count, last_count;
    uint64_t heard_ms;
    int established;
};

/* A device: its socket, and its ends by the low byte of the ids that it receives. */
struct device {
    int udp;
    uint32_t ends, due;
    struct end *end[TARGETS];
    struct mmsghdr message[TARGETS];
    struct iovec part[TARGETS];
};

/* What epoll reports. */
struct watched {
    enum kind kind;
    int fd;
    struct device *device;
    struct end *end;
};

static struct device device[MOST_DEVICES];
static struct end adapter_end[MOST_ADAPTERS], scanner_end[MOST_ADAPTERS];
static uint32_t adapters, interval_ms, interval_us, first_block, threads = 1;
static uint64_t begun_ns;
static pthread_barrier_t listening;

/* What each thread counts, and what it has alone. */
static struct counts {
    uint64_t sent, received, lost, silent, room[4];
} counts[MOST_DEVICES];
static _Thread_local struct counts *mine;
static _Thread_local struct end *wheel[SLOTS];
static _Thread_local uint64_t now_ms, turned_ms;
static _Thread_local int poller;

static void fail(const char *what)
{
    perror(what);
    exit(1);
}

static uint32_t u32_at(const uint8_t *at)
{
    return at[0] | (uint32_t)at[1] << 8 | (uint32_t)at[2] << 16 | (uint32_t)at[3] << 24;
}

static void put(uint8_t *at, uint32_t value, int size)
{
    for (int i = 0; i < size; i++)
        at[i] = (uint8_t)(value >> 8 * i);
}

static uint64_t passed_ns(void)
{
    struct timespec now;
    clock_gettime(CLOCK_MONOTONIC, &now);
    return (uint64_t)now.tv_sec * 1000000000u + (uint64_t)now.tv_nsec - begun_ns;
}

static struct sockaddr_in address_of(uint32_t number, uint16_t port)
{
    struct sockaddr_in it = {.sin_family = AF_INET, .sin_port = htons(port)};
    it.sin_addr.s_addr = htonl(127u << 24 | (first_block + number / BLOCK) << 8 | (1 + number % BLOCK));
    return it;
}

static uint32_t scanner_of(uint32_t number)
{
    return adapters + number / TARGETS;
}

static void watch(struct watched it)
{
    struct watched *kept = malloc(sizeof *kept);
    struct epoll_event event = {.events = EPOLLIN, .data.ptr = kept};
    if (!kept)
        fail("malloc");
    *kept = it;
    if (epoll_ctl(poller, EPOLL_CTL_ADD, it.fd, &event))
        fail("epoll_ctl");
}

/* From now on an end sends, first one interval from now. */
static void begin(struct end *it, uint32_t id, uint32_t receives, const struct sockaddr_in *peer, int owner)
{
    static const uint8_t head[] = {2, 0, 2, 0x80, 8, 0, 0, 0, 0, 0, 0, 0, 0, 0, 0xB1, 0};
    uint64_t due_ms = now_ms + interval_ms;
    memcpy(it->packet, head, sizeof head);
    put(it->packet + 6, id, 4);
    it->size = owner ? 28 : 24;
    put(it->packet + 16, it->size - 18, 2);
    it->packet[20] = owner != 0;
    it->receives = receives;
    it->peer = *peer;
    it->heard_ms = now_ms;
    it->established = 1;
    it->next = wheel[due_ms % SLOTS];
    wheel[due_ms % SLOTS] = it;
}

/* A datagram of an end, which is sent with others of its socket. */
static void produce(struct end *it)
{
    struct device *from = it->device;
    uint32_t at = from->due++;
    put(it->packet + 10, ++it->sequence, 4);
    put(it->packet + 18, ++it->count, 2);
    from->part[at] = (struct iovec){it->packet, it->size};
    from->message[at].msg_hdr =
        (struct msghdr){.msg_name = &it->peer, .msg_namelen = sizeof it->peer, .msg_iov = &from->part[at], .msg_iovlen = 1};
}

static void send_due(struct device *from)
{
    if (from->due == 1)
        sendto(from->udp, from->part->iov_base, from->part->iov_len, 0, from->message->msg_hdr.msg_name, sizeof(struct sockaddr_in));
    else
        sendmmsg(from->udp, from->message, from->due, 0);
    mine->sent += from->due;
    from->due = 0;
}

/* Sends what is due in a millisecond; behind a pause of the program once, not as often as it was missed. An end whose peer is silent for
 * 16 intervals has timed out, and sends no more. */
static void turn(uint64_t ms)
{
    struct device *sender[MOST_DEVICES];
    struct end *it = wheel[ms % SLOTS], *next;
    uint64_t next_ms = ms + interval_ms * (1 + (now_ms - ms) / interval_ms);
    struct end **back = &wheel[next_ms % SLOTS];
    uint32_t senders = 0;
    wheel[ms % SLOTS] = NULL;
    while (*back)
        back = &(*back)->next;
    for (; it; it = next) {
        next = it->next;
        it->next = NULL;
        if (now_ms > it->heard_ms + 16 * interval_ms) {
            it->established = 0;
            mine->silent++;
            continue;
        }
        *back = it;
        back = &it->next;
        if (!it->device->due)
            sender[senders++] = it->device;
        produce(it);
    }
    for (uint32_t at = 0; at < senders; at++)
        send_due(sender[at]);
}

/* A datagram that came to a device. */
static void take(struct device *at, const uint8_t *packet, size_t size, const struct sockaddr_in *from)
{
    uint32_t id, sequence, place;
    struct end *it;
    size_t head;
    if (size < 24 || packet[0] != 2 || u32_at(packet + 2) != 0x00088002)
        return;
    id = u32_at(packet + 6);
    place = id % TARGETS;
    if (place >= at->ends || !(it = at->end[place])->established || it->receives != id || size != 52 - it->size)
        return;
    sequence = u32_at(packet + 10);
    if (from->sin_addr.s_addr != it->peer.sin_addr.s_addr || (int32_t)(sequence - it->last) <= 0)
        return;
    mine->lost += it->last ? sequence - it->last - 1 : 0;
    mine->received++;
    it->last = sequence;
    it->heard_ms = now_ms;
    head = size - DATA;
    if (it->last_count != (uint16_t)(packet[18] | packet[19] << 8))
        memcpy(it->held, packet + head, DATA);
    it->last_count = (uint16_t)(packet[18] | packet[19] << 8);
}

static void read_datagrams(struct device *at)
{
    uint8_t packet[TARGETS][64];
    struct sockaddr_in from[TARGETS];
    struct mmsghdr message[TARGETS];
    struct iovec part[TARGETS];
    int count;
    if (at->ends == 1) {
        socklen_t size = sizeof *from;
        ssize_t got = recvfrom(at->udp, *packet, sizeof *packet, 0, (struct sockaddr *)from, &size);
        if (got > 0)
            take(at, *packet, (size_t)got, from);
        return;
    }
    for (uint32_t place = 0; place < at->ends; place++) {
        part[place] = (struct iovec){packet[place], sizeof *packet};
        message[place].msg_hdr = (struct msghdr){
            .msg_name = &from[place], .msg_namelen = sizeof *from, .msg_iov = &part[place], .msg_iovlen = 1};
    }
    count = recvmmsg(at->udp, message, at->ends, 0, NULL);
    for (int place = 0; place < count; place++)
        take(at, packet[place], message[place].msg_len, &from[place]);
}

/* A Forward_Open of an exclusive owner, point to point, both ways at the interval, with the longest but five time-outs. */
static void ask_to_open(int stream, struct end *it, const uint8_t *session)
{
    static const uint8_t items[] = {0, 0, 0, 0, 5, 0, 2, 0, 0, 0, 0, 0, 0xB2, 0, 48, 0};
    static const uint8_t path[] = {0x20, 4, 0x2C, 150, 0x2C, 100};
    uint8_t open[REQUEST + 42 + sizeof path] = {SEND_RR_DATA, 0, 64}, *body = open + REQUEST;
    uint32_t number = (uint32_t)(it - scanner_end);
    memcpy(open + 4, session, 4);
    memcpy(open + HEADER, items, sizeof items);
    memcpy(body, "\x54\x02\x20\x06\x24\x01\x0A\xFA", 8);
    put(body + 12, T_O + number, 4);
    memcpy(body + 18, "\x37\x13\xEE\xFF\xC0\x00\x02", 7);
    put(body + 16, number, 2);
    put(body + 28, interval_us, 4);
    memcpy(body + 32, "\x0A\x48", 2);
    put(body + 34, interval_us, 4);
    memcpy(body + 38, "\x06\x48\x01\x03", 4);
    memcpy(body + 42, path, sizeof path);
    if (write(stream, open, sizeof open) != sizeof open)
        fail("write");
}

/* The adapter's side of a stream: it registers a session, and opens the connection of the request. */
static void serve(const struct watched *at, uint8_t *message, size_t size)
{
    uint8_t *request = message + REQUEST, body[30] = {0xD4, 0, 0, 0};
    uint32_t number = (uint32_t)(at->end - adapter_end), o_t = O_T + number * TARGETS;
    struct sockaddr_in peer = address_of(scanner_of(number), UDP);
    if (message[0] == REGISTER_SESSION) {
        put(message + 4, number + 1, 4);
    } else {
        put(body + 4, o_t, 4);
        memcpy(body + 8, request + 12, 12);
        memcpy(body + 20, request + 28, 4);
        memcpy(body + 24, request + 34, 4);
        begin(at->end, u32_at(request + 12), o_t, &peer, 0);
        memcpy(request, body, sizeof body);
        put(message + 38, sizeof body, 2);
        put(message + 2, 16 + sizeof body, 2);
        size = REQUEST + sizeof body;
    }
    if (write(at->fd, message, size) != (ssize_t)size)
        fail("write");
}

/* The scanner's side of a stream: its session is registered, or its connection is open. */
static void go_on(const struct watched *at, const uint8_t *message)
{
    uint32_t number = (uint32_t)(at->end - scanner_end);
    struct sockaddr_in peer = address_of(number, UDP);
    if (message[0] == REGISTER_SESSION)
        ask_to_open(at->fd, at->end, message + 4);
    else if (message[REQUEST + 2])
        fail("an opening is refused");
    else
        begin(at->end, u32_at(message + REQUEST + 4), T_O + number, &peer, 1);
}

static void read_stream(const struct watched *at)
{
    uint8_t message[1024];
    ssize_t got = read(at->fd, message, sizeof message);
    if (got < HEADER)
        fail("a stream");
    if (at->kind == ACCEPTED)
        serve(at, message, (size_t)got);
    else
        go_on(at, message);
}

static void accept_one(const struct watched *at)
{
    int one = 1, stream = accept4(at->fd, NULL, NULL, SOCK_NONBLOCK);
    if (stream < 0)
        fail("accept");
    setsockopt(stream, IPPROTO_TCP, TCP_NODELAY, &one, sizeof one);
    watch((struct watched){ACCEPTED, stream, at->device, at->end});
}

static void obey(void)
{
    char line[64];
    struct counts all = {0};
    if (read(0, line, sizeof line) <= 0)
        exit(0);
    for (uint32_t at = 0; at < threads; at++) {
        all.sent += counts[at].sent;
        all.received += counts[at].received;
        all.lost += counts[at].lost;
        all.silent += counts[at].silent;
    }
    printf("sent %lu received %lu lost %lu silent %lu\n", all.sent, all.received, all.lost, all.silent);
    fflush(stdout);
}

static void serve_event(const struct watched *at)
{
    switch (at->kind) {
    case DATAGRAMS:
        read_datagrams(at->device);
        break;
    case LISTENER:
        accept_one(at);
        break;
    case INPUT:
        obey();
        break;
    default:
        read_stream(at);
    }
}

static int bound(int type, uint32_t number, uint16_t port)
{
    struct sockaddr_in own = address_of(number, port);
    int one = 1, it = socket(AF_INET, type | SOCK_NONBLOCK, 0);
    if (type == SOCK_STREAM)
        setsockopt(it, SOL_SOCKET, SO_REUSEADDR, &one, sizeof one);
    if (it < 0 || bind(it, (struct sockaddr *)&own, sizeof own))
        fail("a socket");
    return it;
}

/* Begins the adapter of a number. */
static void begin_adapter(uint32_t number)
{
    struct device *adapter = &device[number];
    struct end *end = &adapter_end[number];
    int listener = bound(SOCK_STREAM, number, TCP);
    adapter->udp = bound(SOCK_DGRAM, number, UDP);
    if (listen(listener, 8))
        fail("listen");
    watch((struct watched){LISTENER, listener, adapter, end});
    watch((struct watched){DATAGRAMS, adapter->udp, adapter, end});
    end->device = adapter;
    adapter->end[adapter->ends++] = end;
}

/* Begins the end of a scanner whose target is the adapter of this number. */
static void begin_end(uint32_t number)
{
    struct device *scanner = &device[scanner_of(number)];
    struct end *end = &scanner_end[number];
    if (!scanner->ends) {
        scanner->udp = bound(SOCK_DGRAM, scanner_of(number), UDP);
        watch((struct watched){DATAGRAMS, scanner->udp, scanner, end});
    }
    end->device = scanner;
    scanner->end[scanner->ends++] = end;
}

static void dial(uint32_t number)
{
    static const uint8_t session[28] = {REGISTER_SESSION, 0, 4, [24] = 1};
    struct sockaddr_in to = address_of(number, TCP);
    int one = 1, stream = bound(SOCK_STREAM, scanner_of(number), 0);
    setsockopt(stream, IPPROTO_TCP, TCP_NODELAY, &one, sizeof one);
    connect(stream, (struct sockaddr *)&to, sizeof to);
    if (write(stream, session, sizeof session) != sizeof session)
        fail("connect");
    watch((struct watched){DIALLED, stream, scanner_end[number].device, &scanner_end[number]});
}

/* How long a wait is: to the first millisecond in which an end is due. */
static struct timespec wait_length(void)
{
    uint64_t due_ms = turned_ms + 1, ns;
    while (due_ms < turned_ms + interval_ms && !wheel[due_ms % SLOTS])
        due_ms++;
    ns = passed_ns();
    ns = due_ms * 1000000 > ns ? due_ms * 1000000 - ns : 0;
    return (struct timespec){(time_t)(ns / 1000000000), (long)(ns % 1000000000)};
}

/* The devices of one thread, without end. */
static void *serve_devices(void *given)
{
    uint32_t place = (uint32_t)(uintptr_t)given;
    mine = &counts[place];
    poller = epoll_create1(0);
    if (!place)
        watch((struct watched){.kind = INPUT, .fd = 0});
    for (uint32_t number = 0; number < adapters; number++) {
        if (number % threads == place)
            begin_adapter(number);
        if (scanner_of(number) % threads == place)
            begin_end(number);
    }
    pthread_barrier_wait(&listening);
    for (uint32_t number = 0; number < adapters; number++)
        if (scanner_of(number) % threads == place)
            dial(number);
    for (;;) {
        struct epoll_event events[256];
        struct timespec most = wait_length();
        int found = epoll_pwait2(poller, events, 256, &most, NULL);
        now_ms = passed_ns() / 1000000;
        for (int at = 0; at < found; at++)
            serve_event(events[at].data.ptr);
        while (turned_ms < now_ms)
            turn(++turned_ms);
    }
    return NULL;
}

int main(int words, char **word)
{
    pthread_t thread;
    if (words < 3 || words > 5)
        return 2;
    adapters = (uint32_t)atoi(word[1]);
    interval_us = (uint32_t)atoi(word[2]);
    interval_ms = interval_us / 1000;
    first_block = words >= 4 ? (uint32_t)atoi(word[3]) : 90;
    threads = words == 5 ? (uint32_t)atoi(word[4]) : 1;
    if (adapters < 1 || adapters > MOST_ADAPTERS || interval_ms < 1 || interval_ms >= SLOTS || threads < 1 || threads > MOST_DEVICES)
        return 2;
    begun_ns = passed_ns();
    pthread_barrier_init(&listening, NULL, threads);
    for (uint32_t place = 1; place < threads; place++)
        if (pthread_create(&thread, NULL, serve_devices, (void *)(uintptr_t)place))
            fail("a thread");
    serve_devices(NULL);
}
