/* An adapter written by hand, whose wait a station's is compared with: epoll, and a timer among its descriptors.
 *
 * wait_by_hand ADDRESS [lines [apart]] [thread|ahead|sleep]: it serves one originator at TCP port 44818 and UDP port 2222. It registers a session,
 * takes the first Forward_Open, sends its input at the interval of the connection, keeps each output that comes, and answers
 * ListServices. With `lines` it prints each new value of the output; lines of one wake are written at once, and with `apart` by a thread
 * that pauses for 250 us behind each write, so that no reader holds the adapter up. It tests no more than that work needs.
 *
 * The other words have it wait by no more than the kit declares, which is epoll in whole milliseconds and a thread that sleeps: `thread`
 * sets that thread for each wait, as a station does; `ahead` lets it ring again behind the last interval, unless it is set to something
 * else; `sleep` has no such thread, and sleeps for the rest of the last millisecond, in which it hears nothing. */
#define _GNU_SOURCE

#include <arpa/inet.h>
#include <linux/futex.h>
#include <netinet/tcp.h>
#include <pthread.h>
#include <stdatomic.h>
#include <stdint.h>
#include <stdio.h>
#include <stdlib.h>
#include <string.h>
#include <sys/epoll.h>
#include <sys/eventfd.h>
#include <sys/socket.h>
#include <sys/syscall.h>
#include <sys/timerfd.h>
#include <time.h>
#include <unistd.h>

enum { TCP = 44818, UDP = 2222, HEADER = 24, LIST_SERVICES = 4, REGISTER_SESSION = 0x65, SEND_RR_DATA = 0x6F };
enum { REQUEST = 40, OPEN_BODY = 46, OUTPUT = 26, DATA = 4 };

static int listener, udp, timer, poller;
static struct sockaddr_in peer;
static uint32_t o_t = 0x10000001, t_o, sequence;
static uint16_t count;
static uint8_t input[DATA], output[DATA];
static enum { TIMER, THREAD, AHEAD, SLEEP } ends_by;
static uint64_t due_ns, interval_ns;
static _Atomic uint64_t alarm_ns;
static _Atomic uint32_t settings;
static int rung, has_lines, is_apart;
static pthread_mutex_t lock = PTHREAD_MUTEX_INITIALIZER;
static pthread_cond_t came = PTHREAD_COND_INITIALIZER;
static char handed[1 << 16];
static size_t of_handed;
static char lines[1 << 16];
static size_t of_lines;

static void fail(const char *what)
{
    perror(what);
    exit(1);
}

static uint32_t u32_at(const uint8_t *at)
{
    return at[0] | (uint32_t)at[1] << 8 | (uint32_t)at[2] << 16 | (uint32_t)at[3] << 24;
}

static void put(uint8_t *at, uint32_t value, int size)
{
    for (int i = 0; i < size; i++)
        at[i] = (uint8_t)(value >> 8 * i);
}

static void watch(int fd)
{
    struct epoll_event event = {.events = EPOLLIN | EPOLLET, .data.fd = fd};
    if (epoll_ctl(poller, EPOLL_CTL_ADD, fd, &event))
        fail("epoll_ctl");
}

static void produce(void)
{
    uint8_t packet[] = {2, 0, 2, 0x80, 8, 0, 0, 0, 0, 0, 0, 0, 0, 0, 0xB1, 0, 6, 0, 0, 0, 0, 0, 0, 0};
    put(packet + 6, t_o, 4);
    put(packet + 10, ++sequence, 4);
    put(packet + 18, ++count, 2);
    memcpy(packet + 20, input, DATA);
    sendto(udp, packet, sizeof packet, 0, (struct sockaddr *)&peer, sizeof peer);
}

static uint64_t now_ns(void)
{
    struct timespec now;
    clock_gettime(CLOCK_MONOTONIC, &now);
    return (uint64_t)now.tv_sec * 1000000000u + (uint64_t)now.tv_nsec;
}

static void begin(uint32_t interval_us)
{
    struct itimerspec each;
    each.it_interval.tv_sec = each.it_value.tv_sec = interval_us / 1000000;
    each.it_interval.tv_nsec = each.it_value.tv_nsec = interval_us % 1000000 * 1000L;
    interval_ns = interval_us * 1000ull;
    due_ns = now_ns() + interval_ns;
    if (ends_by == TIMER)
        timerfd_settime(timer, 0, &each, NULL);
}

/* Waits until the settings are others, at most so long. */
static void park(uint32_t seen, uint64_t most_ns)
{
    struct timespec most = {(time_t)(most_ns / 1000000000), (long)(most_ns % 1000000000)};
    syscall(SYS_futex, &settings, FUTEX_WAIT_PRIVATE, seen, most_ns ? &most : NULL, NULL, 0);
}

/* The thread that rings: it waits for a setting, or until it is due. */
static void *ring(void *unused)
{
    for (;;) {
        uint32_t seen = settings;
        uint64_t at = alarm_ns, now = now_ns(), one = 1;
        if (!at)
            park(seen, 0);
        else if (now < at)
            park(seen, at - now);
        else if (atomic_compare_exchange_strong(&alarm_ns, &at, ends_by == AHEAD ? at + interval_ns : 0) && write(rung, &one, sizeof one) < 0)
            fail("write");
    }
    return unused;
}

/* Sets the alarm to the end of a wait, unless it rings then or at most 20 us later. */
static void set_alarm(uint64_t now)
{
    uint64_t at = alarm_ns;
    if (at > now && at <= due_ns + 20000)
        return;
    alarm_ns = due_ns;
    settings++;
    syscall(SYS_futex, &settings, FUTEX_WAKE_PRIVATE, 1, NULL, NULL, 0);
}

/* The milliseconds of the next wait, which ends at the next due time by what there is. */
static int wait_ms(void)
{
    uint64_t now = now_ns(), left = due_ns > now ? due_ns - now : 0;
    struct timespec rest = {0, (long)left};
    if (ends_by == TIMER || !interval_ns)
        return -1;
    if (ends_by != SLEEP && left)
        set_alarm(now);
    if (ends_by != SLEEP || left >= 1000000)
        return (int)((left + (ends_by == SLEEP ? 0 : 999999)) / 1000000);
    nanosleep(&rest, NULL);
    return 0;
}

static void produce_due(void)
{
    while (ends_by != TIMER && interval_ns && now_ns() >= due_ns) {
        produce();
        due_ns += interval_ns;
    }
}

/* The reply to a Forward_Open, in place of the request: 26 bytes behind the head of the items. */
static size_t open_connection(uint8_t *message)
{
    uint8_t *request = message + REQUEST, body[30] = {0xD4, 0, 0, 0};
    uint32_t o_t_us = u32_at(request + 28), t_o_us = u32_at(request + 34);
    t_o = u32_at(request + 12);
    put(body + 4, o_t, 4);
    put(body + 8, t_o, 4);
    memcpy(body + 12, request + 16, 8);
    put(body + 20, o_t_us, 4);
    put(body + 24, t_o_us, 4);
    memcpy(request, body, sizeof body);
    put(message + 38, sizeof body, 2);
    put(message + 2, 16 + sizeof body, 2);
    begin(t_o_us);
    return REQUEST + sizeof body;
}

static const uint8_t SERVICES[] = {
    1, 0, 0, 1, 20, 0, 1, 0, 0x20, 1, 'C', 'o', 'm', 'm', 'u', 'n', 'i', 'c', 'a', 't', 'i', 'o', 'n', 's', 0, 0,
};

/* The reply to a message, in its place: the number of its bytes. */
static size_t answer(uint8_t *message, size_t size)
{
    switch (message[0]) {
    case LIST_SERVICES:
        put(message + 2, sizeof SERVICES, 2);
        memcpy(message + HEADER, SERVICES, sizeof SERVICES);
        return HEADER + sizeof SERVICES;
    case REGISTER_SESSION:
        put(message + 4, 1, 4);
        return size;
    case SEND_RR_DATA:
        return open_connection(message);
    }
    return 0;
}

static void accept_all(void)
{
    int one = 1, stream;
    socklen_t size = sizeof peer;
    while ((stream = accept4(listener, (struct sockaddr *)&peer, &size, SOCK_NONBLOCK)) >= 0) {
        setsockopt(stream, IPPROTO_TCP, TCP_NODELAY, &one, sizeof one);
        watch(stream);
    }
    peer.sin_port = htons(UDP);
}

static void read_stream(int stream)
{
    uint8_t message[1024];
    ssize_t got;
    while ((got = read(stream, message, sizeof message)) > 0) {
        size_t size = answer(message, (size_t)got);
        if (write(stream, message, size) < 0)
            fail("write");
    }
    if (got == 0)
        exit(0);
}

/* The line of a new output, which is written at the end of the wake. */
static void note_output(void)
{
    static const char digits[] = "0123456789abcdef", head[] = "output 150 ";
    char *at = lines + of_lines;
    if (of_lines + sizeof head + 2 * DATA > sizeof lines)
        return;
    memcpy(at, head, sizeof head - 1);
    at += sizeof head - 1;
    for (int i = 0; i < DATA; i++) {
        *at++ = digits[output[i] >> 4];
        *at++ = digits[output[i] & 15];
    }
    *at++ = '\n';
    of_lines = (size_t)(at - lines);
}

/* The thread that writes what it is handed. */
static void *write_handed(void *unused)
{
    static char own[sizeof handed];
    struct timespec pause = {0, 250000};
    for (;;) {
        size_t size;
        pthread_mutex_lock(&lock);
        while (!of_handed)
            pthread_cond_wait(&came, &lock);
        size = of_handed;
        memcpy(own, handed, size);
        of_handed = 0;
        pthread_mutex_unlock(&lock);
        if (write(1, own, size) < 0)
            fail("write");
        nanosleep(&pause, NULL);
    }
    return unused;
}

static void write_lines(void)
{
    if (of_lines && !is_apart && write(1, lines, of_lines) < 0)
        fail("write");
    if (of_lines && is_apart) {
        pthread_mutex_lock(&lock);
        if (of_handed + of_lines <= sizeof handed) {
            memcpy(handed + of_handed, lines, of_lines);
            of_handed += of_lines;
        }
        pthread_cond_signal(&came);
        pthread_mutex_unlock(&lock);
    }
    of_lines = 0;
}

static void read_datagrams(void)
{
    uint8_t packet[2048];
    struct sockaddr_in from;
    socklen_t size = sizeof from;
    ssize_t got;
    while ((got = recvfrom(udp, packet, sizeof packet, 0, (struct sockaddr *)&from, &size)) >= 0)
        if (got >= OUTPUT + 2 && u32_at(packet + 6) == o_t) {
            int is_new = memcmp(output, packet + 24, DATA);
            memcpy(output, packet + 24, DATA);
            if (is_new && has_lines)
                note_output();
        }
}

static void read_timer(void)
{
    uint64_t passed;
    if (read(ends_by == TIMER ? timer : rung, &passed, sizeof passed) == sizeof passed && ends_by == TIMER)
        for (; passed; passed--)
            produce();
}

/* What the words behind the address say. */
static void obey(int words, char **word)
{
    for (int at = 2; at < words; at++) {
        has_lines |= !strcmp(word[at], "lines");
        is_apart |= !strcmp(word[at], "apart");
        ends_by = !strcmp(word[at], "thread") ? THREAD : !strcmp(word[at], "ahead") ? AHEAD : !strcmp(word[at], "sleep") ? SLEEP : ends_by;
    }
}

/* What ends a wait beside the sockets. */
static void watch_time(void)
{
    pthread_t thread;
    if (is_apart && pthread_create(&thread, NULL, write_handed, NULL))
        fail("a thread");
    if (ends_by == TIMER) {
        watch(timer);
        return;
    }
    rung = eventfd(0, EFD_NONBLOCK);
    watch(rung);
    if (ends_by != SLEEP && pthread_create(&thread, NULL, ring, NULL))
        fail("a thread");
}

int main(int words, char **word)
{
    struct sockaddr_in own = {.sin_family = AF_INET};
    int one = 1, room = 1 << 22;
    if (words < 2)
        return 2;
    obey(words, word);
    own.sin_addr.s_addr = inet_addr(word[1]);
    listener = socket(AF_INET, SOCK_STREAM | SOCK_NONBLOCK, 0);
    udp = socket(AF_INET, SOCK_DGRAM | SOCK_NONBLOCK, 0);
    timer = timerfd_create(CLOCK_MONOTONIC, TFD_NONBLOCK);
    poller = epoll_create1(0);
    setsockopt(listener, SOL_SOCKET, SO_REUSEADDR, &one, sizeof one);
    own.sin_port = htons(TCP);
    if (bind(listener, (struct sockaddr *)&own, sizeof own) || listen(listener, 8))
        fail("TCP");
    own.sin_port = htons(UDP);
    setsockopt(udp, SOL_SOCKET, SO_RCVBUF, &room, sizeof room);
    if (bind(udp, (struct sockaddr *)&own, sizeof own))
        fail("UDP");
    watch(listener);
    watch(udp);
    watch_time();
    for (;;) {
        struct epoll_event events[16];
        int found = epoll_wait(poller, events, 16, wait_ms());
        for (int i = 0; i < found; i++) {
            int fd = events[i].data.fd;
            if (fd == timer || fd == rung)
                read_timer();
            else if (fd == udp)
                read_datagrams();
            else if (fd == listener)
                accept_all();
            else
                read_stream(fd);
        }
        produce_due();
        write_lines();
    }
}
