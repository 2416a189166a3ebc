/* Measures how soon an adapter answers while it sends, how late it sends, and what a datagram that wakes it costs it.
 *
 * wait_peer TARGET OWN INTERVAL_US PID [COUNT [WORK]]: from the address OWN it registers a session at TARGET, opens a connection
 * whose target sends at this interval, and prints, of COUNT (1,000 if it is left out), by WORK:
 * `waits`, if it is left out: the time of a reply to ListServices over TCP, asked at phases that move over the interval; how late
 * datagrams come behind the times of the earliest one; and what `costs` prints.
 * `costs`: the processor time of the process PID, all its threads, of a datagram that it sends, and of one that it receives, whose
 * data are those of the last one; and how often its threads wait, of each.
 * `changes`: the same, but each datagram has new data.
 * `burst`: nothing; it sends COUNT datagrams without a pause, and waits until PID waits.
 * The target has an output 150 and an input 100 of 4 bytes, and a configuration 151 of none. */
#define _GNU_SOURCE

#include <arpa/inet.h>
#include <dirent.h>
#include <netinet/tcp.h>
#include <stdint.h>
#include <stdio.h>
#include <stdlib.h>
#include <string.h>
#include <sys/socket.h>
#include <time.h>
#include <unistd.h>

enum { TCP = 44818, UDP = 2222, MOST = 100000 };

static int stream, udp;
static struct sockaddr_in target;
static uint32_t o_t, sequence;
static uint16_t counted;
static double sample[MOST];
static int has_new_data;

/* What all threads of a process have used and done. */
struct used {
    double us, waits;
};

static void fail(const char *what)
{
    perror(what);
    exit(1);
}

static double now_us(void)
{
    struct timespec now;
    clock_gettime(CLOCK_MONOTONIC, &now);
    return now.tv_sec * 1e6 + now.tv_nsec / 1e3;
}

static void sleep_us(double us)
{
    struct timespec left = {(time_t)(us / 1e6), (long)((us - (time_t)(us / 1e6) * 1e6) * 1e3)};
    nanosleep(&left, NULL);
}

static int in_order(const void *one, const void *other)
{
    double a = *(const double *)one, b = *(const double *)other;
    return (a > b) - (a < b);
}

static void report(const char *what, int count)
{
    qsort(sample, (size_t)count, sizeof *sample, in_order);
    printf("%s: median %.0f, 99 of 100 %.0f, most %.0f us\n", what, sample[count / 2], sample[count * 99 / 100], sample[count - 1]);
}

/* Adds what one thread has used, and how often it waited. */
static void add_task(struct used *all, const char *pid, const char *task)
{
    char path[300], line[200];
    double number;
    FILE *file;
    snprintf(path, sizeof path, "/proc/%s/task/%s/schedstat", pid, task);
    if ((file = fopen(path, "r"))) {
        if (fscanf(file, "%lf", &number) == 1)
            all->us += number / 1e3;
        fclose(file);
    }
    snprintf(path, sizeof path, "/proc/%s/task/%s/status", pid, task);
    if (!(file = fopen(path, "r")))
        return;
    while (fgets(line, sizeof line, file))
        if (sscanf(line, "voluntary_ctxt_switches: %lf", &number) == 1)
            all->waits += number;
    fclose(file);
}

/* What all threads of a process have used. */
static struct used used_by(const char *pid)
{
    char path[300];
    struct used all = {0, 0};
    struct dirent *task;
    DIR *tasks;
    snprintf(path, sizeof path, "/proc/%s/task", pid);
    if (!(tasks = opendir(path)))
        fail(path);
    while ((task = readdir(tasks)))
        if (task->d_name[0] != '.')
            add_task(&all, pid, task->d_name);
    closedir(tasks);
    return all;
}

static size_t call(const uint8_t *request, size_t size, uint8_t *reply, size_t most)
{
    ssize_t got;
    if (write(stream, request, size) != (ssize_t)size)
        fail("write");
    got = read(stream, reply, most);
    if (got < 24 || reply[0] != request[0] || reply[8])
        fail("a reply");
    return (size_t)got;
}

static void put(uint8_t *at, uint32_t value)
{
    for (int i = 0; i < 4; i++)
        at[i] = (uint8_t)(value >> 8 * i);
}

static void open_connection(uint32_t interval_us)
{
    uint8_t session[28] = {0x65, 0, 4}, reply[1024], open[40 + 42 + 8] = {0x6F, 0, 66};
    static const uint8_t items[] = {0, 0, 0, 0, 5, 0, 2, 0, 0, 0, 0, 0, 0xB2, 0, 50, 0};
    static const uint8_t path[] = {0x20, 4, 0x24, 151, 0x2C, 150, 0x2C, 100};
    uint8_t *body = open + 40;
    session[24] = 1;
    call(session, sizeof session, reply, sizeof reply);
    memcpy(open + 4, reply + 4, 4);
    memcpy(open + 24, items, sizeof items);
    memcpy(body, "\x54\x02\x20\x06\x24\x01\x0A\xFA", 8);
    put(body + 12, 0x70000001);
    memcpy(body + 16, "\x01\x00\x37\x13\xEE\xFF\xC0\x00\x03", 9);
    put(body + 28, 10000000);
    memcpy(body + 32, "\x0A\x48", 2);
    put(body + 34, interval_us);
    memcpy(body + 38, "\x06\x48\x01\x04", 4);
    memcpy(body + 42, path, sizeof path);
    call(open, sizeof open, reply, sizeof reply);
    if (reply[42])
        fail("the open is refused");
    memcpy(&o_t, reply + 44, 4);
}

static void send_output(void)
{
    uint8_t packet[28] = {2, 0, 2, 0x80, 8};
    memcpy(packet + 6, &o_t, 4);
    put(packet + 10, ++sequence);
    packet[14] = 0xB1;
    packet[16] = 10;
    packet[18] = (uint8_t)++counted;
    packet[19] = (uint8_t)(counted >> 8);
    packet[20] = 1;
    if (has_new_data)
        put(packet + 24, sequence);
    sendto(udp, packet, sizeof packet, 0, (struct sockaddr *)&target, sizeof target);
}

static void measure_replies(int count, double interval_us)
{
    uint8_t request[24] = {4}, reply[1024];
    int i;
    for (i = 0; i < count; i++) {
        double from;
        sleep_us(2000 + interval_us * (i % 97) / 97);
        from = now_us();
        call(request, sizeof request, reply, sizeof reply);
        sample[i] = now_us() - from;
    }
    report("a reply over TCP", count);
}

static uint32_t u32_at(const uint8_t *at)
{
    return at[0] | (uint32_t)at[1] << 8 | (uint32_t)at[2] << 16 | (uint32_t)at[3] << 24;
}

/* When the next datagram came, by the system, behind its time by its sequence number. */
static double received_us(double interval_us)
{
    uint8_t packet[2048], control[256];
    struct iovec place = {packet, sizeof packet};
    struct msghdr message = {.msg_iov = &place, .msg_iovlen = 1, .msg_control = control, .msg_controllen = sizeof control};
    struct timespec at;
    if (recvmsg(udp, &message, 0) < 24)
        fail("no datagram");
    memcpy(&at, CMSG_DATA(CMSG_FIRSTHDR(&message)), sizeof at);
    return (at.tv_sec % 1000000) * 1e6 + at.tv_nsec / 1e3 - u32_at(packet + 10) * interval_us;
}

static void drain(void)
{
    uint8_t packet[2048];
    while (recv(udp, packet, sizeof packet, MSG_DONTWAIT) >= 0)
        ;
}

static void measure_lateness(int count, double interval_us)
{
    double first, least = 0;
    int i;
    drain();
    first = received_us(interval_us);
    for (i = 0; i < count; i++) {
        sample[i] = received_us(interval_us) - first;
        if (sample[i] < least)
            least = sample[i];
    }
    for (i = 0; i < count; i++)
        sample[i] -= least;
    report("late", count);
}

static void measure_costs(int count, double interval_us, const char *pid)
{
    double length_us = count * 1000.0, due;
    struct used from = used_by(pid), idle, busy;
    sleep_us(length_us);
    idle = used_by(pid);
    due = now_us();
    for (int i = 0; i < count; i++) {
        send_output();
        due += 1000;
        if (due > now_us())
            sleep_us(due - now_us());
    }
    busy = used_by(pid);
    idle = (struct used){idle.us - from.us, idle.waits - from.waits};
    busy = (struct used){busy.us - from.us - 2 * idle.us, busy.waits - from.waits - 2 * idle.waits};
    printf("processor time: %.1f us for each datagram that it sends, %.1f us for each that comes, one in 1,000 us\n",
        idle.us * interval_us / length_us, busy.us / count);
    printf("waits of its threads: %.1f for each datagram that it sends, %.1f for each that comes\n",
        idle.waits * interval_us / length_us, busy.waits / count);
}

/* Sends datagrams without a pause, and waits until the process has used nothing for a while. */
static void send_burst(int count, const char *pid)
{
    double before, after = used_by(pid).us;
    for (int i = 0; i < count; i++)
        send_output();
    do {
        before = after;
        sleep_us(200000);
        after = used_by(pid).us;
    } while (after > before + 2000);
}

static void connect_from(const char *own)
{
    struct sockaddr_in from = {.sin_family = AF_INET};
    struct timeval patience = {5, 0};
    int one = 1;
    stream = socket(AF_INET, SOCK_STREAM, 0);
    udp = socket(AF_INET, SOCK_DGRAM, 0);
    from.sin_addr.s_addr = inet_addr(own);
    if (bind(stream, (struct sockaddr *)&from, sizeof from) || connect(stream, (struct sockaddr *)&target, sizeof target))
        fail("TCP");
    setsockopt(stream, IPPROTO_TCP, TCP_NODELAY, &one, sizeof one);
    setsockopt(stream, SOL_SOCKET, SO_RCVTIMEO, &patience, sizeof patience);
    from.sin_port = target.sin_port = htons(UDP);
    if (bind(udp, (struct sockaddr *)&from, sizeof from))
        fail("UDP");
    setsockopt(udp, SOL_SOCKET, SO_RCVTIMEO, &patience, sizeof patience);
    setsockopt(udp, SOL_SOCKET, SO_TIMESTAMPNS, &one, sizeof one);
}

int main(int words, char **word)
{
    int count = words >= 6 ? atoi(word[5]) : 1000;
    const char *work = words == 7 ? word[6] : "waits";
    double interval_us;
    if (words < 5 || words > 7 || count < 1 || count > MOST)
        return 2;
    interval_us = atof(word[3]);
    target.sin_family = AF_INET;
    target.sin_addr.s_addr = inet_addr(word[1]);
    target.sin_port = htons(TCP);
    connect_from(word[2]);
    open_connection((uint32_t)interval_us);
    has_new_data = !strcmp(work, "changes");
    if (!strcmp(work, "waits")) {
        measure_replies(count, interval_us);
        measure_lateness(count, interval_us);
    }
    if (strcmp(work, "burst"))
        measure_costs(count, interval_us, word[4]);
    else
        send_burst(count, word[4]);
    return 0;
}
