/* Opens a device over sockets, with the bytes of a trace, and prints what comes back as the trace's outcomes have it.
 *
 * originator ADDRESS TCP UDP OWN < TRACE: sends each frame over one stream, and prints the bytes of its reply; sends each
 * datagram. For each line `tick` it prints the next datagram that comes. For each line `read` it waits for a datagram with
 * the data of the last one that it sent, and prints these data: 4 bytes. */
#define _POSIX_C_SOURCE 200809L

#include <arpa/inet.h>
#include <poll.h>
#include <stdint.h>
#include <stdio.h>
#include <stdlib.h>
#include <string.h>
#include <sys/socket.h>
#include <time.h>
#include <unistd.h>

enum { HEADER = 24, DATA = 4, PATIENCE_MS = 10000 };

static void fail(const char *what)
{
    fprintf(stderr, "originator: %s\n", what);
    exit(1);
}

static struct sockaddr_in address(const char *node, const char *port)
{
    struct sockaddr_in to;
    memset(&to, 0, sizeof to);
    to.sin_family = AF_INET;
    to.sin_port = htons((uint16_t)atoi(port));
    to.sin_addr.s_addr = inet_addr(node);
    return to;
}

static void print_bytes(const char *word, const uint8_t *bytes, size_t size)
{
    size_t i;
    printf("%s ", word);
    for (i = 0; i < size; i++)
        printf("%02x", bytes[i]);
    putchar('\n');
}

static void await(int fd)
{
    struct pollfd one;
    one.fd = fd;
    one.events = POLLIN;
    if (poll(&one, 1, PATIENCE_MS) != 1)
        fail("nothing comes");
}

static void receive(int fd, uint8_t *bytes, size_t size)
{
    while (size) {
        ssize_t got;
        await(fd);
        got = recv(fd, bytes, size, 0);
        if (got <= 0)
            fail("the stream broke");
        bytes += got;
        size -= (size_t)got;
    }
}

static void print_reply(int fd)
{
    static uint8_t bytes[HEADER + 65535];
    size_t size;
    receive(fd, bytes, HEADER);
    size = (size_t)(bytes[2] | bytes[3] << 8);
    receive(fd, bytes + HEADER, size);
    print_bytes("frame", bytes, HEADER + size);
}

static size_t datagram(int fd, uint8_t *bytes, size_t room)
{
    ssize_t got;
    await(fd);
    got = recv(fd, bytes, room, 0);
    if (got < DATA)
        fail("no datagram");
    return (size_t)got;
}

static void print_datagram(int fd)
{
    uint8_t bytes[1500];
    size_t size = datagram(fd, bytes, sizeof bytes);
    print_bytes("send", bytes, size);
}

static void print_data(int fd, const uint8_t *sent)
{
    uint8_t bytes[1500];
    size_t size, tries;
    for (tries = 0; tries < 500; tries++) {
        size = datagram(fd, bytes, sizeof bytes);
        if (!memcmp(bytes + size - DATA, sent, DATA)) {
            print_bytes("value", sent, DATA);
            return;
        }
    }
    fail("other data");
}

static size_t bytes_of(char *word, uint8_t *bytes)
{
    size_t size = 0;
    unsigned byte;
    for (; sscanf(word, "%2x", &byte) == 1; word += 2)
        bytes[size++] = (uint8_t)byte;
    return size;
}

/* Connects as soon as the device listens. */
static int connected(const struct sockaddr_in *to, const struct sockaddr_in *from)
{
    int tries;
    for (tries = 0; tries < 500; tries++) {
        struct timespec pause = {0, 10000000};
        int fd = socket(AF_INET, SOCK_STREAM, 0);
        if (fd < 0 || bind(fd, (const struct sockaddr *)from, sizeof *from))
            fail("no socket");
        if (!connect(fd, (const struct sockaddr *)to, sizeof *to))
            return fd;
        close(fd);
        nanosleep(&pause, NULL);
    }
    fail("nobody listens");
    return -1;
}

int main(int count, char **words)
{
    static char line[8192];
    static uint8_t bytes[4096];
    uint8_t sent[DATA] = {0};
    struct sockaddr_in own, to;
    int stream, udp;
    size_t size;
    if (count != 5)
        fail("ADDRESS TCP UDP OWN");
    own = address(words[4], "0");
    to = address(words[1], words[2]);
    stream = connected(&to, &own);
    own = address(words[4], words[3]);
    udp = socket(AF_INET, SOCK_DGRAM, 0);
    if (udp < 0 || bind(udp, (struct sockaddr *)&own, sizeof own))
        fail("no socket for datagrams");
    to = address(words[1], words[3]);
    while (fgets(line, sizeof line, stdin)) {
        char *word = strtok(line, " \n"), *two;
        strtok(NULL, " \n");
        two = strtok(NULL, " \n");
        size = two ? bytes_of(two, bytes) : 0;
        if (word && !strcmp(word, "frame")) {
            if (send(stream, bytes, size, 0) < 0)
                fail("a frame was not sent");
            print_reply(stream);
        }
        if (word && !strcmp(word, "datagram")) {
            if (size < DATA || sendto(udp, bytes, size, 0, (struct sockaddr *)&to, sizeof to) < 0)
                fail("a datagram was not sent");
            memcpy(sent, bytes + size - DATA, DATA);
        }
        if (word && !strcmp(word, "tick"))
            print_datagram(udp);
        if (word && !strcmp(word, "read"))
            print_data(udp, sent);
    }
    close(stream);
    close(udp);
    return 0;
}
