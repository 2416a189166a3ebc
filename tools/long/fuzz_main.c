/* What libFuzzer calls. The first byte of an input names its part: 0 gives the bytes behind it to the readers of the codecs, 1 to
 * a splitter (crates/fuzz_input), 2 and 3 are records of events for an adapter and a scanner behind include/eip.h, 4 is the
 * text of a trace for such a device. Stops where a status is none that an event has, an answer is no list of items, a tick that
 * was not needed answers more, a refused event leaves a trace, or a twin whose answers are asked for again answers otherwise.
 * With FUZZ_TRACES=FOLDER in the environment it writes each input of events as a trace into that folder instead. */
#include "../play/c_events.h"

void eip_fuzz_readers(const uint8_t *bytes, size_t len);
void eip_fuzz_splitter(const uint8_t *bytes, size_t len);
int LLVMFuzzerTestOneInput(const uint8_t *bytes, size_t len);

enum { ROOM = 1 << 18, KINDS = 16 };

/* Two outputs, three inputs of which one is long, a configuration, two own classes. */
static const char adapter[] = "adapter 16 192.168.1.10 255.255.255.0 1 12 7 2 3\noutput 150 4 zero hold\noutput 149 4 hold zero\n"
                              "input 100 4\ninput 101 4\ninput 102 1400\nconfig 151 2\nobject 100\nobject 768\nheartbeat 152 153\n";

/* Four slots of two targets, of each kind. */
static const char scanner[] = "scanner 32 192.168.1.13 4660 305419896 2000 3000\n"
                              "slot 192.168.1.10 exclusive 151 150 100 4 4 10000 10000 2 p2p - -\n"
                              "slot 192.168.1.10 input 151 152 101 0 4 10000 10000 0 multicast - -\n"
                              "slot 192.168.1.11 exclusive 151 149 100 4 4 20000 10000 1 p2p 0100000000000000 01020304\n"
                              "slot 192.168.1.11 listen - 153 100 0 4 10000 10000 7 multicast - -\n";

/* One of four nodes: 192.168.1.10 and those behind it. */
static uint32_t near_node(uint8_t small)
{
    return 0xC0A8010A + small % 4;
}

/* One of the connection points of the profiles, or a number near them, or that of a slot. */
static uint32_t near_point(uint8_t small)
{
    return small % 4 == 0 ? small / 4u : small % 4 == 1 ? 100 + small / 64u : 148 + small / 32u;
}

/* The event of a record: a kind, a small number, and the bytes behind them. */
static event event_of(uint8_t kind, uint8_t small, const uint8_t *bytes, size_t len)
{
    static const enum event_kind kinds[KINDS] = {REQUEST, STREAM, FRAME, DATAGRAM, WRITE, READ,    TICK,
                                                 TICK,    START,  STOP,  CUT,      RESPOND, INQUIRY, EXPLICIT,
                                                 COUNTERS, IDS};
    event it = {.kind = kinds[kind % KINDS], .node = near_node(small), .number = small % 4, .bytes = bytes, .len = len};
    switch (it.kind) {
    case STREAM: it.node = near_node(small / 4); break;
    case WRITE:
    case READ: it.number = near_point(small); break;
    case TICK: it.number = kind % KINDS == 6 ? small : 300u * small; break;
    case START:
    case STOP: it.number = small % 16; break;
    case CUT:
        it.kind = small < 128 ? CUT : MODE;
        it.number = small < 128 ? small % 4 : small % 2;
        break;
    case EXPLICIT: it.number = small / 4; break;
    case IDS:
        it.number = 500u * (small % 16);
        it.count = 300u * (small / 16);
        break;
    case RESPOND:
        it.asked = small % 32;
        it.status = small % 64 < 32 ? 0 : 0x14;
        break;
    default: break;
    }
    return it;
}

/* The event of the record at the front, and where the next one begins. False if there is none. */
static bool next_record(const uint8_t **at, const uint8_t *end, event *it)
{
    size_t len;
    if (end - *at < 4)
        return false;
    len = (*at)[2] | (size_t)(*at)[3] << 8;
    if (len > (size_t)(end - *at) - 4)
        len = (size_t)(end - *at) - 4;
    *it = event_of((*at)[0], (*at)[1], *at + 4, len);
    *at += 4 + len;
    return true;
}

/* A DEVICE AND ITS TWIN */

static eip_device device, twin;
static uint8_t out[ROOM], again[ROOM];
static look before, after;
static uint32_t points[POINTS];
static size_t count;

static void stop_unless(bool holds, const char *what)
{
    if (holds)
        return;
    fprintf(stderr, "%s\n", what);
    abort();
}

/* Whether these bytes are a list of items. */
static bool are_items(const uint8_t *answer, size_t size)
{
    eip_item item;
    size_t at = 0;
    while (eip_next(answer, size, &at, &item))
        ;
    return size > 0 && at == size;
}

/* Performs an event at the twin, whose answer has one byte of room at first. */
static uint32_t perform_twice(const event *it, size_t *size)
{
    uint8_t byte;
    uint32_t status = perform(&twin, it, &byte, 1, size);
    if (status != EIP_KEPT_NO_ROOM) {
        *again = byte;
        return status;
    }
    if (it->kind == READ)
        return perform(&twin, it, again, ROOM, size);
    return eip_answer(&twin, again, ROOM, size);
}

static void play_event(const event *it)
{
    size_t size = 0, other = 0;
    uint32_t status, quiet = 0;
    look_at(&device, points, count, &before);
    eip_next_wake(&device, &quiet);
    status = perform(&device, it, out, ROOM, &size);
    stop_unless(status < EIP_KEPT_NO_ROOM, "a status that no event has");
    stop_unless(perform_twice(it, &other) == status && other == size && !memcmp(out, again, size), "the twin answers otherwise");
    if (status != EIP_DONE || it->kind == READ) {
        look_at(&device, points, count, &after);
        stop_unless(are_same(&before, &after), "a refused event or a read leaves a trace");
    } else if (it->kind != DATAGRAM)
        stop_unless(are_items(out, size), "an answer that is no list of items");
    if (it->kind == TICK && status == EIP_DONE && it->number < quiet)
        stop_unless(size == EIP_ITEM_HEAD, "a tick that was not needed answers more");
}

/* Makes a device of a text, and its twin. False if the text is bad. */
static bool make(const char *text, size_t len)
{
    uint64_t wrong = 0;
    if (eip_new(&device, text, len, &wrong) != EIP_DONE)
        return false;
    stop_unless(eip_new(&twin, text, len, &wrong) == EIP_DONE, "no twin of a device");
    count = points_of(text, points);
    return true;
}

/* TRACES */

static FILE *trace;

static void print_bytes(const event *it)
{
    size_t i;
    fputs(it->len ? " " : " -", trace);
    for (i = 0; i < it->len; i++)
        fprintf(trace, "%02x", it->bytes[i]);
}

/* Writes an event as a line. */
static void print_event(const event *it)
{
    static const char *const words[] = {"", "request", "stream", "frame", "cut", "datagram", "inquiry", "write",
                                        "read", "tick", "mode", "start", "stop", "explicit", "answer", "counters", "ids"};
    fputs(words[it->kind], trace);
    if (it->kind == STREAM || it->kind == FRAME || it->kind == CUT || (it->kind >= WRITE && it->kind <= STOP && it->kind != MODE))
        fprintf(trace, " %u", it->number);
    if (it->kind == REQUEST || it->kind == STREAM || it->kind == DATAGRAM || it->kind == INQUIRY || it->kind == EXPLICIT)
        fprintf(trace, " %u.%u.%u.%u", it->node >> 24, it->node >> 16 & 255, it->node >> 8 & 255, it->node & 255);
    if (it->kind == MODE)
        fputs(it->number ? " run" : " idle", trace);
    if (it->kind == EXPLICIT)
        fprintf(trace, " %u", it->number);
    if (it->kind == RESPOND)
        fprintf(trace, " %llu %02x", (unsigned long long)it->asked, it->status);
    if (it->kind == IDS)
        fprintf(trace, " %u %u", it->number, it->count);
    else if (it->kind == REQUEST || it->kind == FRAME || it->kind == DATAGRAM || it->kind == INQUIRY || it->kind == WRITE ||
             it->kind >= EXPLICIT)
        print_bytes(it);
    fputc('\n', trace);
}

/* Begins a trace in the folder, if one is named, and is then true. */
static bool begin_trace(void)
{
    static unsigned long number;
    const char *folder = getenv("FUZZ_TRACES");
    char name[4096];
    if (!folder)
        return false;
    snprintf(name, sizeof name, "%s/%06lu.trace", folder, ++number);
    trace = fopen(name, "w");
    stop_unless(trace != NULL, "a trace is not written");
    return true;
}

/* PARTS */

static void play_records(const char *profile, const uint8_t *at, const uint8_t *end)
{
    event it;
    stop_unless(make(profile, strlen(profile)), "no device of a profile");
    if (begin_trace())
        fputs(profile, trace);
    while (next_record(&at, end, &it))
        if (trace)
            print_event(&it);
        else
            play_event(&it);
}

/* Plays the lines of a text that the library takes as a trace; or writes those of its profile and its events. */
static void play_text(const uint8_t *bytes, size_t len)
{
    char *text = (char *)calloc(len + 1, 1), *line, *next;
    event it;
    stop_unless(text != NULL, "no memory");
    memcpy(text, bytes, len);
    if (strlen(text) == len && make(text, len)) {
        begin_trace();
        for (line = text; *line; line = next) {
            next = line + strcspn(line, "\n");
            if (*next)
                *next++ = 0;
            if (trace) {
                if (*line < '0' || *line > '9')
                    fprintf(trace, "%s\n", line);
            } else if (read_event(line, &it))
                play_event(&it);
        }
    }
    free(text);
}

int LLVMFuzzerTestOneInput(const uint8_t *bytes, size_t len)
{
    if (!len)
        return 0;
    switch (*bytes % 5) {
    case 0: eip_fuzz_readers(bytes + 1, len - 1); break;
    case 1: eip_fuzz_splitter(bytes + 1, len - 1); break;
    case 2: play_records(adapter, bytes + 1, bytes + len); break;
    case 3: play_records(scanner, bytes + 1, bytes + len); break;
    default: play_text(bytes + 1, len - 1); break;
    }
    eip_free(&device);
    eip_free(&twin);
    if (trace)
        fclose(trace);
    trace = NULL;
    return 0;
}
