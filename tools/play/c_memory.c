/* Plays traces with memory refused within each call of the library: c_memory TRACE .., linked with tools/play/refuse.c. Of each call
 * the first request for memory is refused, then the second, and so on, until none is. A call of which a request is refused
 * answers EIP_REFUSED_NO_MEMORY and leaves all as it was: what the device says, and the caller's memory. The call that passes
 * answers what it answers at a twin of which nothing is refused, and leaves the two alike. What a device says asks for no memory.
 * Prints how many requests were refused, and a line for each thing that is otherwise, with status 1. */
#include "c_events.h"

enum { ROOM = 1 << 18, MOST = 1000000 };

static const char *trace; /* the file that is played, and the number of the event, from 1; 0 is the making of the device */
static unsigned long number, refused;
static int failed;

static void check(bool holds, const char *what)
{
    if (holds)
        return;
    printf("%s, event %lu: %s\n", trace, number, what);
    failed = 1;
}

/* (a compiler may leave out a request that it sees to be freed at once) */
static void *(*volatile ask)(size_t) = malloc;

/* Refuses the nth request from here on and all behind it, or none from here on. */
static void refuse_from(size_t nth)
{
    free(ask(((size_t)1 << 50) + nth));
}

/* Whether a request was refused since then. */
static bool was_refused(void)
{
    void *granted = ask((size_t)1 << 51);
    free(granted);
    return granted != NULL;
}

/* The numbers of the points of the trace's device. */
static uint32_t points[POINTS];
static size_t count;

/* Looks at a device, which asks for no memory. */
static void look_without_memory(eip_device *device, look *to)
{
    refuse_from(1);
    look_at(device, points, count, to);
    check(!was_refused(), "memory for what a device says");
    refuse_from(0);
}

/* Makes a device of a text with requests refused in turn. False if it is made of another text than its twin is. */
static bool make(const char *text, eip_device *device, eip_device *twin)
{
    uint64_t wrong = 7, wanted = 7;
    uint32_t status, made = eip_new(twin, text, strlen(text), &wanted);
    size_t nth;
    for (nth = 1; nth < MOST; nth++) {
        bool is_refused;
        wrong = 7;
        refuse_from(nth);
        status = eip_new(device, text, strlen(text), &wrong);
        is_refused = was_refused();
        refuse_from(0);
        if (!is_refused)
            break;
        refused++;
        check(status == EIP_REFUSED_NO_MEMORY && !device->at && wrong == 7, "a device where memory is refused");
    }
    check(nth > 1, "no request for a device");
    check(status == made && wrong == wanted, "another device after refusals");
    return status == EIP_DONE && made == EIP_DONE;
}

static uint8_t out[ROOM], wanted[ROOM], untouched[ROOM];
static look before, after, twins;

/* Performs an event at a device with requests refused in turn, and at its twin. */
static void play_event(const event *it, eip_device *device, eip_device *twin)
{
    size_t wanted_size = 77, size, nth;
    uint32_t status, wanted_status = perform(twin, it, wanted, ROOM, &wanted_size);
    look_without_memory(device, &before);
    for (nth = 1; nth < MOST; nth++) {
        bool is_refused;
        memset(out, 9, ROOM);
        size = 77;
        refuse_from(nth);
        status = perform(device, it, out, ROOM, &size);
        is_refused = was_refused();
        refuse_from(0);
        if (!is_refused)
            break;
        refused++;
        check(status == EIP_REFUSED_NO_MEMORY, "another status where memory is refused");
        check(size == 77 && !memcmp(out, untouched, ROOM), "memory of the caller after a refusal");
        look_without_memory(device, &after);
        check(are_same(&before, &after), "a device after a refusal");
    }
    check(status == wanted_status && status != EIP_KEPT_NO_ROOM, "another status after refusals");
    check(size == wanted_size && (status != EIP_DONE || !memcmp(out, wanted, size)), "another answer after refusals");
    look_without_memory(device, &after);
    look_without_memory(twin, &twins);
    check(are_same(&after, &twins), "another device after refusals");
}

/* The bytes of a file, and a 0 behind them. */
static char *text_of(const char *name)
{
    FILE *file = fopen(name, "rb");
    char *text = NULL;
    long len;
    if (!file || fseek(file, 0, SEEK_END) || (len = ftell(file)) < 0 || fseek(file, 0, SEEK_SET) ||
        !(text = (char *)calloc((size_t)len + 1, 1)) || fread(text, 1, (size_t)len, file) != (size_t)len) {
        fprintf(stderr, "c_memory: %s is not read\n", name);
        exit(2);
    }
    fclose(file);
    return text;
}

static void play(const char *name)
{
    eip_device device = {0}, twin = {0};
    char *text = text_of(name), *line, *next;
    event it;
    trace = name;
    number = 0;
    count = points_of(text, points);
    if (make(text, &device, &twin))
        for (line = text; *line; line = next) {
            next = line + strcspn(line, "\n");
            if (*next)
                *next++ = 0;
            if (read_event(line, &it)) {
                number++;
                play_event(&it, &device, &twin);
            }
        }
    check(number > 0, "no event");
    eip_free(&device);
    eip_free(&twin);
    free(text);
}

int main(int words, char **names)
{
    int i;
    memset(untouched, 9, sizeof untouched);
    for (i = 1; i < words; i++)
        play(names[i]);
    check(refused > 0, "no refusal");
    printf("requests of the library that were refused: %lu\n", refused);
    return failed;
}
