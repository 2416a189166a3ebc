/* Stands before the C library's allocator and refuses a request where a test asks for it.

   A request for 2^50 + n bytes is refused, and so are the nth request from then on and all after it (none if n is 0): a
   list that grows while it is collected asks again for less. A request for 2^51 bytes is granted, by a byte, if a request
   was refused so since then, and else refused.

   The variable REFUSE=n in the environment refuses the nth request of the whole run, and no other. A byte is then written
   to the file descriptor that the variable REFUSED names. tools/play/refusals builds and loads this. */
typedef unsigned long size_t;
extern void *__libc_malloc(size_t);
extern void *__libc_realloc(void *, size_t);
extern long write(int, const void *, size_t);
extern char **environ;

static size_t left;   /* the requests up to the one that is refused, with it; 0 if none is */
static int onwards;   /* whether those after it are refused too */
static int refused;   /* whether one was refused */
static int descriptor = -1; /* where that is said once; -1 if nowhere */

/* The number that a variable of the environment has, or -1. */
static long number_of(const char *name) {
    for (char **it = environ; it && *it; it++) {
        const char *at = *it, *wanted = name;
        while (*wanted && *wanted == *at) wanted++, at++;
        if (*wanted || *at != '=') continue;
        long number = 0;
        for (at++; *at >= '0' && *at <= '9'; at++) number = number * 10 + (*at - '0');
        return number;
    }
    return -1;
}

__attribute__((constructor)) static void begin(void) {
    long nth = number_of("REFUSE");
    if (nth <= 0) return;
    left = (size_t)nth;
    descriptor = (int)number_of("REFUSED");
}

static int is_refused(void) {
    if (refused && onwards) return 1;
    if (left == 0 || --left > 0) return 0;
    refused = 1;
    if (descriptor >= 0) (void)!write(descriptor, "!", 1);
    descriptor = -1;
    return 1;
}

void *malloc(size_t size) {
    if (size >> 50 == 1) {
        left = size & 0xFFFFFF;
        onwards = 1;
        refused = 0;
        return 0;
    }
    if (size >> 51 == 1) return refused ? __libc_malloc(1) : 0;
    return is_refused() ? 0 : __libc_malloc(size);
}

void *realloc(void *old, size_t size) { return is_refused() ? 0 : __libc_realloc(old, size); }
