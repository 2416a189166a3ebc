/* Stands before the C library's clocks and moves them: CLOCK_MONOTONIC is the system's and a number of milliseconds, which
   the file that the variable CLOCK_OFFSET names has in its first eight bytes, now; CLOCK_REALTIME is the system's and the number in the next
   eight bytes. tools/play/stations builds and loads this. */
typedef unsigned long size_t;
struct timespec {
    long seconds, nanoseconds;
};
extern long syscall(long, ...);
extern int open(const char *, int, ...);
extern void *mmap(void *, size_t, int, int, int, long);
extern char *getenv(const char *);

#if defined(__x86_64__)
#define SYSTEM_CLOCK 228
#else
#define SYSTEM_CLOCK 113
#endif

enum { REALTIME = 0, MONOTONIC = 1, CLOCKS = 2, READ_ONLY = 0, CLOSE_ON_EXEC = 02000000, PROT_READ = 1, MAP_SHARED = 1 };

static const volatile long *offsets; /* of the monotonic clock, and of the wall; none until the file is mapped */

__attribute__((constructor)) static void begin(void) {
    const char *path = getenv("CLOCK_OFFSET");
    int file = path ? open(path, READ_ONLY | CLOSE_ON_EXEC) : -1;
    if (file < 0) return;
    void *at = mmap(0, CLOCKS * sizeof *offsets, PROT_READ, MAP_SHARED, file, 0);
    if (at != (void *)-1) offsets = at;
}

int clock_gettime(int id, struct timespec *now) {
    long failed = syscall(SYSTEM_CLOCK, id, now);
    if (failed || (id != MONOTONIC && id != REALTIME) || !offsets) return (int)failed;
    long ms = offsets[id == REALTIME];
    now->seconds += ms / 1000;
    now->nanoseconds += ms % 1000 * 1000000;
    if (now->nanoseconds >= 1000000000) now->seconds++, now->nanoseconds -= 1000000000;
    if (now->nanoseconds < 0) now->seconds--, now->nanoseconds += 1000000000;
    return 0;
}
