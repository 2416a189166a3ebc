/* Stands before the C library's calls of datagrams, of reads, of files that are to be on the medium and of addresses, and makes them fail: the
   file that the variable CALL_FAULTS names has six numbers of four bytes, now. The first is the error of each datagram that is sent, the
   second that of each one that is asked for, 0 for none; if the third is not 0, a signal interrupts each second read of the standard
   input. The fourth is the error of each file that is to be on the medium, the fifth that of each socket that is to have an address;
   the sixth counts what has come on the medium.
   tools/play/stations builds and loads this. */
typedef unsigned long size_t;
typedef long ssize_t;
struct faults {
    int send, receive, interrupt, sync, bind, synced;
};
extern long syscall(long, ...);
extern int open(const char *, int, ...);
extern void *mmap(void *, size_t, int, int, int, long);
extern char *getenv(const char *);
extern int *__errno_location(void);

#if defined(__x86_64__)
enum { READ = 0, SENDTO = 44, RECVFROM = 45, BIND = 49, GETSOCKOPT = 55, FSYNC = 74 };
#else
enum { READ = 63, FSYNC = 82, BIND = 200, SENDTO = 206, RECVFROM = 207, GETSOCKOPT = 209 };
#endif

enum { READ_AND_WRITE = 2, CLOSE_ON_EXEC = 02000000, PROT_READ_WRITE = 3, MAP_SHARED = 1 };
enum { LEVEL_SOCKET = 1, KIND = 3, DATAGRAMS = 2, INTERRUPTED = 4 };

static volatile struct faults *faults; /* none until the file is mapped */
static unsigned reads;

__attribute__((constructor)) static void begin(void) {
    const char *path = getenv("CALL_FAULTS");
    int file = path ? open(path, READ_AND_WRITE | CLOSE_ON_EXEC) : -1;
    if (file < 0) return;
    void *at = mmap(0, sizeof *faults, PROT_READ_WRITE, MAP_SHARED, file, 0);
    if (at != (void *)-1) faults = at;
}

static long failed(int error) {
    *__errno_location() = error;
    return -1;
}

static int has_datagrams(int file) {
    int kind = 0;
    unsigned size = sizeof kind;
    return !syscall(GETSOCKOPT, file, LEVEL_SOCKET, KIND, &kind, &size) && kind == DATAGRAMS;
}

ssize_t sendto(int file, const void *bytes, size_t len, int flags, const void *to, unsigned to_len) {
    int error = faults ? faults->send : 0;
    if (error && has_datagrams(file)) return failed(error);
    return syscall(SENDTO, file, bytes, len, flags, to, to_len);
}

ssize_t send(int file, const void *bytes, size_t len, int flags) {
    return sendto(file, bytes, len, flags, 0, 0);
}

ssize_t recvfrom(int file, void *bytes, size_t len, int flags, void *from, unsigned *from_len) {
    int error = faults ? faults->receive : 0;
    if (error && has_datagrams(file)) return failed(error);
    return syscall(RECVFROM, file, bytes, len, flags, from, from_len);
}

int fsync(int file) {
    if (faults && faults->sync) return (int)failed(faults->sync);
    long done = syscall(FSYNC, file);
    if (faults && !done) faults->synced++;
    return (int)done;
}

int bind(int file, const void *at, unsigned size) {
    return faults && faults->bind ? (int)failed(faults->bind) : (int)syscall(BIND, file, at, size);
}

ssize_t read(int file, void *bytes, size_t len) {
    if (file == 0 && faults && faults->interrupt && ++reads % 2) return failed(INTERRUPTED);
    return syscall(READ, file, bytes, len);
}
