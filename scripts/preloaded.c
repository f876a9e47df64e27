/* Refuses memory to a program, and makes its reads and writes fail, as the environment says.

   It is loaded before the C library of the program (scripts/preloaded.py). Standard input is read by
   calls that are counted from 1, and so is standard output written; standard error is left alone.

   REFUSED_GROWTH=N   the Nth request for memory is refused
   REFUSED_TIMES=T    so are the T-1 requests behind it (1 where nothing is said)
   FAILING_READ=K     the Kth read fails
   FAILING_WRITE=K    the Kth write fails
   FAILING_TIMES=T    so do the T-1 calls behind it (1 where nothing is said)
   FAILING_ERRNO=E    with this error
   MOST_BYTES=B       a read or a write moves at most B bytes
   COUNTS_FD=F        the counts of requests, reads and writes are kept in that file, eight bytes each */
#include <errno.h>
#include <stdatomic.h>
#include <stdlib.h>
#include <sys/mman.h>
#include <sys/syscall.h>
#include <unistd.h>

extern void *__libc_malloc(size_t);
extern void *__libc_calloc(size_t, size_t);
extern void *__libc_realloc(void *, size_t);
extern void *__libc_memalign(size_t, size_t);

struct counts { atomic_ulong growths, reads, writes; };

static unsigned long refused, refused_times, failing_read, failing_write, times, most;
static int error;
static struct counts own, *counts = &own;

static unsigned long setting(const char *name, unsigned long otherwise) {
    const char *value = getenv(name);
    return value ? strtoul(value, NULL, 10) : otherwise;
}

__attribute__((constructor)) static void begin(void) {
    refused = setting("REFUSED_GROWTH", 0);
    refused_times = setting("REFUSED_TIMES", 1);
    failing_read = setting("FAILING_READ", 0);
    failing_write = setting("FAILING_WRITE", 0);
    times = setting("FAILING_TIMES", 1);
    error = (int)setting("FAILING_ERRNO", EIO);
    most = setting("MOST_BYTES", -1UL);
    int fd = (int)setting("COUNTS_FD", -1UL);
    void *kept = mmap(NULL, sizeof *counts, PROT_READ | PROT_WRITE, MAP_SHARED, fd, 0);
    if (kept != MAP_FAILED) counts = kept;
}

static int is_refused(void) {
    unsigned long growth = atomic_fetch_add(&counts->growths, 1) + 1;
    int is_it = refused && refused <= growth && growth - refused < refused_times;
    if (is_it) errno = ENOMEM;
    return is_it;
}

void *malloc(size_t size) { return is_refused() ? NULL : __libc_malloc(size); }
void *calloc(size_t count, size_t size) { return is_refused() ? NULL : __libc_calloc(count, size); }
void *realloc(void *block, size_t size) {
    return is_refused() ? NULL : __libc_realloc(block, size);
}
void *memalign(size_t align, size_t size) {
    return is_refused() ? NULL : __libc_memalign(align, size);
}
void *aligned_alloc(size_t align, size_t size) { return memalign(align, size); }

int posix_memalign(void **block, size_t align, size_t size) {
    void *found = memalign(align, size);
    if (found) *block = found;
    return found ? 0 : ENOMEM;
}

/* Whether the next of these calls fails; 0 is the number of none. */
static int is_failing(atomic_ulong *calls, unsigned long first) {
    unsigned long call = atomic_fetch_add(calls, 1) + 1;
    int is_it = first && first <= call && call - first < times;
    if (is_it) errno = error;
    return is_it;
}

static size_t bounded(size_t size) { return size < most ? size : most; }

ssize_t read(int fd, void *into, size_t size) {
    if (fd != 0) return syscall(SYS_read, fd, into, size);
    if (is_failing(&counts->reads, failing_read)) return -1;
    return syscall(SYS_read, fd, into, bounded(size));
}

ssize_t write(int fd, const void *from, size_t size) {
    if (fd != 1) return syscall(SYS_write, fd, from, size);
    if (is_failing(&counts->writes, failing_write)) return -1;
    return syscall(SYS_write, fd, from, bounded(size));
}

ssize_t __write(int fd, const void *from, size_t size) { return write(fd, from, size); }
