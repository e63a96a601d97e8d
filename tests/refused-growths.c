// A library to be loaded before the C library (LD_PRELOAD). It refuses one growth of memory, the one whose number, from 1, the
// variable REFUSED_GROWTH holds, and notes what comes:
//   the file of REFUSED_COUNTS   two numbers: how many growths came, and how many of them before a file was opened or read
//   the file of REFUSED_INPUT    the bytes that were read of standard input
// It includes no header, so that a compiler without those of the C library builds it too.

typedef __SIZE_TYPE__ size_t;

enum { WRITE_ONLY = 1, READ_WRITE = 2, CREATE = 0100, APPEND = 02000, READABLE = 1, WRITABLE = 2, SHARED = 1 };
enum { NO_MEMORY = 12 };

extern char *getenv(const char *name);
extern long strtol(const char *text, char **end, int base);
extern void *mmap(void *at, size_t length, int protection, int flags, int file, long offset);
extern long write(int file, const void *bytes, size_t count);
extern int close(int file);
extern int *__errno_location(void);

// the C library's own functions, under their other names
extern void *__libc_malloc(size_t size);
extern void *__libc_calloc(size_t count, size_t size);
extern void *__libc_realloc(void *block, size_t size);
extern void *__libc_memalign(size_t alignment, size_t size);
extern int __open(const char *path, int flags, ...);
extern long __read(int file, void *bytes, size_t count);

static struct counts {
    long growths;
    long before;
} *counts;
static long refused;

__attribute__((constructor)) static void begin(void) {
    const char *path = getenv("REFUSED_COUNTS");
    const char *number = getenv("REFUSED_GROWTH");
    int file = path ? __open(path, READ_WRITE) : -1;
    if (file < 0) {
        return;
    }
    void *made = mmap(0, sizeof *counts, READABLE | WRITABLE, SHARED, file, 0);
    close(file);
    refused = number ? strtol(number, 0, 10) : 0;
    counts = made == (void *)-1 ? 0 : made;
}

static int is_refused(void) {
    if (!counts || __atomic_add_fetch(&counts->growths, 1, __ATOMIC_SEQ_CST) != refused) {
        return 0;
    }
    *__errno_location() = NO_MEMORY;
    return 1;
}

// Notes that the program begins to read what it works on.
static void note_work(void) {
    if (counts && counts->before < 0) {
        counts->before = counts->growths;
    }
}

// Notes bytes of standard input.
static void note_input(const void *bytes, long count) {
    const char *path = getenv("REFUSED_INPUT");
    int file = path ? __open(path, WRITE_ONLY | CREATE | APPEND, 0600) : -1;
    if (file >= 0) {
        write(file, bytes, count);
        close(file);
    }
}

int open(const char *path, int flags, unsigned mode) {
    note_work();
    return __open(path, flags, mode);
}

long read(int file, void *bytes, size_t count) {
    note_work();
    long got = __read(file, bytes, count);
    if (file == 0 && got > 0) {
        note_input(bytes, got);
    }
    return got;
}

void *malloc(size_t size) {
    return is_refused() ? 0 : __libc_malloc(size);
}

void *calloc(size_t count, size_t size) {
    return is_refused() ? 0 : __libc_calloc(count, size);
}

void *realloc(void *block, size_t size) {
    return is_refused() ? 0 : __libc_realloc(block, size);
}

void *memalign(size_t alignment, size_t size) {
    return is_refused() ? 0 : __libc_memalign(alignment, size);
}

void *aligned_alloc(size_t alignment, size_t size) {
    return memalign(alignment, size);
}

int posix_memalign(void **block, size_t alignment, size_t size) {
    void *made = memalign(alignment, size);
    if (!made) {
        return NO_MEMORY;
    }
    *block = made;
    return 0;
}
