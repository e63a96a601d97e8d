/* The functions in C by which the program for arm64 gets memory, arguments, the environment and the numbers of errors. The toolchain brings them
   for x86-64 alone; here they stand as its contracts say what they do, and no proof is about them. tests/arm64 compares both. */
typedef unsigned long usize;
typedef long isize;
typedef unsigned char u8;

extern int *__errno_location(void);
extern void *malloc(usize);
extern void *realloc(void *, usize);
extern void free(void *);
extern char *getenv(const char *);
extern char **environ;

struct tried {
    _Bool ok;
    void *p;
};

/* what a pointer leads to where there is no memory */
static u8 none[16] __attribute__((aligned(16)));

static struct tried told(void *p) {
    struct tried it = {p != 0, p ? p : none};
    return it;
}

/* memory for a value of n bytes, at an address that is a multiple of a, which is at most 16 */
struct tried rattle_alloc(usize n, usize a) {
    return told(malloc(n ? n : a));
}

/* makes the block at p one of n bytes, which may move; without memory for it the block stays as it is */
struct tried rattle_realloc(void *p, usize kept, usize n, usize a) {
    (void)kept;
    return told(realloc(p, n ? n : a));
}

void rattle_dealloc(void *p) {
    free(p);
}

int rattle_errno(void) {
    return *__errno_location();
}

void rattle_set_errno(int error) {
    *__errno_location() = error;
}

static int count;
static char **arguments;

__attribute__((constructor)) static void keep(int c, char **v) {
    count = c;
    arguments = v;
}

/* puts a text at the start of buf: its length, -1 if there is none, -2 if it doesn't fit, and then buf is full */
static isize put(const char *it, u8 *buf, usize len) {
    usize at = 0;
    if (!it)
        return -1;
    for (; it[at]; at++) {
        if (at == len)
            return -2;
        buf[at] = it[at];
    }
    return at;
}

/* argument i */
isize rattle_arg(usize i, u8 *buf, usize len) {
    return put(i < (usize)count ? arguments[i] : 0, buf, len);
}

/* the value of an environment variable */
isize rattle_env(const u8 *name, u8 *buf, usize len) {
    return put(getenv((const char *)name), buf, len);
}

/* entry i of the environment */
isize rattle_env_at(usize i, u8 *buf, usize len) {
    usize entries = 0;
    while (environ && environ[entries])
        entries++;
    return put(i < entries ? environ[i] : 0, buf, len);
}
