/* Prints what the functions in C answer, by which a program gets memory, arguments, the environment and the numbers of errors: tests/arm64. */
typedef unsigned long usize;
typedef unsigned char u8;
struct tried {
    _Bool ok;
    void *p;
};
extern struct tried rattle_alloc(usize, usize);
extern struct tried rattle_realloc(void *, usize, usize, usize);
extern void rattle_dealloc(void *);
extern int rattle_errno(void);
extern void rattle_set_errno(int);
extern long rattle_arg(usize, u8 *, usize);
extern long rattle_env(const u8 *, u8 *, usize);
extern long rattle_env_at(usize, u8 *, usize);
extern int setenv(const char *, const char *, int);
extern int clearenv(void);
extern int printf(const char *, ...);

static void alloc(usize n, usize a) {
    struct tried it = rattle_alloc(n, a);
    printf("alloc %lu %lu: %d %d %d\n", n, a, it.ok, it.p != 0, it.ok ? (int)((usize)it.p % a) : 0);
    if (it.ok)
        rattle_dealloc(it.p);
}

static void arg(usize i, usize len) {
    u8 buf[] = "--------";
    long told = rattle_arg(i, buf, len);
    printf("arg %lu in %lu: %ld %s\n", i, len, told, buf);
}

static void env(const char *name, usize len) {
    u8 padded[4096] = {0}, buf[] = "--------";
    for (usize i = 0; name[i]; i++)
        padded[i] = name[i];
    long told = rattle_env(padded, buf, len);
    printf("env %s in %lu: %ld %s\n", name, len, told, buf);
}

static void env_at(usize i, usize len) {
    u8 buf[] = "--------";
    long told = rattle_env_at(i, buf, len);
    printf("env_at %lu in %lu: %ld %s\n", i, len, told, buf);
}

int main(void) {
    usize sizes[] = {0, 1, 7, 16, 4096, 100000000, (1ul << 62)};
    for (int i = 0; i < 7; i++)
        for (usize a = 1; a <= 16; a *= 2)
            alloc(sizes[i], a);
    struct tried it = rattle_alloc(5, 1);
    u8 *p = it.p;
    for (int i = 0; i < 5; i++)
        p[i] = i;
    for (usize n = 5; n < 5000000; n *= 3) {
        it = rattle_realloc(p, 5, n, 1);
        p = it.p;
        printf("realloc %lu: %d %d%d%d%d%d\n", n, it.ok, p[0], p[1], p[2], p[3], p[4]);
    }
    it = rattle_realloc(p, 5, 1ul << 62, 1);
    printf("realloc too much: %d %d, before %d%d\n", it.ok, it.p != 0, p[0], p[4]);
    it = rattle_realloc(p, 0, 0, 1);
    printf("realloc to none: %d %d\n", it.ok, it.p != 0);
    rattle_set_errno(11);
    printf("errno %d\n", rattle_errno());
    for (usize i = 1; i < 5; i++)
        for (usize len = 0; len < 9; len++)
            arg(i, len);
    clearenv();
    env_at(0, 8);
    setenv("A", "", 1);
    setenv("LONG", "eight123", 1);
    for (usize len = 0; len < 9; len++) {
        env("A", len);
        env("LONG", len);
        env("NONE", len);
        env_at(0, len);
        env_at(2, len);
    }
    return 0;
}
