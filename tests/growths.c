/* A library for LD_PRELOAD that refuses one growth of memory: that whose number, from 1, the environment has as
 * REFUSED. A growth is a call of malloc or realloc. A line on standard error says that it was refused. There are no
 * headers, since the compiler of the kit has none. */
extern char *getenv(const char *);
extern unsigned long strtoul(const char *, char **, int);
extern int dprintf(int, const char *, ...);
extern void *__libc_malloc(unsigned long);
extern void *__libc_realloc(void *, unsigned long);

static unsigned long refused, growths;

/* Whether the next growth is refused. */
static int is_refused(void) {
    if (__atomic_add_fetch(&growths, 1, __ATOMIC_SEQ_CST) != refused) return 0;
    dprintf(2, "growth %lu refused\n", refused);
    return 1;
}

void *malloc(unsigned long size) {
    return is_refused() ? 0 : __libc_malloc(size);
}

void *realloc(void *block, unsigned long size) {
    return is_refused() ? 0 : __libc_realloc(block, size);
}

__attribute__((constructor)) static void begin(void) {
    const char *number = getenv("REFUSED");
    refused = number ? strtoul(number, 0, 10) : 0;
    growths = 0;
}
