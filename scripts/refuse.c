/* Preloaded into a test: refuses the growth of memory whose number, from 1, stands in REFUSE, and says so on
   descriptor 3. No header is needed. */
typedef unsigned long size;
char *getenv(const char *);
long atol(const char *);
long write(int, const void *, size);
void *__libc_malloc(size);
void *__libc_realloc(void *, size);

static long growths;

static int is_refused(void) {
    const char *number = getenv("REFUSE");
    if (!number || __atomic_add_fetch(&growths, 1, __ATOMIC_SEQ_CST) != atol(number)) return 0;
    return write(3, "refused\n", 8) == 8;
}

void *malloc(size bytes) { return is_refused() ? 0 : __libc_malloc(bytes); }

void *realloc(void *old, size bytes) { return is_refused() ? 0 : __libc_realloc(old, bytes); }
