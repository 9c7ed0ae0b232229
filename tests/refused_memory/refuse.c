/* Refuses one allocation of the program that loads it (LD_PRELOAD).

   All calls that give memory are counted together, from 1, from the beginning of `main` on. The one whose number stands
   in REFUSED_ALLOCATION gets no memory; with 0 each gets it. Into the open file whose number stands in
   REFUSED_REPORT a byte is written for the refused call, or with 0 for each call, so that its length
   tells how many there are.

   No header is read, so that any C compiler makes it, also one without the files of the C library. */

typedef unsigned long size;

extern char *getenv(const char *name);
extern long write(int file, const void *bytes, size count);
extern int *__errno_location(void);
extern void *__libc_malloc(size bytes);
extern void *__libc_calloc(size count, size bytes);
extern void *__libc_realloc(void *old, size bytes);
extern void *__libc_memalign(size alignment, size bytes);

enum { OUT_OF_MEMORY = 12 };

static int counting;
static int report;
static size refused;
static size calls;

static size number_in(const char *name) {
    const char *text = getenv(name);
    size number = 0;
    for (; text && '0' <= *text && *text <= '9'; text++)
        number = 10 * number + (size)(*text - '0');
    return number;
}

__attribute__((constructor)) static void begin(void) {
    refused = number_in("REFUSED_ALLOCATION");
    report = (int)number_in("REFUSED_REPORT");
    counting = 1;
}

/* Counts a call and says whether it is the one that is refused. */
static int is_refused(void) {
    if (!counting)
        return 0;
    calls++;
    if (refused != 0 && calls != refused)
        return 0;
    write(report, "", 1);
    if (refused == 0)
        return 0;
    *__errno_location() = OUT_OF_MEMORY;
    return 1;
}

void *malloc(size bytes) {
    return is_refused() ? 0 : __libc_malloc(bytes);
}

void *calloc(size count, size bytes) {
    return is_refused() ? 0 : __libc_calloc(count, bytes);
}

void *realloc(void *old, size bytes) {
    return is_refused() ? 0 : __libc_realloc(old, bytes);
}

void *memalign(size alignment, size bytes) {
    return is_refused() ? 0 : __libc_memalign(alignment, bytes);
}

void *aligned_alloc(size alignment, size bytes) {
    return memalign(alignment, bytes);
}

int posix_memalign(void **into, size alignment, size bytes) {
    void *memory = memalign(alignment, bytes);
    if (memory)
        *into = memory;
    return memory ? 0 : OUT_OF_MEMORY;
}
