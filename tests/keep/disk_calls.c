/* Tells the calls on files of the program that loads it (LD_PRELOAD), and fails one of them.

   Told are `pread`, `pwrite` and `fsync`, and `write` to the standard output: each, before it is made, as one byte for its
   kind and two numbers of eight bytes, its place and its size, and then the bytes that are written. They go into the
   open file whose number stands in TOLD_CALLS. Of the first three kinds, all calls are counted together, from 1, and the
   one whose number stands in FAILED_CALL fails; one that writes has written half of its bytes then.

   No header is read, so that any C compiler makes it, also one without the files of the C library. */

typedef unsigned long size;

extern char *getenv(const char *name);
extern long syscall(long number, ...);

#if defined(__x86_64__)
enum { WRITE = 1, PREAD = 17, PWRITE = 18, FSYNC = 74 };
#elif defined(__aarch64__)
enum { WRITE = 64, PREAD = 67, PWRITE = 68, FSYNC = 82 };
#endif
enum { FAULT = 5, OUTPUT = 1 };

extern int *__errno_location(void);

static size calls;

static size number_in(const char *name) {
    const char *text = getenv(name);
    size number = 0;
    for (; text && '0' <= *text && *text <= '9'; text++)
        number = 10 * number + (size)(*text - '0');
    return number;
}

static void tell(char kind, size place, size count, const void *bytes) {
    long report = (long)number_in("TOLD_CALLS");
    size numbers[2] = {place, count};
    syscall(WRITE, report, &kind, 1);
    syscall(WRITE, report, numbers, sizeof numbers);
    if (bytes)
        syscall(WRITE, report, bytes, count);
}

/* Counts a call and says whether it is the one that fails. */
static int fails(void) {
    calls++;
    if (calls != number_in("FAILED_CALL"))
        return 0;
    *__errno_location() = FAULT;
    return 1;
}

long pread(int file, void *into, size count, long place) {
    tell('r', (size)place, count, 0);
    return fails() ? -1 : syscall(PREAD, (long)file, into, count, place);
}

long pwrite(int file, const void *bytes, size count, long place) {
    tell('w', (size)place, count, bytes);
    if (fails()) {
        syscall(PWRITE, (long)file, bytes, count / 2, place);
        *__errno_location() = FAULT;
        return -1;
    }
    return syscall(PWRITE, (long)file, bytes, count, place);
}

int fsync(int file) {
    tell('s', 0, 0, 0);
    return fails() ? -1 : (int)syscall(FSYNC, (long)file);
}

long write(int file, const void *bytes, size count) {
    if (file == OUTPUT)
        tell('o', 0, count, bytes);
    return syscall(WRITE, (long)file, bytes, count);
}

long pread64(int file, void *into, size count, long place) {
    return pread(file, into, count, place);
}

long pwrite64(int file, const void *bytes, size count, long place) {
    return pwrite(file, bytes, count, place);
}
