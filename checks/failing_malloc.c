/* Loaded before a program, makes some allocations in a row fail, and tells it.
 *
 * FAIL_AT is the number of the first that fails, counted from 1, and FAIL_COUNT how many do. At
 * each, a byte is written to the file descriptor FAIL_TELL. If FAIL_ASKED is given, how many bytes
 * were asked for in all stands at the beginning of that file, as a number of eight bytes. The
 * programs allocate by malloc and realloc alone. */

extern void *__libc_malloc(unsigned long size);
extern void *__libc_realloc(void *old, unsigned long size);
extern char *getenv(const char *name);
extern long write(int descriptor, const void *bytes, unsigned long count);
extern long pwrite(int descriptor, const void *bytes, unsigned long count, long at);

/* The number of the next allocation. */
static long next = 1;

/* How many bytes were asked for. */
static long asked;

static long number(const char *name)
{
    const char *digits = getenv(name);
    long value = 0;
    while (digits && *digits >= '0' && *digits <= '9')
        value = 10 * value + (*digits++ - '0');
    return value;
}

static int fails(unsigned long size)
{
    long all = __atomic_add_fetch(&asked, (long)size, __ATOMIC_SEQ_CST);
    if (getenv("FAIL_ASKED"))
        pwrite((int)number("FAIL_ASKED"), &all, sizeof all, 0);
    long first = number("FAIL_AT");
    long at = __atomic_fetch_add(&next, 1, __ATOMIC_SEQ_CST);
    if (at < first || at - first >= number("FAIL_COUNT"))
        return 0;
    write((int)number("FAIL_TELL"), "x", 1);
    return 1;
}

void *malloc(unsigned long size)
{
    return fails(size) ? 0 : __libc_malloc(size);
}

void *realloc(void *old, unsigned long size)
{
    return fails(size) ? 0 : __libc_realloc(old, size);
}
