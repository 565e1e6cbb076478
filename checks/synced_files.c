/* Loaded before a program, lets a loss of power be shown: beside each file that is synced stands
 * NAME.synced, with what it had at its last sync.
 *
 * A sync takes memory for that, and fails if it is refused. Nothing waits for the device. A folder
 * has no such file. A kill within a sync leaves what the sync before it left. */

extern void *malloc(unsigned long size);
extern void free(void *block);
extern int *__errno_location(void);
extern int open(const char *path, int flags, ...);
extern int close(int descriptor);
extern long pread(int descriptor, void *bytes, unsigned long count, long at);
extern long write(int descriptor, const void *bytes, unsigned long count);
extern long readlink(const char *path, char *target, unsigned long size);
extern int snprintf(char *text, unsigned long size, const char *format, ...);
extern int rename(const char *old, const char *new);

enum { OUT_OF_MEMORY = 12, WRITE_CREATE_EMPTY = 01 | 0100 | 01000 };

static int keep(int descriptor)
{
    static char bytes[65536];
    char link[64], path[4096], made[4096 + 8];
    long got = pread(descriptor, bytes, sizeof bytes, 0);
    if (got < 0)
        return 0;
    snprintf(link, sizeof link, "/proc/self/fd/%d", descriptor);
    long length = readlink(link, path, sizeof path - 8);
    if (length < 0)
        return -1;
    snprintf(path + length, 8, ".synced");
    snprintf(made, sizeof made, "%s.new", path);
    int copy = open(made, WRITE_CREATE_EMPTY, 0600);
    if (copy < 0)
        return -1;
    for (long at = 0; got > 0; got = pread(descriptor, bytes, sizeof bytes, at)) {
        if (write(copy, bytes, got) != got)
            return -1;
        at += got;
    }
    return close(copy) == 0 ? rename(made, path) : -1;
}

int fsync(int descriptor)
{
    /* Volatile, or the compiler leaves the call out. */
    void *volatile block = malloc(1);
    if (!block) {
        *__errno_location() = OUT_OF_MEMORY;
        return -1;
    }
    free(block);
    return keep(descriptor);
}

int fdatasync(int descriptor)
{
    return fsync(descriptor);
}
