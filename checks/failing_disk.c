/* Loaded before a program, makes some calls on the files of a journal fail, or ends the program
 * within a write, and counts the calls.
 *
 * DISK_CONTROL names a file with the numbers of Control, which the program and whoever started it
 * share: they may be changed while the program runs. A file of a journal is one whose name begins
 * with `retained`. A new length counts as a write. */

typedef struct {
    /* How many writes and syncs there were. */
    long writes, syncs;
    /* The number of the first that fails, how many do, and the error; of a write that is torn, the
     * error is -1: so many thousandths of it are written, and the program is killed. */
    long first_write, failing_writes, write_error, thousandths;
    long first_sync, failing_syncs, sync_error;
} Control;

extern char *getenv(const char *name);
extern int *__errno_location(void);
extern int open(const char *path, int flags, ...);
extern void *mmap(void *at, unsigned long size, int access, int flags, int descriptor, long first);
extern long readlink(const char *path, char *target, unsigned long size);
extern int snprintf(char *text, unsigned long size, const char *format, ...);
extern char *strrchr(const char *text, int byte);
extern int strncmp(const char *one, const char *other, unsigned long size);
extern long syscall(long number, ...);
extern int getpid(void);
extern int kill(int process, int signal);

enum { PWRITE = 18, FSYNC = 74, FDATASYNC = 75, FTRUNCATE = 77 };
enum { READ_WRITE = 2, SHARED = 1, BOTH_WAYS = 3, KILL = 9, TORN = -1 };

static Control *control(void)
{
    static Control *shared;
    const char *path = getenv("DISK_CONTROL");
    if (!shared && path)
        shared = mmap(0, sizeof *shared, BOTH_WAYS, SHARED, open(path, READ_WRITE), 0);
    return shared;
}

static int is_of_journal(int descriptor)
{
    char link[64], path[4096];
    snprintf(link, sizeof link, "/proc/self/fd/%d", descriptor);
    long length = readlink(link, path, sizeof path - 1);
    if (length < 0 || !control())
        return 0;
    path[length] = 0;
    const char *name = strrchr(path, '/');
    return name && strncmp(name, "/retained", 9) == 0;
}

static int is_among(long number, long first, long count)
{
    return first > 0 && number >= first && number - first < count;
}

static int fails_with(long error)
{
    *__errno_location() = (int)error;
    return -1;
}

/* The error of the next write, or 0. */
static long next_write(void)
{
    Control *own = control();
    long number = __atomic_add_fetch(&own->writes, 1, __ATOMIC_SEQ_CST);
    int fails = is_among(number, own->first_write, own->failing_writes);
    return fails ? own->write_error : 0;
}

static void end(void)
{
    for (;;)
        kill(getpid(), KILL);
}

long pwrite(int descriptor, const void *bytes, unsigned long count, long at)
{
    long error = is_of_journal(descriptor) ? next_write() : 0;
    if (error == TORN) {
        syscall(PWRITE, descriptor, bytes, count * control()->thousandths / 1000, at);
        end();
    }
    return error ? fails_with(error) : syscall(PWRITE, descriptor, bytes, count, at);
}

long pwrite64(int descriptor, const void *bytes, unsigned long count, long at)
{
    return pwrite(descriptor, bytes, count, at);
}

int ftruncate(int descriptor, long length)
{
    long error = is_of_journal(descriptor) ? next_write() : 0;
    if (error == TORN)
        end();
    return error ? fails_with(error) : (int)syscall(FTRUNCATE, descriptor, length);
}

int ftruncate64(int descriptor, long length)
{
    return ftruncate(descriptor, length);
}

static int synced(int descriptor, long call)
{
    Control *own = control();
    if (is_of_journal(descriptor)) {
        long number = __atomic_add_fetch(&own->syncs, 1, __ATOMIC_SEQ_CST);
        if (is_among(number, own->first_sync, own->failing_syncs))
            return fails_with(own->sync_error);
    }
    return (int)syscall(call, descriptor);
}

int fsync(int descriptor)
{
    return synced(descriptor, FSYNC);
}

int fdatasync(int descriptor)
{
    return synced(descriptor, FDATASYNC);
}
