/* Loaded before a program, lets it start only so many threads: THREADS. */

#define EAGAIN 11
#define RTLD_NEXT ((void *)-1L)

typedef void *start(void *given);
typedef int create(unsigned long *thread, const void *attributes, start *start, void *given);

extern void *dlsym(void *library, const char *name);
extern char *getenv(const char *name);
extern int atoi(const char *digits);

static int started;

int pthread_create(unsigned long *thread, const void *attributes, start *start, void *given)
{
    if (__atomic_fetch_add(&started, 1, __ATOMIC_SEQ_CST) >= atoi(getenv("THREADS")))
        return EAGAIN;
    return ((create *)dlsym(RTLD_NEXT, "pthread_create"))(thread, attributes, start, given);
}
