/* Loaded before a program, lets its first accepts fail, as if it had no descriptor left: FAILING. */

#define EMFILE 24
#define RTLD_NEXT ((void *)-1L)

typedef int accept_with_flags(int socket, void *address, unsigned *length, int flags);

extern void *dlsym(void *library, const char *name);
extern char *getenv(const char *name);
extern int atoi(const char *digits);
extern int *__errno_location(void);

static int called;

int accept4(int socket, void *address, unsigned *length, int flags)
{
    if (__atomic_fetch_add(&called, 1, __ATOMIC_SEQ_CST) < atoi(getenv("FAILING"))) {
        *__errno_location() = EMFILE;
        return -1;
    }
    return ((accept_with_flags *)dlsym(RTLD_NEXT, "accept4"))(socket, address, length, flags);
}
