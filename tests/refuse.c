/* Preloaded by tests/memory-refused: the n-th malloc or realloc that the program itself makes is refused, n from REFUSE in the environment, or the
   n-th thread, n from REFUSE_THREAD; then the file REFUSED is made. What the C library takes for itself is not counted. */
#define _GNU_SOURCE
#include <dlfcn.h>
#include <errno.h>
#include <fcntl.h>
#include <link.h>
#include <pthread.h>
#include <stdatomic.h>
#include <stdlib.h>
#include <unistd.h>

static void *(*real_malloc)(size_t);
static void *(*real_realloc)(void *, size_t);
static int (*real_create)(pthread_t *, const pthread_attr_t *, void *(*)(void *), void *);
static atomic_long calls, threads;
static long wanted, wanted_thread;
static char *first, *last;

static int of_program(struct dl_phdr_info *info, size_t size, void *unused) {
    (void)size, (void)unused;
    for (int i = 0; i < info->dlpi_phnum; i++)
        if (info->dlpi_phdr[i].p_type == PT_LOAD && info->dlpi_phdr[i].p_flags & PF_X) {
            first = (char *)info->dlpi_addr + info->dlpi_phdr[i].p_vaddr;
            last = first + info->dlpi_phdr[i].p_memsz;
        }
    return 1; /* the program comes first */
}

__attribute__((constructor)) static void begin(void) {
    real_malloc = dlsym(RTLD_NEXT, "malloc");
    real_realloc = dlsym(RTLD_NEXT, "realloc");
    dl_iterate_phdr(of_program, NULL);
    real_create = dlsym(RTLD_NEXT, "pthread_create");
    wanted = getenv("REFUSE") ? atol(getenv("REFUSE")) : 0;
    wanted_thread = getenv("REFUSE_THREAD") ? atol(getenv("REFUSE_THREAD")) : 0;
}

static int refuse(void) {
    int file = open(getenv("REFUSED"), O_CREAT | O_WRONLY, 0600);
    if (file >= 0) close(file);
    return 1;
}

static int is_refused(void *from) {
    if ((char *)from < first || (char *)from >= last || ++calls != wanted) return 0;
    return refuse();
}

int pthread_create(pthread_t *thread, const pthread_attr_t *how, void *(*run)(void *), void *with) {
    if (++threads == wanted_thread && refuse()) return EAGAIN;
    return real_create(thread, how, run, with);
}

void *malloc(size_t size) {
    if (!real_malloc) real_malloc = dlsym(RTLD_NEXT, "malloc");
    return is_refused(__builtin_return_address(0)) ? NULL : real_malloc(size);
}

void *realloc(void *old, size_t size) {
    if (!real_realloc) real_realloc = dlsym(RTLD_NEXT, "realloc");
    return is_refused(__builtin_return_address(0)) ? NULL : real_realloc(old, size);
}
