/* Refuses requests of a program. It is loaded before the C library, in place of whose functions it stands:
 *
 *   REFUSE=memory:5:5:TALLY LD_PRELOAD=./refuse.so mv3c run
 *
 * refuses the 5th request for memory and no other. memory is malloc, calloc and realloc, threads is pthread_create,
 * reads is read from standard input and writes is write to standard output. The numbers are the first and the last
 * request that is refused, counted from 1. A read or a write before these gets one byte. The file TALLY, of 16 bytes, gets
 * how many requests there were and how many of them were refused. */

#define _GNU_SOURCE
#include <dlfcn.h>
#include <errno.h>
#include <fcntl.h>
#include <pthread.h>
#include <stdatomic.h>
#include <stdio.h>
#include <stdlib.h>
#include <string.h>
#include <sys/mman.h>
#include <unistd.h>

enum kind { NONE, MEMORY, THREADS, READS, WRITES };

static const char *const kinds[] = {"none", "memory", "threads", "reads", "writes"};

struct tally {
    atomic_ulong asked;
    atomic_ulong refused;
};

static enum kind refused_kind = NONE;
static unsigned long first, last;
static struct tally *tally;

extern void *__libc_malloc(size_t);
extern void *__libc_calloc(size_t, size_t);
extern void *__libc_realloc(void *, size_t);
static int (*real_create)(pthread_t *, const pthread_attr_t *, void *(*)(void *), void *);
static ssize_t (*real_read)(int, void *, size_t);
static ssize_t (*real_write)(int, const void *, size_t);

static void give_up(const char *what) {
    fprintf(stderr, "refuse: %s\n", what);
    _exit(99);
}

__attribute__((constructor)) static void begin(void) {
    char kind[16], path[4096];
    const char *words = getenv("REFUSE");
    real_create = dlsym(RTLD_NEXT, "pthread_create");
    real_read = dlsym(RTLD_NEXT, "read");
    real_write = dlsym(RTLD_NEXT, "write");
    if (!real_create || !real_read || !real_write) give_up("no such function");
    if (!words) return;
    if (sscanf(words, "%15[a-z]:%lu:%lu:%4095s", kind, &first, &last, path) != 4) give_up("other words");
    int file = open(path, O_RDWR);
    if (file < 0) give_up("no tally");
    tally = mmap(NULL, sizeof *tally, PROT_READ | PROT_WRITE, MAP_SHARED, file, 0);
    if (tally == MAP_FAILED) give_up("no tally");
    close(file);
    for (enum kind k = MEMORY; k <= WRITES; k++)
        if (strcmp(kind, kinds[k]) == 0) refused_kind = k;
    if (refused_kind == NONE) give_up("another kind");
}

/* Counts a request, and tells whether it is refused. */
static int refuses(enum kind kind) {
    if (kind != refused_kind) return 0;
    unsigned long number = atomic_fetch_add(&tally->asked, 1) + 1;
    if (number < first || number > last) return 0;
    atomic_fetch_add(&tally->refused, 1);
    return 1;
}

static void *no_memory(void) {
    errno = ENOMEM;
    return NULL;
}

void *malloc(size_t size) { return refuses(MEMORY) ? no_memory() : __libc_malloc(size); }

void *calloc(size_t count, size_t size) { return refuses(MEMORY) ? no_memory() : __libc_calloc(count, size); }

void *realloc(void *block, size_t size) { return refuses(MEMORY) ? no_memory() : __libc_realloc(block, size); }

int pthread_create(pthread_t *thread, const pthread_attr_t *how, void *(*body)(void *), void *with) {
    return refuses(THREADS) ? EAGAIN : real_create(thread, how, body, with);
}

/* The size that a request of this kind gets, or 0 where it is refused. */
static size_t granted(enum kind kind, size_t size) {
    if (refused_kind != kind) return size;
    if (refuses(kind)) return 0;
    return atomic_load(&tally->refused) == 0 && size > 1 ? 1 : size;
}

static ssize_t failed(void) {
    errno = EIO;
    return -1;
}

ssize_t read(int file, void *bytes, size_t size) {
    size_t most = file == 0 && size > 0 ? granted(READS, size) : size;
    return most == 0 && size > 0 ? failed() : real_read(file, bytes, most);
}

ssize_t write(int file, const void *bytes, size_t size) {
    size_t most = file == 1 && size > 0 ? granted(WRITES, size) : size;
    return most == 0 && size > 0 ? failed() : real_write(file, bytes, most);
}
