/* Refuses calls of the C library that a program makes. It is loaded before the program by LD_PRELOAD;
 * checks/refusals builds and uses it.
 *
 * REFUSE is "KIND FIRST COUNT": of the calls of this kind, counted from 1, those from FIRST on are refused, COUNT of
 * them, or all if COUNT is 0. Each refusal writes a byte to the file that REFUSE_TOLD names. Only calls by the program
 * itself are counted, not those that the library makes for its own use.
 *
 *   alloc        malloc and realloc give no memory
 *   read         a read fails          (EIO)        read-interrupted   (EINTR)     read-short    it moves one byte
 *   write        a write fails         (ENOSPC)     write-interrupted  (EINTR)     write-short   it moves one byte
 *   write-none   a write moves no byte and doesn't fail
 *   write-torn   a write moves half of its bytes, and later ones fail (ENOSPC), as on a device that gets full
 *   open         a file isn't opened   (EMFILE)     open-memory        (ENOMEM)
 *   thread       a thread isn't started (EAGAIN)
 *
 * With the kind "asked" the program itself says when. It asks for ASKED + N bytes, which no machine has: from then
 * on the Nth malloc or realloc is refused (and all after it if COUNT is 0), until it asks for ASKED bytes. These are
 * granted if anything was refused in between. Both kinds of request get a small piece of memory if they are granted. A dot
 * after the bytes in REFUSE_TOLD ends those of one such period. FIRST has no meaning.
 */
#define _GNU_SOURCE
#include <dlfcn.h>
#include <errno.h>
#include <fcntl.h>
#include <link.h>
#include <pthread.h>
#include <stdarg.h>
#include <stdatomic.h>
#include <stdint.h>
#include <stdio.h>
#include <stdlib.h>
#include <string.h>
#include <sys/syscall.h>
#include <unistd.h>

extern void *__libc_malloc(size_t size);
extern void *__libc_realloc(void *old, size_t size);

static char kind[32];
static unsigned long first, count;
static atomic_ulong calls;
static int told = -1;
static uintptr_t program_start, program_end;

/* The program is the first object in the list. */
static int find_program(struct dl_phdr_info *info, size_t size, void *unused) {
    (void)size, (void)unused;
    program_start = UINTPTR_MAX;
    for (int i = 0; i < info->dlpi_phnum; i++) {
        const ElfW(Phdr) *part = &info->dlpi_phdr[i];
        if (part->p_type != PT_LOAD)
            continue;
        uintptr_t start = info->dlpi_addr + part->p_vaddr;
        if (start < program_start)
            program_start = start;
        if (start + part->p_memsz > program_end)
            program_end = start + part->p_memsz;
    }
    return 1;
}

__attribute__((constructor)) static void begin(void) {
    const char *words = getenv("REFUSE"), *path = getenv("REFUSE_TOLD");
    if (!words || !path || sscanf(words, "%31s %lu %lu", kind, &first, &count) != 3)
        _exit(99);
    told = syscall(SYS_openat, AT_FDCWD, path, O_WRONLY | O_CREAT | O_APPEND | O_CLOEXEC, 0600);
    if (told < 0)
        _exit(99);
    dl_iterate_phdr(find_program, 0);
}

/* The place of a call among those that are refused, from 1; 0 if it isn't refused. */
static unsigned long refused(const char *name, const void *caller) {
    uintptr_t from = (uintptr_t)caller;
    if (told < 0 || from < program_start || from >= program_end || strcmp(kind, name) != 0)
        return 0;
    unsigned long number = atomic_fetch_add(&calls, 1) + 1;
    if (number < first || (count != 0 && number >= first + count))
        return 0;
    syscall(SYS_write, told, "x", 1);
    return number - first + 1;
}

#define REFUSED(name) refused(name, __builtin_return_address(0))

#define ASKED ((size_t)1 << 62)

static atomic_ulong awaited, refusals;

/* Whether the program addresses this library. Then its answer is the piece of memory in ANSWER. */
static int is_asked(size_t size, void **answer) {
    if (size < ASKED || strcmp(kind, "asked") != 0)
        return 0;
    *answer = size > ASKED || atomic_load(&refusals) > 0 ? __libc_malloc(1) : 0;
    if (size == ASKED)
        syscall(SYS_write, told, ".", 1);
    atomic_store(&awaited, size - ASKED);
    atomic_store(&refusals, 0);
    atomic_store(&calls, 0);
    return 1;
}

/* Whether the program wants this growth refused. */
static int is_refused_as_asked(const void *caller) {
    uintptr_t from = (uintptr_t)caller;
    unsigned long wanted = atomic_load(&awaited);
    if (wanted == 0 || from < program_start || from >= program_end)
        return 0;
    unsigned long number = atomic_fetch_add(&calls, 1) + 1;
    if (number < wanted || (count != 0 && number >= wanted + count))
        return 0;
    atomic_fetch_add(&refusals, 1);
    syscall(SYS_write, told, "x", 1);
    return 1;
}

#define REFUSED_AS_ASKED() is_refused_as_asked(__builtin_return_address(0))

/* A run makes a block of this size (imposer, runs.rt), gives it back at once, and does without it if it is refused. So
 * it isn't among the growths that are asked for. */
#define KEPT_BLOCK 4194304

void *malloc(size_t size) {
    void *answer;
    if (is_asked(size, &answer))
        return answer;
    if (REFUSED("alloc") || (size != KEPT_BLOCK && REFUSED_AS_ASKED())) {
        errno = ENOMEM;
        return 0;
    }
    return __libc_malloc(size);
}

void *realloc(void *old, size_t size) {
    if (REFUSED("alloc") || REFUSED_AS_ASKED()) {
        errno = ENOMEM;
        return 0;
    }
    return __libc_realloc(old, size);
}

ssize_t read(int file, void *to, size_t size) {
    if (REFUSED("read")) {
        errno = EIO;
        return -1;
    }
    if (REFUSED("read-interrupted")) {
        errno = EINTR;
        return -1;
    }
    if (size > 1 && REFUSED("read-short"))
        size = 1;
    return syscall(SYS_read, file, to, size);
}

ssize_t write(int file, const void *from, size_t size) {
    if (REFUSED("write")) {
        errno = ENOSPC;
        return -1;
    }
    if (REFUSED("write-interrupted")) {
        errno = EINTR;
        return -1;
    }
    if (REFUSED("write-none"))
        return 0;
    unsigned long torn = REFUSED("write-torn");
    if (torn > 1) {
        errno = ENOSPC;
        return -1;
    }
    if (torn == 1)
        size = (size + 1) / 2;
    if (size > 1 && REFUSED("write-short"))
        size = 1;
    return syscall(SYS_write, file, from, size);
}

int open(const char *path, int flags, ...) {
    va_list rest;
    va_start(rest, flags);
    int mode = flags & O_CREAT ? va_arg(rest, int) : 0;
    va_end(rest);
    if (REFUSED("open")) {
        errno = EMFILE;
        return -1;
    }
    if (REFUSED("open-memory")) {
        errno = ENOMEM;
        return -1;
    }
    return syscall(SYS_openat, AT_FDCWD, path, flags, mode);
}

typedef int (*starts)(pthread_t *, const pthread_attr_t *, void *(*)(void *), void *);

int pthread_create(pthread_t *thread, const pthread_attr_t *attributes, void *(*start)(void *), void *argument) {
    static starts next;
    if (REFUSED("thread"))
        return EAGAIN;
    if (!next)
        next = (starts)dlsym(RTLD_NEXT, "pthread_create");
    return next(thread, attributes, start, argument);
}
