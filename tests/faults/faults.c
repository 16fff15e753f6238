// Loaded before the C library: lets one call of a kind fail, come short, or stop the program, by its number.
// FAULT_KIND is alloc, open, seek, stat, read, late_read, write, thread, short_read, short_write, broken_read, broken_write (by a signal) or stop;
// FAULT_AT counts from 1. With FAULT_ON each later call of the kind fails too. FAULT_SLOW is the most microseconds that a read, a write or an
// open waits before it begins.
// FAULT_MEET is the most milliseconds that a write to a picture waits, in the program's first thread, until a read begins in a thread that it made.
// FAULT_SEEN names a file for three numbers: of the calls of the kind; of the allocations that the program itself asked for in threads that it
// made, but for one for each thread that these made; and of the writes that met such a read. FAULT_READS names one for a line of each read: its place, its length, whether it failed, and the name of its file.
#define _GNU_SOURCE
#include <dlfcn.h>
#include <errno.h>
#include <fcntl.h>
#include <link.h>
#include <pthread.h>
#include <signal.h>
#include <stdarg.h>
#include <stdint.h>
#include <stdio.h>
#include <stdlib.h>
#include <string.h>
#include <sys/stat.h>
#include <sys/syscall.h>
#include <time.h>
#include <unistd.h>

static int ready, seen, at, on, slow, grown, patience, met, reads_beside;
// Whether the program made this thread, and whether its last allocation was counted among the grown.
static __thread int is_made, is_counted;
static uintptr_t text_begin, text_end;
static const char *kind;

static int number_of(const char *name) {
    const char *number = getenv(name);
    return number ? atoi(number) : 0;
}

static int hit(const char *name) {
    if (!__atomic_load_n(&ready, __ATOMIC_ACQUIRE)) {
        kind = getenv("FAULT_KIND");
        at = number_of("FAULT_AT");
        on = number_of("FAULT_ON");
        slow = number_of("FAULT_SLOW");
        patience = number_of("FAULT_MEET");
        __atomic_store_n(&ready, 1, __ATOMIC_RELEASE);
    }
    if (!kind || strcmp(kind, name) != 0) return 0;
    int number = __atomic_add_fetch(&seen, 1, __ATOMIC_SEQ_CST);
    return number == at || (on && at && number > at);
}

// The code of the program itself, which is the first object.
static int find_text(struct dl_phdr_info *object, size_t size, void *data) {
    for (int i = 0; i < object->dlpi_phnum; i++) {
        const ElfW(Phdr) *part = &object->dlpi_phdr[i];
        if (part->p_type != PT_LOAD || !(part->p_flags & PF_X)) continue;
        text_begin = object->dlpi_addr + part->p_vaddr;
        text_end = text_begin + part->p_memsz;
    }
    return 1;
}

__attribute__((constructor)) static void begin(void) { dl_iterate_phdr(find_text, NULL); }

__attribute__((destructor)) static void tell(void) {
    const char *name = getenv("FAULT_SEEN");
    if (!name) return;
    int (*real_open)(const char *, int, ...) = dlsym(RTLD_NEXT, "open");
    int file = real_open(name, O_WRONLY | O_CREAT | O_TRUNC, 0644);
    char text[48];
    int size = snprintf(text, sizeof text, "%d %d %d\n", seen, grown, met);
    ssize_t (*real_write)(int, const void *, size_t) = dlsym(RTLD_NEXT, "write");
    if (real_write(file, text, size) < 0) return;
    close(file);
}

// The program may end in this way, by which no destructor runs.
void _exit(int status) {
    tell();
    syscall(SYS_exit_group, status);
    __builtin_unreachable();
}

extern void *__libc_malloc(size_t);
extern void *__libc_calloc(size_t, size_t);
extern void *__libc_realloc(void *, size_t);
extern void *__libc_memalign(size_t, size_t);
extern void __libc_free(void *);

// What the C library itself asks for, as the place of a thread, it wants refused with this errno.
static int refused(const void *caller) {
    int is_refused = hit("alloc");
    // A thread whose own memory is refused is never made, so what was refused is left out: it would stand for no thread.
    if ((uintptr_t)caller >= text_begin && (uintptr_t)caller < text_end) {
        is_counted = !is_refused && is_made;
        __atomic_add_fetch(&grown, is_counted, __ATOMIC_SEQ_CST);
    }
    if (is_refused) errno = ENOMEM;
    return is_refused;
}

#define REFUSED refused(__builtin_return_address(0))
void *malloc(size_t n) { return REFUSED ? NULL : __libc_malloc(n); }
void *calloc(size_t n, size_t m) { return REFUSED ? NULL : __libc_calloc(n, m); }
void *realloc(void *p, size_t n) { return REFUSED ? NULL : __libc_realloc(p, n); }
void *aligned_alloc(size_t a, size_t n) { return REFUSED ? NULL : __libc_memalign(a, n); }

int posix_memalign(void **out, size_t a, size_t n) {
    if (REFUSED) return ENOMEM;
    *out = __libc_memalign(a, n);
    return *out ? 0 : ENOMEM;
}

struct work {
    void *(*run)(void *);
    void *with;
};

static void *run_counted(void *given) {
    struct work work = *(struct work *)given;
    __libc_free(given);
    is_made = 1;
    return work.run(work.with);
}

int pthread_create(pthread_t *thread, const pthread_attr_t *how, void *(*run)(void *), void *with) {
    int (*real)(pthread_t *, const pthread_attr_t *, void *(*)(void *), void *) = dlsym(RTLD_NEXT, "pthread_create");
    // The last allocation was for this thread.
    __atomic_sub_fetch(&grown, is_counted, __ATOMIC_SEQ_CST);
    is_counted = 0;
    if (hit("thread")) return EAGAIN;
    struct work *work = __libc_malloc(sizeof *work);
    if (!work) return EAGAIN;
    *work = (struct work){run, with};
    int refusal = real(thread, how, run_counted, work);
    if (refusal) __libc_free(work);
    return refusal;
}

static void wait_for(long microseconds) {
    struct timespec time = {microseconds / 1000000, microseconds % 1000000 * 1000};
    nanosleep(&time, NULL);
}

static void stop_or_wait(void) {
    if (hit("stop")) kill(getpid(), SIGSTOP);
    if (!slow) return;
    struct timespec now;
    clock_gettime(CLOCK_MONOTONIC, &now);
    wait_for(now.tv_nsec / 100 % slow);
}

// The name of a file, and how long it is.
static ssize_t name_of(int file, char *name, size_t room) {
    char link[64];
    snprintf(link, sizeof link, "/proc/self/fd/%d", file);
    ssize_t size = readlink(link, name, room - 1);
    size = size < 0 ? 0 : size;
    name[size] = 0;
    return size;
}

static void note(int file, size_t length, int failed) {
    const char *name = getenv("FAULT_READS");
    if (!name) return;
    char target[4096], text[4200];
    name_of(file, target, sizeof target);
    ssize_t size = snprintf(text, sizeof text, "%ld %zu %d %s\n", (long)syscall(SYS_lseek, file, 0, SEEK_CUR), length, failed, target);
    int (*real_open)(const char *, int, ...) = dlsym(RTLD_NEXT, "open");
    ssize_t (*real_write)(int, const void *, size_t) = dlsym(RTLD_NEXT, "write");
    int notes = real_open(name, O_WRONLY | O_CREAT | O_APPEND, 0644);
    if (real_write(notes, text, size) < 0) abort();
    close(notes);
}

static void meet(int file) {
    char name[4096];
    if (is_made || !patience || name_of(file, name, sizeof name) < 4 || strcmp(name + strlen(name) - 4, ".ppm") != 0) return;
    int before = __atomic_load_n(&reads_beside, __ATOMIC_SEQ_CST);
    for (int turn = 0; turn < 10 * patience; turn++) {
        if (__atomic_load_n(&reads_beside, __ATOMIC_SEQ_CST) != before) {
            met++;
            return;
        }
        wait_for(100);
    }
}

ssize_t read(int file, void *buffer, size_t n) {
    ssize_t (*real)(int, void *, size_t) = dlsym(RTLD_NEXT, "read");
    if (is_made) __atomic_add_fetch(&reads_beside, 1, __ATOMIC_SEQ_CST);
    stop_or_wait();
    if (hit("broken_read")) {
        errno = EINTR;
        return -1;
    }
    int is_late = hit("late_read"), fails = hit("read") || is_late;
    note(file, n, fails);
    if (is_late) wait_for(3000);
    if (fails) {
        errno = EIO;
        return -1;
    }
    return real(file, buffer, hit("short_read") && n > 1 ? n / 2 : n);
}

ssize_t write(int file, const void *buffer, size_t n) {
    ssize_t (*real)(int, const void *, size_t) = dlsym(RTLD_NEXT, "write");
    stop_or_wait();
    meet(file);
    if (hit("write")) {
        errno = EIO;
        return -1;
    }
    if (hit("broken_write")) {
        errno = EINTR;
        return -1;
    }
    return real(file, buffer, hit("short_write") && n > 1 ? n / 2 : n);
}

off_t lseek(int file, off_t at, int whence) {
    if (hit("seek")) {
        errno = EIO;
        return -1;
    }
    return syscall(SYS_lseek, file, at, whence);
}

int statx(int folder, const char *name, int flags, unsigned mask, struct statx *told) {
    if (hit("stat")) {
        errno = EIO;
        return -1;
    }
    return syscall(SYS_statx, folder, name, flags, mask, told);
}

static int opened(const char *call, const char *name, int flags, int mode) {
    int (*real)(const char *, int, ...) = dlsym(RTLD_NEXT, call);
    stop_or_wait();
    if (hit("open")) {
        errno = EIO;
        return -1;
    }
    return real(name, flags, mode);
}

int open(const char *name, int flags, ...) {
    va_list rest;
    va_start(rest, flags);
    int file = opened("open", name, flags, va_arg(rest, int));
    va_end(rest);
    return file;
}

int open64(const char *name, int flags, ...) {
    va_list rest;
    va_start(rest, flags);
    int file = opened("open64", name, flags, va_arg(rest, int));
    va_end(rest);
    return file;
}
