// Loaded before the C library: notes the threads of a program. THREADS names a file, which gets a line for each thread in the order in which they
// were asked for: when it was asked for, began and ended, in seconds from the start of the program, and its processor seconds; and a last line with
// the program's end and the processor seconds of its first thread.
#define _GNU_SOURCE
#include <dlfcn.h>
#include <errno.h>
#include <pthread.h>
#include <stdio.h>
#include <stdlib.h>
#include <sys/syscall.h>
#include <time.h>
#include <unistd.h>

#define MOST 65536

static struct note {
    double asked, began, ended, busy;
    void *(*run)(void *);
    void *with;
} notes[MOST];
static int count, told;
static double start;

static double seconds(clockid_t clock) {
    struct timespec now;
    clock_gettime(clock, &now);
    return (double)now.tv_sec + (double)now.tv_nsec / 1e9;
}

static double since(void) { return seconds(CLOCK_MONOTONIC) - start; }

__attribute__((constructor)) static void begin(void) { start = seconds(CLOCK_MONOTONIC); }

__attribute__((destructor)) static void tell(void) {
    const char *name = getenv("THREADS");
    if (!name || __atomic_exchange_n(&told, 1, __ATOMIC_SEQ_CST)) return;
    double end = since(), busy = seconds(CLOCK_THREAD_CPUTIME_ID);
    FILE *file = fopen(name, "w");
    if (!file) return;
    int all = __atomic_load_n(&count, __ATOMIC_SEQ_CST);
    for (struct note *it = notes; it < notes + (all < MOST ? all : MOST); it++)
        fprintf(file, "%.7f %.7f %.7f %.7f\n", it->asked, it->began, it->ended, it->busy);
    fprintf(file, "%.7f %.7f\n", end, busy);
    fclose(file);
}

// The program may end in this way, by which no destructor runs.
void _exit(int status) {
    tell();
    syscall(SYS_exit_group, status);
    __builtin_unreachable();
}

static void *run_noted(void *given) {
    struct note *note = given;
    note->began = since();
    void *result = note->run(note->with);
    note->busy = seconds(CLOCK_THREAD_CPUTIME_ID);
    note->ended = since();
    return result;
}

int pthread_create(pthread_t *thread, const pthread_attr_t *how, void *(*run)(void *), void *with) {
    static int (*real)(pthread_t *, const pthread_attr_t *, void *(*)(void *), void *);
    if (!real) real = dlsym(RTLD_NEXT, "pthread_create");
    int at = __atomic_fetch_add(&count, 1, __ATOMIC_SEQ_CST);
    if (at >= MOST) return EAGAIN;
    notes[at].asked = since();
    notes[at].run = run;
    notes[at].with = with;
    return real(thread, how, run_noted, &notes[at]);
}
