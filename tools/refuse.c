/* Stands before the C library's calls that allocate memory and start threads. Over all threads of the program it counts both, and refuses the
   allocation with the number REFUSED, or that one and all later ones where a plus follows the number, and the thread with the number
   REFUSED_THREAD. At the end it prints how many allocations, and how many threads, the program asked for.

   Where SWEEP names one of the two (REFUSED, say), the program is run once for each number from SWEEP_FIRST to SWEEP_LAST in steps of SWEEP_STEP, each
   time from its beginning in a process of its own, which is much faster than to start it anew. After each run comes a line with the number, the
   status as waitpid gives it, and how many bytes went to standard output and how many to the errors, and then these bytes. With SWEEP_LASTING all
   later calls are refused too. A run that takes more than a minute ends by an alarm. Standard input has to be a file. */
#define _GNU_SOURCE
#include <dlfcn.h>
#include <errno.h>
#include <pthread.h>
#include <stdatomic.h>
#include <stdio.h>
#include <stdlib.h>
#include <string.h>
#include <sys/mman.h>
#include <sys/syscall.h>
#include <sys/wait.h>
#include <unistd.h>

extern void *__libc_malloc(size_t);
extern void *__libc_calloc(size_t, size_t);
extern void *__libc_realloc(void *, size_t);

typedef int start_thread(pthread_t *, const pthread_attr_t *, void *(*)(void *), void *);

/* Where nothing is refused the number is 0, and before it was read -1. Any thread that reads it comes to the same number. */
struct calls {
    const char *name;
    atomic_long made, refused;
    atomic_int is_lasting;
};

static struct calls allocations = {"REFUSED", 0, -1, 0};
static struct calls threads = {"REFUSED_THREAD", 0, -1, 0};

static int is_refused(struct calls *calls) {
    long number = atomic_fetch_add(&calls->made, 1) + 1;
    long refused = atomic_load(&calls->refused);
    if (refused < 0) {
        const char *word = getenv(calls->name);
        refused = word ? atol(word) : 0;
        atomic_store(&calls->is_lasting, word && strchr(word, '+') != NULL);
        atomic_store(&calls->refused, refused);
    }
    return number == refused || (atomic_load(&calls->is_lasting) && number > refused);
}

/* As the C library answers where there is no memory: null, and the reason in errno, which it looks at itself when it starts a thread. */
static void *none(void) {
    errno = ENOMEM;
    return NULL;
}

void *malloc(size_t size) { return is_refused(&allocations) ? none() : __libc_malloc(size); }

void *calloc(size_t count, size_t size) { return is_refused(&allocations) ? none() : __libc_calloc(count, size); }

void *realloc(void *old, size_t size) { return is_refused(&allocations) ? none() : __libc_realloc(old, size); }

int pthread_create(pthread_t *thread, const pthread_attr_t *attributes, void *(*run)(void *), void *argument) {
    if (is_refused(&threads)) return EAGAIN;
    start_thread *start = (start_thread *)dlsym(RTLD_NEXT, "pthread_create");
    return start(thread, attributes, run, argument);
}

__attribute__((destructor)) static void tell(void) {
    char line[80];
    int length = snprintf(line, sizeof line, "threads: %ld\nallocations: %ld\n", atomic_load(&threads.made), atomic_load(&allocations.made));
    if (write(2, line, length) < 0) syscall(SYS_exit_group, 9);
}

/* A program that may start threads ends by this call, which runs no destructors. */
__attribute__((noreturn)) void _exit(int status) {
    tell();
    for (;;) syscall(SYS_exit_group, status);
}

static long number_of(const char *name) {
    const char *word = getenv(name);
    return word ? atol(word) : 0;
}

static void empty(int file) {
    if (ftruncate(file, 0) < 0 || lseek(file, 0, SEEK_SET) < 0) syscall(SYS_exit_group, 9);
}

/* Writes all bytes of a file to standard output. */
static void copy(int file) {
    static char bytes[1 << 16];
    ssize_t count;
    lseek(file, 0, SEEK_SET);
    while ((count = read(file, bytes, sizeof bytes)) > 0)
        for (ssize_t done = 0, some; done < count; done += some)
            if ((some = write(1, bytes + done, count - done)) < 0) syscall(SYS_exit_group, 9);
}

static void report(long number, int status, int out, int err) {
    char line[80];
    int length = snprintf(line, sizeof line, "%ld %d %ld %ld\n", number, status, (long)lseek(out, 0, SEEK_END), (long)lseek(err, 0, SEEK_END));
    if (write(1, line, length) < 0) syscall(SYS_exit_group, 9);
    copy(out);
    copy(err);
}

/* Comes back in each process that is to run the program, and ends the one that counts. */
static void sweep(struct calls *calls) {
    int out = memfd_create("out", 0), err = memfd_create("err", 0), status = 0;
    long last = number_of("SWEEP_LAST"), step = number_of("SWEEP_STEP");
    atomic_store(&calls->is_lasting, getenv("SWEEP_LASTING") != NULL);
    for (long number = number_of("SWEEP_FIRST"); number <= last; number += step) {
        empty(out);
        empty(err);
        lseek(0, 0, SEEK_SET);
        pid_t child = fork();
        if (child == 0) {
            atomic_store(&calls->refused, number);
            dup2(out, 1);
            dup2(err, 2);
            alarm(60);
            return;
        }
        if (waitpid(child, &status, 0) < 0) syscall(SYS_exit_group, 9);
        report(number, status, out, err);
    }
    syscall(SYS_exit_group, 0);
}

__attribute__((constructor)) static void begin(void) {
    const char *name = getenv("SWEEP");
    if (!name) return;
    sweep(strcmp(name, threads.name) == 0 ? &threads : &allocations);
}
