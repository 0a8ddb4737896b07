/* Counts the threads that a program starts and those that have not ended a second after it exits, and the most that ran
 * at once: preloaded, it stands before pthread_create and _exit. A thread that is told to end has to be on its way out
 * only, since a scope waits for what its threads run and not for the threads. Where THREADS_MOST has a number, no
 * thread is made once so many were started. At the end it writes `started S left L most M` to the file that
 * THREADS_FILE names. bench/threads.py builds and uses it. */
#define _GNU_SOURCE
#include <dlfcn.h>
#include <errno.h>
#include <fcntl.h>
#include <pthread.h>
#include <stdatomic.h>
#include <stdio.h>
#include <stdlib.h>
#include <unistd.h>

struct job {
    void *(*run)(void *);
    void *argument;
};

static atomic_int started, running, most;

static void *counted(void *given) {
    struct job job = *(struct job *)given;
    free(given);
    void *result = job.run(job.argument);
    atomic_fetch_sub(&running, 1);
    return result;
}

int pthread_create(pthread_t *thread, const pthread_attr_t *attr, void *(*run)(void *), void *argument) {
    int (*create)(pthread_t *, const pthread_attr_t *, void *(*)(void *), void *) = dlsym(RTLD_NEXT, "pthread_create");
    const char *limit = getenv("THREADS_MOST");
    if (limit && atomic_load(&started) >= atoi(limit)) return EAGAIN;
    struct job *job = malloc(sizeof *job);
    if (!create || !job) abort();
    *job = (struct job){run, argument};
    int now = atomic_fetch_add(&running, 1) + 1;
    int status = create(thread, attr, counted, job);
    if (status) {
        atomic_fetch_sub(&running, 1);
        free(job);
        return status;
    }
    atomic_fetch_add(&started, 1);
    int seen = atomic_load(&most);
    while (seen < now && !atomic_compare_exchange_weak(&most, &seen, now)) {}
    return status;
}

static void tell(void) {
    const char *name = getenv("THREADS_FILE");
    int file = name ? open(name, O_WRONLY | O_CREAT | O_TRUNC, 0600) : -1;
    if (file < 0) return;
    for (int looks = 0; looks < 1000 && atomic_load(&running); looks++) usleep(1000);
    dprintf(file, "started %d left %d most %d\n", atomic_load(&started), atomic_load(&running), atomic_load(&most));
    close(file);
}

void _exit(int status) {
    void (*leave)(int) = dlsym(RTLD_NEXT, "_exit");
    tell();
    if (leave) leave(status);
    abort();
}
