#define _GNU_SOURCE
#include <errno.h>
#include <limits.h>
#include <pthread.h>
#include <signal.h>
#include <stdio.h>
#include <stdlib.h>
#include <string.h>
#include <sys/mman.h>
#include <unistd.h>

#include "instrument.h"

/* The room that a call has. What the system puts on the thread's stack before (its own frames, the
   thread's data) comes on top of it and is not measured. */
enum { ROOM = 16384 };

struct gauge gauge = {.own = 16};

/* Neither is a filling of a table (0, 1, 128, 255), nor a digit, a letter or a guard. */
const uint8_t paints[PAINTS] = {0xa6, 0xd9};

static void *stack;
static size_t stack_size;

static void need(int error, const char *what)
{
    if (error == 0)
        return;
    fprintf(stderr, "%s: %s\n", what, strerror(error));
    exit(2);
}

/* A call that needs more than there is ends the program on the page below the stack. */
static void lay_stack(void)
{
    long page = sysconf(_SC_PAGESIZE), least = sysconf(_SC_THREAD_STACK_MIN);
    if (least < PTHREAD_STACK_MIN)
        least = PTHREAD_STACK_MIN;
    size_t pages = (size_t)(ROOM + least + page - 1) / (size_t)page;
    stack_size = pages * (size_t)page;
    uint8_t *lowest = mmap(NULL, stack_size + (size_t)page, PROT_NONE, MAP_PRIVATE | MAP_ANONYMOUS, -1, 0);
    need(lowest == MAP_FAILED ? errno : 0, "mmap");
    stack = lowest + page;
    need(mprotect(stack, stack_size, PROT_READ | PROT_WRITE) != 0 ? errno : 0, "mprotect");
    gauge.bottom = stack;
}

struct work {
    void (*frame)(void);
};

/* A signal's frame on this stack would be taken for the call's. */
static void *work_quietly(void *argument)
{
    struct work *work = argument;
    sigset_t all;
    sigfillset(&all);
    need(pthread_sigmask(SIG_SETMASK, &all, NULL), "pthread_sigmask");
    work->frame();
    return NULL;
}

static size_t used_over(uint8_t paint, void (*frame)(void))
{
    struct work work = {frame};
    pthread_attr_t attributes;
    pthread_t thread;
    gauge.paint = paint;
    gauge.used = SIZE_MAX;
    gauge.room = 0;
    need(pthread_attr_init(&attributes), "pthread_attr_init");
    need(pthread_attr_setstack(&attributes, stack, stack_size), "pthread_attr_setstack");
    need(pthread_create(&thread, &attributes, work_quietly, &work), "pthread_create");
    need(pthread_join(thread, NULL), "pthread_join");
    need(pthread_attr_destroy(&attributes), "pthread_attr_destroy");
    if (gauge.room < ROOM) {
        fprintf(stderr, "a call has only %zu bytes of stack\n", gauge.room);
        exit(2);
    }
    return gauge.used;
}

size_t used_by(void (*prepare)(void), void (*frame)(void))
{
    size_t most = 0;
    if (stack == NULL)
        lay_stack();
    for (size_t k = 0; k < PAINTS; k++) {
        prepare();
        size_t used = used_over(paints[k], frame);
        if (used > most)
            most = used;
    }
    return most;
}
