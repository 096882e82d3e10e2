#define _GNU_SOURCE

#include "stack.h"

#include <pthread.h>
#include <stdio.h>
#include <stdlib.h>
#include <string.h>
#include <sys/mman.h>

enum { STACK_BYTES = 32 << 20, PAINT = 0xa5 };

struct task {
    uint64_t (*perform)(struct call *);
    struct call *call;
};

static void *perform_task(void *argument)
{
    struct task *task = argument;
    if (task->perform != NULL)
        task->perform(task->call);
    return NULL;
}

static void fail(const char *what)
{
    perror(what);
    exit(2);
}

/* Bytes between the top of the stack and the lowest one that is no longer painted. */
static size_t stack_of_task(struct task *task)
{
    pthread_attr_t attributes;
    pthread_t thread;
    uint8_t *stack = mmap(NULL, STACK_BYTES, PROT_READ | PROT_WRITE, MAP_PRIVATE | MAP_ANONYMOUS, -1, 0);
    if (stack == MAP_FAILED)
        fail("mmap");
    memset(stack, PAINT, STACK_BYTES);
    if (pthread_attr_init(&attributes) != 0 || pthread_attr_setstack(&attributes, stack, STACK_BYTES) != 0 ||
        pthread_create(&thread, &attributes, perform_task, task) != 0 || pthread_join(thread, NULL) != 0)
        fail("thread");
    pthread_attr_destroy(&attributes);
    size_t clean = 0;
    while (clean < STACK_BYTES && stack[clean] == PAINT)
        clean++;
    munmap(stack, STACK_BYTES);
    return STACK_BYTES - clean;
}

size_t stack_of_call(uint64_t (*perform)(struct call *), struct call *call)
{
    struct task nothing = {0};
    struct task task = {perform, call};
    size_t thread_alone = stack_of_task(&nothing);
    size_t whole = stack_of_task(&task);
    return whole > thread_alone ? whole - thread_alone : 0;
}
