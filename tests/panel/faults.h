/*
 * Faults that a test lives through. The file that includes this is built without sanitizers, which catch faults themselves,
 * and defines _DEFAULT_SOURCE.
 */
#ifndef FAULTS_H
#define FAULTS_H

#include <setjmp.h>
#include <signal.h>
#include <stdbool.h>
#include <stdint.h>
#include <stdio.h>
#include <stdlib.h>
#include <sys/mman.h>

static sigjmp_buf before_fault;

static void on_fault(int signal)
{
    (void)signal;
    siglongjmp(before_fault, 1);
}

/* From here on the thread's faults are caught, on a stack of their own. One thread at a time. */
static void catch_faults(void)
{
    static uint8_t room[65536];
    stack_t own = {.ss_sp = room, .ss_size = sizeof room};
    struct sigaction action = {.sa_handler = on_fault, .sa_flags = SA_ONSTACK | SA_NODEFER};

    if (sigaltstack(&own, NULL) != 0 || sigaction(SIGSEGV, &action, NULL) != 0 || sigaction(SIGBUS, &action, NULL) != 0) {
        printf("faults cannot be caught\n");
        exit(1);
    }
}

/* Whether the work is done without a fault. */
static bool survives(void (*work)(void))
{
    if (sigsetjmp(before_fault, 0) != 0)
        return false;
    work();
    return true;
}

/* So many bytes, a whole number of pages, with as many protected ones right before them and right behind them. */
static uint8_t *between_protected(size_t size)
{
    uint8_t *at = mmap(NULL, 3 * size, PROT_NONE, MAP_PRIVATE | MAP_ANONYMOUS, -1, 0);

    if (at == MAP_FAILED || mprotect(at + size, size, PROT_READ | PROT_WRITE) != 0) {
        printf("out of memory\n");
        exit(1);
    }
    return at + size;
}

#endif
