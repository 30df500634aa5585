/* lent.c: see lent.h. Needs POSIX: mmap with MAP_ANONYMOUS, mprotect, and fork for the trial of the guards. */
#define _DEFAULT_SOURCE
#include "lent.h"

#include <signal.h>
#include <stdio.h>
#include <stdlib.h>
#include <string.h>
#include <sys/mman.h>
#include <sys/wait.h>
#include <unistd.h>

size_t lent_page_size(void)
{
    return (size_t)sysconf(_SC_PAGESIZE);
}

void lent_open(struct lent *lent)
{
    size_t size = lent_page_size();
    uint8_t *three = mmap(NULL, 3 * size, PROT_NONE, MAP_PRIVATE | MAP_ANONYMOUS, -1, 0);
    if (three == MAP_FAILED || mprotect(three + size, size, PROT_READ | PROT_WRITE) != 0) {
        perror("lent: no memory between guards");
        exit(2);
    }
    lent->page = three + size;
    lent->pristine = malloc(size);
    if (lent->pristine == NULL) {
        perror("lent");
        exit(2);
    }
    lent_set(lent, AT_END, NULL, 0, 0);
}

void lent_set(struct lent *lent, enum placement placement, const uint8_t *content, size_t length, uint8_t canary)
{
    size_t size = lent_page_size();
    size_t at = placement == AT_END ? size - length : 0;
    lent->bytes = lent->page + at;
    lent->length = length;
    memset(lent->pristine, canary, size);
    if (content != NULL) {
        memcpy(lent->pristine + at, content, length);
    }
    memcpy(lent->page, lent->pristine, size);
}

int lent_is_untouched(const struct lent *lent)
{
    return memcmp(lent->page, lent->pristine, lent_page_size()) == 0;
}

int lent_is_surrounded(const struct lent *lent)
{
    size_t before = (size_t)(lent->bytes - lent->page);
    size_t end = before + lent->length;
    return memcmp(lent->page, lent->pristine, before) == 0 &&
           memcmp(lent->page + end, lent->pristine + end, lent_page_size() - end) == 0;
}

#define FAULTED 34

static void on_fault(int signal_number)
{
    (void)signal_number;
    _exit(FAULTED);
}

/* Whether writing there is a fault. A child tries it. */
static int faults(volatile uint8_t *there)
{
    int status = 0;
    pid_t child;
    fflush(NULL);
    child = fork();
    if (child == 0) {
        signal(SIGSEGV, on_fault);
        signal(SIGBUS, on_fault);
        *there = 1;
        _exit(0);
    }
    return child > 0 && waitpid(child, &status, 0) == child && WIFEXITED(status) && WEXITSTATUS(status) == FAULTED;
}

int lent_guards_hold(struct lent *lent)
{
    return faults(lent->page - 1) && faults(lent->page + lent_page_size());
}
