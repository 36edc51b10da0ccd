#define _DEFAULT_SOURCE
#include "guarded.h"

#include <signal.h>
#include <stdlib.h>
#include <string.h>
#include <sys/mman.h>
#include <unistd.h>

static char *places[GUARDED_PLACES];
static char watched[128];

static void say(const char *text) {
    if (write(STDOUT_FILENO, text, strlen(text)) < 0) {
        abort();
    }
}

static void fault(int signal_number) {
    (void)signal_number;
    say("FAILED a fault in or after: ");
    say(watched);
    say("\n");
    _exit(1);
}

void watch(const char *note) {
    if (!watched[0]) {
        signal(SIGSEGV, fault);
        signal(SIGBUS, fault);
        signal(SIGILL, fault);
    }
    strncpy(watched, note, sizeof watched - 1);
}

/* A page that cannot be touched, GUARDED_BYTES, and another such page. */
static char *reserve(void) {
    size_t page = (size_t)sysconf(_SC_PAGESIZE);
    char *all = mmap(NULL, GUARDED_BYTES + 2 * page, PROT_NONE, MAP_PRIVATE | MAP_ANONYMOUS, -1, 0);
    if (all == MAP_FAILED || GUARDED_BYTES % page != 0 || mprotect(all + page, GUARDED_BYTES, PROT_READ | PROT_WRITE) != 0) {
        abort();
    }
    return all + page;
}

void *guarded(unsigned place, bool at_end, const void *from, size_t bytes) {
    if (place >= GUARDED_PLACES || bytes > GUARDED_BYTES) {
        abort();
    }
    if (!places[place]) {
        places[place] = reserve();
    }
    char *to = places[place] + (at_end ? GUARDED_BYTES - bytes : 0);
    if (bytes > 0) {
        memcpy(to, from, bytes);
    }
    return to;
}
