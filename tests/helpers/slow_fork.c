// Preloaded into a script by tests/scripts. A signal comes with the call SIGNAL_AT that the script makes. The process SCRIPT
// starts another one and waits for it to make that call, if it is the next: so the signal also comes when the shell has
// started one process of a pipe, and not the next one.
#define _GNU_SOURCE
#include <dlfcn.h>
#include <stdio.h>
#include <stdlib.h>
#include <time.h>
#include <unistd.h>

enum { STEPS = 200 };

// Whether a file exists in the folder of the test.
static int exists(const char *here, const char *name) {
    char path[4096];
    return snprintf(path, sizeof path, "%s/%s", here, name) < (int)sizeof path && access(path, F_OK) == 0;
}

static void wait_for_signal(const char *here, long at) {
    const struct timespec step = {0, 5000000}, longest = {1, 0};
    char before[32];
    snprintf(before, sizeof before, "count/%ld", at - 1);
    if (exists(here, "struck") || (at > 1 && !exists(here, before))) return;
    for (int steps = 0; steps < STEPS && !exists(here, "struck"); steps++) nanosleep(&step, NULL);
    // the signal follows at once, and ends this
    nanosleep(&longest, NULL);
}

pid_t fork(void) {
    pid_t (*real)(void) = (pid_t(*)(void))dlsym(RTLD_NEXT, "fork");
    const char *here = getenv("HERE"), *script = getenv("SCRIPT"), *at = getenv("SIGNAL_AT");
    pid_t child = real();
    if (child > 0 && here && script && at && atol(script) == getpid()) wait_for_signal(here, atol(at));
    return child;
}
