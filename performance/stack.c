/* Becomes the program PROGRAM with the same arguments, and notes how much of its stack it used: a line in the file NOTES,
 * with the bytes below the stack pointer with which it began, and its arguments.
 *
 * A process next to it looks for the lowest byte of its stack that is not 0: every 20 ms, and once when it ends. The
 * system gives out a stack as zeros, and no page of it is taken back. */
#define _GNU_SOURCE
#include <errno.h>
#include <fcntl.h>
#include <limits.h>
#include <signal.h>
#include <stdint.h>
#include <stdio.h>
#include <stdlib.h>
#include <string.h>
#include <sys/ptrace.h>
#include <sys/user.h>
#include <sys/wait.h>
#include <time.h>
#include <unistd.h>

enum { CHUNK = 65536, STARTS = 256 };

/* The address of the lowest byte of a process's stack that is not 0; 0 if it is gone. */
static uint64_t lowest_of(pid_t process) {
    static unsigned char bytes[CHUNK];
    char path[64], line[512];
    unsigned long long start = 0, end = 0;
    uint64_t found = 0;
    snprintf(path, sizeof path, "/proc/%d/maps", (int)process);
    FILE *maps = fopen(path, "r");
    while (maps != NULL && fgets(line, sizeof line, maps) != NULL)
        if (strstr(line, "[stack]") != NULL)
            sscanf(line, "%llx-%llx", &start, &end);
    if (maps != NULL)
        fclose(maps);
    snprintf(path, sizeof path, "/proc/%d/mem", (int)process);
    int memory = open(path, O_RDONLY);
    for (uint64_t at = start; memory >= 0 && found == 0 && at < end; at += CHUNK) {
        ssize_t size = pread(memory, bytes, end - at < CHUNK ? end - at : CHUNK, (off_t)at);
        for (ssize_t i = 0; found == 0 && i < size; i++)
            if (bytes[i] != 0)
                found = at + (uint64_t)i;
        if (size <= 0)
            break;
    }
    if (memory >= 0)
        close(memory);
    return found;
}

static void note(uint64_t first, uint64_t lowest, char **arguments) {
    char line[4096];
    size_t length = (size_t)snprintf(line, sizeof line, "%llu", (unsigned long long)(first - lowest));
    for (char **it = arguments + 1; *it != NULL && length < sizeof line - 2; it++)
        length += (size_t)snprintf(line + length, sizeof line - 1 - length, "\t%s", *it);
    if (length > sizeof line - 2)
        length = sizeof line - 2;
    for (size_t i = 0; i < length; i++)
        if (line[i] == '\n')
            line[i] = ' ';
    line[length++] = '\n';
    int notes = open(NOTES, O_WRONLY | O_APPEND | O_CREAT, 0644);
    if (notes < 0 || write(notes, line, length) < 0)
        _exit(1);
    close(notes);
}

/* Lets a stopped process go on. Returns the stack pointer if it has just become the program. */
static uint64_t let_go_on(pid_t process, int status) {
    struct user_regs_struct registers = {0};
    int event = status >> 16, number = WSTOPSIG(status);
    if (event == PTRACE_EVENT_STOP && (number == SIGSTOP || number == SIGTSTP || number == SIGTTIN || number == SIGTTOU)) {
        ptrace(PTRACE_LISTEN, process, 0, 0);
        return 0;
    }
    if (event == PTRACE_EVENT_EXEC)
        ptrace(PTRACE_GETREGS, process, 0, &registers);
    ptrace(PTRACE_CONT, process, 0, event == 0 ? number : 0);
    return registers.rsp;
}

/* Watches the process until it ends. */
static void watch(pid_t process, char **arguments) {
    uint64_t first = 0, lowest = UINT64_MAX;
    const struct timespec pause = {0, 20000000};
    sigset_t children;
    sigemptyset(&children);
    sigaddset(&children, SIGCHLD);
    for (;;) {
        int status;
        pid_t who = waitpid(process, &status, WNOHANG | __WALL);
        if (who < 0 || (who > 0 && !WIFSTOPPED(status)))
            break;
        if (first != 0 && (who == 0 || status >> 16 == PTRACE_EVENT_EXIT)) {
            uint64_t found = lowest_of(process);
            if (found != 0 && found < lowest)
                lowest = found;
        }
        if (who > 0) {
            uint64_t began = let_go_on(process, status);
            first = began != 0 ? began : first;
        } else {
            sigtimedwait(&children, NULL, &pause);
        }
    }
    if (first != 0 && lowest < first)
        note(first, lowest, arguments);
}

int main(int count, char **arguments) {
    int ready[2];
    char byte;
    pid_t process = getpid();
    (void)count;
    if (pipe2(ready, O_CLOEXEC) != 0)
        return 125;
    pid_t child = fork();
    if (child == 0) {
        /* It is nobody's child, and holds nothing open that somebody waits for. */
        if (fork() != 0)
            _exit(0);
        sigset_t children;
        sigemptyset(&children);
        sigaddset(&children, SIGCHLD);
        sigprocmask(SIG_BLOCK, &children, NULL);
        setsid();
        if (ptrace(PTRACE_SEIZE, process, 0, PTRACE_O_TRACEEXIT | PTRACE_O_TRACEEXEC) != 0)
            _exit(1);
        if (write(ready[1], "", 1) != 1)
            _exit(1);
        close_range(0, UINT_MAX, 0);
        watch(process, arguments);
        _exit(0);
    }
    waitpid(child, NULL, 0);
    close(ready[1]);
    if (read(ready[0], &byte, 1) != 1)
        return 125;
    execv(PROGRAM, arguments);
    return 126;
}
