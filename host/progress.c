/* How far a long run has come, on a terminal; and the wish to stop it. */
#define _POSIX_C_SOURCE 200809L

#include "progress.h"

#include <inttypes.h>
#include <signal.h>
#include <stdio.h>
#include <time.h>
#include <unistd.h>

static volatile sig_atomic_t interrupted;

static void on_interrupt(int number)
{
    (void)number;
    interrupted = 1;
}

static void handle_interrupts(void (*handler)(int), int flags)
{
    struct sigaction action = {.sa_handler = handler, .sa_flags = flags};
    sigemptyset(&action.sa_mask);
    sigaction(SIGINT, &action, NULL);
}

void watch_interrupts(void)
{
    struct sigaction before;
    if (sigaction(SIGINT, NULL, &before) == 0 && before.sa_handler != SIG_IGN)
        handle_interrupts(on_interrupt, SA_RESTART | (int)SA_RESETHAND);
}

void unwatch_interrupts(void)
{
    struct sigaction now;
    if (sigaction(SIGINT, NULL, &now) == 0 && now.sa_handler != SIG_IGN)
        handle_interrupts(SIG_DFL, 0);
}

bool is_interrupted(void)
{
    return interrupted != 0;
}

static double seconds(void)
{
    struct timespec now;
    clock_gettime(CLOCK_MONOTONIC, &now);
    return (double)now.tv_sec + (double)now.tv_nsec / 1e9;
}

static double begun, shown;
static bool is_shown;

/* Whether something is shown now: half a second after the last time, on a terminal. */
static bool is_due(double now)
{
    if (begun == 0)
        begun = shown = now;
    if (now - shown < 0.5 || !isatty(STDERR_FILENO))
        return false;
    shown = now;
    is_shown = true;
    return true;
}

void show_progress(uint64_t steps)
{
    double now = seconds();
    if (!is_due(now))
        return;
    fprintf(stderr, "\r%" PRIu64 " steps, %.1f million a second; Ctrl-C stops \033[K", steps, (double)steps / (now - begun) / 1e6);
    fflush(stderr);
}

void show_count(size_t done, size_t all, const char *what)
{
    if (!is_due(seconds()))
        return;
    fprintf(stderr, "\r%zu of %zu %s\033[K\r", done, all, what); /* what is said next is written over it */
    fflush(stderr);
}

void end_count(void)
{
    if (is_shown)
        fputs("\r\033[K", stderr);
    is_shown = false;
}

void end_progress(void)
{
    end_count();
    begun = 0;
}
