#define _POSIX_C_SOURCE 200809L

#include "check.h"
#include "random.h"

#include <setjmp.h>
#include <signal.h>
#include <stdarg.h>
#include <stdbool.h>
#include <stdio.h>
#include <unistd.h>

enum { SECONDS_MOST = 200 };

static const char *running;
static sigjmp_buf next_test;

void fail(const char *format, ...)
{
    va_list words;
    printf("FAIL %s: ", running);
    va_start(words, format);
    vprintf(format, words);
    va_end(words);
    printf("\n");
    siglongjmp(next_test, 1);
}

static void on_signal(int signal_number)
{
    fail(signal_number == SIGALRM ? "does not end" : "touches memory outside what was lent");
}

static void catch_signals(void)
{
    static const int signals[] = {SIGSEGV, SIGBUS, SIGILL, SIGALRM};
    struct sigaction action = {0};
    action.sa_handler = on_signal;
    sigemptyset(&action.sa_mask);
    for (size_t i = 0; i < sizeof signals / sizeof signals[0]; i++) {
        sigaction(signals[i], &action, NULL);
    }
}

static bool passes(const named_test *test)
{
    running = test->name;
    random_restart(0);
    if (sigsetjmp(next_test, 1) != 0) {
        return false;
    }
    alarm(SECONDS_MOST);
    test->run();
    printf("ok %s\n", test->name);
    return true;
}

int run_named_tests(const named_test *tests, size_t count)
{
    int status = 0;
    catch_signals();
    for (size_t i = 0; i < count; i++) {
        if (!passes(&tests[i])) {
            status = 1;
        }
        fflush(stdout);
    }
    return status;
}
