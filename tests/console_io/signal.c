/* A handler of SIGUSR1, put before the program, at which the system ends a read or a write with EINTR: a program that has none is not interrupted. */
#define _GNU_SOURCE
#include <signal.h>

static void handle(int number) { (void)number; }

__attribute__((constructor)) static void install(void) {
    struct sigaction action = {.sa_handler = handle};
    sigaction(SIGUSR1, &action, 0);
}
