/* Loaded before a program by checks/streams. A program that handles no signal is never interrupted: this gives it handlers that do nothing. SIGUSR1 then
   interrupts a read or a write that waits, which comes back with EINTR; after SIGUSR2 it goes on. */
#include <signal.h>

static void heard(int number) { (void)number; }

__attribute__((constructor)) static void handle(void) {
  struct sigaction action = {.sa_handler = heard};
  sigaction(SIGUSR1, &action, 0);
  action.sa_flags = SA_RESTART;
  sigaction(SIGUSR2, &action, 0);
}
