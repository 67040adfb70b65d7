/* <signal.h>: a handler that is set is called. */
#include <signal.h>
#undef sigmask
void (*signal(int n, void (*handler)(int)))(int) { static void (*kept)(int); void (*old)(int) = kept; kept = handler; kept(n); return old; }
int sigaction(int n, const struct sigaction *a, struct sigaction *o)
{
  static struct sigaction kept;
  static siginfo_t info;
  if (o) *o = kept;
  if (a) kept = *a;
  kept.sa_handler(n);
  kept.sa_sigaction(n, &info, &info);
  return 0;
}
int raise(int n) { return 0; }
int kill(pid_t p, int n) { return 0; }
int killpg(pid_t p, int n) { return 0; }
int sigemptyset(sigset_t *s) { return 0; }
int sigfillset(sigset_t *s) { return 0; }
int sigaddset(sigset_t *s, int n) { return 0; }
int sigdelset(sigset_t *s, int n) { return 0; }
int sigismember(const sigset_t *s, int n) { return 0; }
int sigprocmask(int h, const sigset_t *s, sigset_t *o) { return 0; }
int pthread_sigmask(int h, const sigset_t *s, sigset_t *o) { return 0; }
int sigpending(sigset_t *s) { return 0; }
int sigsuspend(const sigset_t *s) { return 0; }
int sigwait(const sigset_t *s, int *n) { return 0; }
int sigblock(int m) { return 0; }
int sigsetmask(int m) { return 0; }
int siginterrupt(int n, int f) { return 0; }
int sigaltstack(const stack_t *s, stack_t *o) { static stack_t kept; if (o) *o = kept; if (s) kept = *s; return 0; }
int __libc_current_sigrtmin(void) { return 0; }
int __libc_current_sigrtmax(void) { return 0; }
void psignal(int n, const char *s) { }
