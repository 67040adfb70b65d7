/* <err.h>, <error.h>, <syslog.h>, <sys/ioctl.h>: nothing with pointers. */
#include <err.h>
#include <stdarg.h>
#include <syslog.h>
#include <sys/ioctl.h>
void err(int n, const char *f, ...) { }
void errx(int n, const char *f, ...) { }
void warn(const char *f, ...) { }
void warnx(const char *f, ...) { }
void verr(int n, const char *f, va_list a) { }
void verrx(int n, const char *f, va_list a) { }
void vwarn(const char *f, va_list a) { }
void vwarnx(const char *f, va_list a) { }
static char pta_program[9];
char *program_invocation_name = pta_program;
char *program_invocation_short_name = pta_program;
void error(int s, int n, const char *f, ...) { }
void error_at_line(int s, int n, const char *p, unsigned l, const char *f, ...) { }
void openlog(const char *s, int o, int f) { }
void syslog(int p, const char *f, ...) { }
void vsyslog(int p, const char *f, va_list a) { }
void closelog(void) { }
int setlogmask(int m) { return m; }
int ioctl(int n, unsigned long r, ...) { return 0; }
