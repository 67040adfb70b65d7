/* <time.h>, <utime.h>, <sys/time.h>, <sys/times.h>: what these functions do with pointers. */
#include <sys/time.h>
#include <sys/times.h>
#include <time.h>
#include <utime.h>
static char pta_zone[9];
char *tzname[2] = { pta_zone, pta_zone };
long timezone;
int daylight;
time_t time(time_t *t) { return 0; }
clock_t clock(void) { return 0; }
double difftime(time_t a, time_t b) { return 0; }
time_t mktime(struct tm *t) { return 0; }
time_t timegm(struct tm *t) { return 0; }
void tzset(void) { }
struct tm *localtime(const time_t *t) { static struct tm tm; tm.tm_zone = pta_zone; return &tm; }
struct tm *gmtime(const time_t *t) { static struct tm tm; tm.tm_zone = pta_zone; return &tm; }
struct tm *localtime_r(const time_t *t, struct tm *tm) { tm->tm_zone = pta_zone; return tm; }
struct tm *gmtime_r(const time_t *t, struct tm *tm) { tm->tm_zone = pta_zone; return tm; }
char *asctime(const struct tm *t) { static char text[26]; return text; }
char *ctime(const time_t *t) { static char text[26]; return text; }
char *asctime_r(const struct tm *t, char *s) { return s; }
char *ctime_r(const time_t *t, char *s) { return s; }
size_t strftime(char *s, size_t n, const char *f, const struct tm *t) { return 0; }
#ifdef __USE_XOPEN
char *strptime(const char *s, const char *f, struct tm *t) { return (char *)s; }
#endif
int nanosleep(const struct timespec *a, struct timespec *b) { return 0; }
int clock_gettime(clockid_t c, struct timespec *t) { return 0; }
int clock_getres(clockid_t c, struct timespec *t) { return 0; }
int clock_settime(clockid_t c, const struct timespec *t) { return 0; }
int gettimeofday(struct timeval *t, void *z) { return 0; }
int settimeofday(const struct timeval *t, const struct timezone *z) { return 0; }
int getitimer(__itimer_which_t n, struct itimerval *t) { return 0; }
int setitimer(__itimer_which_t n, const struct itimerval *a, struct itimerval *b) { return 0; }
int utime(const char *s, const struct utimbuf *t) { return 0; }
int utimes(const char *s, const struct timeval *t) { return 0; }
int futimes(int n, const struct timeval *t) { return 0; }
clock_t times(struct tms *t) { return 0; }
