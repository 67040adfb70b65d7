/* <ifaddrs.h>, <mntent.h>, <utmp.h>, <pty.h>, <sched.h>, <sys/sysmacros.h>: what they do with pointers. */
#include <grp.h>
#include <ifaddrs.h>
#include <mntent.h>
#include <net/if.h>
#include <pty.h>
#include <pwd.h>
#include <sched.h>
#include <signal.h>
#include <stdio.h>
#include <stdlib.h>
#include <string.h>
#include <sys/mman.h>
#include <sys/socket.h>
#include <sys/sysmacros.h>
#include <sys/wait.h>
#include <time.h>
#include <unistd.h>
#include <utmp.h>
static char pta_name[9];
int getifaddrs(struct ifaddrs **list)
{
  struct ifaddrs *one = malloc(sizeof(struct ifaddrs));
  one->ifa_next = one;
  one->ifa_name = strdup("");
  one->ifa_addr = malloc(sizeof(struct sockaddr));
  one->ifa_netmask = one->ifa_addr;
  *list = one;
  return 0;
}
void freeifaddrs(struct ifaddrs *a) { }
struct if_nameindex *if_nameindex(void)
{
  struct if_nameindex *list = malloc(sizeof(struct if_nameindex));
  list->if_name = strdup("");
  return list;
}
void if_freenameindex(struct if_nameindex *a) { }
int setdomainname(const char *s, size_t n) { return 0; }
long gethostid(void) { return 0; }
int sethostid(long n) { return 0; }
int brk(void *p) { return 0; }
void *sbrk(intptr_t n) { return malloc(1); }
void closefrom(int n) { }
int vhangup(void) { return 0; }
int acct(const char *s) { return 0; }
char *getusershell(void) { return pta_name; }
void setusershell(void) { }
void endusershell(void) { }
int sched_setparam(pid_t p, const struct sched_param *a) { return 0; }
int sched_getparam(pid_t p, struct sched_param *a) { return 0; }
int sched_setscheduler(pid_t p, int n, const struct sched_param *a) { return 0; }
int sched_getscheduler(pid_t p) { return 0; }
int sched_get_priority_max(int n) { return 0; }
int sched_get_priority_min(int n) { return 0; }
int shm_open(const char *s, int n, mode_t m) { return 0; }
int shm_unlink(const char *s) { return 0; }
int munlockall(void) { return 0; }
FILE *setmntent(const char *s, const char *m) { return fopen(s, m); }
struct mntent *getmntent(FILE *f)
{
  static struct mntent entry;
  entry.mnt_fsname = entry.mnt_dir = entry.mnt_type = entry.mnt_opts = pta_name;
  return &entry;
}
struct mntent *getmntent_r(FILE *f, struct mntent *e, char *b, int n)
{
  e->mnt_fsname = e->mnt_dir = e->mnt_type = e->mnt_opts = b;
  return e;
}
int addmntent(FILE *f, const struct mntent *e) { return 0; }
int endmntent(FILE *f) { return 1; }
char *hasmntopt(const struct mntent *e, const char *s) { return e->mnt_opts; }
int openpty(int *a, int *b, char *s, const struct termios *t, const struct winsize *w) { return 0; }
int forkpty(int *a, char *s, const struct termios *t, const struct winsize *w) { return 0; }
int login_tty(int n) { return 0; }
void login(const struct utmp *u) { }
int logout(const char *s) { return 0; }
void logwtmp(const char *a, const char *b, const char *c) { }
void updwtmp(const char *s, const struct utmp *u) { }
int utmpname(const char *s) { return 0; }
struct utmp *getutent(void) { static struct utmp entry; return &entry; }
struct utmp *getutid(const struct utmp *u) { return getutent(); }
struct utmp *getutline(const struct utmp *u) { return getutent(); }
struct utmp *pututline(const struct utmp *u) { return getutent(); }
void setutent(void) { }
void endutent(void) { }
unsigned gnu_dev_major(dev_t n) { return 0; }
unsigned gnu_dev_minor(dev_t n) { return 0; }
dev_t gnu_dev_makedev(unsigned a, unsigned b) { return 0; }
int getgrgid_r(gid_t g, struct group *e, char *b, size_t n, struct group **found)
{
  e->gr_name = e->gr_passwd = b;
  *found = e;
  return 0;
}
int getgrnam_r(const char *s, struct group *e, char *b, size_t n, struct group **found) { return getgrgid_r(0, e, b, n, found); }
int getgrouplist(const char *s, gid_t g, gid_t *list, int *n) { return 0; }
int waitid(idtype_t t, id_t n, siginfo_t *s, int o) { return 0; }
int timer_create(clockid_t c, struct sigevent *e, timer_t *t) { return 0; }
int timer_delete(timer_t t) { return 0; }
int timer_settime(timer_t t, int n, const struct itimerspec *a, struct itimerspec *b) { return 0; }
int timer_gettime(timer_t t, struct itimerspec *a) { return 0; }
int clock_nanosleep(clockid_t c, int n, const struct timespec *a, struct timespec *b) { return 0; }
