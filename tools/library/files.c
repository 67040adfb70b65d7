/* <fcntl.h>, <sys/stat.h>, <sys/mman.h>, <sys/wait.h> and other <sys/..>, <termios.h>, <libgen.h>: what they do with pointers. */
#include <fcntl.h>
#include <libgen.h>
#include <stdlib.h>
#include <sys/file.h>
#include <sys/mman.h>
#include <sys/resource.h>
#include <sys/shm.h>
#include <sys/stat.h>
#include <sys/statvfs.h>
#include <sys/uio.h>
#include <sys/utsname.h>
#include <sys/vfs.h>
#include <sys/wait.h>
#include <termios.h>
#undef basename
int open(const char *s, int f, ...) { return 0; }
int openat(int d, const char *s, int f, ...) { return 0; }
int creat(const char *s, mode_t m) { return 0; }
int fcntl(int n, int c, ...) { return 0; }
int flock(int n, int o) { return 0; }
int posix_fadvise(int n, off_t o, off_t l, int a) { return 0; }
int posix_fallocate(int n, off_t o, off_t l) { return 0; }
int stat(const char *s, struct stat *b) { return 0; }
int lstat(const char *s, struct stat *b) { return 0; }
int fstat(int n, struct stat *b) { return 0; }
int fstatat(int d, const char *s, struct stat *b, int f) { return 0; }
int statvfs(const char *s, struct statvfs *b) { return 0; }
int fstatvfs(int n, struct statvfs *b) { return 0; }
int statfs(const char *s, struct statfs *b) { return 0; }
int fstatfs(int n, struct statfs *b) { return 0; }
int chmod(const char *s, mode_t m) { return 0; }
int fchmod(int n, mode_t m) { return 0; }
int fchmodat(int d, const char *s, mode_t m, int f) { return 0; }
int mkdir(const char *s, mode_t m) { return 0; }
int mkdirat(int d, const char *s, mode_t m) { return 0; }
int mkfifo(const char *s, mode_t m) { return 0; }
int mknod(const char *s, mode_t m, dev_t d) { return 0; }
mode_t umask(mode_t m) { return 0; }
int utimensat(int d, const char *s, const struct timespec *t, int f) { return 0; }
int futimens(int n, const struct timespec *t) { return 0; }
void *mmap(void *a, size_t n, int p, int f, int d, off_t o) { return malloc(n); }
int munmap(void *a, size_t n) { return 0; }
int mprotect(void *a, size_t n, int p) { return 0; }
int msync(void *a, size_t n, int f) { return 0; }
int madvise(void *a, size_t n, int f) { return 0; }
int posix_madvise(void *a, size_t n, int f) { return 0; }
int mlock(const void *a, size_t n) { return 0; }
int mlockall(int f) { return 0; }
int munlock(const void *a, size_t n) { return 0; }
#ifdef __USE_GNU
void *mremap(void *a, size_t n, size_t m, int f, ...) { return a; }
#endif
int shmget(key_t k, size_t n, int f) { return 0; }
void *shmat(int n, const void *a, int f) { return malloc(1); }
int shmdt(const void *a) { return 0; }
int shmctl(int n, int c, struct shmid_ds *b) { return 0; }
pid_t wait(int *s) { return 0; }
pid_t waitpid(pid_t p, int *s, int o) { return 0; }
pid_t wait3(int *s, int o, struct rusage *r) { return 0; }
pid_t wait4(pid_t p, int *s, int o, struct rusage *r) { return 0; }
int getrlimit(__rlimit_resource_t n, struct rlimit *r) { return 0; }
int setrlimit(__rlimit_resource_t n, const struct rlimit *r) { return 0; }
int getrusage(__rusage_who_t n, struct rusage *r) { return 0; }
int getpriority(__priority_which_t n, id_t i) { return 0; }
int setpriority(__priority_which_t n, id_t i, int p) { return 0; }
ssize_t readv(int n, const struct iovec *v, int k) { return 0; }
ssize_t writev(int n, const struct iovec *v, int k) { return 0; }
int uname(struct utsname *u) { return 0; }
int tcgetattr(int n, struct termios *t) { return 0; }
int tcsetattr(int n, int o, const struct termios *t) { return 0; }
int tcflush(int n, int q) { return 0; }
int tcdrain(int n) { return 0; }
int tcflow(int n, int a) { return 0; }
int tcsendbreak(int n, int d) { return 0; }
speed_t cfgetispeed(const struct termios *t) { return 0; }
speed_t cfgetospeed(const struct termios *t) { return 0; }
int cfsetispeed(struct termios *t, speed_t s) { return 0; }
int cfsetospeed(struct termios *t, speed_t s) { return 0; }
void cfmakeraw(struct termios *t) { }
char *dirname(char *s) { return s; }
char *__xpg_basename(char *s) { return s; }
