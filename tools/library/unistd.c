/* <unistd.h>, <getopt.h>: what these functions do with pointers. */
#include <getopt.h>
#include <stdlib.h>
#include <unistd.h>
static char pta_variable[9], *pta_variables[9] = { pta_variable };
char **environ = pta_variables;
char *optarg;
int optind, opterr, optopt;
int getopt(int n, char *const *v, const char *o) { optarg = v[0]; return 0; }
int getopt_long(int n, char *const *v, const char *o, const struct option *l, int *i) { optarg = v[0]; return 0; }
int getopt_long_only(int n, char *const *v, const char *o, const struct option *l, int *i) { optarg = v[0]; return 0; }
int isatty(int n) { return 0; }
int close(int n) { return 0; }
ssize_t read(int n, void *b, size_t s) { return 0; }
ssize_t write(int n, const void *b, size_t s) { return 0; }
ssize_t pread(int n, void *b, size_t s, off_t o) { return 0; }
ssize_t pwrite(int n, const void *b, size_t s, off_t o) { return 0; }
off_t lseek(int n, off_t o, int w) { return 0; }
int unlink(const char *s) { return 0; }
int unlinkat(int d, const char *s, int f) { return 0; }
int link(const char *a, const char *b) { return 0; }
int symlinkat(const char *a, int d, const char *b) { return 0; }
int linkat(int d, const char *a, int e, const char *b, int f) { return 0; }
long syscall(long n, ...) { return 0; }
int symlink(const char *a, const char *b) { return 0; }
ssize_t readlink(const char *s, char *b, size_t n) { return 0; }
ssize_t readlinkat(int d, const char *s, char *b, size_t n) { return 0; }
int access(const char *s, int m) { return 0; }
int faccessat(int d, const char *s, int m, int f) { return 0; }
int euidaccess(const char *s, int m) { return 0; }
int eaccess(const char *s, int m) { return 0; }
int chdir(const char *s) { return 0; }
int fchdir(int n) { return 0; }
int chroot(const char *s) { return 0; }
int rmdir(const char *s) { return 0; }
char *getcwd(char *b, size_t n) { return b ? b : malloc(1); }
char *getwd(char *b) { return b; }
char *get_current_dir_name(void) { return malloc(1); }
int dup(int a) { return 0; }
int dup2(int a, int b) { return 0; }
int dup3(int a, int b, int f) { return 0; }
int pipe(int *p) { return 0; }
int pipe2(int *p, int f) { return 0; }
pid_t fork(void) { return 0; }
pid_t vfork(void) { return 0; }
int execl(const char *s, const char *a, ...) { return 0; }
int execlp(const char *s, const char *a, ...) { return 0; }
int execle(const char *s, const char *a, ...) { return 0; }
int execv(const char *s, char *const *v) { return 0; }
int execvp(const char *s, char *const *v) { return 0; }
int execve(const char *s, char *const *v, char *const *e) { return 0; }
pid_t getpid(void) { return 0; }
pid_t getppid(void) { return 0; }
pid_t getpgrp(void) { return 0; }
pid_t getpgid(pid_t p) { return 0; }
pid_t getsid(pid_t p) { return 0; }
pid_t setsid(void) { return 0; }
int setpgid(pid_t p, pid_t g) { return 0; }
int setpgrp(void) { return 0; }
pid_t tcgetpgrp(int n) { return 0; }
int tcsetpgrp(int n, pid_t p) { return 0; }
uid_t getuid(void) { return 0; }
uid_t geteuid(void) { return 0; }
gid_t getgid(void) { return 0; }
gid_t getegid(void) { return 0; }
int setuid(uid_t u) { return 0; }
int seteuid(uid_t u) { return 0; }
int setgid(gid_t g) { return 0; }
int setegid(gid_t g) { return 0; }
int setreuid(uid_t a, uid_t b) { return 0; }
int setregid(gid_t a, gid_t b) { return 0; }
int getgroups(int n, gid_t *g) { return 0; }
unsigned sleep(unsigned n) { return 0; }
int usleep(useconds_t n) { return 0; }
unsigned alarm(unsigned n) { return 0; }
useconds_t ualarm(useconds_t a, useconds_t b) { return 0; }
int pause(void) { return 0; }
void sync(void) { }
int fsync(int n) { return 0; }
int fdatasync(int n) { return 0; }
int syncfs(int n) { return 0; }
void _exit(int n) { }
int chown(const char *s, uid_t u, gid_t g) { return 0; }
int lchown(const char *s, uid_t u, gid_t g) { return 0; }
int fchown(int n, uid_t u, gid_t g) { return 0; }
int fchownat(int d, const char *s, uid_t u, gid_t g, int f) { return 0; }
int truncate(const char *s, off_t n) { return 0; }
int ftruncate(int n, off_t o) { return 0; }
int lockf(int n, int c, off_t o) { return 0; }
int nice(int n) { return 0; }
int daemon(int a, int b) { return 0; }
int getpagesize(void) { return 0; }
int getdtablesize(void) { return 0; }
long sysconf(int n) { return 0; }
long pathconf(const char *s, int n) { return 0; }
long fpathconf(int n, int m) { return 0; }
size_t confstr(int n, char *b, size_t s) { return 0; }
char *ttyname(int n) { static char name[9]; return name; }
int ttyname_r(int n, char *s, size_t z) { return 0; }
char *getlogin(void) { static char name[9]; return name; }
int getlogin_r(char *s, size_t z) { return 0; }
char *getpass(const char *s) { static char word[9]; return word; }
char *crypt(const char *k, const char *s) { static char word[9]; return word; }
int gethostname(char *s, size_t n) { return 0; }
int sethostname(const char *s, size_t n) { return 0; }
int getdomainname(char *s, size_t n) { return 0; }
void swab(const void *a, void *b, ssize_t n) { }
int getentropy(void *b, size_t n) { return 0; }
