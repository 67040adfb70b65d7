/* <stdlib.h>, <inttypes.h>, <malloc.h>: what these functions do with pointers. */
#include <inttypes.h>
#include <malloc.h>
#include <stdlib.h>
#include <string.h>
#undef strtold
unsigned long strtoul(const char *s, char **e, int b) { if (e) *e = (char *)s; return 0; }
long long strtoll(const char *s, char **e, int b) { if (e) *e = (char *)s; return 0; }
unsigned long long strtoull(const char *s, char **e, int b) { if (e) *e = (char *)s; return 0; }
intmax_t strtoimax(const char *s, char **e, int b) { if (e) *e = (char *)s; return 0; }
uintmax_t strtoumax(const char *s, char **e, int b) { if (e) *e = (char *)s; return 0; }
double strtod(const char *s, char **e) { if (e) *e = (char *)s; return 0; }
float strtof(const char *s, char **e) { if (e) *e = (char *)s; return 0; }
long double strtold(const char *s, char **e) { if (e) *e = (char *)s; return 0; }
double atof(const char *s) { return 0; }
long atol(const char *s) { return 0; }
long long atoll(const char *s) { return 0; }
int abs(int n) { return n; }
long labs(long n) { return n; }
long long llabs(long long n) { return n; }
intmax_t imaxabs(intmax_t n) { return n; }
div_t div(int a, int b) { div_t d; d.quot = d.rem = 0; return d; }
ldiv_t ldiv(long a, long b) { ldiv_t d; d.quot = d.rem = 0; return d; }
lldiv_t lldiv(long long a, long long b) { lldiv_t d; d.quot = d.rem = 0; return d; }
int rand(void) { return 0; }
void srand(unsigned n) { }
int rand_r(unsigned *n) { return 0; }
long random(void) { return 0; }
void srandom(unsigned n) { }
char *initstate(unsigned n, char *s, size_t z) { return s; }
char *setstate(char *s) { return s; }
double drand48(void) { return 0; }
long lrand48(void) { return 0; }
long mrand48(void) { return 0; }
void srand48(long n) { }
int getloadavg(double *v, int n) { return 0; }
int system(const char *s) { return 0; }
char *secure_getenv(const char *s) { return getenv(s); }
extern char **environ;
int putenv(char *s) { environ[0] = s; return 0; }
int setenv(const char *n, const char *v, int o) { return 0; }
int unsetenv(const char *n) { return 0; }
int clearenv(void) { return 0; }
int mkstemp(char *s) { return 0; }
int mkstemps(char *s, int n) { return 0; }
int mkostemp(char *s, int f) { return 0; }
char *mktemp(char *s) { return s; }
char *mkdtemp(char *s) { return s; }
void _Exit(int n) { }
void quick_exit(int n) { }
int at_quick_exit(void (*f)(void)) { f(); return 0; }
int on_exit(void (*f)(int, void *), void *p) { f(0, p); return 0; }
int mblen(const char *s, size_t n) { return 0; }
int mbtowc(wchar_t *w, const char *s, size_t n) { return 0; }
int wctomb(char *s, wchar_t w) { return 0; }
size_t wcstombs(char *s, const wchar_t *w, size_t n) { return 0; }
size_t mbstowcs(wchar_t *w, const char *s, size_t n) { return 0; }
int posix_memalign(void **p, size_t a, size_t n) { *p = malloc(n); return 0; }
void *aligned_alloc(size_t a, size_t n) { return malloc(n); }
void *memalign(size_t a, size_t n) { return malloc(n); }
void *valloc(size_t n) { return malloc(n); }
void *reallocarray(void *p, size_t n, size_t m) { return realloc(p, n); }
size_t malloc_usable_size(void *p) { return 0; }
char *realpath(const char *s, char *b) { return b ? b : malloc(1); }
char *canonicalize_file_name(const char *s) { return malloc(1); }
#ifdef __USE_GNU
void qsort_r(void *b, size_t n, size_t s, int (*c)(const void *, const void *, void *), void *p) { c(b, b, p); }
#endif
int getsubopt(char **o, char *const *t, char **v) { *v = *o; return 0; }
int posix_openpt(int f) { return 0; }
int grantpt(int n) { return 0; }
int unlockpt(int n) { return 0; }
char *ptsname(int n) { static char name[9]; return name; }
unsigned arc4random(void) { return 0; }
unsigned arc4random_uniform(unsigned n) { return 0; }
void arc4random_buf(void *b, size_t n) { }
