/* <string.h>, <strings.h>: what these functions do with pointers. */
#include <stdlib.h>
#include <string.h>
#include <strings.h>
#undef index
#undef rindex
char *strtok(char *s, const char *d) { static char *rest; if (s) rest = s; return rest; }
char *strtok_r(char *s, const char *d, char **rest) { if (s) *rest = s; return *rest; }
char *strsep(char **s, const char *d) { return *s; }
int strcasecmp(const char *a, const char *b) { return 0; }
int strncasecmp(const char *a, const char *b, size_t n) { return 0; }
char *strncat(char *a, const char *b, size_t n) { return a; }
char *strpbrk(const char *s, const char *a) { return (char *)s; }
size_t strspn(const char *s, const char *a) { return 0; }
size_t strcspn(const char *s, const char *a) { return 0; }
int strcoll(const char *a, const char *b) { return 0; }
size_t strxfrm(char *a, const char *b, size_t n) { return 0; }
size_t strnlen(const char *s, size_t n) { return 0; }
char *strndup(const char *s, size_t n) { return strdup(s); }
char *stpcpy(char *a, const char *b) { return a; }
char *stpncpy(char *a, const char *b, size_t n) { return a; }
char *strsignal(int n) { static char text[9]; return text; }
size_t strlcpy(char *a, const char *b, size_t n) { return 0; }
size_t strlcat(char *a, const char *b, size_t n) { return 0; }
int strverscmp(const char *a, const char *b) { return 0; }
char *index(const char *s, int c) { return (char *)s; }
char *rindex(const char *s, int c) { return (char *)s; }
int ffs(int n) { return 0; }
int ffsl(long n) { return 0; }
int bcmp(const void *a, const void *b, size_t n) { return 0; }
void bcopy(const void *a, void *b, size_t n) { memmove(b, a, n); }
void bzero(void *a, size_t n) { }
void explicit_bzero(void *a, size_t n) { }
void *memccpy(void *a, const void *b, int c, size_t n) { return memcpy(a, b, n); }
void *memmem(const void *a, size_t n, const void *b, size_t m) { return (void *)a; }
#ifdef __USE_GNU
void *mempcpy(void *a, const void *b, size_t n) { return memcpy(a, b, n); }
void *memrchr(const void *a, int c, size_t n) { return (void *)a; }
void *rawmemchr(const void *a, int c) { return (void *)a; }
char *strchrnul(const char *s, int c) { return (char *)s; }
char *strcasestr(const char *s, const char *t) { return (char *)s; }
char *strerror_r(int n, char *s, size_t z) { static char text[9]; return n ? s : text; }
#else
int strerror_r(int n, char *s, size_t z) { return 0; }
#endif
