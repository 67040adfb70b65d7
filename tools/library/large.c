/* The names of <stdio.h>, <stdlib.h>, <fcntl.h>, <unistd.h>, <dirent.h>, <sys/stat.h>, <sys/mman.h> for large files. */
#include <dirent.h>
#include <fcntl.h>
#include <stdio.h>
#include <stdlib.h>
#include <sys/mman.h>
#include <sys/stat.h>
#include <unistd.h>
#ifdef __USE_LARGEFILE64
int open64(const char *s, int f, ...) { return 0; }
int creat64(const char *s, mode_t m) { return 0; }
int stat64(const char *s, struct stat64 *b) { return 0; }
int lstat64(const char *s, struct stat64 *b) { return 0; }
int fstat64(int n, struct stat64 *b) { return 0; }
int fstatat64(int d, const char *s, struct stat64 *b, int f) { return 0; }
struct dirent64 *readdir64(DIR *d) { static struct dirent64 entry; return &entry; }
FILE *fopen64(const char *s, const char *m) { return fopen(s, m); }
FILE *freopen64(const char *s, const char *m, FILE *f) { return f; }
FILE *tmpfile64(void) { return fopen("", ""); }
int fseeko64(FILE *f, off64_t n, int w) { return 0; }
off64_t ftello64(FILE *f) { return 0; }
off64_t lseek64(int n, off64_t o, int w) { return 0; }
int truncate64(const char *s, off64_t n) { return 0; }
int ftruncate64(int n, off64_t o) { return 0; }
void *mmap64(void *a, size_t n, int p, int f, int d, off64_t o) { return malloc(n); }
int mkstemp64(char *s) { return 0; }
#endif
