/* <stdio.h>: what these functions do with pointers. Numbers don't matter. */
#include <stdarg.h>
#include <stdio.h>
#include <stdlib.h>
#include <string.h>
#undef getc
#undef putc
#undef getc_unlocked
#undef putc_unlocked
#undef getchar_unlocked
#undef putchar_unlocked
#undef feof_unlocked
#undef ferror_unlocked
int getc(FILE *f) { return fgetc(f); }
int putc(int c, FILE *f) { return fputc(c, f); }
int ungetc(int c, FILE *f) { return c; }
int ferror(FILE *f) { return 0; }
int feof(FILE *f) { return 0; }
void clearerr(FILE *f) { }
int fileno(FILE *f) { return 0; }
void perror(const char *s) { }
int remove(const char *s) { return 0; }
int rename(const char *a, const char *b) { return 0; }
int renameat(int n, const char *a, int m, const char *b) { return 0; }
long ftell(FILE *f) { return 0; }
int fseek(FILE *f, long n, int w) { return 0; }
int fseeko(FILE *f, off_t n, int w) { return 0; }
off_t ftello(FILE *f) { return 0; }
int fgetpos(FILE *f, fpos_t *p) { return 0; }
int fsetpos(FILE *f, const fpos_t *p) { return 0; }
void rewind(FILE *f) { }
void setbuf(FILE *f, char *b) { }
void setbuffer(FILE *f, char *b, size_t n) { }
void setlinebuf(FILE *f) { }
int setvbuf(FILE *f, char *b, int m, size_t n) { return 0; }
FILE *fdopen(int n, const char *m) { return fopen(m, m); }
FILE *freopen(const char *p, const char *m, FILE *f) { return f; }
FILE *tmpfile(void) { return fopen("", ""); }
FILE *popen(const char *c, const char *m) { return fopen(c, m); }
FILE *fmemopen(void *b, size_t n, const char *m) { return fopen(m, m); }
FILE *open_memstream(char **s, size_t *n) { *s = malloc(1); return fopen("", ""); }
int pclose(FILE *f) { return 0; }
int sscanf(const char *s, const char *f, ...) { return 0; }
int fscanf(FILE *s, const char *f, ...) { return 0; }
int scanf(const char *f, ...) { return 0; }
int vsscanf(const char *s, const char *f, va_list a) { return 0; }
int vfscanf(FILE *s, const char *f, va_list a) { return 0; }
int vfprintf(FILE *s, const char *f, va_list a) { return 0; }
int vprintf(const char *f, va_list a) { return 0; }
int vsprintf(char *s, const char *f, va_list a) { return 0; }
int vsnprintf(char *s, size_t n, const char *f, va_list a) { return 0; }
int dprintf(int n, const char *f, ...) { return 0; }
int vdprintf(int n, const char *f, va_list a) { return 0; }
int asprintf(char **s, const char *f, ...) { *s = malloc(1); return 0; }
int vasprintf(char **s, const char *f, va_list a) { *s = malloc(1); return 0; }
ssize_t getline(char **l, size_t *n, FILE *f) { *l = malloc(1); return 0; }
ssize_t getdelim(char **l, size_t *n, int d, FILE *f) { *l = malloc(1); return 0; }
ssize_t __getdelim(char **l, size_t *n, int d, FILE *f) { *l = malloc(1); return 0; }
char *ctermid(char *s) { static char name[9]; return s ? s : name; }
char *tmpnam(char *s) { static char name[9]; return s ? s : name; }
char *tempnam(const char *d, const char *p) { return malloc(1); }
int getc_unlocked(FILE *f) { return 0; }
int putc_unlocked(int c, FILE *f) { return c; }
int getchar_unlocked(void) { return 0; }
int putchar_unlocked(int c) { return c; }
int fgetc_unlocked(FILE *f) { return 0; }
int fputc_unlocked(int c, FILE *f) { return c; }
int feof_unlocked(FILE *f) { return 0; }
int ferror_unlocked(FILE *f) { return 0; }
int fflush_unlocked(FILE *f) { return 0; }
int fileno_unlocked(FILE *f) { return 0; }
void clearerr_unlocked(FILE *f) { }
size_t fread_unlocked(void *b, size_t n, size_t m, FILE *f) { return 0; }
size_t fwrite_unlocked(const void *b, size_t n, size_t m, FILE *f) { return 0; }
#ifdef __USE_GNU
char *fgets_unlocked(char *s, int n, FILE *f) { return s; }
int fputs_unlocked(const char *s, FILE *f) { return 0; }
#endif
void flockfile(FILE *f) { }
int ftrylockfile(FILE *f) { return 0; }
void funlockfile(FILE *f) { }
int getw(FILE *f) { return 0; }
int putw(int n, FILE *f) { return 0; }
