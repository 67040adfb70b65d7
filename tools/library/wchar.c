/* <wchar.h>, <wctype.h>: what these functions do with pointers. */
#include <stdarg.h>
#include <stdlib.h>
#include <wchar.h>
#include <wctype.h>
#undef wctob
#undef btowc
size_t wcslen(const wchar_t *s) { return 0; }
wchar_t *wcscpy(wchar_t *a, const wchar_t *b) { return a; }
wchar_t *wcscat(wchar_t *a, const wchar_t *b) { return a; }
wchar_t *wcsncpy(wchar_t *a, const wchar_t *b, size_t n) { return a; }
wchar_t *wcsncat(wchar_t *a, const wchar_t *b, size_t n) { return a; }
int wcscmp(const wchar_t *a, const wchar_t *b) { return 0; }
int wcsncmp(const wchar_t *a, const wchar_t *b, size_t n) { return 0; }
int wcscoll(const wchar_t *a, const wchar_t *b) { return 0; }
int wcscasecmp(const wchar_t *a, const wchar_t *b) { return 0; }
int wcsncasecmp(const wchar_t *a, const wchar_t *b, size_t n) { return 0; }
size_t wcsftime(wchar_t *s, size_t n, const wchar_t *f, const struct tm *t) { return 0; }
wchar_t *wcschr(const wchar_t *s, wchar_t c) { return (wchar_t *)s; }
wchar_t *wcsrchr(const wchar_t *s, wchar_t c) { return (wchar_t *)s; }
wchar_t *wcsstr(const wchar_t *s, const wchar_t *t) { return (wchar_t *)s; }
wchar_t *wcspbrk(const wchar_t *s, const wchar_t *t) { return (wchar_t *)s; }
size_t wcsspn(const wchar_t *s, const wchar_t *t) { return 0; }
size_t wcscspn(const wchar_t *s, const wchar_t *t) { return 0; }
wchar_t *wcstok(wchar_t *s, const wchar_t *d, wchar_t **rest) { if (s) *rest = s; return *rest; }
wchar_t *wcsdup(const wchar_t *s) { return malloc(4); }
wchar_t *wmemcpy(wchar_t *a, const wchar_t *b, size_t n) { return a; }
wchar_t *wmemmove(wchar_t *a, const wchar_t *b, size_t n) { return a; }
wchar_t *wmemset(wchar_t *a, wchar_t c, size_t n) { return a; }
wchar_t *wmemchr(const wchar_t *a, wchar_t c, size_t n) { return (wchar_t *)a; }
int wmemcmp(const wchar_t *a, const wchar_t *b, size_t n) { return 0; }
int wcswidth(const wchar_t *s, size_t n) { return 0; }
int wcwidth(wchar_t c) { return 0; }
long wcstol(const wchar_t *s, wchar_t **e, int b) { if (e) *e = (wchar_t *)s; return 0; }
unsigned long wcstoul(const wchar_t *s, wchar_t **e, int b) { if (e) *e = (wchar_t *)s; return 0; }
wint_t btowc(int c) { return c; }
int wctob(wint_t c) { return c; }
int mbsinit(const mbstate_t *t) { return 0; }
size_t mbrlen(const char *s, size_t n, mbstate_t *t) { return 0; }
size_t mbrtowc(wchar_t *w, const char *s, size_t n, mbstate_t *t) { return 0; }
size_t wcrtomb(char *s, wchar_t w, mbstate_t *t) { return 0; }
size_t mbsrtowcs(wchar_t *w, const char **s, size_t n, mbstate_t *t) { return 0; }
size_t mbsnrtowcs(wchar_t *w, const char **s, size_t m, size_t n, mbstate_t *t) { return 0; }
size_t wcsrtombs(char *s, const wchar_t **w, size_t n, mbstate_t *t) { return 0; }
wint_t fgetwc(FILE *f) { return 0; }
wint_t getwc(FILE *f) { return 0; }
wint_t getwchar(void) { return 0; }
wint_t fputwc(wchar_t c, FILE *f) { return 0; }
wint_t putwc(wchar_t c, FILE *f) { return 0; }
wint_t putwchar(wchar_t c) { return 0; }
wint_t ungetwc(wint_t c, FILE *f) { return 0; }
wchar_t *fgetws(wchar_t *s, int n, FILE *f) { return s; }
int fputws(const wchar_t *s, FILE *f) { return 0; }
int fwide(FILE *f, int n) { return 0; }
int wprintf(const wchar_t *f, ...) { return 0; }
int fwprintf(FILE *s, const wchar_t *f, ...) { return 0; }
int swprintf(wchar_t *s, size_t n, const wchar_t *f, ...) { return 0; }
int vfwprintf(FILE *s, const wchar_t *f, va_list a) { return 0; }
int vswprintf(wchar_t *s, size_t n, const wchar_t *f, va_list a) { return 0; }
int iswspace(wint_t c) { return 0; }
int iswprint(wint_t c) { return 0; }
int iswalnum(wint_t c) { return 0; }
int iswalpha(wint_t c) { return 0; }
int iswdigit(wint_t c) { return 0; }
int iswxdigit(wint_t c) { return 0; }
int iswpunct(wint_t c) { return 0; }
int iswcntrl(wint_t c) { return 0; }
int iswgraph(wint_t c) { return 0; }
int iswblank(wint_t c) { return 0; }
int iswupper(wint_t c) { return 0; }
int iswlower(wint_t c) { return 0; }
wint_t towlower(wint_t c) { return c; }
wint_t towupper(wint_t c) { return c; }
wctype_t wctype(const char *s) { return 0; }
int iswctype(wint_t c, wctype_t t) { return 0; }
