/* <libintl.h>, <langinfo.h>, <locale.h>, <iconv.h>, <regex.h>, <dlfcn.h> without dlsym: what they do with pointers. */
#include <dlfcn.h>
#include <iconv.h>
#include <langinfo.h>
#include <libintl.h>
#include <locale.h>
#include <regex.h>
#include <stdlib.h>
#undef gettext
#undef dgettext
#undef dcgettext
#undef ngettext
#undef dngettext
#undef dcngettext
#undef textdomain
#undef bindtextdomain
#undef bind_textdomain_codeset
char *gettext(const char *s) { return (char *)s; }
char *dgettext(const char *d, const char *s) { return (char *)s; }
char *dcgettext(const char *d, const char *s, int c) { return (char *)s; }
char *ngettext(const char *s, const char *p, unsigned long n) { return n ? (char *)s : (char *)p; }
char *dngettext(const char *d, const char *s, const char *p, unsigned long n) { return n ? (char *)s : (char *)p; }
char *dcngettext(const char *d, const char *s, const char *p, unsigned long n, int c) { return n ? (char *)s : (char *)p; }
char *textdomain(const char *s) { static char name[9]; return name; }
char *bindtextdomain(const char *s, const char *d) { static char name[9]; return name; }
char *bind_textdomain_codeset(const char *s, const char *d) { static char name[9]; return name; }
char *nl_langinfo(nl_item n) { static char text[9]; return text; }
char *setlocale(int c, const char *l) { static char name[9]; return name; }
struct lconv *localeconv(void)
{
  static struct lconv answer;
  static char text[9];
  answer.decimal_point = answer.thousands_sep = answer.grouping = text;
  answer.int_curr_symbol = answer.currency_symbol = answer.mon_decimal_point = answer.mon_thousands_sep = text;
  answer.mon_grouping = answer.positive_sign = answer.negative_sign = text;
  return &answer;
}
iconv_t iconv_open(const char *a, const char *b) { return malloc(1); }
size_t iconv(iconv_t i, char **a, size_t *n, char **b, size_t *m) { return 0; }
int iconv_close(iconv_t i) { return 0; }
void *dlopen(const char *s, int f) { return malloc(1); }
int dlclose(void *p) { return 0; }
char *dlerror(void) { static char text[9]; return text; }
int regcomp(regex_t *r, const char *s, int f) { return 0; }
int regexec(const regex_t *r, const char *s, size_t n, regmatch_t *m, int f) { return 0; }
size_t regerror(int n, const regex_t *r, char *s, size_t z) { return 0; }
void regfree(regex_t *r) { }
