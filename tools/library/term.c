/* <termcap.h>: the texts of a terminal, and what is called for each character. */
#if __has_include(<termcap.h>)
#include <termcap.h>
static char pta_capability[9];
char PC, *UP, *BC;
short ospeed;
int tgetent(char *b, const char *s) { return 0; }
int tgetnum(const char *s) { return 0; }
int tgetflag(const char *s) { return 0; }
char *tgetstr(const char *s, char **area) { return *area ? *area : pta_capability; }
char *tgoto(const char *s, int a, int b) { return (char *)s; }
int tputs(const char *s, int n, int (*put)(int)) { return put(0); }
#endif
