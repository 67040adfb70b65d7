/* <curses.h>: windows, screens and texts that are given, and what is called. Letters and numbers don't matter. */
#if __has_include(<curses.h>)
#define NCURSES_NOMACROS
#include <curses.h>
#include <stdarg.h>
#include <stdlib.h>
WINDOW *stdscr, *curscr, *newscr;
chtype acs_map[128];
char ttytype[9];
int COLORS, COLOR_PAIRS, COLS, ESCDELAY, LINES, TABSIZE;
static SCREEN *pta_screen;
static char pta_terminal[9];
static WINDOW *pta_window(WINDOW *parent)
{
  WINDOW *made = malloc(sizeof(WINDOW));
  made->_parent = parent;
  return made;
}
WINDOW *newwin(int a, int b, int c, int d) { return pta_window(0); }
WINDOW *newpad(int a, int b) { return pta_window(0); }
WINDOW *getwin(FILE *f) { return pta_window(0); }
WINDOW *subwin(WINDOW *w, int a, int b, int c, int d) { return pta_window(w); }
WINDOW *derwin(WINDOW *w, int a, int b, int c, int d) { return pta_window(w); }
WINDOW *subpad(WINDOW *w, int a, int b, int c, int d) { return pta_window(w); }
WINDOW *dupwin(WINDOW *w)
{
  WINDOW *made = pta_window(0);
  *made = *w;
  return made;
}
WINDOW *wgetparent(const WINDOW *w) { return w->_parent; }
WINDOW *initscr(void)
{
  stdscr = pta_window(0);
  curscr = pta_window(0);
  newscr = pta_window(0);
  pta_screen = malloc(1);
  return stdscr;
}
SCREEN *newterm(const char *s, FILE *f, FILE *g)
{
  initscr();
  return pta_screen;
}
SCREEN *set_term(SCREEN *s)
{
  SCREEN *before = pta_screen;
  pta_screen = s;
  return before;
}
SCREEN *new_prescr(void) { return malloc(1); }
int ripoffline(int n, int (*start)(WINDOW *, int)) { return start(newwin(0, 0, 0, 0), 0); }
const char *keyname(int n) { return pta_terminal; }
char *longname(void) { return pta_terminal; }
char *termname(void) { return pta_terminal; }
char *slk_label(int n) { return pta_terminal; }
const char *curses_version(void) { return pta_terminal; }
char *keybound(int a, int b) { return malloc(1); }
char *tigetstr(const char *s) { return pta_terminal; }
char *tparm(const char *s, ...) { return pta_terminal; }
char *tiparm(const char *s, ...) { return pta_terminal; }
int printw(const char *s, ...) { return 0; }
int wprintw(WINDOW *w, const char *s, ...) { return 0; }
int mvprintw(int a, int b, const char *s, ...) { return 0; }
int mvwprintw(WINDOW *w, int a, int b, const char *s, ...) { return 0; }
int scanw(const char *s, ...) { return 0; }
int wscanw(WINDOW *w, const char *s, ...) { return 0; }
int mvscanw(int a, int b, const char *s, ...) { return 0; }
int mvwscanw(WINDOW *w, int a, int b, const char *s, ...) { return 0; }
int vwprintw(WINDOW *w, const char *s, va_list v) { return 0; }
int vw_printw(WINDOW *w, const char *s, va_list v) { return 0; }
int vwscanw(WINDOW *w, const char *s, va_list v) { return 0; }
int vw_scanw(WINDOW *w, const char *s, va_list v) { return 0; }
int addch(const chtype a) { return 0; }
int addchnstr(const chtype *a, int b) { return 0; }
int addchstr(const chtype *a) { return 0; }
int addnstr(const char *a, int b) { return 0; }
int addstr(const char *a) { return 0; }
int attroff(int a) { return 0; }
int attron(int a) { return 0; }
int attrset(int a) { return 0; }
int attr_get(attr_t *a, short *b, void *c) { return 0; }
int attr_off(attr_t a, void *b) { return 0; }
int attr_on(attr_t a, void *b) { return 0; }
int attr_set(attr_t a, short b, void *c) { return 0; }
int baudrate(void) { return 0; }
int beep(void) { return 0; }
int bkgd(chtype a) { return 0; }
void bkgdset(chtype a) { }
int border(chtype a, chtype b, chtype c, chtype d, chtype e, chtype f, chtype g, chtype h) { return 0; }
int box(WINDOW *a, chtype b, chtype c) { return 0; }
bool can_change_color(void) { return 0; }
int cbreak(void) { return 0; }
int chgat(int a, attr_t b, short c, const void *d) { return 0; }
int clear(void) { return 0; }
int clearok(WINDOW *a, bool b) { return 0; }
int clrtobot(void) { return 0; }
int clrtoeol(void) { return 0; }
int color_content(short a, short *b, short *c, short *d) { return 0; }
int color_set(short a, void *b) { return 0; }
int COLOR_PAIR(int a) { return 0; }
int copywin(const WINDOW *a, WINDOW *b, int c, int d, int e, int f, int g, int h, int i) { return 0; }
int curs_set(int a) { return 0; }
int def_prog_mode(void) { return 0; }
int def_shell_mode(void) { return 0; }
int delay_output(int a) { return 0; }
int delch(void) { return 0; }
void delscreen(SCREEN *a) { }
int delwin(WINDOW *a) { return 0; }
int deleteln(void) { return 0; }
int doupdate(void) { return 0; }
int echo(void) { return 0; }
int echochar(const chtype a) { return 0; }
int erase(void) { return 0; }
int endwin(void) { return 0; }
char erasechar(void) { return 0; }
void filter(void) { }
int flash(void) { return 0; }
int flushinp(void) { return 0; }
chtype getbkgd(WINDOW *a) { return 0; }
int getch(void) { return 0; }
int getnstr(char *a, int b) { return 0; }
int getstr(char *a) { return 0; }
int halfdelay(int a) { return 0; }
bool has_colors(void) { return 0; }
bool has_ic(void) { return 0; }
bool has_il(void) { return 0; }
int hline(chtype a, int b) { return 0; }
void idcok(WINDOW *a, bool b) { }
int idlok(WINDOW *a, bool b) { return 0; }
void immedok(WINDOW *a, bool b) { }
chtype inch(void) { return 0; }
int inchnstr(chtype *a, int b) { return 0; }
int inchstr(chtype *a) { return 0; }
int init_color(short a, short b, short c, short d) { return 0; }
int init_pair(short a, short b, short c) { return 0; }
int innstr(char *a, int b) { return 0; }
int insch(chtype a) { return 0; }
int insdelln(int a) { return 0; }
int insertln(void) { return 0; }
int insnstr(const char *a, int b) { return 0; }
int insstr(const char *a) { return 0; }
int instr(char *a) { return 0; }
int intrflush(WINDOW *a, bool b) { return 0; }
bool isendwin(void) { return 0; }
bool is_linetouched(WINDOW *a, int b) { return 0; }
bool is_wintouched(WINDOW *a) { return 0; }
int keypad(WINDOW *a, bool b) { return 0; }
char killchar(void) { return 0; }
int leaveok(WINDOW *a, bool b) { return 0; }
int meta(WINDOW *a, bool b) { return 0; }
int move(int a, int b) { return 0; }
int mvaddch(int a, int b, const chtype c) { return 0; }
int mvaddchnstr(int a, int b, const chtype *c, int d) { return 0; }
int mvaddchstr(int a, int b, const chtype *c) { return 0; }
int mvaddnstr(int a, int b, const char *c, int d) { return 0; }
int mvaddstr(int a, int b, const char *c) { return 0; }
int mvchgat(int a, int b, int c, attr_t d, short e, const void *f) { return 0; }
int mvcur(int a, int b, int c, int d) { return 0; }
int mvdelch(int a, int b) { return 0; }
int mvderwin(WINDOW *a, int b, int c) { return 0; }
int mvgetch(int a, int b) { return 0; }
int mvgetnstr(int a, int b, char *c, int d) { return 0; }
int mvgetstr(int a, int b, char *c) { return 0; }
int mvhline(int a, int b, chtype c, int d) { return 0; }
chtype mvinch(int a, int b) { return 0; }
int mvinchnstr(int a, int b, chtype *c, int d) { return 0; }
int mvinchstr(int a, int b, chtype *c) { return 0; }
int mvinnstr(int a, int b, char *c, int d) { return 0; }
int mvinsch(int a, int b, chtype c) { return 0; }
int mvinsnstr(int a, int b, const char *c, int d) { return 0; }
int mvinsstr(int a, int b, const char *c) { return 0; }
int mvinstr(int a, int b, char *c) { return 0; }
int mvvline(int a, int b, chtype c, int d) { return 0; }
int mvwaddch(WINDOW *a, int b, int c, const chtype d) { return 0; }
int mvwaddchnstr(WINDOW *a, int b, int c, const chtype *d, int e) { return 0; }
int mvwaddchstr(WINDOW *a, int b, int c, const chtype *d) { return 0; }
int mvwaddnstr(WINDOW *a, int b, int c, const char *d, int e) { return 0; }
int mvwaddstr(WINDOW *a, int b, int c, const char *d) { return 0; }
int mvwchgat(WINDOW *a, int b, int c, int d, attr_t e, short f, const void *g) { return 0; }
int mvwdelch(WINDOW *a, int b, int c) { return 0; }
int mvwgetch(WINDOW *a, int b, int c) { return 0; }
int mvwgetnstr(WINDOW *a, int b, int c, char *d, int e) { return 0; }
int mvwgetstr(WINDOW *a, int b, int c, char *d) { return 0; }
int mvwhline(WINDOW *a, int b, int c, chtype d, int e) { return 0; }
int mvwin(WINDOW *a, int b, int c) { return 0; }
chtype mvwinch(WINDOW *a, int b, int c) { return 0; }
int mvwinchnstr(WINDOW *a, int b, int c, chtype *d, int e) { return 0; }
int mvwinchstr(WINDOW *a, int b, int c, chtype *d) { return 0; }
int mvwinnstr(WINDOW *a, int b, int c, char *d, int e) { return 0; }
int mvwinsch(WINDOW *a, int b, int c, chtype d) { return 0; }
int mvwinsnstr(WINDOW *a, int b, int c, const char *d, int e) { return 0; }
int mvwinsstr(WINDOW *a, int b, int c, const char *d) { return 0; }
int mvwinstr(WINDOW *a, int b, int c, char *d) { return 0; }
int mvwvline(WINDOW *a, int b, int c, chtype d, int e) { return 0; }
int napms(int a) { return 0; }
int nl(void) { return 0; }
int nocbreak(void) { return 0; }
int nodelay(WINDOW *a, bool b) { return 0; }
int noecho(void) { return 0; }
int nonl(void) { return 0; }
void noqiflush(void) { }
int noraw(void) { return 0; }
int notimeout(WINDOW *a, bool b) { return 0; }
int overlay(const WINDOW *a, WINDOW *b) { return 0; }
int overwrite(const WINDOW *a, WINDOW *b) { return 0; }
int pair_content(short a, short *b, short *c) { return 0; }
int PAIR_NUMBER(int a) { return 0; }
int pechochar(WINDOW *a, const chtype b) { return 0; }
int pnoutrefresh(WINDOW *a, int b, int c, int d, int e, int f, int g) { return 0; }
int prefresh(WINDOW *a, int b, int c, int d, int e, int f, int g) { return 0; }
int putwin(WINDOW *a, FILE *b) { return 0; }
void qiflush(void) { }
int raw(void) { return 0; }
int redrawwin(WINDOW *a) { return 0; }
int refresh(void) { return 0; }
int resetty(void) { return 0; }
int reset_prog_mode(void) { return 0; }
int reset_shell_mode(void) { return 0; }
int savetty(void) { return 0; }
int scr_dump(const char *a) { return 0; }
int scr_init(const char *a) { return 0; }
int scrl(int a) { return 0; }
int scroll(WINDOW *a) { return 0; }
int scrollok(WINDOW *a, bool b) { return 0; }
int scr_restore(const char *a) { return 0; }
int scr_set(const char *a) { return 0; }
int setscrreg(int a, int b) { return 0; }
int slk_attroff(const chtype a) { return 0; }
int slk_attr_off(const attr_t a, void *b) { return 0; }
int slk_attron(const chtype a) { return 0; }
int slk_attr_on(attr_t a, void *b) { return 0; }
int slk_attrset(const chtype a) { return 0; }
attr_t slk_attr(void) { return 0; }
int slk_attr_set(const attr_t a, short b, void *c) { return 0; }
int slk_clear(void) { return 0; }
int slk_color(short a) { return 0; }
int slk_init(int a) { return 0; }
int slk_noutrefresh(void) { return 0; }
int slk_refresh(void) { return 0; }
int slk_restore(void) { return 0; }
int slk_set(int a, const char *b, int c) { return 0; }
int slk_touch(void) { return 0; }
int standout(void) { return 0; }
int standend(void) { return 0; }
int start_color(void) { return 0; }
int syncok(WINDOW *a, bool b) { return 0; }
chtype termattrs(void) { return 0; }
void timeout(int a) { }
int touchline(WINDOW *a, int b, int c) { return 0; }
int touchwin(WINDOW *a) { return 0; }
int typeahead(int a) { return 0; }
int ungetch(int a) { return 0; }
int untouchwin(WINDOW *a) { return 0; }
void use_env(bool a) { }
void use_tioctl(bool a) { }
int vidattr(chtype a) { return 0; }
int vidputs(chtype a, NCURSES_OUTC b) { return 0; }
int vline(chtype a, int b) { return 0; }
int waddch(WINDOW *a, const chtype b) { return 0; }
int waddchnstr(WINDOW *a, const chtype *b, int c) { return 0; }
int waddchstr(WINDOW *a, const chtype *b) { return 0; }
int waddnstr(WINDOW *a, const char *b, int c) { return 0; }
int waddstr(WINDOW *a, const char *b) { return 0; }
int wattron(WINDOW *a, int b) { return 0; }
int wattroff(WINDOW *a, int b) { return 0; }
int wattrset(WINDOW *a, int b) { return 0; }
int wattr_get(WINDOW *a, attr_t *b, short *c, void *d) { return 0; }
int wattr_on(WINDOW *a, attr_t b, void *c) { return 0; }
int wattr_off(WINDOW *a, attr_t b, void *c) { return 0; }
int wattr_set(WINDOW *a, attr_t b, short c, void *d) { return 0; }
int wbkgd(WINDOW *a, chtype b) { return 0; }
void wbkgdset(WINDOW *a, chtype b) { }
int wborder(WINDOW *a, chtype b, chtype c, chtype d, chtype e, chtype f, chtype g, chtype h, chtype i) { return 0; }
int wchgat(WINDOW *a, int b, attr_t c, short d, const void *e) { return 0; }
int wclear(WINDOW *a) { return 0; }
int wclrtobot(WINDOW *a) { return 0; }
int wclrtoeol(WINDOW *a) { return 0; }
int wcolor_set(WINDOW *a, short b, void *c) { return 0; }
void wcursyncup(WINDOW *a) { }
int wdelch(WINDOW *a) { return 0; }
int wdeleteln(WINDOW *a) { return 0; }
int wechochar(WINDOW *a, const chtype b) { return 0; }
int werase(WINDOW *a) { return 0; }
int wgetch(WINDOW *a) { return 0; }
int wgetnstr(WINDOW *a, char *b, int c) { return 0; }
int wgetstr(WINDOW *a, char *b) { return 0; }
int whline(WINDOW *a, chtype b, int c) { return 0; }
chtype winch(WINDOW *a) { return 0; }
int winchnstr(WINDOW *a, chtype *b, int c) { return 0; }
int winchstr(WINDOW *a, chtype *b) { return 0; }
int winnstr(WINDOW *a, char *b, int c) { return 0; }
int winsch(WINDOW *a, chtype b) { return 0; }
int winsdelln(WINDOW *a, int b) { return 0; }
int winsertln(WINDOW *a) { return 0; }
int winsnstr(WINDOW *a, const char *b, int c) { return 0; }
int winsstr(WINDOW *a, const char *b) { return 0; }
int winstr(WINDOW *a, char *b) { return 0; }
int wmove(WINDOW *a, int b, int c) { return 0; }
int wnoutrefresh(WINDOW *a) { return 0; }
int wredrawln(WINDOW *a, int b, int c) { return 0; }
int wrefresh(WINDOW *a) { return 0; }
int wscrl(WINDOW *a, int b) { return 0; }
int wsetscrreg(WINDOW *a, int b, int c) { return 0; }
int wstandout(WINDOW *a) { return 0; }
int wstandend(WINDOW *a) { return 0; }
void wsyncdown(WINDOW *a) { }
void wsyncup(WINDOW *a) { }
void wtimeout(WINDOW *a, int b) { }
int wtouchln(WINDOW *a, int b, int c, int d) { return 0; }
int wvline(WINDOW *a, chtype b, int c) { return 0; }
int tigetflag(const char *a) { return 0; }
int tigetnum(const char *a) { return 0; }
int putp(const char *a) { return 0; }
int getattrs(const WINDOW *a) { return 0; }
int getcurx(const WINDOW *a) { return 0; }
int getcury(const WINDOW *a) { return 0; }
int getbegx(const WINDOW *a) { return 0; }
int getbegy(const WINDOW *a) { return 0; }
int getmaxx(const WINDOW *a) { return 0; }
int getmaxy(const WINDOW *a) { return 0; }
int getparx(const WINDOW *a) { return 0; }
int getpary(const WINDOW *a) { return 0; }
bool is_term_resized(int a, int b) { return 0; }
int alloc_pair(int a, int b) { return 0; }
int assume_default_colors(int a, int b) { return 0; }
int define_key(const char *a, int b) { return 0; }
int extended_color_content(int a, int *b, int *c, int *d) { return 0; }
int extended_pair_content(int a, int *b, int *c) { return 0; }
int extended_slk_color(int a) { return 0; }
int find_pair(int a, int b) { return 0; }
int free_pair(int a) { return 0; }
int get_escdelay(void) { return 0; }
int init_extended_color(int a, int b, int c, int d) { return 0; }
int init_extended_pair(int a, int b, int c) { return 0; }
int key_defined(const char *a) { return 0; }
int keyok(int a, bool b) { return 0; }
void reset_color_pairs(void) { }
int resize_term(int a, int b) { return 0; }
int resizeterm(int a, int b) { return 0; }
int set_escdelay(int a) { return 0; }
int set_tabsize(int a) { return 0; }
int use_default_colors(void) { return 0; }
int use_extended_names(bool a) { return 0; }
int use_legacy_coding(int a) { return 0; }
int wresize(WINDOW *a, int b, int c) { return 0; }
void nofilter(void) { }
bool is_cleared(const WINDOW *a) { return 0; }
bool is_idcok(const WINDOW *a) { return 0; }
bool is_idlok(const WINDOW *a) { return 0; }
bool is_immedok(const WINDOW *a) { return 0; }
bool is_keypad(const WINDOW *a) { return 0; }
bool is_leaveok(const WINDOW *a) { return 0; }
bool is_nodelay(const WINDOW *a) { return 0; }
bool is_notimeout(const WINDOW *a) { return 0; }
bool is_pad(const WINDOW *a) { return 0; }
bool is_scrollok(const WINDOW *a) { return 0; }
bool is_subwin(const WINDOW *a) { return 0; }
bool is_syncok(const WINDOW *a) { return 0; }
int wgetdelay(const WINDOW *a) { return 0; }
int wgetscrreg(const WINDOW *a, int *b, int *c) { return 0; }
bool has_mouse(void) { return 0; }
int getmouse(MEVENT *a) { return 0; }
int ungetmouse(MEVENT *a) { return 0; }
mmask_t mousemask(mmask_t a, mmask_t *b) { return 0; }
bool wenclose(const WINDOW *a, int b, int c) { return 0; }
int mouseinterval(int a) { return 0; }
bool wmouse_trafo(const WINDOW *a, int *b, int *c, bool d) { return 0; }
bool mouse_trafo(int *a, int *b, bool c) { return 0; }
int mcprint(char *a, int b) { return 0; }
int has_key(int a) { return 0; }
void trace(const unsigned a) { }
unsigned curses_trace(const unsigned a) { return 0; }
void exit_curses(int a) { }
#endif
