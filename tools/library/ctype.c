/* <ctype.h>: nothing with pointers but the tables of its macros. */
#include <ctype.h>
#include <stdlib.h>
#undef isprint
#undef ispunct
#undef isgraph
#undef iscntrl
#undef isxdigit
#undef isblank
#undef isascii
#undef toascii
#undef _tolower
#undef _toupper
int isprint(int c) { return 0; }
int ispunct(int c) { return 0; }
int isgraph(int c) { return 0; }
int iscntrl(int c) { return 0; }
int isxdigit(int c) { return 0; }
int isblank(int c) { return 0; }
int isascii(int c) { return 0; }
int toascii(int c) { return c; }
int _tolower(int c) { return c; }
int _toupper(int c) { return c; }
const __int32_t **__ctype_tolower_loc(void) { static const __int32_t cells[384], *table; table = cells; return &table; }
const __int32_t **__ctype_toupper_loc(void) { static const __int32_t cells[384], *table; table = cells; return &table; }
size_t __ctype_get_mb_cur_max(void) { return 1; }
