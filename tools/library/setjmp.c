/* <setjmp.h>: nothing with pointers. */
#include <setjmp.h>
#undef setjmp
#undef sigsetjmp
int _setjmp(struct __jmp_buf_tag *b) { return 0; }
int setjmp(struct __jmp_buf_tag *b) { return 0; }
int __sigsetjmp(struct __jmp_buf_tag *b, int n) { return 0; }
void longjmp(struct __jmp_buf_tag *b, int n) { }
void _longjmp(struct __jmp_buf_tag *b, int n) { }
void siglongjmp(struct __jmp_buf_tag *b, int n) { }
