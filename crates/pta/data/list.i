# 1 "list.c"
# 1 "/usr/include/stdlib.h" 1 3 4
typedef unsigned long size_t;
extern void *malloc (size_t __size) __attribute__ ((__nothrow__ , __leaf__)) __attribute__ ((__malloc__));
extern int *__errno_location (void) __attribute__ ((__nothrow__ , __leaf__)) __attribute__ ((__const__));
extern const unsigned short int **__ctype_b_loc (void);
enum { _ISalpha = ((2) < 8 ? ((1 << (2)) << 8) : ((1 << (2)) >> 8)) };
extern double strtod (const char *__restrict __nptr, char **__restrict __endptr);
# 3 "list.c" 2
struct node { struct node *next; const char *word; };
static struct node *head;
static void push(const char *w)
{
  struct node *n = malloc(sizeof *n);
  if (!n) return;
  n->next = head;
  n->word = w;
  head = n;
}
int main(int argc, char **argv)
{
  if ((*__ctype_b_loc ())[(int) (('a'))] & (unsigned short int) _ISalpha)
    push("one");
  if ((*__errno_location ()) == 0)
    push(argv[0]);
  return 0;
}
