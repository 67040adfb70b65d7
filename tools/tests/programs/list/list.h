#include <stddef.h>
struct link { struct link *next, *previous; };
struct item { int number; struct link link; const char *name; struct item *friend; };
#define ITEM(pointer) ((struct item *) ((char *) (pointer) - offsetof(struct item, link)))
extern struct link head;
void add(struct item *item);
struct item *find(int number);
