#include <stddef.h>
struct name { struct name *next; char *text; };
char *arena_get(size_t size);
void arena_end(void);
