#include <stddef.h>
struct word { const char *text; int count; };
typedef int (*order)(const void *, const void *);
typedef void (*visitor)(void *, void *);
void sort_words(struct word *words, size_t count);
void each(struct word *words, size_t count, visitor visit, void *data);
