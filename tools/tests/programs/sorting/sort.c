#include <stdlib.h>
#include <string.h>
#include "sort.h"
static int compare(const struct word *a, const struct word *b) { return strcmp(a->text, b->text); }
static int backwards(struct word *a, struct word *b) { return compare(b, a); }
static order orders[2] = { (order) compare, (order) backwards };
void sort_words(struct word *words, size_t count)
{
  qsort(words, count, sizeof *words, (int (*)(const void *, const void *)) backwards);
  qsort(words, count, sizeof *words, orders[0]);
}
void each(struct word *words, size_t count, visitor visit, void *data)
{
  for (size_t i = 0; i < count; i++)
    visit(&words[i], data);
}
