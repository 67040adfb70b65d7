#include <stdio.h>
#include "sort.h"
static struct word words[3] = { { "pear", 1 }, { "apple", 2 }, { "fig", 3 } };
static int total;
static void sum(struct word *word, int *into) { *into += word->count; }
static const char *last;
static void keep(struct word *word, const char **into) { *into = word->text; }
int main(void)
{
  sort_words(words, 3);
  each(words, 3, (visitor) sum, &total);
  each(words, 3, (visitor) keep, &last);
  printf("%d %s\n", total, last);
  return 0;
}
