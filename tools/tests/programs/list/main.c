#include <stdio.h>
#include <stdlib.h>
#include "list.h"
static struct item first = { .number = 1, .name = "first" };
static void show(const struct item *item) { printf("%s\n", item->name); }
int main(void)
{
  struct item *second = calloc(1, sizeof *second);
  second->number = 2;
  second->name = "second";
  second->friend = &first;
  add(&first);
  add(second);
  struct item *found = find(2);
  show(found);
  show(found->friend);
  free(second);
  return 0;
}
