#include <stdio.h>
#include <stdlib.h>
#include "table.h"
struct person { const char *name; struct person *boss; };
static struct person boss = { "boss", NULL };
static struct table people = { .drop = free };
int main(void)
{
  struct person *worker = malloc(sizeof *worker);
  worker->name = "worker";
  worker->boss = &boss;
  table_put(&people, "w", worker);
  struct person *found = table_get(&people, "w");
  printf("%s\n", found->boss->name);
  void *nothing = table_get(&people, "x");
  table_end(&people);
  return nothing != NULL;
}
