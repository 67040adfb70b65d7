#include <stdio.h>
#include <string.h>
#include "arena.h"
static struct name *names;
static char one[] = "one", two[] = "two";
static void push(char *text)
{
  struct name *name = (struct name *) arena_get(sizeof *name);
  name->next = names;
  name->text = text;
  names = name;
}
int main(void)
{
  char **table = (char **) arena_get(2 * sizeof *table);
  push(one);
  push(two);
  table[0] = names->text;
  table[1] = names->next->text;
  printf("%s %s\n", table[0], table[1]);
  arena_end();
  return 0;
}
