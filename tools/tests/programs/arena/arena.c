#include <stdlib.h>
#include "arena.h"
static char *block, *at;
char *arena_get(size_t size)
{
  char *given;
  if (block == NULL)
    block = at = malloc(4096);
  given = at;
  at += (size + 15) & ~(size_t) 15;
  return given;
}
void arena_end(void) { free(block); block = at = NULL; }
