#include "say.h"
static char first[] = "one", second[] = "three";
static int a, b, *places[4];
static struct log logger = { say, 0 };
int main(void)
{
  const char *best = longest(2, first, second);
  fill(places, &a, &b, (int *) 0);
  logger.last = best;
  logger.write("%s %d\n", best, *places[1]);
  say("%s\n", logger.last);
  return 0;
}
