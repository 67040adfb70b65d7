#include <stdio.h>
int *kept;
int *swap(place, with)
     int **place, *with;
{
  int *before = *place;
  *place = with;
  return before ?: with;
}
void note(pointer) register int *pointer;
{
  switch (*pointer) {
  case 0 ... 3: kept = pointer; break;
  default: kept = NULL;
  }
  printf("%d\n", kept != NULL);
}
