#include <stdarg.h>
#include <stdio.h>
#include <string.h>
#include "say.h"
void say(const char *format, ...)
{
  va_list arguments;
  va_start(arguments, format);
  vprintf(format, arguments);
  va_end(arguments);
}
const char *longest(int count, ...)
{
  va_list arguments;
  const char *best = "";
  va_start(arguments, count);
  while (count-- > 0) {
    const char *one = va_arg(arguments, const char *);
    if (strlen(one) > strlen(best))
      best = one;
  }
  va_end(arguments);
  return best;
}
void fill(int **places, ...)
{
  va_list arguments;
  int *one;
  va_start(arguments, places);
  while ((one = va_arg(arguments, int *)) != NULL)
    *places++ = one;
  va_end(arguments);
}
