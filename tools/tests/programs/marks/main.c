#include <stdio.h>
#include "mark.h"
static void print(struct out *out, const char *text) { fputs(text, (FILE *) out->to); }
static void count(struct out *out, const char *text) { ++*(int *) out->to; }
int main(void)
{
  char text[] = "# title\n* item\nplain\n", copy[] = "* a\n";
  int number = 0;
  struct out to_file = { print, stdout }, to_number = { count, &number };
  render(&to_file, text);
  render(&to_number, copy);
  return number != 3;
}
