#include <stdio.h>
#include <string.h>
#include "csv.h"
struct sheet { char *cells[9]; int count, rows; };
static void field(void *text, size_t size, void *data)
{
  struct sheet *sheet = data;
  sheet->cells[sheet->count++] = strndup(text, size);
}
static void row(int end, void *data) { ((struct sheet *) data)->rows++; }
int main(void)
{
  static struct csv csv;
  static struct sheet sheet;
  csv_begin(&csv, field, row, &sheet);
  csv_feed(&csv, "a,\"b,c\"\nd\n");
  printf("%d %d %s\n", sheet.rows, sheet.count, sheet.cells[1]);
  return 0;
}
