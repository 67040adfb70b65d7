#include "csv.h"
static const struct state *plain(struct csv *csv, int letter);
static const struct state *quoted(struct csv *csv, int letter);
static const struct state states[] = { { plain, "plain" }, { quoted, "quoted" } };
static void flush(struct csv *csv)
{
  csv->field(csv->buffer, csv->used, csv->data);
  csv->used = 0;
}
static const struct state *plain(struct csv *csv, int letter)
{
  if (letter == '"')
    return &states[1];
  if (letter == ',' || letter == '\n')
    flush(csv);
  else
    csv->buffer[csv->used++] = letter;
  if (letter == '\n')
    csv->row(letter, csv->data);
  return csv->state;
}
static const struct state *quoted(struct csv *csv, int letter)
{
  if (letter == '"')
    return &states[0];
  csv->buffer[csv->used++] = letter;
  return csv->state;
}
void csv_begin(struct csv *csv, on_field field, on_row row, void *data)
{
  csv->state = states;
  csv->field = field;
  csv->row = row;
  csv->data = data;
}
void csv_feed(struct csv *csv, const char *text)
{
  for (const char *at = text; *at; at++)
    csv->state = csv->state->step(csv, *at);
}
