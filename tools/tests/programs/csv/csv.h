#include <stddef.h>
struct csv;
typedef void (*on_field)(void *text, size_t size, void *data);
typedef void (*on_row)(int end, void *data);
struct csv { const struct state *state; on_field field; on_row row; void *data; char buffer[99]; size_t used; };
struct state { const struct state *(*step)(struct csv *csv, int letter); const char *name; };
void csv_begin(struct csv *csv, on_field field, on_row row, void *data);
void csv_feed(struct csv *csv, const char *text);
