#include <stdlib.h>
#include <string.h>
#include "table.h"
struct entry { struct entry *next; char *key; void *value; };
static inline unsigned hash(const char *key)
{
  unsigned h = 5381;
  for (; *key; key++)
    h = h * 33 + (unsigned char) *key;
  return __builtin_bswap32(h) % 8;
}
static struct entry *entry_of(struct table *table, const char *key)
{
  struct entry *entry = table->heads[hash(key)];
  while (__builtin_expect(entry != NULL, 1) && strcmp(entry->key, key))
    entry = entry->next;
  return entry;
}
void *table_put(struct table *table, const char *key, void *value)
{
  struct entry *entry = entry_of(table, key), **head = &table->heads[hash(key)];
  if (entry) {
    void *old = entry->value;
    entry->value = value;
    return old;
  }
  entry = malloc(sizeof *entry);
  entry->next = *head;
  entry->key = strdup(key);
  entry->value = value;
  *head = entry;
  return NULL;
}
void *table_get(struct table *table, const char *key)
{
  struct entry *entry = entry_of(table, key);
  return entry ?  entry->value : NULL;
}
void table_end(struct table *table)
{
  for (int i = 0; i < 8; i++)
    for (struct entry *entry = table->heads[i], *next; entry; entry = next) {
      next = entry->next;
      if (table->drop)
        table->drop(entry->value);
      free(entry->key);
      free(entry);
    }
}
