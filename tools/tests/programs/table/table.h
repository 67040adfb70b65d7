struct entry;
struct table { struct entry *heads[8]; void (*drop)(void *value); };
void *table_put(struct table *table, const char *key, void *value);
void *table_get(struct table *table, const char *key);
void table_end(struct table *table);
