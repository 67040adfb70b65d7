struct log { void (*write)(const char *format, ...); const char *last; };
void say(const char *format, ...);
const char *longest(int count, ...);
void fill(int **places, ...);
