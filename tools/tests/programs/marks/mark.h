struct out { void (*put)(struct out *out, const char *text); void *to; };
struct rule { const char *mark, *begin, *end; };
#define NONE ((const struct rule *) -1)
extern const struct rule *current;
const struct rule *rule_for(const char *line);
void render(struct out *out, char *text);
