#include <string.h>
#include "mark.h"
static const struct rule rules[] = {
  [0 ... 1] = { "#", "<h1>", "</h1>" },
  { "*", "<li>", "</li>" },
};
const struct rule *current = NONE;
const struct rule *rule_for(const char *line)
{
  for (const struct rule *rule = rules; rule < rules + 3; rule++)
    if (!strncmp(line, rule->mark, strlen(rule->mark)))
      return rule;
  return NONE;
}
static void one(struct out *out, const char *line)
{
  const struct rule *rule = rule_for(line);
  current = rule;
  if (rule == NONE) {
    out->put(out, line);
    return;
  }
  out->put(out, rule->begin);
  out->put(out, line + 1);
  out->put(out, rule->end);
}
void render(struct out *out, char *text)
{
  for (char *line = strtok(text, "\n"); line; line = strtok(NULL, "\n"))
    one(out, line);
}
