/* basename of <string.h>, which isn't that of <libgen.h>. */
#include <string.h>
#ifdef __USE_GNU
char *basename(const char *s) { return (char *)s; }
#endif
