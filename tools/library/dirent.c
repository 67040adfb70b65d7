/* <dirent.h>, <ftw.h>, <glob.h>, <fnmatch.h>: streams of files, and what is called for each. */
#include <dirent.h>
#include <fnmatch.h>
#include <ftw.h>
#include <glob.h>
#include <stdlib.h>
#include <string.h>
DIR *opendir(const char *s) { return malloc(1); }
DIR *fdopendir(int n) { return malloc(1); }
struct dirent *readdir(DIR *d) { static struct dirent entry; return &entry; }
int closedir(DIR *d) { return 0; }
void rewinddir(DIR *d) { }
void seekdir(DIR *d, long n) { }
long telldir(DIR *d) { return 0; }
int dirfd(DIR *d) { return 0; }
int alphasort(const struct dirent **a, const struct dirent **b) { return 0; }
int versionsort(const struct dirent **a, const struct dirent **b) { return 0; }
int scandir(const char *s, struct dirent ***list, int (*filter)(const struct dirent *), int (*compare)(const struct dirent **, const struct dirent **))
{
  struct dirent **found = malloc(8), *one = malloc(sizeof(struct dirent));
  if (filter)
    filter(one);
  found[0] = one;
  if (compare)
    compare((const struct dirent **)found, (const struct dirent **)found);
  *list = found;
  return 1;
}
int fnmatch(const char *p, const char *s, int f) { return 0; }
int glob(const char *s, int f, int (*fault)(const char *, int), glob_t *g)
{
  char **found = malloc(8);
  found[0] = strdup(s);
  g->gl_pathv = found;
  return fault ? fault(s, 0) : 0;
}
void globfree(glob_t *g) { }
int ftw(const char *s, int (*visit)(const char *, const struct stat *, int), int n)
{
  static struct stat status;
  return visit(strdup(s), &status, 0);
}
#ifdef FTW_PHYS
int nftw(const char *s, int (*visit)(const char *, const struct stat *, int, struct FTW *), int n, int f)
{
  static struct stat status;
  static struct FTW place;
  return visit(strdup(s), &status, 0, &place);
}
#endif
