/* libbsd, but for what stands elsewhere: what these functions do with pointers. */
static char pta_own_name[9];
static const char *pta_kept_name = pta_own_name;
long long strtonum(const char *s, long long low, long long high, const char **fault)
{
  if (fault) *fault = "invalid";
  return 0;
}
const char *getprogname(void) { return pta_kept_name; }
void setprogname(const char *name) { pta_kept_name = name; }
void setproctitle(const char *f, ...) { }
void setproctitle_init(int n, char **v, char **e) { }
