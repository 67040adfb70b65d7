/* <pwd.h>, <grp.h>, <utmp.h>: one entry, and the texts in it. */
#include <grp.h>
#include <pwd.h>
static char pta_text[9], *pta_texts[9];
static struct passwd pta_user;
static struct group pta_group;
static struct passwd *pta_filled_user(struct passwd *u)
{
  u->pw_name = u->pw_passwd = u->pw_gecos = u->pw_dir = u->pw_shell = pta_text;
  return u;
}
static struct group *pta_filled_group(struct group *g)
{
  g->gr_name = g->gr_passwd = pta_texts[0] = pta_text;
  g->gr_mem = pta_texts;
  return g;
}
struct passwd *getpwnam(const char *s) { return pta_filled_user(&pta_user); }
struct passwd *getpwuid(uid_t u) { return pta_filled_user(&pta_user); }
struct passwd *getpwent(void) { return pta_filled_user(&pta_user); }
int getpwnam_r(const char *s, struct passwd *u, char *b, size_t n, struct passwd **r) { *r = pta_filled_user(u); return 0; }
int getpwuid_r(uid_t i, struct passwd *u, char *b, size_t n, struct passwd **r) { *r = pta_filled_user(u); return 0; }
void setpwent(void) { }
void endpwent(void) { }
struct group *getgrnam(const char *s) { return pta_filled_group(&pta_group); }
struct group *getgrgid(gid_t g) { return pta_filled_group(&pta_group); }
struct group *getgrent(void) { return pta_filled_group(&pta_group); }
void setgrent(void) { }
void endgrent(void) { }
int initgroups(const char *s, gid_t g) { return 0; }
int setgroups(size_t n, const gid_t *g) { return 0; }
