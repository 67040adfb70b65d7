/* <netdb.h>, <arpa/inet.h>, <netinet/in.h>, <net/if.h>: what they do with pointers. */
#include <arpa/inet.h>
#include <net/if.h>
#include <netdb.h>
#include <netinet/in.h>
#include <stdlib.h>
#include <string.h>
static char pta_host[9], *pta_hosts[9];
static struct in_addr pta_address;
uint32_t htonl(uint32_t n) { return n; }
uint32_t ntohl(uint32_t n) { return n; }
uint16_t htons(uint16_t n) { return n; }
uint16_t ntohs(uint16_t n) { return n; }
char *inet_ntoa(struct in_addr a) { static char text[18]; return text; }
in_addr_t inet_addr(const char *s) { return 0; }
in_addr_t inet_network(const char *s) { return 0; }
int inet_aton(const char *s, struct in_addr *a) { return 0; }
int inet_pton(int f, const char *s, void *b) { return 0; }
const char *inet_ntop(int f, const void *a, char *s, socklen_t n) { return s; }
unsigned if_nametoindex(const char *s) { return 0; }
char *if_indextoname(unsigned n, char *s) { return s; }
struct hostent *gethostbyname(const char *s)
{
  static struct hostent entry;
  entry.h_name = pta_hosts[0] = pta_host;
  entry.h_aliases = entry.h_addr_list = pta_hosts;
  return &entry;
}
struct hostent *gethostbyaddr(const void *a, socklen_t n, int f) { return gethostbyname(""); }
struct servent *getservbyname(const char *s, const char *p)
{
  static struct servent entry;
  entry.s_name = entry.s_proto = pta_hosts[0] = pta_host;
  entry.s_aliases = pta_hosts;
  return &entry;
}
struct servent *getservbyport(int n, const char *p) { return getservbyname("", p); }
struct protoent *getprotobyname(const char *s)
{
  static struct protoent entry;
  entry.p_name = pta_hosts[0] = pta_host;
  entry.p_aliases = pta_hosts;
  return &entry;
}
struct protoent *getprotobynumber(int n) { return getprotobyname(""); }
int getaddrinfo(const char *s, const char *p, const struct addrinfo *h, struct addrinfo **found)
{
  struct addrinfo *one = malloc(sizeof(struct addrinfo));
  one->ai_addr = malloc(sizeof(struct sockaddr));
  one->ai_canonname = strdup("");
  one->ai_next = one;
  *found = one;
  return 0;
}
void freeaddrinfo(struct addrinfo *a) { }
int getnameinfo(const struct sockaddr *a, socklen_t n, char *h, socklen_t k, char *s, socklen_t m, int f) { return 0; }
const char *gai_strerror(int n) { static char text[9]; return text; }
int *__h_errno_location(void) { static int number; return &number; }
void herror(const char *s) { }
const char *hstrerror(int n) { static char text[9]; return text; }
