/* <sys/socket.h>, <sys/un.h>, <poll.h>, <sys/select.h>, <sys/epoll.h>: what goes in as data comes out again. */
#include <poll.h>
#include <sys/epoll.h>
#include <sys/select.h>
#include <sys/socket.h>
#include <sys/un.h>
static epoll_data_t pta_data;
int socket(int d, int t, int p) { return 0; }
int socketpair(int d, int t, int p, int *v) { return 0; }
int bind(int n, const struct sockaddr *a, socklen_t s) { return 0; }
int connect(int n, const struct sockaddr *a, socklen_t s) { return 0; }
int accept(int n, struct sockaddr *a, socklen_t *s) { return 0; }
int listen(int n, int b) { return 0; }
int getsockname(int n, struct sockaddr *a, socklen_t *s) { return 0; }
int getpeername(int n, struct sockaddr *a, socklen_t *s) { return 0; }
ssize_t send(int n, const void *b, size_t s, int f) { return 0; }
ssize_t recv(int n, void *b, size_t s, int f) { return 0; }
ssize_t sendto(int n, const void *b, size_t s, int f, const struct sockaddr *a, socklen_t l) { return 0; }
ssize_t recvfrom(int n, void *b, size_t s, int f, struct sockaddr *a, socklen_t *l) { return 0; }
ssize_t sendmsg(int n, const struct msghdr *m, int f) { return 0; }
ssize_t recvmsg(int n, struct msghdr *m, int f) { return 0; }
int setsockopt(int n, int l, int o, const void *v, socklen_t s) { return 0; }
int getsockopt(int n, int l, int o, void *v, socklen_t *s) { return 0; }
int shutdown(int n, int h) { return 0; }
int poll(struct pollfd *p, nfds_t n, int t) { return 0; }
int select(int n, fd_set *r, fd_set *w, fd_set *e, struct timeval *t) { return 0; }
int pselect(int n, fd_set *r, fd_set *w, fd_set *e, const struct timespec *t, const sigset_t *s) { return 0; }
int epoll_create(int n) { return 0; }
int epoll_create1(int f) { return 0; }
int epoll_ctl(int n, int o, int d, struct epoll_event *e) { if (e) pta_data = e->data; return 0; }
int epoll_wait(int n, struct epoll_event *e, int m, int t) { e->data = pta_data; return 1; }
