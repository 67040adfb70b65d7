/* <pthread.h>, <semaphore.h>, <sched.h>: a thread is a call; what it gives is kept for who joins it. */
#include <pthread.h>
#include <sched.h>
#include <semaphore.h>
#include <stdlib.h>
static void *pta_given, *pta_specific;
static void (*pta_destroy)(void *);
int pthread_create(pthread_t *t, const pthread_attr_t *a, void *(*f)(void *), void *p) { pta_given = f(p); return 0; }
int pthread_join(pthread_t t, void **r) { if (r) *r = pta_given; return 0; }
void pthread_exit(void *p) { pta_given = p; }
int pthread_cancel(pthread_t t) { return 0; }
int pthread_detach(pthread_t t) { return 0; }
int pthread_equal(pthread_t a, pthread_t b) { return 0; }
pthread_t pthread_self(void) { return 0; }
int pthread_once(pthread_once_t *o, void (*f)(void)) { f(); return 0; }
int pthread_atfork(void (*a)(void), void (*b)(void), void (*c)(void)) { if (a) a(); if (b) b(); if (c) c(); return 0; }
int pthread_key_create(pthread_key_t *k, void (*destroy)(void *)) { pta_destroy = destroy; return 0; }
int pthread_key_delete(pthread_key_t k) { return 0; }
int pthread_setspecific(pthread_key_t k, const void *p)
{
  pta_specific = (void *)p;
  if (pta_destroy)
    pta_destroy(pta_specific);
  return 0;
}
void *pthread_getspecific(pthread_key_t k) { return pta_specific; }
int pthread_attr_init(pthread_attr_t *a) { return 0; }
int pthread_attr_destroy(pthread_attr_t *a) { return 0; }
int pthread_attr_setdetachstate(pthread_attr_t *a, int n) { return 0; }
int pthread_attr_setstacksize(pthread_attr_t *a, size_t n) { return 0; }
int pthread_mutexattr_init(pthread_mutexattr_t *a) { return 0; }
int pthread_mutexattr_destroy(pthread_mutexattr_t *a) { return 0; }
int pthread_mutexattr_settype(pthread_mutexattr_t *a, int n) { return 0; }
int pthread_mutex_init(pthread_mutex_t *m, const pthread_mutexattr_t *a) { return 0; }
int pthread_mutex_destroy(pthread_mutex_t *m) { return 0; }
int pthread_mutex_lock(pthread_mutex_t *m) { return 0; }
int pthread_mutex_trylock(pthread_mutex_t *m) { return 0; }
int pthread_mutex_unlock(pthread_mutex_t *m) { return 0; }
int pthread_cond_init(pthread_cond_t *c, const pthread_condattr_t *a) { return 0; }
int pthread_cond_destroy(pthread_cond_t *c) { return 0; }
int pthread_cond_wait(pthread_cond_t *c, pthread_mutex_t *m) { return 0; }
int pthread_cond_timedwait(pthread_cond_t *c, pthread_mutex_t *m, const struct timespec *t) { return 0; }
int pthread_cond_signal(pthread_cond_t *c) { return 0; }
int pthread_cond_broadcast(pthread_cond_t *c) { return 0; }
int pthread_rwlock_init(pthread_rwlock_t *l, const pthread_rwlockattr_t *a) { return 0; }
int pthread_rwlock_destroy(pthread_rwlock_t *l) { return 0; }
int pthread_rwlock_rdlock(pthread_rwlock_t *l) { return 0; }
int pthread_rwlock_wrlock(pthread_rwlock_t *l) { return 0; }
int pthread_rwlock_unlock(pthread_rwlock_t *l) { return 0; }
int pthread_setcancelstate(int n, int *o) { return 0; }
int pthread_setcanceltype(int n, int *o) { return 0; }
int sched_yield(void) { return 0; }
sem_t *sem_open(const char *s, int f, ...) { return malloc(sizeof(sem_t)); }
int sem_init(sem_t *s, int p, unsigned n) { return 0; }
int sem_destroy(sem_t *s) { return 0; }
int sem_close(sem_t *s) { return 0; }
int sem_unlink(const char *s) { return 0; }
int sem_wait(sem_t *s) { return 0; }
int sem_trywait(sem_t *s) { return 0; }
int sem_post(sem_t *s) { return 0; }
int sem_getvalue(sem_t *s, int *n) { return 0; }
