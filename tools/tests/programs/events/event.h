#include <pthread.h>
struct job { void *(*run)(void *); void *data; struct job *next; };
extern struct job *jobs;
void job_add(struct job *job);
void *job_all(void *);
void stop(int number);
extern volatile int stopped;
