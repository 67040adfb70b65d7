#define _GNU_SOURCE
#include <signal.h>
#include <stddef.h>
#include "event.h"
struct job *jobs;
volatile int stopped;
static void *last;
void job_add(struct job *job) { job->next = jobs; jobs = job; }
void *job_all(void *into)
{
  for (struct job *job = jobs; job; job = job->next)
    last = *(void **) into = job->run(job->data);
  return last;
}
void stop(int number) { stopped = number; }
