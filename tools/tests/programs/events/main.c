#define _GNU_SOURCE
#include <getopt.h>
#include <signal.h>
#include <stdio.h>
#include <stdlib.h>
#include "event.h"
static int a = 1, b = 2;
static void *give(void *data) { return data; }
static struct job first = { give, &a, NULL };
int main(int argc, char **argv)
{
  struct sigaction action = { .sa_handler = stop };
  struct job *second = malloc(sizeof *second);
  pthread_t thread;
  void *result, *into;
  int option;
  while ((option = getopt(argc, argv, "n:")) != -1)
    b = atoi(optarg);
  second->run = give;
  second->data = &b;
  job_add(&first);
  job_add(second);
  sigaction(SIGINT, &action, NULL);
  signal(SIGPIPE, SIG_IGN);
  raise(SIGINT);
  pthread_create(&thread, NULL, job_all, &into);
  pthread_join(thread, &result);
  stop(0);
  printf("%d\n", *(int *) result);
  return stopped;
}
