// The worker asserts that it was told how far to count. main tells it only once the worker has been started.
#include <assert.h>
#include <pthread.h>
#include <stdio.h>

int limit;

void *worker(void *arg) {
  int n = 0;
  assert(limit > 0);
  while (n < limit) {
    n = n + 1;
  }
  printf("counted to %d\n", n);
  return NULL;
}

int main(void) {
  pthread_t t;
  pthread_create(&t, NULL, worker, NULL);
  limit = 3;
  pthread_join(t, NULL);
  return 0;
}
