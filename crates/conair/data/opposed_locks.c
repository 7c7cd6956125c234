// Two threads move money between two accounts. Each locks the account that it takes from first: in opposed orders.
#include <pthread.h>
#include <stdio.h>

pthread_mutex_t left_lock = PTHREAD_MUTEX_INITIALIZER;
pthread_mutex_t right_lock = PTHREAD_MUTEX_INITIALIZER;
int left = 100;
int right = 100;

void *to_right(void *arg) {
  int i;
  for (i = 0; i < 3; i++) {
    pthread_mutex_lock(&left_lock);
    pthread_mutex_lock(&right_lock);
    left = left - 10;
    right = right + 10;
    pthread_mutex_unlock(&right_lock);
    pthread_mutex_unlock(&left_lock);
  }
  return NULL;
}

void *to_left(void *arg) {
  int i;
  for (i = 0; i < 2; i++) {
    pthread_mutex_lock(&right_lock);
    pthread_mutex_lock(&left_lock);
    right = right - 10;
    left = left + 10;
    pthread_mutex_unlock(&left_lock);
    pthread_mutex_unlock(&right_lock);
  }
  return NULL;
}

int main(void) {
  pthread_t a;
  pthread_t b;
  pthread_create(&a, NULL, to_right, NULL);
  pthread_create(&b, NULL, to_left, NULL);
  pthread_join(a, NULL);
  pthread_join(b, NULL);
  printf("left %d, right %d\n", left, right);
  return 0;
}
