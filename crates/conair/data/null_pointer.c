// The reader follows a pointer to settings that main has not made yet.
#include <pthread.h>
#include <stdio.h>
#include <stdlib.h>

struct settings {
  int width;
  int height;
};

struct settings *current;

void *reader(void *arg) {
  int w = current->width;
  int h = current->height;
  printf("%d by %d\n", w, h);
  return NULL;
}

int main(void) {
  pthread_t t;
  struct settings *made;
  pthread_create(&t, NULL, reader, NULL);
  made = malloc(sizeof(struct settings));
  made->width = 80;
  made->height = 25;
  current = made;
  pthread_join(t, NULL);
  free(made);
  return 0;
}
