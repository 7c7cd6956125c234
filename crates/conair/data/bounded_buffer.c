#include <pthread.h>
#include <stdio.h>
#include <stdlib.h>
#include <assert.h>

/* Bounded buffer; the consumer may start before the buffer is there. */
struct ring {
    int *slots;
    int head;
    int used;
};

struct ring *buffer;
pthread_mutex_t guard = PTHREAD_MUTEX_INITIALIZER;
static int size = 4;
int one = 10, two = 20;

void *consume(void *arg)
{
    int got = 0;
    while (got < 6) {
        int has = 0;
        int v = 0;
        pthread_mutex_lock(&guard);
        if (buffer->used > 0) {
            v = buffer->slots[buffer->head];
            buffer->head = (buffer->head + 1) % size;
            buffer->used--;
            has = 1;
        }
        pthread_mutex_unlock(&guard);
        if (has) {
            printf("item %d\n", v);
            got++;
        }
    }
    return NULL;
}

int put(int v)
{
    int done = 0;
    pthread_mutex_lock(&guard);
    if (buffer->used < size) {
        buffer->slots[(buffer->head + buffer->used) % size] = v;
        buffer->used++;
        done = 1;
    }
    pthread_mutex_unlock(&guard);
    return done;
}

void *produce(void *arg)
{
    int *first = arg;
    int i = 0;
    while (i < 3) {
        int done = put(*first + i);
        if (done)
            i++;
    }
    return NULL;
}

int main(void)
{
    pthread_t a, b, c;
    pthread_create(&c, NULL, consume, NULL);
    buffer = malloc(sizeof(struct ring));
    buffer->slots = malloc(size * sizeof(int));
    pthread_create(&a, NULL, produce, &one);
    pthread_create(&b, NULL, produce, &two);
    pthread_join(a, NULL);
    pthread_join(b, NULL);
    pthread_join(c, NULL);
    return 0;
}