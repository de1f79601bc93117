#include <lockfree.h>
#include <pthread.h>
#include <sched.h>
#include <stdio.h>

static void *produce(void *producer)
{
    for (uint64_t i = 1; i <= 1000; i++)
        while (lockfree_spsc_push(producer, i).code == LOCKFREE_FULL) sched_yield();
    lockfree_spsc_close(producer);              /* it leaves: no more values will come */
    return NULL;
}

int main(void)
{
    lockfree_handle producer = {0}, consumer = {0};
    lockfree_answer popped;
    pthread_t thread;
    uint64_t sum = 0;
    if (lockfree_spsc_new(&producer, &consumer, 64) != LOCKFREE_OK) return 1;
    if (pthread_create(&thread, NULL, produce, &producer) != 0) return 1;
    while ((popped = lockfree_spsc_pop(&consumer)).code != LOCKFREE_CLOSED)
        if (popped.code == LOCKFREE_OK) sum += popped.value;
        else sched_yield();                     /* nothing now, but more may come */
    lockfree_free(&consumer);                   /* the end that leaves last frees the ring */
    pthread_join(thread, NULL);
    printf("%llu\n", (unsigned long long)sum);  /* 500500 */
}
