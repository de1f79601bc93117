/* Memory that one thread writes, and another reads, once the queue has handed it over: no race, and ThreadSanitizer says none. */
#include "lockfree.h"

#include <pthread.h>
#include <stdio.h>
#include <stdlib.h>

enum { COUNT = 1000 };

static void *gives(void *word)
{
    lockfree_handle *pass = word;
    for (int i = 0; i < COUNT; i++) {
        int *number = malloc(sizeof *number);
        if (number == NULL)
            abort();
        *number = i;
        while (lockfree_push(pass, (uint64_t)(uintptr_t)number) != LOCKFREE_OK) {
        }
    }
    return NULL;
}

int main(void)
{
    lockfree_handle root = {0}, to = {0}, from = {0};
    pthread_t thread;
    uint64_t word;
    long sum = 0;
    if (lockfree_queue_new(&root, 8) || lockfree_split(&root, &to) || lockfree_split(&root, &from))
        return 1;
    if (pthread_create(&thread, NULL, gives, &to))
        return 1;
    for (int taken = 0; taken < COUNT;) {
        if (lockfree_pop(&from, &word) != LOCKFREE_OK)
            continue;
        int *number = (int *)(uintptr_t)word;
        sum += *number;
        free(number);
        taken++;
    }
    pthread_join(thread, NULL);
    lockfree_free(&from);
    lockfree_free(&to);
    lockfree_free(&root);
    puts(sum == 499500 ? "passed" : "failed");
    return sum == 499500 ? 0 : 1;
}
