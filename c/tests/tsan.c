/* Memory that goes from thread to thread through a container and by nothing else: what one thread wrote before its put
 * another reads after its take. ThreadSanitizer has to see no race in that. */
#include "lockfree.h"

#include "check.h"
#include <pthread.h>
#include <sched.h>

enum { SIDES = 2, EACH = 2000, LONG = 3 };

/* Written by one thread, read and freed by another. */
struct message {
    uint64_t from, number;
};

static lockfree_handle passes[2 * SIDES];
static bool by_ranges; /* puts of ranges, and folds */

static uint64_t made(uint64_t from, uint64_t number)
{
    struct message *message = malloc(sizeof *message);
    CHECK(message);
    message->from = from, message->number = number;
    return (uint64_t)(uintptr_t)message;
}

static void read_and_free(uint64_t value, void *sum)
{
    struct message *message = (struct message *)(uintptr_t)value;
    CHECK(message->from < SIDES && message->number < EACH);
    *(uint64_t *)sum += message->number;
    free(message);
}

static void *puts_all(void *at)
{
    uint64_t side = (uint64_t)(uintptr_t)at;
    for (uint64_t i = 0; i < EACH;) {
        if (!by_ranges) {
            uint64_t value = made(side, i++);
            while (lockfree_push(&passes[side], value) == LOCKFREE_FULL)
                sched_yield();
            continue;
        }
        uint64_t values[LONG];
        uint64_t count = 0, put = 0;
        while (count < LONG && i < EACH)
            values[count++] = made(side, i++);
        while (put < count) {
            lockfree_answer answer = lockfree_push_range(&passes[side], values + put, count - put);
            put += answer.value;
            if (answer.code == LOCKFREE_FULL)
                sched_yield();
        }
    }
    return NULL;
}

static void *takes_all(void *at)
{
    lockfree_handle *pass = &passes[SIDES + (uintptr_t)at];
    uint64_t *sum = calloc(1, sizeof *sum), count, value;
    CHECK(sum);
    for (uint32_t code = LOCKFREE_OK; code != LOCKFREE_CLOSED;)
        if (by_ranges)
            code = lockfree_consume_all_atomic(pass, false, read_and_free, sum, &count);
        else if ((code = lockfree_pop(pass, &value)) == LOCKFREE_OK)
            read_and_free(value, sum);
        else
            sched_yield();
    return sum;
}

static uint32_t ring_new(lockfree_handle *root, uint32_t capacity) { return lockfree_ring_new(root, capacity, 2 * SIDES + 1); }

static void through(uint32_t (*make)(lockfree_handle *root, uint32_t capacity))
{
    lockfree_handle root = {0}, closing = {0};
    pthread_t threads[2 * SIDES];
    uint64_t all = 0;
    CHECK(make(&root, 64) == LOCKFREE_OK && lockfree_split(&root, &closing) == LOCKFREE_OK);
    for (uintptr_t i = 0; i < 2 * SIDES; i++) {
        CHECK(lockfree_split(&root, &passes[i]) == LOCKFREE_OK);
        CHECK(pthread_create(&threads[i], NULL, i < SIDES ? puts_all : takes_all, (void *)(i % SIDES)) == 0);
    }
    for (int i = 0; i < SIDES; i++)
        pthread_join(threads[i], NULL);
    CHECK(lockfree_until(&closing, lockfree_close(&closing, 9)).code == LOCKFREE_OK);
    for (int i = SIDES; i < 2 * SIDES; i++) {
        void *sum;
        pthread_join(threads[i], &sum);
        all += *(uint64_t *)sum;
        free(sum);
    }
    CHECK(all == (uint64_t)SIDES * EACH * (EACH - 1) / 2);
    for (int i = 0; i < 2 * SIDES; i++)
        CHECK(lockfree_free(&passes[i]) == LOCKFREE_OK);
    CHECK(lockfree_free(&closing) == LOCKFREE_OK && lockfree_free(&root) == LOCKFREE_OK);
}

int main(void)
{
    through(lockfree_queue_new);
    through(lockfree_stack_new);
    through(ring_new);
    by_ranges = true;
    through(lockfree_stack_new);
    puts("passed");
    return 0;
}
