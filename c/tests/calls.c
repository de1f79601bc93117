/* Plain C: each code that one thread can meet, misuse among them; refused memory; and 4 + 4 threads. */
#include "lockfree.h"

#include "check.h"
#include <pthread.h>
#include <sched.h>

typedef uint32_t make_new(lockfree_handle *root, uint32_t capacity);

enum { PASSES = 16 };
static uint32_t ring_new(lockfree_handle *root, uint32_t capacity) { return lockfree_ring_new(root, capacity, PASSES); }

static void codes_of_handles(make_new *make)
{
    lockfree_handle root = {0}, pass = {0}, other = {0};
    CHECK(make(&root, 0) == LOCKFREE_BAD_CAPACITY && make(&root, 1048574) == LOCKFREE_BAD_CAPACITY);
    CHECK(lockfree_put(&pass, 1, 1).code == LOCKFREE_NO_HANDLE && lockfree_take(&pass, 1).code == LOCKFREE_NO_HANDLE);
    CHECK(lockfree_close(&pass, 1).code == LOCKFREE_NO_HANDLE && lockfree_go_on(&pass, 1).code == LOCKFREE_NO_HANDLE);
    CHECK(lockfree_split(&root, &pass) == LOCKFREE_NO_HANDLE && lockfree_free(&root) == LOCKFREE_NO_HANDLE);
    CHECK(make(&root, 2) == LOCKFREE_OK && make(&root, 2) == LOCKFREE_IN_USE);
    CHECK(lockfree_put(&root, 1, 1).code == LOCKFREE_OTHER_HANDLE && lockfree_look(&root, 1).code == LOCKFREE_OTHER_HANDLE);
    CHECK(lockfree_go_on(&root, 1).code == LOCKFREE_OTHER_HANDLE);
    CHECK(lockfree_split(&root, &pass) == LOCKFREE_OK && lockfree_split(&root, &pass) == LOCKFREE_IN_USE);
    CHECK(lockfree_split(&pass, &other) == LOCKFREE_OTHER_HANDLE && lockfree_go_on(&pass, 1).code == LOCKFREE_NO_CALL);
    CHECK(lockfree_free(&root) == LOCKFREE_OK && lockfree_free(&root) == LOCKFREE_NO_HANDLE);
    CHECK(lockfree_push(&pass, 7) == LOCKFREE_OK); /* the pass keeps its container */
    CHECK(lockfree_free(&pass) == LOCKFREE_OK && lockfree_take(&pass, 1).code == LOCKFREE_NO_HANDLE);
}

static void codes_of_calls(make_new *make, int first_out)
{
    lockfree_handle root = {0}, a = {0}, b = {0};
    uint64_t value = 0;
    CHECK(make(&root, 2) == LOCKFREE_OK && lockfree_split(&root, &a) == LOCKFREE_OK && lockfree_split(&root, &b) == LOCKFREE_OK);
    CHECK(lockfree_pop(&a, &value) == LOCKFREE_EMPTY && lockfree_look(&a, 9).code == LOCKFREE_EMPTY);
    lockfree_answer put = lockfree_put(&a, 10, 0);
    CHECK(put.code == LOCKFREE_OK && put.value == 0);
    put = lockfree_put(&b, 20, 9);
    CHECK(put.code == LOCKFREE_OK && put.value == 1 && lockfree_push(&a, 30) == LOCKFREE_FULL);
    CHECK(lockfree_look(&a, 9).code == LOCKFREE_OK);
    CHECK(lockfree_pop(&b, &value) == LOCKFREE_OK && value == (first_out ? 10u : 20u));
    lockfree_answer taken = lockfree_take(&a, 9);
    CHECK(taken.code == LOCKFREE_OK && taken.value == (first_out ? 20u : 10u));
    CHECK(lockfree_number(&a).value == (first_out ? 1u : 3u));
    CHECK(lockfree_push(&a, 40) == LOCKFREE_OK);
    CHECK(lockfree_close(&a, 9).code == LOCKFREE_OK && lockfree_close(&b, 9).code == LOCKFREE_CLOSED);
    CHECK(lockfree_push(&b, 1) == LOCKFREE_CLOSED && lockfree_pop(&b, &value) == LOCKFREE_OK && value == 40);
    CHECK(lockfree_pop(&b, &value) == LOCKFREE_CLOSED);
    CHECK(lockfree_shut(&a, 9).code == LOCKFREE_OK && lockfree_shut(&b, 9).code == LOCKFREE_SHUT);
    CHECK(lockfree_pop(&a, &value) == LOCKFREE_SHUT);
    lockfree_free(&a), lockfree_free(&root), lockfree_free(&b);
}

/* How many there are, known from what was put and taken; and nobody counts but a queue's or a ring's pass between its calls. */
static void counting(make_new *make)
{
    lockfree_handle root = {0}, a = {0}, b = {0}, none = {0};
    CHECK(make(&root, 3) == LOCKFREE_OK && lockfree_split(&root, &a) == LOCKFREE_OK && lockfree_split(&root, &b) == LOCKFREE_OK);
    CHECK(lockfree_count(&none, 9).code == LOCKFREE_NO_HANDLE && lockfree_count(&root, 9).code == LOCKFREE_OTHER_HANDLE);
    for (uint64_t round = 0; round < 9; round++) {
        uint64_t value = 0;
        for (uint64_t held = 0; held < 3; held++) {
            lockfree_answer count = lockfree_count(&b, 0);
            CHECK(count.code == LOCKFREE_OK && count.value == held && lockfree_count(&a, 9).value == held);
            CHECK(lockfree_push(&a, round) == LOCKFREE_OK && lockfree_number(&a).value == 3 * round + held);
        }
        CHECK(lockfree_push(&a, 9) == LOCKFREE_FULL && lockfree_count(&a, 9).value == 3 && lockfree_number(&a).value == 0);
        for (uint64_t held = 3; held > 0; held--)
            CHECK(lockfree_count(&a, 9).value == held && lockfree_pop(&b, &value) == LOCKFREE_OK && value == round);
    }
    CHECK(lockfree_push(&a, 1) == LOCKFREE_OK && lockfree_close(&a, 9).code == LOCKFREE_OK && lockfree_count(&b, 9).value == 1);
    CHECK(lockfree_shut(&a, 9).code == LOCKFREE_OK && lockfree_count(&b, 9).value == 1 && lockfree_go_on(&b, 9).code == LOCKFREE_NO_CALL);
    lockfree_free(&a), lockfree_free(&root), lockfree_free(&b);
    CHECK(lockfree_stack_new(&root, 3) == LOCKFREE_OK && lockfree_split(&root, &a) == LOCKFREE_OK);
    CHECK(lockfree_push(&a, 5) == LOCKFREE_OK && lockfree_count(&a, 9).code == LOCKFREE_OTHER_HANDLE && lockfree_pop(&a, &(uint64_t){0}) == LOCKFREE_OK);
    lockfree_free(&a), lockfree_free(&root);
}

/* Whether it is closed and how many tags are used, known from what was put and taken; and nobody tells but a pass between
 * its calls. */
static void gauging(make_new *make, uint64_t of_take)
{
    lockfree_handle root = {0}, a = {0}, b = {0}, none = {0};
    uint64_t value = 0, used = 0;
    CHECK(make(&root, 3) == LOCKFREE_OK && lockfree_split(&root, &a) == LOCKFREE_OK && lockfree_split(&root, &b) == LOCKFREE_OK);
    CHECK(lockfree_gauge(&none, 9).code == LOCKFREE_NO_HANDLE && lockfree_gauge(&root, 9).code == LOCKFREE_OTHER_HANDLE);
    for (uint64_t round = 0; round < 9; round++) {
        lockfree_answer gauge = lockfree_gauge(&b, 0);
        CHECK(gauge.code == LOCKFREE_OK && gauge.value == used && lockfree_number(&b).value == 0);
        CHECK(lockfree_push(&a, round) == LOCKFREE_OK && lockfree_wear(&b) == ++used && !lockfree_is_closed(&b));
        CHECK(lockfree_pop(&b, &value) == LOCKFREE_OK && lockfree_wear(&a) == (used += of_take) && value == round);
        CHECK(lockfree_pop(&b, &value) == LOCKFREE_EMPTY && lockfree_wear(&b) == used && lockfree_go_on(&b, 9).code == LOCKFREE_NO_CALL);
    }
    CHECK(lockfree_push(&a, 1) == LOCKFREE_OK && lockfree_close(&a, 9).code == LOCKFREE_OK);
    lockfree_answer gauge = lockfree_gauge(&b, 9);
    CHECK(gauge.code == LOCKFREE_CLOSED && gauge.value == ++used && lockfree_is_closed(&a) && lockfree_wear(&a) == used);
    CHECK(lockfree_push(&b, 2) == LOCKFREE_CLOSED && lockfree_pop(&b, &value) == LOCKFREE_OK && lockfree_wear(&a) == used + of_take);
    CHECK(!lockfree_is_closed(&none) && lockfree_wear(&none) == 0 && !lockfree_is_closed(&root) && lockfree_wear(&root) == 0);
    lockfree_free(&a), lockfree_free(&b);
    CHECK(lockfree_finish(&root).code == LOCKFREE_EMPTY && lockfree_gauge(&root, 9).code == LOCKFREE_OTHER_HANDLE);
    lockfree_free(&root);
    CHECK(make(&root, 3) == LOCKFREE_OK && lockfree_split(&root, &a) == LOCKFREE_OK);
    CHECK(lockfree_shut(&a, 9).code == LOCKFREE_OK && !lockfree_is_closed(&a) && lockfree_push(&a, 1) == LOCKFREE_OK && lockfree_wear(&a) == 1);
    lockfree_free(&a), lockfree_free(&root);
    CHECK(make(&root, 3) == LOCKFREE_OK && lockfree_split(&root, &a) == LOCKFREE_OK && lockfree_push(&a, 1) == LOCKFREE_OK);
    if (lockfree_fold(&a, false, 9).code == LOCKFREE_VALUE)
        CHECK(lockfree_gauge(&a, 9).code == LOCKFREE_UNDER_WAY && !lockfree_is_closed(&a) && lockfree_wear(&a) == 0);
    lockfree_free(&a), lockfree_free(&root);
}

/* What a ring can be made with, and that it gives as many passes as it was made for; and what only others do. */
static void rings(void)
{
    const uint64_t laps = ((uint64_t)1 << 41) - 1, values[] = {1, 2};
    lockfree_handle root = {0}, passes[5] = {0}, none = {0};
    uint64_t value = 0;
    CHECK(lockfree_ring_new(&root, 0, 4) == LOCKFREE_BAD_CAPACITY && lockfree_ring_new(&root, 8, 1) == LOCKFREE_BAD_CAPACITY);
    CHECK(lockfree_ring_new(&root, 8, 65536) == LOCKFREE_BAD_CAPACITY && lockfree_ring_new(&root, 1048574, 2) == LOCKFREE_BAD_CAPACITY);
    CHECK(lockfree_ring_limited(&root, 8, 0, 4) == LOCKFREE_BAD_CAPACITY && lockfree_ring_limited(&root, 8, laps + 1, 4) == LOCKFREE_BAD_CAPACITY);
    CHECK(lockfree_ring_new(&root, 1048573, 2) == LOCKFREE_OK && lockfree_free(&root) == LOCKFREE_OK);
    CHECK(lockfree_ring_new(&root, 1, 65535) == LOCKFREE_OK && lockfree_free(&root) == LOCKFREE_OK);
    CHECK(lockfree_ring_limited(&root, 2, laps, 5) == LOCKFREE_OK && lockfree_ring_new(&root, 2, 5) == LOCKFREE_IN_USE);
    for (int i = 0; i < 5; i++)
        CHECK(lockfree_split(&root, &passes[i]) == LOCKFREE_OK);
    CHECK(lockfree_split(&root, &none) == LOCKFREE_NO_PASS && !none.full);
    for (uint64_t i = 0; i < 5000; i++) { /* each pass brings its cell, and gets another */
        CHECK(lockfree_push(&passes[i % 5], i) == LOCKFREE_OK && lockfree_number(&passes[i % 5]).value == i);
        CHECK(lockfree_pop(&passes[i / 3 % 5], &value) == LOCKFREE_OK && value == i && lockfree_number(&passes[i / 3 % 5]).value == i);
    }
    CHECK(lockfree_fold(&passes[0], false, 9).code == LOCKFREE_OTHER_HANDLE && lockfree_put_range(&passes[0], values, 2, 9).code == LOCKFREE_OTHER_HANDLE);
    CHECK(lockfree_gauge(&passes[0], 9).value == 5000 && lockfree_count(&passes[0], 9).value == 0);
    CHECK(lockfree_look(&passes[0], 9).code == LOCKFREE_EMPTY && lockfree_go_on(&passes[0], 9).code == LOCKFREE_NO_CALL);
    for (int i = 0; i < 5; i++)
        CHECK(lockfree_free(&passes[i]) == LOCKFREE_OK);
    CHECK(lockfree_split(&root, &none) == LOCKFREE_NO_PASS && lockfree_free(&root) == LOCKFREE_OK); /* they are not given again */
}

typedef uint32_t make_limited(lockfree_handle *root, uint32_t capacity, uint64_t limit);

static uint32_t ring_limited(lockfree_handle *root, uint32_t capacity, uint64_t laps) { return lockfree_ring_limited(root, capacity, laps, 2); }

enum { TAGS = 9 };

/* The wear of a container whose tags come to their end: one for each put that is OK, and of a stack for each take. A queue
 * that is empty before each put does not come to its last tag. A ring takes its capacity times its laps, and is spent at twice
 * the laps: both are 18. */
static void gauging_to_the_end(make_limited *make, uint64_t of_take, uint64_t end)
{
    lockfree_handle root = {0}, pass = {0};
    uint64_t used = 0, value = 0;
    CHECK(make(&root, 2, TAGS) == LOCKFREE_OK && lockfree_split(&root, &pass) == LOCKFREE_OK);
    lockfree_answer put;
    while ((put = lockfree_put(&pass, 7, 9)).code == LOCKFREE_OK) {
        CHECK(lockfree_wear(&pass) == ++used);
        if (lockfree_pop(&pass, &value) == LOCKFREE_OK)
            CHECK(lockfree_wear(&pass) == (used += of_take));
    }
    CHECK(put.code == LOCKFREE_SPENT && put.value == end && used == end);
    CHECK(lockfree_gauge(&pass, 0).code == LOCKFREE_OK && lockfree_wear(&pass) == end);
    CHECK(lockfree_close(&pass, 9).code == LOCKFREE_OK && lockfree_is_closed(&pass) && lockfree_wear(&pass) == end);
    lockfree_free(&pass), lockfree_free(&root);
}

static void refused_memory(make_new *make)
{
    for (long at = 1;; at++) {
        lockfree_handle root = {0}, pass = {0};
        refused = at;
        uint32_t made = make(&root, 8);
        uint32_t split = made == LOCKFREE_OK ? lockfree_split(&root, &pass) : LOCKFREE_NO_MEMORY;
        int all = refused > 0;
        refused = 0;
        CHECK(made == LOCKFREE_OK || made == LOCKFREE_NO_MEMORY);
        CHECK(split == (all ? LOCKFREE_OK : LOCKFREE_NO_MEMORY) && pass.full == (split == LOCKFREE_OK));
        if (made == LOCKFREE_OK)
            CHECK(lockfree_split(&root, &pass) == (all ? LOCKFREE_IN_USE : LOCKFREE_OK) && lockfree_push(&pass, 1) == LOCKFREE_OK);
        lockfree_free(&root), lockfree_free(&pass);
        if (all)
            return;
    }
}

enum { EACH = 100000, SIDES = 4 };
static unsigned char *seen;

struct work {
    lockfree_handle pass;
    uint64_t from, count;
    int by_single_tries;
};

static void *puts_all(void *at)
{
    struct work *work = at;
    for (uint64_t i = 0; i < EACH; i++)
        for (;;) {
            lockfree_answer put = lockfree_put(&work->pass, work->from + i, work->by_single_tries ? 0 : UINT64_MAX);
            while (put.code == LOCKFREE_BUSY) {
                CHECK(lockfree_take(&work->pass, 1).code == LOCKFREE_UNDER_WAY);
                put = lockfree_go_on(&work->pass, 1);
            }
            if (put.code == LOCKFREE_OK)
                break;
            CHECK(put.code == LOCKFREE_FULL);
            sched_yield();
        }
    return NULL;
}

static void *takes_all(void *at)
{
    struct work *work = at;
    uint64_t value, last[SIDES] = {0};
    for (;;) {
        uint32_t code = lockfree_pop(&work->pass, &value);
        if (code == LOCKFREE_CLOSED)
            return NULL;
        if (code != LOCKFREE_OK) {
            CHECK(code == LOCKFREE_EMPTY);
            sched_yield();
            continue;
        }
        if (work->by_single_tries) { /* of a queue: the order of each sender */
            CHECK(value + 1 > last[value / EACH]);
            last[value / EACH] = value + 1;
        }
        CHECK(__atomic_add_fetch(&seen[value], 1, __ATOMIC_RELAXED) == 1);
        work->count++;
    }
}

struct counter {
    lockfree_handle pass;
    uint64_t most;
    int *ended;
    bool counts;
};

/* What is worn beside other threads is never less than before, nor is it open again. A gauge may have to begin again. */
static void gauges_again(lockfree_handle *pass, lockfree_answer *last)
{
    lockfree_answer gauge = lockfree_gauge(pass, 0);
    while (gauge.code == LOCKFREE_BUSY) {
        CHECK(lockfree_gauge(pass, 9).code == LOCKFREE_UNDER_WAY && lockfree_take(pass, 9).code == LOCKFREE_UNDER_WAY);
        CHECK(!lockfree_is_closed(pass) && lockfree_wear(pass) == 0);
        gauge = lockfree_go_on(pass, 0);
    }
    CHECK(gauge.code == LOCKFREE_OK || gauge.code == LOCKFREE_CLOSED);
    CHECK(gauge.value >= last->value && (last->code == LOCKFREE_OK || gauge.code == LOCKFREE_CLOSED));
    *last = gauge;
}

/* A queue or a ring beside other threads holds no more than its capacity. A count may have to begin again. */
static void *counts_on(void *at)
{
    struct counter *counter = at;
    lockfree_answer last = {0};
    while (!__atomic_load_n(counter->ended, __ATOMIC_RELAXED)) {
        gauges_again(&counter->pass, &last);
        sched_yield();
        if (!counter->counts)
            continue;
        lockfree_answer count = lockfree_count(&counter->pass, 0);
        while (count.code == LOCKFREE_BUSY) {
            CHECK(lockfree_count(&counter->pass, 9).code == LOCKFREE_UNDER_WAY && lockfree_look(&counter->pass, 9).code == LOCKFREE_UNDER_WAY);
            CHECK(lockfree_number(&counter->pass).code == LOCKFREE_UNDER_WAY);
            count = lockfree_go_on(&counter->pass, 0);
        }
        CHECK(count.code == LOCKFREE_OK && count.value <= counter->most);
        sched_yield();
    }
    return NULL;
}

static void many_threads(make_new *make, uint32_t capacity, int first_out)
{
    lockfree_handle root = {0}, closing = {0};
    struct work works[2 * SIDES] = {0};
    int ended = 0;
    struct counter counter = {{0}, capacity, &ended, first_out};
    pthread_t threads[2 * SIDES], counting_thread;
    seen = calloc(SIDES, EACH);
    CHECK(seen && make(&root, capacity) == LOCKFREE_OK && lockfree_split(&root, &closing) == LOCKFREE_OK);
    for (int i = 0; i < 2 * SIDES; i++) {
        works[i].from = (uint64_t)i * EACH;
        works[i].by_single_tries = i < SIDES ? i % 2 : first_out;
        CHECK(lockfree_split(&root, &works[i].pass) == LOCKFREE_OK);
        CHECK(pthread_create(&threads[i], NULL, i < SIDES ? puts_all : takes_all, &works[i]) == 0);
    }
    CHECK(lockfree_split(&root, &counter.pass) == LOCKFREE_OK);
    CHECK(pthread_create(&counting_thread, NULL, counts_on, &counter) == 0);
    CHECK(lockfree_free(&root) == LOCKFREE_OK); /* while the passes are out */
    for (int i = 0; i < SIDES; i++)
        pthread_join(threads[i], NULL);
    CHECK(lockfree_until(&closing, lockfree_close(&closing, 0)).code == LOCKFREE_OK);
    uint64_t count = 0;
    for (int i = SIDES; i < 2 * SIDES; i++) {
        pthread_join(threads[i], NULL);
        count += works[i].count;
    }
    CHECK(count == (uint64_t)SIDES * EACH);
    __atomic_store_n(&ended, 1, __ATOMIC_RELAXED);
    CHECK(pthread_join(counting_thread, NULL) == 0 && (!counter.counts || lockfree_count(&counter.pass, 9).value == 0));
    CHECK(lockfree_look(&counter.pass, 9).code == LOCKFREE_EMPTY);
    CHECK(lockfree_is_closed(&counter.pass) && lockfree_wear(&counter.pass) == (first_out ? 1u : 2u) * SIDES * EACH);
    for (int i = 0; i < 2 * SIDES; i++)
        CHECK(lockfree_free(&works[i].pass) == LOCKFREE_OK);
    CHECK(lockfree_free(&closing) == LOCKFREE_OK && lockfree_free(&counter.pass) == LOCKFREE_OK);
    free(seen);
}

static void add(uint64_t value, void *sum) { *(uint64_t *)sum += value; }

static void consuming(make_new *make)
{
    lockfree_handle root = {0}, pass = {0};
    uint64_t sum = 0;
    CHECK(make(&root, 8) == LOCKFREE_OK && lockfree_split(&root, &pass) == LOCKFREE_OK);
    for (uint64_t i = 1; i <= 5; i++)
        CHECK(lockfree_push(&pass, i) == LOCKFREE_OK);
    CHECK(lockfree_consume_one(&pass, add, &sum) == LOCKFREE_OK && lockfree_consume_all(&pass, add, &sum) == 4 && sum == 15);
    CHECK(lockfree_consume_one(&pass, add, &sum) == LOCKFREE_EMPTY);
    lockfree_free(&pass), lockfree_free(&root);
}

enum { MOST = 20 };

struct handed {
    uint64_t values[MOST];
    uint64_t count;
};

static void keep(uint64_t value, void *at)
{
    struct handed *handed = at;
    CHECK(handed->count < MOST);
    handed->values[handed->count++] = value;
}

/* A fold, one answer after another; a call in the middle of it changes nothing. */
static void folding(bool reversed)
{
    lockfree_handle root = {0}, pass = {0}, other = {0};
    CHECK(lockfree_fold(&pass, reversed, 1).code == LOCKFREE_NO_HANDLE);
    CHECK(lockfree_stack_new(&root, 8) == LOCKFREE_OK && lockfree_split(&root, &pass) == LOCKFREE_OK && lockfree_split(&root, &other) == LOCKFREE_OK);
    CHECK(lockfree_fold(&root, reversed, 1).code == LOCKFREE_OTHER_HANDLE && lockfree_fold(&pass, reversed, 9).code == LOCKFREE_EMPTY);
    for (uint64_t i = 1; i <= 3; i++)
        CHECK(lockfree_push(&pass, i) == LOCKFREE_OK);
    lockfree_answer answer = lockfree_fold(&pass, reversed, 9);
    for (uint64_t i = 1; i <= 3; i++) {
        CHECK(answer.code == LOCKFREE_VALUE && answer.value == (reversed ? i : 4 - i));
        CHECK(lockfree_take(&pass, 9).code == LOCKFREE_UNDER_WAY && lockfree_put(&pass, 9, 9).code == LOCKFREE_UNDER_WAY);
        CHECK(lockfree_look(&pass, 9).code == LOCKFREE_UNDER_WAY && lockfree_fold(&pass, reversed, 9).code == LOCKFREE_UNDER_WAY);
        CHECK(lockfree_put_range(&pass, &i, 1, 9).code == LOCKFREE_UNDER_WAY);
        CHECK(lockfree_split(&pass, &root) == LOCKFREE_IN_USE && lockfree_look(&other, 9).code == LOCKFREE_EMPTY);
        answer = lockfree_go_on(&pass, 9);
    }
    CHECK(answer.code == LOCKFREE_OK && answer.value == 3 && lockfree_number(&pass).value == 3);
    CHECK(lockfree_go_on(&pass, 9).code == LOCKFREE_NO_CALL && lockfree_fold(&pass, reversed, 9).code == LOCKFREE_EMPTY);
    for (uint64_t i = 0; i < 8; i++) /* its cells are free again */
        CHECK(lockfree_push(&other, i) == LOCKFREE_OK);
    CHECK(lockfree_push(&other, 8) == LOCKFREE_FULL);
    answer = lockfree_fold(&pass, reversed, 0);
    CHECK(answer.code == (reversed ? LOCKFREE_BUSY : LOCKFREE_VALUE)); /* eight are not turned round so soon */
    CHECK(reversed || answer.value == 7);
    lockfree_answer next = lockfree_until(&pass, answer);
    CHECK(next.code == LOCKFREE_VALUE && next.value == (reversed ? 0 : 7));
    CHECK(lockfree_push(&other, 8) == LOCKFREE_FULL); /* while the fold holds them */
    CHECK(lockfree_free(&pass) == LOCKFREE_OK && lockfree_push(&other, 8) == LOCKFREE_FULL);
    lockfree_free(&other), lockfree_free(&root);
}

static void folds(void)
{
    lockfree_handle root = {0}, pass = {0}, of_queue = {0};
    struct handed handed = {0};
    uint64_t count = 7;
    CHECK(lockfree_queue_new(&of_queue, 2) == LOCKFREE_OK && lockfree_split(&of_queue, &pass) == LOCKFREE_OK);
    CHECK(lockfree_push(&pass, 5) == LOCKFREE_OK && lockfree_fold(&pass, false, 9).code == LOCKFREE_OTHER_HANDLE);
    CHECK(lockfree_pop(&pass, &count) == LOCKFREE_OK && count == 5);
    lockfree_free(&pass), lockfree_free(&of_queue);
    CHECK(lockfree_stack_new(&root, 4) == LOCKFREE_OK && lockfree_split(&root, &pass) == LOCKFREE_OK);
    CHECK(lockfree_consume_all_atomic(&pass, false, keep, &handed, &count) == LOCKFREE_EMPTY && count == 0 && handed.count == 0);
    CHECK(lockfree_push(&pass, 1) == LOCKFREE_OK && lockfree_push(&pass, 2) == LOCKFREE_OK);
    CHECK(lockfree_consume_all_atomic(&pass, false, keep, &handed, &count) == LOCKFREE_OK && count == 2);
    CHECK(lockfree_push(&pass, 1) == LOCKFREE_OK && lockfree_push(&pass, 2) == LOCKFREE_OK);
    CHECK(lockfree_close(&pass, 9).code == LOCKFREE_OK);
    CHECK(lockfree_consume_all_atomic(&pass, true, keep, &handed, &count) == LOCKFREE_OK && count == 2 && handed.count == 4);
    CHECK(handed.values[0] == 2 && handed.values[1] == 1 && handed.values[2] == 1 && handed.values[3] == 2);
    CHECK(lockfree_fold(&pass, false, 9).code == LOCKFREE_CLOSED);
    CHECK(lockfree_shut(&pass, 9).code == LOCKFREE_OK && lockfree_fold(&pass, true, 9).code == LOCKFREE_SHUT);
    lockfree_free(&pass), lockfree_free(&root);
}

static void pops(lockfree_handle *pass, uint64_t expected)
{
    uint64_t value = 0;
    CHECK(lockfree_pop(pass, &value) == LOCKFREE_OK && value == expected);
}

/* What is put where there is not room for all, or for none, or no put is let in. */
static void ranges(void)
{
    lockfree_handle root = {0}, pass = {0}, other = {0};
    const uint64_t seven[] = {1, 2, 3, 4, 5, 6, 7};
    CHECK(lockfree_put_range(&pass, seven, 7, 9).code == LOCKFREE_NO_HANDLE);
    CHECK(lockfree_queue_new(&root, 4) == LOCKFREE_OK && lockfree_split(&root, &pass) == LOCKFREE_OK);
    CHECK(lockfree_push_range(&pass, seven, 7).code == LOCKFREE_OTHER_HANDLE && lockfree_look(&pass, 9).code == LOCKFREE_EMPTY);
    CHECK(lockfree_put_range(&root, seven, 7, 9).code == LOCKFREE_OTHER_HANDLE);
    lockfree_free(&pass), lockfree_free(&root);
    CHECK(lockfree_stack_new(&root, 4) == LOCKFREE_OK && lockfree_split(&root, &pass) == LOCKFREE_OK && lockfree_split(&root, &other) == LOCKFREE_OK);
    CHECK(lockfree_push_range(&pass, seven, 0).code == LOCKFREE_EMPTY);
    lockfree_answer put = lockfree_push_range(&pass, seven, 7);
    CHECK(put.code == LOCKFREE_OK && put.value == 4 && lockfree_number(&pass).value == 0);
    CHECK(lockfree_push_range(&pass, seven, 2).code == LOCKFREE_FULL && lockfree_push(&pass, 8) == LOCKFREE_FULL);
    pops(&other, 4), pops(&pass, 3);
    put = lockfree_put_range(&pass, seven + 4, 3, 9);
    CHECK(put.code == LOCKFREE_OK && put.value == 2 && lockfree_number(&pass).value == 3);
    pops(&other, 6), pops(&pass, 5), pops(&other, 2), pops(&pass, 1);
    CHECK(lockfree_close(&other, 9).code == LOCKFREE_OK);
    CHECK(lockfree_put_range(&pass, seven, 7, 9).code == LOCKFREE_CLOSED && lockfree_put_range(&pass, seven, 0, 9).code == LOCKFREE_EMPTY);
    CHECK(lockfree_put(&pass, 1, 9).code == LOCKFREE_CLOSED && lockfree_take(&other, 9).code == LOCKFREE_CLOSED);
    lockfree_free(&pass), lockfree_free(&root), lockfree_free(&other);
}

/* A put of an array asks for no memory. */
static void ranges_without_memory(void)
{
    const uint64_t nine[] = {1, 2, 3, 4, 5, 6, 7, 8, 9};
    lockfree_handle root = {0}, pass = {0};
    CHECK(lockfree_stack_new(&root, 16) == LOCKFREE_OK && lockfree_split(&root, &pass) == LOCKFREE_OK);
    refused = 1;
    lockfree_answer put = lockfree_push_range(&pass, nine, 9);
    CHECK(put.code == LOCKFREE_OK && put.value == 9 && refused == 1);
    refused = 0;
    for (uint64_t i = 9; i >= 1; i--)
        pops(&pass, i);
    lockfree_free(&pass), lockfree_free(&root);
}

enum { RANGES = 20000, LONG = 3 };
static unsigned char *in_parts; /* by range: whether it was put in more than one */

/* One that is BUSY goes on with its array alone. */
static lockfree_answer puts_array(lockfree_handle *pass, const uint64_t *values, size_t count)
{
    lockfree_answer put;
    while ((put = lockfree_put_range(pass, values, count, 0)).code == LOCKFREE_BUSY) {
        CHECK(lockfree_go_on(pass, 9).code == LOCKFREE_NO_CALL && lockfree_put(pass, 1, 9).code == LOCKFREE_UNDER_WAY);
        CHECK(lockfree_take(pass, 9).code == LOCKFREE_UNDER_WAY && lockfree_fold(pass, false, 9).code == LOCKFREE_UNDER_WAY);
    }
    return put;
}

static void *puts_ranges(void *at)
{
    struct work *work = at;
    uint64_t range[LONG];
    for (uint64_t first = work->from; first < work->from + RANGES * LONG; first += LONG)
        for (uint64_t done = 0; done < LONG;) {
            for (uint64_t i = done; i < LONG; i++)
                range[i] = first + i;
            lockfree_answer put = puts_array(&work->pass, range + done, LONG - done);
            CHECK(put.code == LOCKFREE_OK || put.code == LOCKFREE_FULL);
            if (put.code == LOCKFREE_FULL)
                sched_yield();
            else if ((done += put.value) < LONG)
                __atomic_store_n(&in_parts[first / LONG], 1, __ATOMIC_RELAXED);
        }
    return NULL;
}

/* Each fold has all of a range or none of it, one value beside the other. */
static void *folds_ranges(void *at)
{
    struct work *work = at;
    for (;;) {
        struct handed handed = {0};
        uint64_t count;
        uint32_t code = lockfree_consume_all_atomic(&work->pass, false, keep, &handed, &count);
        if (code == LOCKFREE_CLOSED)
            return NULL;
        CHECK(code == LOCKFREE_OK || code == LOCKFREE_EMPTY);
        if (code == LOCKFREE_EMPTY)
            sched_yield();
        for (uint64_t i = 0; i < count; i++) {
            uint64_t value = handed.values[i];
            if (value % LONG != 0 && !__atomic_load_n(&in_parts[value / LONG], __ATOMIC_RELAXED))
                CHECK(i + 1 < count && handed.values[i + 1] == value - 1);
            CHECK(__atomic_add_fetch(&seen[value], 1, __ATOMIC_RELAXED) == 1);
        }
        work->count += count;
    }
}

static void ranges_of_many_threads(void)
{
    lockfree_handle root = {0}, closing = {0};
    struct work works[2 * SIDES] = {0};
    pthread_t threads[2 * SIDES];
    seen = calloc(SIDES, RANGES * LONG);
    in_parts = calloc(SIDES, RANGES);
    CHECK(seen && in_parts && lockfree_stack_new(&root, MOST) == LOCKFREE_OK && lockfree_split(&root, &closing) == LOCKFREE_OK);
    for (int i = 0; i < 2 * SIDES; i++) {
        works[i].from = (uint64_t)i * RANGES * LONG;
        CHECK(lockfree_split(&root, &works[i].pass) == LOCKFREE_OK);
        CHECK(pthread_create(&threads[i], NULL, i < SIDES ? puts_ranges : folds_ranges, &works[i]) == 0);
    }
    for (int i = 0; i < SIDES; i++)
        pthread_join(threads[i], NULL);
    CHECK(lockfree_until(&closing, lockfree_close(&closing, 0)).code == LOCKFREE_OK);
    uint64_t count = 0;
    for (int i = SIDES; i < 2 * SIDES; i++) {
        pthread_join(threads[i], NULL);
        count += works[i].count;
    }
    CHECK(count == (uint64_t)SIDES * RANGES * LONG);
    for (int i = 0; i < 2 * SIDES; i++)
        CHECK(lockfree_free(&works[i].pass) == LOCKFREE_OK);
    lockfree_free(&closing), lockfree_free(&root);
    free(seen), free(in_parts);
}

int main(void)
{
    make_new *const makes[] = {lockfree_queue_new, lockfree_stack_new, ring_new};
    make_limited *const limited[] = {lockfree_queue_limited, lockfree_stack_limited, ring_limited};
    const uint64_t ends[] = {TAGS - 1, TAGS, 2 * TAGS};
    for (int i = 0; i < 3; i++) {
        codes_of_handles(makes[i]);
        codes_of_calls(makes[i], i != 1);
        refused_memory(makes[i]);
        consuming(makes[i]);
        many_threads(makes[i], 64, i != 1);
        many_threads(makes[i], 3, i != 1);
        gauging(makes[i], i == 1 ? 1 : 0);
        gauging_to_the_end(limited[i], i == 1 ? 1 : 0, ends[i]);
    }
    rings();
    counting(lockfree_queue_new);
    counting(ring_new);
    folding(false);
    folding(true);
    folds();
    ranges();
    ranges_without_memory();
    ranges_of_many_threads();
    puts("passed");
    return 0;
}
