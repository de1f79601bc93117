/* ways: plain clang address valgrind */
/* The version; limits of tags, and what is spent; numbers; and the end of a container, which hands out what is left. */
#include "lockfree.h"

#include "check.h"

typedef uint32_t make_limited(lockfree_handle *root, uint32_t capacity, uint64_t tag_limit);

static void limits(make_limited *make)
{
    lockfree_handle root = {0};
    const uint64_t most = ((uint64_t)1 << 42) - 1;
    CHECK(make(&root, 4, 1) == LOCKFREE_BAD_CAPACITY && make(&root, 4, most + 1) == LOCKFREE_BAD_CAPACITY);
    CHECK(make(&root, 0, 9) == LOCKFREE_BAD_CAPACITY && make(&root, 1048574, 9) == LOCKFREE_BAD_CAPACITY);
    refused = 1;
    CHECK(make(&root, 4, 9) == LOCKFREE_NO_MEMORY && refused == 0);
    CHECK(make(&root, 4, most) == LOCKFREE_OK && make(&root, 4, 9) == LOCKFREE_IN_USE);
    CHECK(lockfree_free(&root) == LOCKFREE_OK && make(&root, 4, 2) == LOCKFREE_OK && lockfree_free(&root) == LOCKFREE_OK);
}

enum { LIMIT = 1000 };

/* A queue of limit n takes n values in its life: each takes a cell, whose word counts. Where it is empty before each
 * put it takes n - 1: then all go through the same two nodes. What is in it can still be taken. */
static void spent_queue(uint64_t behind)
{
    lockfree_handle root = {0}, pass = {0};
    const uint64_t most = behind > 0 ? LIMIT : LIMIT - 1;
    uint64_t value = 0, puts = 0;
    lockfree_answer put;
    CHECK(lockfree_queue_limited(&root, 4, LIMIT) == LOCKFREE_OK && lockfree_split(&root, &pass) == LOCKFREE_OK);
    while ((put = lockfree_put(&pass, puts, 9)).code == LOCKFREE_OK) {
        CHECK(put.value == puts++);
        if (puts > behind)
            CHECK(lockfree_pop(&pass, &value) == LOCKFREE_OK && value == puts - 1 - behind);
    }
    CHECK(put.code == LOCKFREE_SPENT && put.value == most && puts == most);
    CHECK(lockfree_push(&pass, 1) == LOCKFREE_SPENT && lockfree_number(&pass).value == 0);
    if (behind > 0)
        CHECK(lockfree_pop(&pass, &value) == LOCKFREE_OK && value == puts - behind);
    lockfree_free(&pass);
    for (uint64_t i = puts - behind + 1; i < puts; i++)
        CHECK((put = lockfree_finish(&root)).code == LOCKFREE_VALUE && put.value == i);
    CHECK(lockfree_finish(&root).code == LOCKFREE_EMPTY && lockfree_free(&root) == LOCKFREE_OK);
}

/* A ring of n slots, each of which can be filled so often, takes n * laps values in its life; then each put is refused, and
 * takes go on. What is left comes out by its end. */
static void spent_ring(uint64_t laps)
{
    enum { SLOTS = 3 };
    lockfree_handle root = {0}, pass = {0}, other = {0};
    uint64_t value = 0, puts = 0;
    lockfree_answer put;
    CHECK(lockfree_ring_limited(&root, SLOTS, laps, 2) == LOCKFREE_OK && lockfree_split(&root, &pass) == LOCKFREE_OK && lockfree_split(&root, &other) == LOCKFREE_OK);
    while ((put = lockfree_put(puts % 2 ? &pass : &other, puts, 9)).code == LOCKFREE_OK) {
        CHECK(put.value == puts++);
        if (puts > 2)
            CHECK(lockfree_pop(&pass, &value) == LOCKFREE_OK && value == puts - 3);
    }
    CHECK(put.code == LOCKFREE_SPENT && put.value == 2 * laps && puts == SLOTS * laps);
    CHECK(lockfree_push(&pass, 1) == LOCKFREE_SPENT && lockfree_number(&pass).value == 0 && lockfree_look(&other, 9).code == LOCKFREE_OK);
    CHECK(lockfree_pop(&other, &value) == LOCKFREE_OK && value == puts - 2 && lockfree_push(&other, 1) == LOCKFREE_SPENT);
    CHECK(lockfree_close(&other, 9).code == LOCKFREE_OK && lockfree_push(&other, 1) == LOCKFREE_CLOSED);
    lockfree_free(&pass), lockfree_free(&other);
    CHECK((put = lockfree_finish(&root)).code == LOCKFREE_VALUE && put.value == puts - 1);
    CHECK(lockfree_finish(&root).code == LOCKFREE_EMPTY && lockfree_free(&root) == LOCKFREE_OK);
}

/* A stack of limit n makes n puts and takes in all. What is left comes out by its end alone. */
static void spent_stack(void)
{
    lockfree_handle root = {0}, pass = {0};
    uint64_t value = 0, calls = 0;
    lockfree_answer answer;
    CHECK(lockfree_stack_limited(&root, 4, LIMIT) == LOCKFREE_OK && lockfree_split(&root, &pass) == LOCKFREE_OK);
    CHECK(lockfree_push(&pass, 7) == LOCKFREE_OK && lockfree_push(&pass, 8) == LOCKFREE_OK);
    for (calls = 2; calls < LIMIT; calls++)
        CHECK(calls % 2 ? lockfree_pop(&pass, &value) == LOCKFREE_OK && value == 9 : lockfree_push(&pass, 9) == LOCKFREE_OK);
    CHECK((answer = lockfree_put(&pass, 1, 9)).code == LOCKFREE_SPENT && answer.value == LIMIT);
    CHECK((answer = lockfree_take(&pass, 9)).code == LOCKFREE_SPENT && answer.value == LIMIT);
    CHECK((answer = lockfree_fold(&pass, false, 9)).code == LOCKFREE_SPENT && answer.value == LIMIT);
    CHECK(lockfree_number(&pass).code == LOCKFREE_OK && lockfree_number(&pass).value == 0);
    CHECK(lockfree_finish(&root).code == LOCKFREE_SHARED && lockfree_look(&pass, 9).code == LOCKFREE_OK);
    lockfree_free(&pass);
    for (uint64_t i = 8; i >= 7; i--)
        CHECK((answer = lockfree_finish(&root)).code == LOCKFREE_VALUE && answer.value == i);
    CHECK(lockfree_finish(&root).code == LOCKFREE_EMPTY && lockfree_free(&root) == LOCKFREE_OK);
}

typedef uint32_t make_new(lockfree_handle *root, uint32_t capacity);

static uint32_t ring_new(lockfree_handle *root, uint32_t capacity) { return lockfree_ring_new(root, capacity, 8); }

static void numbers(make_new *make, bool stack)
{
    lockfree_handle root = {0}, a = {0}, b = {0};
    uint64_t value = 0;
    CHECK(lockfree_number(&a).code == LOCKFREE_NO_HANDLE);
    CHECK(make(&root, 4) == LOCKFREE_OK);
    CHECK(lockfree_split(&root, &a) == LOCKFREE_OK && lockfree_split(&root, &b) == LOCKFREE_OK);
    CHECK(lockfree_number(&root).code == LOCKFREE_OTHER_HANDLE && lockfree_number(&a).code == LOCKFREE_OK && lockfree_number(&a).value == 0);
    CHECK(lockfree_push(&a, 1) == LOCKFREE_OK && lockfree_push(&b, 2) == LOCKFREE_OK);
    CHECK(lockfree_number(&a).value == 0 && lockfree_number(&b).value == 1);
    CHECK(lockfree_pop(&a, &value) == LOCKFREE_OK && lockfree_pop(&b, &value) == LOCKFREE_OK);
    CHECK(lockfree_number(&a).value == (stack ? 2u : 0u) && lockfree_number(&b).value == (stack ? 3u : 1u));
    CHECK(lockfree_pop(&b, &value) == LOCKFREE_EMPTY && lockfree_number(&b).value == 0); /* it has none */
    CHECK(lockfree_free(&a) == LOCKFREE_OK && lockfree_free(&b) == LOCKFREE_OK && lockfree_free(&root) == LOCKFREE_OK);
}

/* Who else has the container; and then what is left, as often as one asks. */
static void finishing(make_new *make, bool stack)
{
    lockfree_handle root = {0}, a = {0}, b = {0};
    lockfree_answer answer;
    CHECK(lockfree_finish(&root).code == LOCKFREE_NO_HANDLE);
    CHECK(make(&root, 8) == LOCKFREE_OK);
    CHECK(lockfree_split(&root, &a) == LOCKFREE_OK && lockfree_split(&root, &b) == LOCKFREE_OK);
    CHECK(lockfree_finish(&a).code == LOCKFREE_OTHER_HANDLE);
    for (uint64_t i = 1; i <= 5; i++)
        CHECK(lockfree_push(i % 2 ? &a : &b, i) == LOCKFREE_OK);
    CHECK(lockfree_finish(&root).code == LOCKFREE_SHARED && lockfree_free(&a) == LOCKFREE_OK);
    CHECK(lockfree_finish(&root).code == LOCKFREE_SHARED && lockfree_push(&b, 6) == LOCKFREE_OK);
    CHECK(lockfree_split(&root, &a) == LOCKFREE_OK && lockfree_free(&a) == LOCKFREE_OK && lockfree_free(&b) == LOCKFREE_OK);
    refused = 1; /* it takes no memory */
    for (uint64_t i = 1; i <= 4; i++) {
        answer = lockfree_finish(&root);
        CHECK(answer.code == LOCKFREE_VALUE && answer.value == (stack ? 7 - i : i));
        CHECK(lockfree_take(&root, 9).code == LOCKFREE_OTHER_HANDLE && lockfree_number(&root).code == LOCKFREE_OTHER_HANDLE);
    }
    CHECK(refused == 1);
    refused = 0;
    CHECK(lockfree_split(&root, &a) == LOCKFREE_OTHER_HANDLE && lockfree_go_on(&root, 9).code == LOCKFREE_OTHER_HANDLE);
    CHECK((answer = lockfree_finish(&root)).code == LOCKFREE_VALUE && answer.value == (stack ? 2 : 5));
    if (stack) { /* the last one is freed with the root */
        CHECK(lockfree_free(&root) == LOCKFREE_OK && lockfree_finish(&root).code == LOCKFREE_NO_HANDLE);
        return;
    }
    CHECK((answer = lockfree_finish(&root)).code == LOCKFREE_VALUE && answer.value == 6);
    for (int i = 0; i < 3; i++)
        CHECK((answer = lockfree_finish(&root)).code == LOCKFREE_EMPTY && answer.value == 0);
    CHECK(lockfree_free(&root) == LOCKFREE_OK);
}

static void add(uint64_t value, void *sum) { *(uint64_t *)sum += value; }

/* What a freed pass had under way is out of reach; what others put is not. */
static void finishing_after_a_fold(void)
{
    lockfree_handle root = {0}, pass = {0}, other = {0};
    uint64_t sum = 0;
    CHECK(lockfree_stack_new(&root, 4) == LOCKFREE_OK && lockfree_split(&root, &pass) == LOCKFREE_OK && lockfree_split(&root, &other) == LOCKFREE_OK);
    CHECK(lockfree_push(&pass, 1) == LOCKFREE_OK && lockfree_push(&pass, 2) == LOCKFREE_OK);
    CHECK(lockfree_fold(&pass, false, 9).code == LOCKFREE_VALUE && lockfree_push(&other, 40) == LOCKFREE_OK && lockfree_push(&other, 2) == LOCKFREE_OK);
    CHECK(lockfree_finish(&pass).code == LOCKFREE_OTHER_HANDLE && lockfree_finish_all(&root, add, &sum) == 0);
    lockfree_free(&pass), lockfree_free(&other);
    CHECK(lockfree_finish_all(&root, add, &sum) == 2 && sum == 42 && lockfree_finish_all(&root, add, &sum) == 0);
    CHECK(lockfree_free(&root) == LOCKFREE_OK);
}

int main(void)
{
    CHECK(lockfree_version() == LOCKFREE_H_VERSION);
    limits(lockfree_queue_limited);
    limits(lockfree_stack_limited);
    spent_queue(0);
    spent_queue(3);
    spent_stack();
    spent_ring(1);
    spent_ring(1000);
    make_new *const makes[] = {lockfree_queue_new, lockfree_stack_new, ring_new};
    for (int i = 0; i < 3; i++) {
        numbers(makes[i], i == 1);
        finishing(makes[i], i == 1);
    }
    finishing_after_a_fold();
    puts("passed");
    return 0;
}
