/* Passes that go back to their root: one after another for many threads, each refusal, and what is left once all are joined. */
#include "lockfree.h"

#include "check.h"
#include <pthread.h>
#include <sched.h>

typedef uint32_t make_new(lockfree_handle *root, uint32_t capacity);

static uint32_t ring_new(lockfree_handle *root, uint32_t capacity) { return lockfree_ring_new(root, capacity, 2); }

static bool is_ok(uint32_t code) { return code == LOCKFREE_OK; }

enum { ROUNDS = 1000, LEFT = 5 };

struct worker {
    lockfree_handle pass;
    uint64_t value;
};

static void *puts_one(void *with)
{
    struct worker *me = with;
    CHECK(is_ok(lockfree_push(&me->pass, me->value)));
    return NULL;
}

static void *takes_one(void *with)
{
    struct worker *me = with;
    uint32_t code;
    while ((code = lockfree_pop(&me->pass, &me->value)) == LOCKFREE_EMPTY)
        sched_yield();
    CHECK(is_ok(code));
    return NULL;
}

/* A ring that is made for two passes serves two thousand threads, two at a time; what is left is what was not taken, in order. */
static void many_threads(void)
{
    lockfree_handle root = {0}, third = {0};
    struct worker putting = {0}, taking = {0};
    pthread_t threads[2];
    CHECK(is_ok(lockfree_ring_new(&root, 64, 2)));
    for (uint64_t round = 0; round < ROUNDS; round++) {
        const bool takes = round >= LEFT;
        CHECK(is_ok(lockfree_split(&root, &putting.pass)) && is_ok(lockfree_split(&root, &taking.pass)));
        CHECK(lockfree_split(&root, &third) == LOCKFREE_NO_PASS && !third.full);
        putting.value = round;
        CHECK(pthread_create(&threads[0], NULL, puts_one, &putting) == 0);
        CHECK(!takes || pthread_create(&threads[1], NULL, takes_one, &taking) == 0);
        CHECK(pthread_join(threads[0], NULL) == 0 && is_ok(lockfree_join(&root, &putting.pass)));
        CHECK(!takes || pthread_join(threads[1], NULL) == 0);
        CHECK(!takes || taking.value == round - LEFT);
        CHECK(is_ok(lockfree_join(&root, &taking.pass)) && !taking.pass.full);
    }
    for (uint64_t value = ROUNDS - LEFT; value < ROUNDS; value++) {
        lockfree_answer left = lockfree_finish(&root);
        CHECK(left.code == LOCKFREE_VALUE && left.value == value);
    }
    CHECK(lockfree_finish(&root).code == LOCKFREE_EMPTY && is_ok(lockfree_free(&root)));
}

/* More passes than a root gives at one time, and than it gives in its life if they are freed; each knows all that came before it. */
static void more_than_are_given(make_new *make, bool stack)
{
    enum { GIVEN = 70000 };
    lockfree_handle root = {0}, pass = {0};
    uint64_t value = 0;
    CHECK(is_ok(make(&root, 4)));
    for (uint64_t i = 0; i < GIVEN; i++) {
        CHECK(is_ok(lockfree_split(&root, &pass)) && lockfree_number(&pass).value == 0);
        CHECK(is_ok(lockfree_push(&pass, i)) && lockfree_number(&pass).value == (stack ? i + i / 2 * 2 : i));
        if (i % 2)
            CHECK(is_ok(lockfree_pop(&pass, &value)) && is_ok(lockfree_pop(&pass, &value)) && value == (stack ? i - 1 : i));
        CHECK(is_ok(lockfree_join(&root, &pass)) && !pass.full);
    }
    CHECK(lockfree_finish(&root).code == LOCKFREE_EMPTY && is_ok(lockfree_free(&root)));
}

/* Each refusal; then both handles are as they were. */
static void refusals(make_new *make)
{
    lockfree_handle root = {0}, a = {0}, b = {0}, other = {0}, of_other = {0}, none = {0};
    uint64_t value = 0;
    CHECK(lockfree_join(&root, &a) == LOCKFREE_NO_HANDLE);
    CHECK(is_ok(make(&root, 4)) && is_ok(make(&other, 4)));
    CHECK(lockfree_join(&root, &none) == LOCKFREE_NO_HANDLE && !none.full);
    CHECK(is_ok(lockfree_split(&root, &a)) && is_ok(lockfree_split(&root, &b)) && is_ok(lockfree_split(&other, &of_other)));
    CHECK(lockfree_join(&none, &a) == LOCKFREE_NO_HANDLE && is_ok(lockfree_push(&a, 1)));
    CHECK(lockfree_join(&a, &b) == LOCKFREE_OTHER_HANDLE && lockfree_join(&a, &root) == LOCKFREE_OTHER_HANDLE);
    CHECK(lockfree_join(&root, &other) == LOCKFREE_OTHER_HANDLE);
    for (int i = 0; i < 9; i++) /* a pass of another container */
        CHECK(lockfree_join(&root, &of_other) == LOCKFREE_OTHER_HANDLE && lockfree_join(&other, &a) == LOCKFREE_OTHER_HANDLE);
    CHECK(is_ok(lockfree_push(&of_other, 7)) && is_ok(lockfree_push(&b, 2)));
    CHECK(is_ok(lockfree_pop(&of_other, &value)) && value == 7 && lockfree_pop(&of_other, &value) == LOCKFREE_EMPTY);
    CHECK(lockfree_finish(&root).code == LOCKFREE_SHARED && is_ok(lockfree_pop(&b, &value)) && is_ok(lockfree_pop(&a, &value)));
    refused = 1; /* it takes no memory */
    CHECK(is_ok(lockfree_join(&root, &a)) && lockfree_join(&root, &a) == LOCKFREE_NO_HANDLE && refused == 1);
    refused = 0;
    CHECK(lockfree_take(&a, 9).code == LOCKFREE_NO_HANDLE && lockfree_free(&a) == LOCKFREE_NO_HANDLE);
    CHECK(is_ok(lockfree_split(&root, &a)) && is_ok(lockfree_free(&a)) && is_ok(lockfree_join(&root, &b)));
    CHECK(lockfree_finish(&root).code == LOCKFREE_EMPTY && lockfree_join(&root, &of_other) == LOCKFREE_OTHER_HANDLE);
    CHECK(lockfree_join(&other, &root) == LOCKFREE_OTHER_HANDLE && is_ok(lockfree_join(&other, &of_other)));
    CHECK(lockfree_finish(&other).code == LOCKFREE_EMPTY && is_ok(lockfree_free(&root)) && is_ok(lockfree_free(&other)));
}

/* A pass that is freed is not given again; one of another kind of container, and one that is under way, are not joined. */
static void refusals_of_some(void)
{
    lockfree_handle queue = {0}, ring = {0}, stack = {0}, of_queue = {0}, of_stack = {0}, a = {0}, b = {0}, none = {0};
    CHECK(is_ok(lockfree_queue_new(&queue, 4)) && is_ok(ring_new(&ring, 4)) && is_ok(lockfree_stack_new(&stack, 4)));
    CHECK(is_ok(lockfree_split(&ring, &a)) && is_ok(lockfree_split(&ring, &b)) && is_ok(lockfree_free(&a)));
    CHECK(lockfree_split(&ring, &none) == LOCKFREE_NO_PASS && is_ok(lockfree_join(&ring, &b)));
    CHECK(is_ok(lockfree_split(&ring, &a)) && lockfree_split(&ring, &none) == LOCKFREE_NO_PASS);
    CHECK(is_ok(lockfree_split(&queue, &of_queue)) && is_ok(lockfree_split(&stack, &of_stack)));
    CHECK(lockfree_join(&queue, &a) == LOCKFREE_OTHER_HANDLE && lockfree_join(&ring, &of_queue) == LOCKFREE_OTHER_HANDLE);
    CHECK(lockfree_join(&queue, &of_stack) == LOCKFREE_OTHER_HANDLE && lockfree_join(&stack, &a) == LOCKFREE_OTHER_HANDLE);
    CHECK(is_ok(lockfree_push(&of_stack, 5)) && lockfree_fold(&of_stack, false, 9).code == LOCKFREE_VALUE);
    CHECK(lockfree_join(&stack, &of_stack) == LOCKFREE_UNDER_WAY && is_ok(lockfree_go_on(&of_stack, 9).code));
    CHECK(is_ok(lockfree_join(&stack, &of_stack)) && is_ok(lockfree_join(&ring, &a)) && is_ok(lockfree_join(&queue, &of_queue)));
    CHECK(is_ok(lockfree_free(&stack)) && is_ok(lockfree_free(&ring)) && is_ok(lockfree_free(&queue)));
}

enum { AT_ONCE = 4, OF_ONE = 256 };

struct others {
    lockfree_handle passes[OF_ONE];
    const int *begun; /* how many joins */
};

static void *frees(void *with)
{
    struct others *them = with;
    for (int i = 0; i < OF_ONE; i++) {
        while (__atomic_load_n(them->begun, __ATOMIC_ACQUIRE) <= i) {
        }
        CHECK(is_ok(lockfree_free(&them->passes[i])));
    }
    return NULL;
}

/* While others give up their shares, a pass is still known as one of this container, or of another one. */
static void joined_while_others_end(void)
{
    static struct others them[AT_ONCE];
    lockfree_handle root = {0}, mine[OF_ONE] = {{0}}, other = {0}, of_other = {0};
    int begun = 0;
    pthread_t threads[AT_ONCE];
    CHECK(is_ok(lockfree_queue_new(&root, 4)) && is_ok(lockfree_queue_new(&other, 4)) && is_ok(lockfree_split(&other, &of_other)));
    for (int i = 0; i < OF_ONE; i++)
        CHECK(is_ok(lockfree_split(&root, &mine[i])));
    for (int i = 0; i < AT_ONCE; i++) {
        them[i].begun = &begun;
        for (int j = 0; j < OF_ONE; j++)
            CHECK(is_ok(lockfree_split(&root, &them[i].passes[j])));
        CHECK(pthread_create(&threads[i], NULL, frees, &them[i]) == 0);
    }
    for (int i = 0; i < OF_ONE; i++) {
        __atomic_store_n(&begun, i + 1, __ATOMIC_RELEASE);
        CHECK(lockfree_join(&root, &of_other) == LOCKFREE_OTHER_HANDLE && lockfree_join(&other, &mine[i]) == LOCKFREE_OTHER_HANDLE);
        CHECK(is_ok(lockfree_join(&root, &mine[i])));
    }
    for (int i = 0; i < AT_ONCE; i++)
        CHECK(pthread_join(threads[i], NULL) == 0);
    CHECK(lockfree_finish(&root).code == LOCKFREE_EMPTY && is_ok(lockfree_free(&root)));
    CHECK(is_ok(lockfree_join(&other, &of_other)) && is_ok(lockfree_free(&other)));
}

int main(void)
{
    many_threads();
    make_new *const makes[] = {lockfree_queue_new, lockfree_stack_new, ring_new};
    for (int i = 0; i < 3; i++) {
        more_than_are_given(makes[i], i == 1);
        refusals(makes[i]);
    }
    refusals_of_some();
    for (int i = 0; i < 100; i++)
        joined_while_others_end();
    puts("passed");
    return 0;
}
