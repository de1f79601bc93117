/* ways: plain clang address valgrind */
/* Handles of one kind in calls of another: an end of an SPSC ring where a root or a pass is asked for, and the other way round.
 * Each is refused, and then each handle does what it did before. */
#include "lockfree.h"

#include "check.h"

typedef uint32_t make_new(lockfree_handle *root, uint32_t capacity);
static uint32_t ring_new(lockfree_handle *root, uint32_t capacity) { return lockfree_ring_new(root, capacity, 4); }

static bool is_refused(lockfree_answer answer) { return answer.code == LOCKFREE_OTHER_HANDLE && answer.value == 0; }

/* No call of a root or of a pass is made with an end. */
static void end_as_root_or_pass(lockfree_handle *end, lockfree_handle *root, lockfree_handle *pass)
{
    const uint64_t values[] = {7, 8};
    lockfree_handle none = {0};
    CHECK(is_refused(lockfree_put(end, 7, 9)) && is_refused(lockfree_take(end, 9)) && is_refused(lockfree_look(end, 9)));
    CHECK(is_refused(lockfree_close(end, 9)) && is_refused(lockfree_shut(end, 9)) && is_refused(lockfree_go_on(end, 9)));
    CHECK(is_refused(lockfree_count(end, 9)) && is_refused(lockfree_gauge(end, 9)) && is_refused(lockfree_number(end)));
    CHECK(is_refused(lockfree_fold(end, false, 9)) && is_refused(lockfree_fold(end, true, 9)));
    CHECK(is_refused(lockfree_put_range(end, values, 2, 9)) && is_refused(lockfree_put_range(end, values, 0, 9)));
    CHECK(is_refused(lockfree_finish(end)) && lockfree_split(end, &none) == LOCKFREE_OTHER_HANDLE && !none.full);
    CHECK(lockfree_join(end, pass) == LOCKFREE_OTHER_HANDLE && lockfree_join(root, end) == LOCKFREE_OTHER_HANDLE);
    CHECK(lockfree_join(end, root) == LOCKFREE_OTHER_HANDLE && lockfree_join(pass, end) == LOCKFREE_OTHER_HANDLE);
    CHECK(lockfree_join(end, &none) == LOCKFREE_NO_HANDLE && lockfree_join(&none, end) == LOCKFREE_NO_HANDLE);
    CHECK(lockfree_split(root, end) == LOCKFREE_IN_USE && lockfree_queue_new(end, 4) == LOCKFREE_IN_USE);
    CHECK(lockfree_stack_new(end, 4) == LOCKFREE_IN_USE && ring_new(end, 4) == LOCKFREE_IN_USE && end->full);
}

/* No call of an end is made with this handle, which is no end. */
static void as_end(lockfree_handle *other)
{
    uint64_t values[] = {7, 8};
    lockfree_handle none = {0};
    CHECK(is_refused(lockfree_spsc_push(other, 7)) && is_refused(lockfree_spsc_push_many(other, values, 2)));
    CHECK(is_refused(lockfree_spsc_push_many(other, values, 0)) && is_refused(lockfree_spsc_room(other)));
    CHECK(lockfree_spsc_close(other) == LOCKFREE_OTHER_HANDLE && is_refused(lockfree_spsc_pop(other)));
    CHECK(is_refused(lockfree_spsc_pop_many(other, values, 2)) && is_refused(lockfree_spsc_pop_many(other, values, 0)));
    CHECK(is_refused(lockfree_spsc_front(other)) && is_refused(lockfree_spsc_size(other)) && values[0] == 7 && values[1] == 8);
    CHECK(lockfree_spsc_new(other, &none, 4) == LOCKFREE_IN_USE && lockfree_spsc_new(&none, other, 4) == LOCKFREE_IN_USE);
    CHECK(!none.full && other->full);
}

static void beside(make_new *make)
{
    lockfree_handle root = {0}, pass = {0}, producer = {0}, consumer = {0};
    uint64_t value;
    CHECK(make(&root, 4) == LOCKFREE_OK && lockfree_split(&root, &pass) == LOCKFREE_OK);
    CHECK(lockfree_spsc_new(&producer, &consumer, 4) == LOCKFREE_OK);
    CHECK(lockfree_push(&pass, 20) == LOCKFREE_OK && lockfree_spsc_push(&producer, 10).code == LOCKFREE_OK);
    end_as_root_or_pass(&producer, &root, &pass), end_as_root_or_pass(&consumer, &root, &pass);
    CHECK(lockfree_join(&producer, &consumer) == LOCKFREE_OTHER_HANDLE);
    as_end(&root), as_end(&pass);
    CHECK(lockfree_spsc_room(&producer).value == 3 && lockfree_spsc_size(&consumer).value == 1);
    lockfree_answer popped = lockfree_spsc_pop(&consumer);
    CHECK(popped.code == LOCKFREE_OK && popped.value == 10 && lockfree_spsc_pop(&consumer).code == LOCKFREE_EMPTY);
    CHECK(lockfree_pop(&pass, &value) == LOCKFREE_OK && value == 20 && lockfree_pop(&pass, &value) == LOCKFREE_EMPTY);
    CHECK(lockfree_join(&root, &pass) == LOCKFREE_OK && lockfree_finish(&root).code == LOCKFREE_EMPTY);
    as_end(&root); /* what is left of its container */
    CHECK(lockfree_free(&producer) == LOCKFREE_OK && lockfree_spsc_pop(&consumer).code == LOCKFREE_CLOSED);
    CHECK(lockfree_free(&consumer) == LOCKFREE_OK && lockfree_free(&root) == LOCKFREE_OK);
}

int main(void)
{
    beside(lockfree_queue_new), beside(lockfree_stack_new), beside(ring_new);
    puts("passed");
    return 0;
}
