#include <lockfree.h>
#include <stdio.h>
int main(void)
{
    lockfree_handle root = {0}, pass = {0};
    uint64_t value;
    if (lockfree_ring_new(&root, 64, 2) != LOCKFREE_OK || lockfree_split(&root, &pass) != LOCKFREE_OK)
        return 1;                       /* 64 values, and at most 2 passes */
    for (uint64_t i = 1; i <= 3; i++) lockfree_push(&pass, i);
    while (lockfree_pop(&pass, &value) == LOCKFREE_OK) printf("%llu\n", (unsigned long long)value);
    lockfree_free(&pass);
    lockfree_free(&root);
}
