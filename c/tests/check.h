/* What the tests in C share: a check that ends the program, and allocations that are refused. */
#ifndef CHECK_H
#define CHECK_H

#include <stdio.h>
#include <stdlib.h>

#define CHECK(holds)                                                         \
    do {                                                                     \
        if (!(holds)) {                                                      \
            printf("%s:%d: not so: %s\n", __FILE__, __LINE__, #holds);       \
            exit(1);                                                         \
        }                                                                    \
    } while (0)

/* The Nth allocation from now is refused; 0: none is (linked with --wrap). And those of more bytes than `granted` are. */
static long refused = 0;
static size_t granted = (size_t)-1;
static int refuses(size_t size) { return size > granted || (refused > 0 && --refused == 0); }
void *__real_malloc(size_t size);
void *__real_realloc(void *at, size_t size);
void *__wrap_malloc(size_t size);
void *__wrap_realloc(void *at, size_t size);
void *__wrap_malloc(size_t size) { return refuses(size) ? NULL : __real_malloc(size); }
void *__wrap_realloc(void *at, size_t size) { return refuses(size) ? NULL : __real_realloc(at, size); }

#endif
