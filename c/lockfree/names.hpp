// What a compiler must have, and the inline namespace of all names.
//
// A function is compiled in each file that calls it, and the linker keeps one of the copies. A copy
// that was compiled with -fno-exceptions throws nothing, and tidies nothing up when an exception
// passes through it. So these copies have other names: then no file gets the code of a file that
// was compiled in the other way. The names also have the number of the form that handles have in the
// archive: the loader joins the copies of all shared objects of a process, and a copy must not get a
// handle of an archive of another form (docs/cpp.md, "Build and link").
#pragma once

#include "../lockfree.h"

#if __cplusplus < 201703L
#error "lockfree: the C++ headers need C++17 or a later standard: compile with -std=c++17"
#endif

#define LOCKFREE_JOIN(name, layout) name##layout
#define LOCKFREE_WITH_LAYOUT(name, layout) LOCKFREE_JOIN(name, layout)
#if defined(__cpp_exceptions)
#define LOCKFREE_NAMES LOCKFREE_WITH_LAYOUT(v0_2_, LOCKFREE_LAYOUT)
#define LOCKFREE_THROW(what) throw what
#else
#define LOCKFREE_NAMES LOCKFREE_WITH_LAYOUT(v0_2_without_exceptions_, LOCKFREE_LAYOUT)
#define LOCKFREE_THROW(what) std::abort()
#endif
