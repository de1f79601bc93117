// The C library as the C++ headers call it: handles that free themselves, whole calls, and what
// ThreadSanitizer is told.
#pragma once

#include "../lockfree.h"
#include "names.hpp"

#include <cstddef>
#include <cstdint>
#include <utility>

#if defined(__SANITIZE_THREAD__)
#define LOCKFREE_UNDER_TSAN 1
#elif defined(__has_feature)
#if __has_feature(thread_sanitizer)
#define LOCKFREE_UNDER_TSAN 1
#endif
#if __has_feature(memory_sanitizer)
#define LOCKFREE_UNDER_MSAN 1
#endif
#endif
#ifdef LOCKFREE_UNDER_TSAN
extern "C" void __tsan_acquire(void *);
extern "C" void __tsan_release(void *);
#endif
#ifdef LOCKFREE_UNDER_MSAN
extern "C" void __msan_unpoison(const volatile void *, std::size_t);
#endif

namespace lockfree {
inline namespace LOCKFREE_NAMES {
namespace detail {

/// What a push orders before the pop of its value, and a close before a call that it refuses. The
/// library's atomics do it; ThreadSanitizer, which does not see them, is told, of each container by
/// itself.
inline void gives([[maybe_unused]] const void *to) noexcept {
#ifdef LOCKFREE_UNDER_TSAN
    __tsan_release(const_cast<void *>(to));
#endif
}
inline void gets([[maybe_unused]] const void *from) noexcept {
#ifdef LOCKFREE_UNDER_TSAN
    __tsan_acquire(const_cast<void *>(from));
#endif
}

/// A word whose bytes all count as written: MemorySanitizer would report those between a value's
/// members when the word goes to the library, and does not see what the library writes.
inline std::uint64_t defined(std::uint64_t word) noexcept {
#ifdef LOCKFREE_UNDER_MSAN
    __msan_unpoison(&word, sizeof word);
#endif
    return word;
}
inline lockfree_answer defined(lockfree_answer answer) noexcept {
#ifdef LOCKFREE_UNDER_MSAN
    __msan_unpoison(&answer, sizeof answer);
#endif
    return answer;
}
/// The same of an array that the library has written.
inline void written([[maybe_unused]] const void *at, [[maybe_unused]] std::size_t size) noexcept {
#ifdef LOCKFREE_UNDER_MSAN
    __msan_unpoison(at, size);
#endif
}

/// A root or a pass, freed when it ends. An empty one is all zero.
struct handle : lockfree_handle {
    handle() noexcept : lockfree_handle{} {}
    handle(const handle &) = delete;
    handle &operator=(const handle &) = delete;
    ~handle() { free(); }
    void free() noexcept { lockfree_free(this); }
    /// Of a root: takes back a pass that it has split off. One that it does not take is freed.
    void join(handle &pass) noexcept {
        if (lockfree_join(this, &pass) != LOCKFREE_OK) pass.free();
    }
    bool is_empty() const noexcept { return !at; }
    void swap(handle &other) noexcept {
        std::swap(static_cast<lockfree_handle &>(*this), static_cast<lockfree_handle &>(other));
    }
};

/// Goes on with a call until it has another answer than BUSY. The names in parentheses go around
/// lockfree.h's own messages to ThreadSanitizer, which order all containers with one another.
[[gnu::cold, gnu::noinline]] inline lockfree_answer go_on(handle &pass) noexcept {
    lockfree_answer answer;
    do answer = detail::defined((lockfree_go_on)(&pass, UINT64_MAX));
    while (answer.code == LOCKFREE_BUSY);
    return answer;
}
inline lockfree_answer whole(handle &pass, lockfree_answer answer) noexcept {
    answer = detail::defined(answer);
    return __builtin_expect(answer.code == LOCKFREE_BUSY, 0) ? detail::go_on(pass) : answer;
}
/// What the library says at first: BUSY, if the tries were used up.
inline lockfree_answer begin_put(handle &pass, std::uint64_t word) noexcept {
    return defined((lockfree_put)(&pass, word, UINT64_MAX));
}
inline lockfree_answer begin_take(handle &pass) noexcept {
    return defined((lockfree_take)(&pass, UINT64_MAX));
}
inline lockfree_answer put(handle &pass, std::uint64_t word) noexcept {
    return whole(pass, begin_put(pass, word));
}
inline lockfree_answer take(handle &pass) noexcept { return whole(pass, begin_take(pass)); }

inline std::uint64_t word_of(const void *place) noexcept {
    return reinterpret_cast<std::uintptr_t>(place);
}
template <class Place> Place *place_of(std::uint64_t word) noexcept {
    const std::uintptr_t place = word;
    return reinterpret_cast<Place *>(place);
}

}  // namespace detail
}  // namespace LOCKFREE_NAMES
}  // namespace lockfree
