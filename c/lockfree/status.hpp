// The statuses of calls, and the exceptions of calls that say bool.
#pragma once

#include "../lockfree.h"
#include "names.hpp"

#include <cstddef>
#include <cstdint>
#include <cstdlib>
#include <new>
#include <stdexcept>

namespace lockfree {
inline namespace LOCKFREE_NAMES {

/// What became of a call. The numbers are lockfree.h's codes, but for `stopped`.
enum class [[nodiscard]] status : std::uint32_t{
    ok = LOCKFREE_OK,
    full = LOCKFREE_FULL,            ///< A push: no room now.
    empty = LOCKFREE_EMPTY,          ///< A pop: no value now; more may come, unless it is spent.
    closed = LOCKFREE_CLOSED,        ///< A push: closed. A pop: closed, and no value is left.
    shut = LOCKFREE_SHUT,            ///< A pop: shut. Nothing comes out any more.
    spent = LOCKFREE_SPENT,          ///< The container is worn out: see `wear()`.
    no_memory = LOCKFREE_NO_MEMORY,  ///< There was no memory for a pass, a cell or a range.
    no_pass =
        LOCKFREE_NO_PASS,  ///< As many passes are out as there may be; or the pass is an empty one.
    shared = LOCKFREE_SHARED,  ///< finish: a pass of `split()` is still out.
    stopped = 100  ///< The stop of a waiting call said so, or the call's own function has ended the
                   ///< pass or the container.
};

/// The name of a status, as in the list above. Never null.
constexpr const char *to_string(status what) noexcept {
    switch (what) {
    case status::ok: return "ok";
    case status::full: return "full";
    case status::empty: return "empty";
    case status::closed: return "closed";
    case status::shut: return "shut";
    case status::spent: return "spent";
    case status::no_memory: return "no_memory";
    case status::no_pass: return "no_pass";
    case status::shared: return "shared";
    case status::stopped: return "stopped";
    }
    return "unknown";
}

/// What became of a call with many values: how many it handled, and why not more.
struct [[nodiscard]] batch {
    std::size_t count;
    status what;
};

/// What became of a push of a range: the first value that was not put, and why it was not; `ok` if
/// all were.
template <class It> struct [[nodiscard]] put_range_result {
    It next;
    status what;
};

namespace detail {

/// The status of a code. After `finish` the handles are empty, and each call is refused as by a
/// closed container. A handle has a call under way only in the function of a consume_all_atomic
/// for which there was no memory.
constexpr status status_of(std::uint32_t code) noexcept {
    switch (code) {
    case LOCKFREE_NO_HANDLE:
    case LOCKFREE_OTHER_HANDLE: return status::closed;
    case LOCKFREE_UNDER_WAY: return status::no_memory;
    default: return static_cast<status>(code);
    }
}

/// Throws what a constructor, `split` or a call that says bool throws for a code. OK throws
/// nothing.
inline void throw_for(std::uint32_t code) {
    switch (code) {
    case LOCKFREE_OK: return;
    case LOCKFREE_NO_MEMORY: LOCKFREE_THROW(std::bad_alloc());
    case LOCKFREE_BAD_CAPACITY:
        LOCKFREE_THROW(
            std::invalid_argument("lockfree: a capacity is 1 to 1,048,573, a tag limit 2 to 2^42 - "
                                  "1; a ring has 1 to 65,534 passes, with "
                                  "the capacity at most 1,048,574, and 1 to 2^41 - 1 laps; an "
                                  "spsc_queue has a capacity of 1 to 4,294,967,295"));
    case LOCKFREE_NO_PASS:
        LOCKFREE_THROW(std::length_error(
            "lockfree: all passes of the container are out, or this one is empty"));
    default:
        LOCKFREE_THROW(
            std::logic_error("lockfree: the archive is of another version than the headers"));
    }
}

/// Whether a call could not be made.
constexpr bool is_not_made(status what) noexcept {
    return what == status::no_memory || what == status::no_pass;
}

/// Throws if a thread's first call could not be made, since there was no memory or no pass.
inline void throw_if_not_made(status what) {
    if (__builtin_expect(is_not_made(what), 0)) throw_for(static_cast<std::uint32_t>(what));
}

}  // namespace detail
}  // namespace LOCKFREE_NAMES
}  // namespace lockfree
