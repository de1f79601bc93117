// A bounded queue, a bounded stack and a ring, and a queue for one producer and one consumer, for
// C++17. They call the functions of lockfree.h, which are proved; these headers are tested. A call
// that Boost.Lockfree has too has its name, and its meaning unless its comment says otherwise. A
// program for Boost's containers switches in three steps, by lockfree_boost.hpp: docs/cpp.md,
// "Moving from Boost". What follows is said of the first three; lockfree/spsc_calls.hpp and
// lockfree/spsc.hpp say what the fourth one, spsc_queue, does.
//
//     lockfree::queue<T, lockfree::capacity<128>> queue;           // or with a capacity from now:
//     lockfree::queue<T, lockfree::fixed_sized<true>> queue(128);   // = lockfree::bounded_queue<T>
//
// Calls. push and pop may be called from any thread, at any time. Each thread that calls gets a
// pass of its own, at its first call of a container, under a lock and with memory; it goes back to
// the container when the thread ends. `split` makes a pass that a thread keeps itself. At most
// 65,534 passes are out at a time, in a ring as many as it is made for.
//
// Values. A value of a trivially copyable type of up to 8 bytes is itself the word that the library
// stores. Any other value lies in a cell of the container. The constructor makes the cells, and a
// thread's first call some more. After that push and pop take no memory, whatever T is;
// lockfree/cells.hpp names the exceptions. A push(std::move(v)) that is refused moves v back.
// The container destroys the values that are left in it.
//
// Answers. push and pop say bool, as Boost's. try_push and try_pop say why not: lockfree::status.
// push_wait and pop_wait wait for room or a value, until the container is closed or a stop says so.
// They poll; lockfree/blocking.hpp has calls that are woken.
//
// Exceptions. Constructors throw std::bad_alloc, std::invalid_argument for a capacity or a limit
// that is out of range (a capacity is 1 to 1,048,573), and std::logic_error if the archive is of
// another version. split, and calls that return no status and whose names do not begin with try_,
// throw std::bad_alloc or std::length_error if there is no memory or no pass, as in a thread's
// first call (pop_wait throws neither). Each has a form that begins with try_, which throws nothing
// of its own, and most of these return a status. With -fno-exceptions a call that would throw ends
// the program; `make` and calls that return a status do not. Files with and without exceptions have
// containers of different types, and may be linked together.
//
// Wear. A queue takes up to 2^42 - 1 values in its life, a stack makes 2^42 - 1 pushes and pops. At
// ten million pushes and pops a second that is five days for a queue, and two and a half for a
// stack. A ring takes 2^41 - 1 times its capacity. Then it is spent: no push succeeds, and no pop
// of a stack; `finish` or the destructor gets what is left. `wear()` says which part is used.
//
// Do not: call from a signal handler, or in the child of a fork of a process with threads; unload a
// shared object whose code is in a call.
#pragma once

#include "lockfree/names.hpp"
#if __cplusplus >= 201703L
#include "lockfree.h"
#include "lockfree/containers.hpp"
#include "lockfree/spsc.hpp"

#define LOCKFREE_VERSION 200  // 0.2.0

static_assert(LOCKFREE_VERSION == LOCKFREE_H_VERSION,
              "lockfree: lockfree.h and lockfree.hpp are of different versions");

namespace lockfree {
inline namespace LOCKFREE_NAMES {

/// A bounded queue: first in, first out. Options: capacity<N>, or fixed_sized<true> and the
/// capacity for the constructor.
template <class T, class... Options> class queue
    : public detail::container<T, detail::kind::queue, Options...> {
    using base = detail::container<T, detail::kind::queue, Options...>;

public:
    using base::base;
};

/// A bounded stack: last in, first out. The same options.
template <class T, class... Options> class stack
    : public detail::container<T, detail::kind::stack, Options...> {
    using base = detail::container<T, detail::kind::stack, Options...>;

public:
    using base::base;
};

/// A bounded queue for a known number of threads, faster than `queue` if several threads use it,
/// with the same calls. Options: capacity<N>, or none and the capacity for the constructor. It also
/// takes a pass_limit: the number of passes that may be out at a time, those of threads and of
/// `split` together. One more gets status::no_pass, or std::length_error. When a thread ends, or a
/// pass of `split` is destroyed, the next thread can have its pass.
///
///     lockfree::ring_queue<T> ring(128, lockfree::pass_limit{8});   // 256 if there is no number
template <class T, class... Options> class ring_queue
    : public detail::container<T, detail::kind::ring, Options...> {
    using base = detail::container<T, detail::kind::ring, Options...>;

public:
    using base::base;
};

template <class T> using bounded_queue = queue<T, fixed_sized<true>>;
template <class T> using bounded_stack = stack<T, fixed_sized<true>>;

/// The passes of the containers, whatever their options: each container's `pass` is one of these.
/// They may be named, and be members, while T is not complete: so a message can hold the pass by
/// which it is answered.
template <class T> using queue_pass = detail::pass_of<T, detail::kind::queue>;
template <class T> using stack_pass = detail::pass_of<T, detail::kind::stack>;
template <class T> using ring_pass = detail::pass_of<T, detail::kind::ring>;

/// Makes a container whose capacity is `room`, for programs without exceptions; `most` are limits
/// as a constructor takes them. Returns null if there is no memory, or no such capacity or limit.
template <class Container, class... Limits>
std::unique_ptr<Container> make(std::size_t room, Limits... most) noexcept {
    return detail::make<Container>(room, typename Container::limits(most...));
}
/// The same of a container with capacity<N>.
template <class Container, class... Limits,
          class = std::enable_if_t<std::is_constructible_v<typename Container::limits, Limits...>>>
std::unique_ptr<Container> make(Limits... most) noexcept {
    return detail::make<Container>(typename Container::limits(most...));
}

}  // namespace LOCKFREE_NAMES
}  // namespace lockfree
#endif
