// boost::lockfree's queue, stack and spsc_queue, made of the proved ones, instead of
// <boost/lockfree/queue.hpp>, stack.hpp and spsc_queue.hpp, which are empty if they are included
// after it. docs/cpp.md, "Moving from Boost", has the three steps, and what differs though it
// compiles: above all `while (!queue.push(x));`, which does not end if the queue is closed or spent.
// Write push_wait.
//
// What cannot be had here is refused when it is compiled, with the reason: containers that grow,
// allocators, reserve, options that are not known or are given twice. Boost's other headers go with
// it, before or after: its policies, which are used here if Boost is there.
#pragma once

#if defined(BOOST_LOCKFREE_FIFO_HPP_INCLUDED) || defined(BOOST_LOCKFREE_STACK_HPP_INCLUDED) || \
    defined(BOOST_LOCKFREE_SPSC_QUEUE_HPP_INCLUDED)
#error "lockfree_boost.hpp: Boost's own queue, stack or spsc_queue is included already: \
include this instead"
#else
#define BOOST_LOCKFREE_FIFO_HPP_INCLUDED
#define BOOST_LOCKFREE_STACK_HPP_INCLUDED
#define BOOST_LOCKFREE_SPSC_QUEUE_HPP_INCLUDED

#include "lockfree.hpp"
#if __cplusplus >= 201703L

#if __has_include(<boost/lockfree/policies.hpp>)
#include <boost/lockfree/policies.hpp>

namespace lockfree {
inline namespace LOCKFREE_NAMES {
namespace detail {

template <std::size_t N> struct option<::boost::lockfree::capacity<N>> : option<capacity<N>> {};
template <bool Fixed> struct option<::boost::lockfree::fixed_sized<Fixed>>
    : option<fixed_sized<Fixed>> {};
template <class Alloc> struct option<::boost::lockfree::allocator<Alloc>>
    : option<allocator<Alloc>> {};

}  // namespace detail
}  // namespace LOCKFREE_NAMES
}  // namespace lockfree
#else
namespace boost {
namespace lockfree {

using ::lockfree::allocator;
using ::lockfree::capacity;
using ::lockfree::fixed_sized;

}  // namespace lockfree
}  // namespace boost
#endif

// (Boost has this from 1.82 on.)
#if __has_include(<boost/lockfree/detail/uses_optional.hpp>)
#include <boost/lockfree/detail/uses_optional.hpp>
#else
namespace boost {
namespace lockfree {

using ::lockfree::uses_optional;
using ::lockfree::uses_optional_t;

}  // namespace lockfree
}  // namespace boost
#endif

namespace boost {
namespace lockfree {

template <class T, class... Options> class queue : public ::lockfree::queue<T, Options...> {
    using base = ::lockfree::queue<T, Options...>;

public:
    using base::base;
    using base::pop;
    std::optional<T> pop(uses_optional_t) { return base::pop(); }
};

template <class T, class... Options> class stack : public ::lockfree::stack<T, Options...> {
    using base = ::lockfree::stack<T, Options...>;

public:
    using base::base;
    using base::pop;
    std::optional<T> pop(uses_optional_t) { return base::pop(); }
};

template <class T, class... Options> class spsc_queue
    : public ::lockfree::spsc_queue<T, Options...> {
    using base = ::lockfree::spsc_queue<T, Options...>;

public:
    using base::base;
    using base::pop;
    /// Boost's: destroys the oldest value. Whether there was one.
    bool pop() { return base::consume_one([](T &) {}); }
    std::optional<T> pop(uses_optional_t) { return base::pop(); }
};

}  // namespace lockfree
}  // namespace boost
#endif
#endif
