// What a container says of itself, and how it is closed.
#pragma once

#include "status.hpp"
#include "values.hpp"

#include <cstddef>
#include <cstdint>

namespace lockfree {
inline namespace LOCKFREE_NAMES {
namespace detail {

/// Each call that may throw std::bad_alloc or std::length_error, since it may be a thread's first
/// call of the container, has a form that begins with try_ and throws nothing: it returns ok,
/// no_memory or no_pass, and puts its answer into `to`. Of try_close and try_shut the answer is the
/// status: closed or shut if it was so before.
template <class Me, kind K> class gauges {
public:
    /// No push follows. Pops go on until it is empty, and then say closed. Whether this call closed
    /// it.
    bool close() { return said(try_close()) == status::ok; }
    /// ok if this call closed it, closed if it was closed before; no_memory, no_pass.
    status try_close() noexcept {
        core *const of = me().shared();
        if (of) gives(of);
        const status what = ask([](handle &pass) { return (lockfree_close)(&pass, UINT64_MAX); });
        if (!is_not_made(what)) of->closed.store(true, std::memory_order_release);
        return what;
    }
    /// No pop follows; what is left ends with the container, or is handed out by `finish`. Whether
    /// this call shut it.
    bool shut() { return said(try_shut()) == status::ok; }
    /// ok if this call shut it, shut if it was shut before; no_memory, no_pass; closed after
    /// `finish`.
    status try_shut() noexcept {
        return ask([](handle &pass) { return (lockfree_shut)(&pass, UINT64_MAX); });
    }

    /// Whether it was empty at some time in the call.
    bool empty() { return answered<bool>(&gauges::try_empty); }
    status try_empty(bool &to) noexcept {
        const status what = ask([](handle &pass) { return (lockfree_look)(&pass, UINT64_MAX); });
        return answer(what, to, what != status::ok);
    }
    /// How many values a queue or a ring held at one moment of the call, 0 to its capacity. It
    /// begins again while others pop. How many a stack holds, exactly if nobody calls meanwhile:
    /// else calls that are under way may count or not. It looks at each pass that was ever out at a
    /// time.
    std::size_t size() { return answered<std::size_t>(&gauges::try_size); }
    status try_size(std::size_t &to) noexcept {
        if constexpr (K == kind::stack) {
            const core *const of = me().shared();
            return answer(of ? status::ok : status::no_pass, to, of ? of->held() : 0);
        } else {
            std::uint64_t count = 0;
            const status what =
                tell(count, [](handle &pass) { return (lockfree_count)(&pass, UINT64_MAX); });
            const std::size_t held = count;
            return answer(what, to, held);
        }
    }
    /// Whether it held as many values as fit, by the same count. A push may be refused before: a
    /// queue or a stack is full to it while other calls have the last places in hand.
    bool full() { return answered<bool>(&gauges::try_full); }
    status try_full(bool &to) noexcept {
        std::size_t count = 0;
        const status what = try_size(count);
        return answer(what, to, count >= capacity());
    }
    /// Whether it was closed at one moment of the call.
    bool is_closed() { return answered<bool>(&gauges::try_is_closed); }
    status try_is_closed(bool &to) noexcept {
        const core *const of = me().shared();
        if (of && of->closed.load(std::memory_order_acquire)) return answer(status::ok, to, true);
        std::uint64_t used = 0;
        const status what = gauge(used);
        return answer(what, to, what == status::closed);
    }
    /// How many values fit.
    std::size_t capacity() const noexcept {
        const core *const of = me().shared();
        return of ? of->room : 0;
    }
    /// True: no push and no pop waits for another thread, except for a lock in these cases:
    /// - a thread calls for the first time,
    /// - values lie in cells, and more than 64 threads have called a queue or a stack,
    /// - values of a ring have 1 KiB or more, and its capacity and three times its passes are
    ///   together more than 1,048,572,
    /// - a push makes a cell,
    /// - the call is made in the function of a consume_all_atomic that found no memory for the
    ///   values,
    /// - the call is made in a destructor of a thread_local object.
    bool is_lock_free() const noexcept { return true; }
    static constexpr bool is_always_lock_free = true;

    /// The part of its life that the container had used at one moment of the call, from 0 to 1. A
    /// queue takes up to 2^42 - 1 values in its life, a stack makes 2^42 - 1 pushes and pops, a
    /// ring takes 2^41 - 1 times its capacity. Then it is spent: no push succeeds, and no pop of a
    /// stack. 1 after `finish`.
    double wear() { return answered<double>(&gauges::try_wear); }
    status try_wear(double &to) noexcept {
        const core *const of = me().shared();
        if (of && of->spent.load(std::memory_order_acquire)) return answer(status::ok, to, 1.0);
        std::uint64_t used = 0;
        const status what = gauge(used);
        return answer(what, to, of ? part(used, *of) : 0.0);
    }

private:
    Me &me() noexcept { return static_cast<Me &>(*this); }
    const Me &me() const noexcept { return static_cast<const Me &>(*this); }

    static status said(status what) {
        throw_if_not_made(what);
        return what;
    }
    template <class Answer> static status answer(status what, Answer &to, Answer found) noexcept {
        if (is_not_made(what)) return what;
        to = found;
        return status::ok;
    }
    template <class Answer> Answer answered(status (gauges::*call)(Answer &) noexcept) {
        Answer found{};
        throw_if_not_made((this->*call)(found));
        return found;
    }

    /// Asks, and tells the number that is answered.
    template <class Question>
    status tell(std::uint64_t &number, Question &&question) noexcept {
        return me().with([&](core &of, seat &by) {
            const lockfree_answer answer = detail::whole(by.pass, question(by.pass));
            number = answer.value;
            return detail::refused(of, answer.code);
        });
    }
    template <class Question> status ask(Question &&question) noexcept {
        std::uint64_t number = 0;
        return tell(number, question);
    }
    /// How many tags are used, in a ring how many values were put, and ok or closed.
    status gauge(std::uint64_t &used) noexcept {
        return tell(used, [](handle &pass) { return (lockfree_gauge)(&pass, UINT64_MAX); });
    }
    static double part(std::uint64_t used, const core &of) noexcept {
        const double life = static_cast<double>(of.life);
        const double whole_life = K == kind::queue  ? life - 1
                                  : K == kind::ring ? life * static_cast<double>(of.room)
                                                    : life;
        const double of_life = static_cast<double>(used) / whole_life;
        return of_life < 1 ? of_life : 1;
    }
};

}  // namespace detail
}  // namespace LOCKFREE_NAMES
}  // namespace lockfree
