// How long a waiting call waits, and how.
#pragma once

#include "options.hpp"

#include <algorithm>
#include <chrono>
#include <thread>
#include <type_traits>
#include <utility>

namespace lockfree {
inline namespace LOCKFREE_NAMES {

/// The stop of a call that waits for ever.
struct never_stops {
    constexpr bool operator()() const noexcept { return false; }
};

namespace detail {

template <class T, class = void> inline constexpr bool is_stop_token = false;
template <class T> inline constexpr bool
    is_stop_token<T, std::void_t<decltype(std::declval<const T &>().stop_requested())>> = true;

template <class T> inline constexpr bool is_time_point = false;
template <class Clock, class Duration>
inline constexpr bool is_time_point<std::chrono::time_point<Clock, Duration>> = true;

template <class T> inline constexpr bool is_duration = false;
template <class Rep, class Period>
inline constexpr bool is_duration<std::chrono::duration<Rep, Period>> = true;

/// The time so long after now; now itself if it is before, and the end of time if that is later
/// than any.
template <class Rep, class Period>
std::chrono::steady_clock::time_point after(const std::chrono::duration<Rep, Period> &wait) {
    using clock = std::chrono::steady_clock;
    using seconds = std::chrono::duration<double>;
    const auto now = clock::now();
    if (wait <= wait.zero()) return now;
    if (seconds(wait) >= seconds(clock::time_point::max() - now)) return clock::time_point::max();
    return now + std::chrono::duration_cast<clock::duration>(wait);
}

/// Asks a stop: a std::stop_token (or what has its stop_requested), a time_point, a duration from
/// when the wait begins, or a function that says true when it is to stop.
template <class Stop> auto asks(Stop &stop) {
    using given = std::remove_const_t<Stop>;
    if constexpr (is_stop_token<given>) {
        return [&stop] { return static_cast<bool>(stop.stop_requested()); };
    } else if constexpr (is_time_point<given>) {
        return [&stop] { return given::clock::now() >= stop; };
    } else if constexpr (is_duration<given>) {
        return [end = detail::after(stop)] { return std::chrono::steady_clock::now() >= end; };
    } else {
        static_assert(std::is_invocable_r_v<bool, Stop &>,
                      "lockfree: a stop is a std::stop_token, a time_point, a duration, or a "
                      "function that says true "
                      "when it is to stop");
        return [&stop] { return static_cast<bool>(stop()); };
    }
}

/// Passes the time between two tries: at first a hint to the processor, then the turn to another
/// thread, and at last sleep, of 50 microseconds, and each time twice that, up to 1 millisecond. So
/// a long wait takes some 0.2 % of a processor.
class patience {
public:
    void wait() {
        if (rounds < spins) {
            ++rounds;
#if defined(__x86_64__)
            __builtin_ia32_pause();
#endif
        } else if (rounds < spins + yields) {
            ++rounds;
            std::this_thread::yield();
        } else {
            std::this_thread::sleep_for(sleep);
            sleep = std::min(2 * sleep, std::chrono::microseconds(1000));
        }
    }

private:
    static constexpr unsigned spins = 64, yields = 1000;
    unsigned rounds = 0;
    std::chrono::microseconds sleep{50};
};

/// Whether to try again, once a try was refused: not if the stop says so. It has waited then.
template <class Ask> auto waits_for(Ask &&ask) {
    return [ask = std::forward<Ask>(ask), pause = patience()]() mutable {
        if (ask()) return false;
        pause.wait();
        return true;
    };
}

/// The answer to it of a call that does not wait.
inline constexpr auto tries_once = [] { return false; };

}  // namespace detail
}  // namespace LOCKFREE_NAMES
}  // namespace lockfree
