// A container whose waiting calls sleep until another call wakes them, for threads that wait long.
// Programs without such threads need not include this. A call that does not wait looks once whether
// a thread sleeps, and takes a lock only if one does.
//
//     lockfree::blocking<lockfree::bounded_queue<job>> jobs(128);
#pragma once

#include "../lockfree.hpp"

#include <algorithm>
#include <atomic>
#include <chrono>
#include <condition_variable>
#include <cstddef>
#include <cstdint>
#include <memory>
#include <mutex>
#include <new>
#include <optional>
#include <type_traits>
#include <utility>
#if __cplusplus >= 202002L && __has_include(<stop_token>)
#include <stop_token>
#endif

namespace lockfree {
inline namespace LOCKFREE_NAMES {
namespace detail {

/// The threads that sleep until something may have changed.
class sleepers {
public:
    /// The call before this has made a locked instruction, and so have the threads that sleep. So it
    /// sees them, or they see what it has done.
    void wake_one() noexcept {
        if (tell()) changed.notify_one();
    }
    void wake_all() noexcept {
        if (tell()) changed.notify_all();
    }

private:
    template <class Stop> friend class sleep_of;
    using clock = std::chrono::steady_clock;
    std::mutex lock;
    std::condition_variable changed;
    std::atomic<std::uint64_t> changes{0};
    std::atomic<std::uint32_t> count{0};

    bool tell() noexcept {
        if (count.load() == 0) return false;
        const std::lock_guard<std::mutex> guard(lock);
        changes.fetch_add(1);
        return true;
    }
};

/// The sleep of one waiting call: returns true if the call is to try again. The first time that is
/// at once, with this thread counted among those that sleep; then it is once something has changed
/// since the try before. False once the stop says so.
template <class Stop> class sleep_of {
public:
    sleep_of(sleepers &where, Stop &when) noexcept : all(where), stop(when) {}
    sleep_of(const sleep_of &) = delete;
    sleep_of &operator=(const sleep_of &) = delete;
    ~sleep_of() {
        if (stops) all.count.fetch_sub(1);
    }
    bool operator()() {
        if (!stops) {
            stops.emplace(detail::asks(stop));
            all.count.fetch_add(1);
            woken.emplace(stop, wakes{&all});
            if constexpr (is_duration<given>) end = detail::after(stop);
        } else {
            if ((*stops)()) return false;
            std::unique_lock<std::mutex> guard(all.lock);
            all.changed.wait_until(guard, latest(), [&] { return all.changes.load() != seen; });
        }
        seen = all.changes.load();
        return true;
    }

private:
    using given = std::remove_const_t<Stop>;
    using clock = sleepers::clock;
    struct wakes {
        sleepers *all;
        void operator()() const noexcept { all->wake_all(); }
    };
    struct unwoken {
        template <class... Any> explicit unwoken(Any &&...) noexcept {}
    };
#ifdef __cpp_lib_jthread
    using on_stop = std::conditional_t<std::is_same_v<given, std::stop_token>,
                                       std::stop_callback<wakes>, unwoken>;
#else
    using on_stop = unwoken;
#endif
    sleepers &all;
    Stop &stop;
    std::optional<decltype(detail::asks(std::declval<Stop &>()))> stops;
    std::optional<on_stop> woken;
    clock::time_point end = clock::time_point::max();
    std::uint64_t seen = 0;

    /// Until when to sleep at most. 100 milliseconds are for what wakes nobody: calls of the
    /// container itself, and a call that was refused and had the last place in hand meanwhile. A
    /// function that is asked whether to stop is asked each 10. What is left of a time_point is
    /// computed anew each time, because its clock may be set.
    clock::time_point latest() const {
        using namespace std::chrono_literals;
        constexpr bool is_function = !is_stop_token<given> && !is_time_point<given> &&
                                     !is_duration<given> && !std::is_same_v<given, never_stops>;
        auto last = end;
        if constexpr (is_time_point<given>) {
            const auto now = given::clock::now();
            last = now < stop ? detail::after(stop - now) : clock::now();
        }
        return std::min(last, clock::now() + (is_function ? 10ms : 100ms));
    }
};

/// Those who wait beside a container, for room or for a value. It lives as long as a call that wakes
/// them, which may be longer than the container.
struct waiters {
    sleepers for_room, for_value;
    std::atomic<std::uint32_t> users{1};
};
class share_of_waiters {
public:
    share_of_waiters() noexcept = default;
    explicit share_of_waiters(waiters *made) noexcept : all(made) {}
    share_of_waiters(const share_of_waiters &other) noexcept : all(other.all) {
        if (all) all->users.fetch_add(1, std::memory_order_relaxed);
    }
    share_of_waiters(share_of_waiters &&other) noexcept : all(std::exchange(other.all, nullptr)) {}
    share_of_waiters &operator=(share_of_waiters other) noexcept {
        std::swap(all, other.all);
        return *this;
    }
    ~share_of_waiters() {
        if (all && all->users.fetch_sub(1, std::memory_order_acq_rel) == 1) delete all;
    }
    waiters *operator->() const noexcept { return all; }
    explicit operator bool() const noexcept { return all != nullptr; }

private:
    waiters *all = nullptr;
};

/// The waiting calls of a container or pass, which are given how to wait.
struct waits_of {
    template <class By, class Again, class... Args>
    static status push(By &by, Again &again, Args &&...args) {
        return by.put(again, std::forward<Args>(args)...);
    }
    template <class By, class Again, class F> static status pop(By &by, Again &again, F &&use) {
        return by.take_wait(again, use);
    }
    template <class By, class Again, class Out>
    static batch pop_many(By &by, Again &again, Out &to, std::size_t most) {
        return by.take_waiting(to, most, again);
    }
    // The same of calls that do not wait, without copies of the iterators.
    template <class By, class It>
    static put_range_result<It> push_range(By &by, It &begin, It &end) {
        std::size_t count = 0;
        return by.push_until(begin, end, count);
    }
    template <class By, class Out> static batch pop_up_to(By &by, Out &to, std::size_t most) {
        return by.take_to(to, most);
    }
};

/// The calls of `blocking` and of its passes. They are those of the container, with its statuses,
/// and each wakes those who wait for what it did. Functions of a user may destroy the object that is
/// called, so a call that runs some has a share of those who wait, and looks at nothing else of the
/// object afterwards.
template <class Me, class Inner> class blocking_calls {
    using T = typename Inner::value_type;

public:
    using value_type = T;

    status try_push(const T &value) {
        share_in_call<const T &> all = waiting();
        return pushed(all, inner().try_push(value));
    }
    status try_push(T &&value) {
        share_in_call<T> all = waiting();
        return pushed(all, inner().try_push(std::move(value)));
    }
    template <class D, class = std::enable_if_t<is_unreturnable<T, D>>>
    status try_push(D &&value) = delete;
    template <class... Args> status try_emplace(Args &&...args) {
        share_in_call<Args...> all = waiting();
        return pushed(all, inner().try_emplace(std::forward<Args>(args)...));
    }
    template <class It> put_range_result<It> try_push(It begin, It end) {
        return pushed_many([&] { return waits_of::push_range(inner(), begin, end); });
    }
    template <class R> auto try_push_range(R &&range) {
        return pushed_many([&] { return inner().try_push_range(range); });
    }

    template <class U, class = std::enable_if_t<goes_into<T, U>>> status try_pop(U &to) {
        return popped([&] { return inner().try_pop(to); });
    }
    [[nodiscard]] std::optional<T> try_pop() {
        return popped([&] { return inner().try_pop(); });
    }
    template <class Out> batch try_pop(Out to, std::size_t most) {
        return popped([&] { return waits_of::pop_up_to(inner(), to, most); });
    }
    template <class F> status try_consume_one(F &&use) {
        return popped([&] { return inner().try_consume_one(use); });
    }
    template <class F> batch try_consume_all(F &&use) {
        return popped([&] { return inner().try_consume_all(use); });
    }
    /// Of a stack.
    template <class F> batch try_consume_all_atomic(F &&use) {
        return popped([&] { return inner().try_consume_all_atomic(use); });
    }
    template <class F> batch try_consume_all_atomic_reversed(F &&use) {
        return popped([&] { return inner().try_consume_all_atomic_reversed(use); });
    }

    /// As the container's calls of these names, with the same stops and statuses: they wait until
    /// there is room or a value, the container is closed or spent, or the stop says so. The value
    /// of a push is made once, before the wait.
    template <class Stop = const never_stops>
    status push_wait(const T &value, Stop &&stop = never_stops()) {
        return push_until(stop, value);
    }
    template <class Stop = const never_stops>
    status push_wait(T &&value, Stop &&stop = never_stops()) {
        return push_until(stop, std::move(value));
    }
    template <class D, class... Stop, class = std::enable_if_t<is_unreturnable<T, D>>>
    status push_wait(D &&value, Stop &&...) = delete;
    template <class... Args> status emplace_wait(Args &&...args) {
        const never_stops stop;
        return push_until(stop, std::forward<Args>(args)...);
    }
    template <class Stop, class... Args> status emplace_wait_until(Stop &&stop, Args &&...args) {
        return push_until(stop, std::forward<Args>(args)...);
    }
    template <
        class U, class Stop = const never_stops,
        class = std::enable_if_t<goes_into<T, U> && !std::is_integral_v<std::decay_t<Stop>>>>
    status pop_wait(U &to, Stop &&stop = never_stops()) {
        return pop_until(stop, [&](T &value) { detail::assign(value, to); });
    }
    [[nodiscard]] std::optional<T> pop_wait() { return pop_wait_until(never_stops()); }
    template <class Stop> [[nodiscard]] std::optional<T> pop_wait_until(Stop &&stop) {
        std::optional<T> to;
        static_cast<void>(pop_until(stop, [&](T &value) { to.emplace(std::move(value)); }));
        return to;
    }
    template <class Out, class Stop = const never_stops>
    batch pop_wait(Out to, std::size_t most, Stop &&stop = never_stops()) {
        const share_of_waiters all = waiting();
        sleep_of<std::remove_reference_t<Stop>> again(all->for_value, stop);
        return popped([&] { return waits_of::pop_many(inner(), again, to, most); });
    }

    status try_close() noexcept {
        return ended([&]() noexcept { return inner().try_close(); });
    }
    status try_shut() noexcept {
        return ended([&]() noexcept { return inner().try_shut(); });
    }
    bool close() { return told(try_close()); }
    bool shut() { return told(try_shut()); }

private:
    auto &inner() noexcept { return static_cast<Me &>(*this).calls_of(); }
    const share_of_waiters &waiting() noexcept { return static_cast<Me &>(*this).all_waiters(); }

    /// A share, or if the call runs no function of a user the object's own.
    template <class... Args> using share_in_call =
        std::conditional_t<is_plain_word<T, Args...>, const share_of_waiters &,
                           const share_of_waiters>;

    static status pushed(const share_of_waiters &all, status what) noexcept {
        if (what == status::ok) all->for_value.wake_one();
        if (what == status::spent) all->for_value.wake_all();  // (nothing comes any more)
        return what;
    }
    template <class Call> auto pushed_many(Call &&call) {
        const share_of_waiters all = waiting();
        auto result = call();
        all->for_value.wake_all();
        return result;
    }
    /// A pop that found nothing may have had a place in hand that a push wanted.
    template <class Call> auto popped(Call &&call) {
        struct wakes {
            const share_of_waiters all;
            const bool many;
            ~wakes() { many ? all->for_room.wake_all() : all->for_room.wake_one(); }
        };
        const wakes at_end{waiting(), std::is_same_v<decltype(call()), batch>};
        return call();
    }
    template <class Call> status ended(Call &&call) noexcept {
        const share_of_waiters all = waiting();
        const status what = call();
        all->for_room.wake_all();
        all->for_value.wake_all();
        return what;
    }
    template <class Stop, class... Args> status push_until(Stop &stop, Args &&...args) {
        const share_of_waiters all = waiting();
        sleep_of<Stop> again(all->for_room, stop);
        return pushed(all, waits_of::push(inner(), again, std::forward<Args>(args)...));
    }
    template <class Stop, class F> status pop_until(Stop &stop, F &&use) {
        const share_of_waiters all = waiting();
        sleep_of<Stop> again(all->for_value, stop);
        return popped([&] { return waits_of::pop(inner(), again, use); });
    }
    static bool told(status what) {
        detail::throw_if_not_made(what);
        return what == status::ok;
    }
};

/// One thread's own way to a `blocking`: of its `split`. It may outlive it, as a pass of the
/// container may outlive that.
template <class Container> class blocking_pass
    : public blocking_calls<blocking_pass<Container>, typename Container::pass> {
public:
    /// An empty pass: each of its calls returns no_pass.
    blocking_pass() noexcept = default;
    /// Whether it is not empty.
    explicit operator bool() const noexcept { return static_cast<bool>(by); }
    /// The container's own pass, for calls that neither push nor pop nor close.
    typename Container::pass &pass() noexcept { return by; }

private:
    template <class> friend class lockfree::blocking;
    template <class, class> friend class blocking_calls;
    typename Container::pass by;
    share_of_waiters all{none()};

    blocking_pass(typename Container::pass made, const share_of_waiters &with) noexcept
        : by(std::move(made)), all(by ? with : none()) {}
    /// Those of empty passes: nobody. One more user is counted, so that nobody deletes them.
    static const share_of_waiters &none() noexcept {
        static waiters nobody{{}, {}, {2}};
        static const share_of_waiters share(&nobody);
        return share;
    }
    auto &calls_of() noexcept { return by; }
    const share_of_waiters &all_waiters() noexcept { return all ? all : none(); }
};

}  // namespace detail

/// A container, and the threads that wait beside it. Any thread may make any of its calls. Threads
/// that push and pop call this object or its passes, and not the container itself: those calls wake
/// nobody, so a thread that sleeps notices them after up to 100 milliseconds.
template <class Container> class blocking
    : public detail::blocking_calls<blocking<Container>, Container> {
public:
    using value_type = typename Container::value_type;
    using limits = typename Container::limits;
    using opened = typename Container::opened;
    using pass = detail::blocking_pass<Container>;

    /// The constructors of the container, which also throw std::bad_alloc if there is no memory for
    /// what sleeping takes. `make<blocking<C>>(..)` returns null instead.
    blocking() : all(new detail::waiters) {}
    template <class... Limits,
              class = std::enable_if_t<std::is_constructible_v<Container, std::size_t, Limits...>>>
    explicit blocking(std::size_t room, Limits... most)
        : inner(room, most...), all(new detail::waiters) {}
    template <class First, class... More,
              class = std::enable_if_t<std::is_class_v<First> &&
                                       std::is_constructible_v<Container, First, More...>>>
    explicit blocking(First limit, More... more)
        : inner(limit, more...), all(new detail::waiters) {}
    explicit blocking(detail::adopted<opened> by_make) noexcept
        : inner(std::move(by_make)), all(new (std::nothrow) detail::waiters) {}
    blocking(const blocking &) = delete;
    blocking &operator=(const blocking &) = delete;

    /// The container, for calls that neither push nor pop nor close: size, capacity, wear, finish.
    Container &container() noexcept { return inner; }
    const Container &container() const noexcept { return inner; }

    /// A pass that one thread keeps, with these calls. As the container's `split`, and with the same
    /// exceptions; try_split's is empty if there is no memory or no pass.
    [[nodiscard]] pass split() { return pass(inner.split(), all); }
    [[nodiscard]] pass try_split() noexcept { return pass(inner.try_split(), all); }
    /// Gives back this thread's pass, as the container's `leave`.
    void leave() noexcept { inner.leave(); }

private:
    template <class, class> friend class detail::blocking_calls;
    template <class Made, class... Room>
    friend std::unique_ptr<Made> detail::make(Room... room) noexcept;
    Container inner;
    detail::share_of_waiters all;

    template <class... Room>
    static std::uint32_t make_core(opened &to, Room... room) noexcept {
        return Container::make_core(to, room...);
    }
    static void drop(opened &made) noexcept { Container::drop(made); }
    bool is_made() const noexcept { return static_cast<bool>(all); }
    Container &calls_of() noexcept { return inner; }
    const detail::share_of_waiters &all_waiters() noexcept { return all; }
};

}  // namespace LOCKFREE_NAMES
}  // namespace lockfree
