// The containers and their passes: who has a share of a core, and by which seat it is called.
#pragma once

#include "bulk.hpp"
#include "calls.hpp"
#include "folds.hpp"
#include "threads.hpp"

#include <cstddef>
#include <memory>
#include <new>
#include <type_traits>
#include <utility>

namespace lockfree {
inline namespace LOCKFREE_NAMES {

template <class Container> class blocking;

namespace detail {

/// All calls of a container and of its passes.
template <class Me, class T, kind K>
class most_calls : public calls<Me, T, K>, public gauges<Me, K>, public bulk<Me, T, K> {
public:
    using bulk<Me, T, K>::bounded_push;
    using bulk<Me, T, K>::pop;
    using bulk<Me, T, K>::pop_wait;
    using bulk<Me, T, K>::push;
    using bulk<Me, T, K>::try_pop;
    using bulk<Me, T, K>::try_push;
    using calls<Me, T, K>::bounded_push;
    using calls<Me, T, K>::pop;
    using calls<Me, T, K>::pop_wait;
    using calls<Me, T, K>::push;
    using calls<Me, T, K>::try_pop;
    using calls<Me, T, K>::try_push;
};
template <class Me, class T, kind K> class all_calls : public most_calls<Me, T, K> {};
template <class Me, class T>
class all_calls<Me, T, kind::stack> : public most_calls<Me, T, kind::stack>, public folds<Me, T> {};

/// One thread's own way to a container: of `split`. It moves, and has no copy. When it ends it goes
/// back to its container, under a lock. It may outlive the container and still works then; values
/// that it still pushes end with the last pass.
template <class T, kind K> class pass_of : public all_calls<pass_of<T, K>, T, K> {
public:
    using value_type = T;
    using size_type = std::size_t;

    /// An empty pass: each of its calls says no_pass.
    pass_of() noexcept = default;
    pass_of(pass_of &&other) noexcept
        : of(std::exchange(other.of, nullptr)), by(std::exchange(other.by, nullptr)) {}
    pass_of &operator=(pass_of &&other) noexcept {
        pass_of(std::move(other)).swap(*this);
        return *this;
    }
    ~pass_of() {
        if (of) detail::leave<T>(*of, by);
    }
    void swap(pass_of &other) noexcept {
        std::swap(of, other.of);
        std::swap(by, other.by);
    }
    /// Whether it is not empty.
    explicit operator bool() const noexcept { return of != nullptr; }

private:
    template <class, kind, class...> friend class container;
    template <class, class, kind> friend class calls;
    template <class, class, kind> friend class bulk;
    template <class, kind> friend class gauges;
    template <class, class> friend class folds;
    core *of = nullptr;
    seat *by = nullptr;  // null if `of` is

    /// A seat of the core, and a share in it.
    pass_of(core &from, seat &with) noexcept : of(&from), by(&with) { from.add_user(); }

    core *shared() const noexcept { return of; }
    /// Once the call is made nothing here is looked at: it may have ended or moved this pass.
    template <class F> [[gnu::always_inline]] result_of_call<F> with(F &&call) {
        if (__builtin_expect(by != nullptr, 1)) return call(*of, *by);
        return not_made<result_of_call<F>>(LOCKFREE_NO_PASS);
    }
};

template <class Alloc, class = void> inline constexpr bool is_allocator = false;
template <class Alloc> inline constexpr bool
    is_allocator<Alloc, std::void_t<decltype(std::declval<Alloc &>().allocate(std::size_t{1}))>> =
        true;

/// What `make` has opened, and is a container's from now on.
template <class Opened> struct adopted {
    Opened from;
};

template <class T, kind K, class... Options> class container
    : public all_calls<container<T, K, Options...>, T, K> {
    using given = options<Options...>;
    static_assert(given::sound());
    static_assert(
        std::is_object_v<T> && !std::is_const_v<T> && !std::is_volatile_v<T> && !std::is_array_v<T>,
        "lockfree: values are of an object type, with no const or volatile, and no array");
    static_assert(std::is_nothrow_destructible_v<T>,
                  "lockfree: the destructor of a value throws nothing");
    static_assert(!given::sizes || (given::size >= 1 && given::size <= 1048573),
                  "lockfree: a capacity is 1 to 1,048,573");
    using base = all_calls<container, T, K>;
    static constexpr bool sized = given::sizes;

public:
    using value_type = T;
    using size_type = std::size_t;
    using pass = pass_of<T, K>;
    using limits = detail::limits<K>;
    using opened = core *;

    /// With capacity<N>. Takes all memory that pushes and pops need, whatever T is, but for a
    /// thread's first call and what cells.hpp names. std::bad_alloc, std::logic_error, and of
    /// limits std::invalid_argument.
    template <bool Sized = sized, class = std::enable_if_t<Sized>> container()
        : container(adopted<opened>{made(given::size, limits())}) {}
    template <class First, class... More, bool Sized = sized,
              class = std::enable_if_t<Sized && are_limits<K, First, More...>>>
    explicit container(First limit, More... more)
        : container(adopted<opened>{made(given::size, limits(limit, more...))}) {}
    /// With fixed_sized<true>, and a ring without capacity<N>. Room for 1 to 1,048,573 values, of a
    /// ring with the usual passes for at most 1,048,318. std::bad_alloc, std::invalid_argument,
    /// std::logic_error.
    template <class... Limits, bool Sized = sized,
              class = std::enable_if_t<!Sized && are_limits<K, Limits...>>>
    explicit container(size_type room, Limits... most)
        : container(adopted<opened>{made(room, limits(most...))}) {
        static_assert(given::fixed || Sized || K == kind::ring,
                      "lockfree: Boost's container of a size without fixed_sized<true> grows, and "
                      "none here does: "
                      "say fixed_sized<true>, or bounded_queue<T> or bounded_stack<T>");
    }
    /// Boost's with an allocator, and refused when compiled.
    template <class Alloc, class = std::enable_if_t<is_allocator<Alloc>>>
    explicit container(const Alloc &) : container(adopted<opened>{nullptr}) {
        static_assert(never_compiled<Alloc>, LOCKFREE_NO_ALLOCATOR);
    }
    template <class Alloc, class = std::enable_if_t<is_allocator<Alloc>>>
    container(size_type, const Alloc &) : container(adopted<opened>{nullptr}) {
        static_assert(never_compiled<Alloc>, LOCKFREE_NO_ALLOCATOR);
    }
    explicit container(adopted<opened> by_make) noexcept : of(by_make.from), home(home_of(of)) {}
    container(const container &) = delete;
    container &operator=(const container &) = delete;
    /// No thread calls any more but by passes of `split`. All values that are left end, whoever
    /// pushed them; if passes are out and it is shut, or is a spent stack, with the last of these.
    ~container() {
        if (!of->has_one_user()) end_left<T>(*of);
        seat &kept = of->kept_seat();
        if (kept.uses != 0) {  // (the function of a `finish` ends it: which has a share then, too)
            of->add_user();
            kept.is_left = true;
        }
        detail::leave<T>(*of, taken_seat(*of));
    }

    /// What the passes say, too. A container may be asked by several threads at a time, so these
    /// calls are const; a pass makes one call at a time, so that there they are not.
    bool empty() const { return asked().base::empty(); }
    std::size_t size() const { return asked().base::size(); }
    bool full() const { return asked().base::full(); }
    bool is_closed() const { return asked().base::is_closed(); }
    double wear() const { return asked().base::wear(); }
    status try_empty(bool &to) const noexcept { return asked().base::try_empty(to); }
    status try_size(std::size_t &to) const noexcept { return asked().base::try_size(to); }
    status try_full(bool &to) const noexcept { return asked().base::try_full(to); }
    status try_is_closed(bool &to) const noexcept { return asked().base::try_is_closed(to); }
    status try_wear(double &to) const noexcept { return asked().base::try_wear(to); }

    /// A pass that a thread keeps itself, which spares each call the look for it. Made under a
    /// lock; takes memory if more are out than ever before. At most 65,534 are out at a time, with
    /// those of the threads that have called; of a ring as many as its pass_limit says. try_split's
    /// is empty if there is no memory or no pass; split throws std::bad_alloc or std::length_error.
    /// After `finish` it is a pass whose calls say closed.
    [[nodiscard]] pass split() {
        seat *by = nullptr;
        throw_for(of->take_seat(by));
        return pass(*of, *by);
    }
    [[nodiscard]] pass try_split() noexcept {
        seat *by = nullptr;
        return of->take_seat(by) == LOCKFREE_OK ? pass(*of, *by) : pass();
    }

    /// Ends the container, and hands each value that is left to `use`, as consume_one does: a
    /// queue's from the front, a stack's from the top; also of a container that is spent or shut.
    /// No other thread calls. `ok`, and from then on each call says closed; or `shared` if a pass
    /// of `split` is out, and nothing has changed. If `use` throws, the values that it has not got
    /// stay, for `finish` again.
    template <class F> status finish(F &&use) {
        if (!of->has_one_user()) return status::shared;
        core &from = *of;
        const in_use<T> user(from, from.kept_seat());
        from.finish([&](seat &by, std::uint64_t word) {
            detail::use_word<T>(from, by, word, [&](T &value) { detail::hand_over(use, value); });
        });
        return status::ok;
    }

    /// Gives back this thread's pass now, instead of at the end of the thread. The next call of the
    /// thread gets one as its first call did: so a pool's thread leaves a ring's pass to others. If
    /// the thread has none, nothing changes. In the function of a call by that pass it goes back
    /// when the call returns.
    void leave() noexcept {
        seat *const by = taken_seat(*of);
        if (!by) return;
        of->add_user();
        detail::leave<T>(*of, by);
    }

    /// For a thread that calls alone, as Boost's: the same calls here.
    bool unsynchronized_push(const T &value) { return base::push(value); }
    bool unsynchronized_push(T &&value) { return base::push(std::move(value)); }
    template <class D, class = std::enable_if_t<is_unreturnable<T, D>>>
    bool unsynchronized_push(D &&value) = delete;
    template <class It> It unsynchronized_push(It begin, It end) { return base::push(begin, end); }
    template <class U> bool unsynchronized_pop(U &to) { return base::pop(to); }

    /// Boost's, and refused when compiled.
    template <class N> void reserve(N) {
        static_assert(never_compiled<N>,
                      "lockfree: no container here grows, so there is nothing to reserve: its "
                      "constructor takes all memory");
    }
    template <class N> void reserve_unsafe(N) {
        static_assert(never_compiled<N>,
                      "lockfree: no container here grows, so there is nothing to reserve: its "
                      "constructor takes all memory");
    }

private:
    template <class, class, kind> friend class calls;
    template <class, class, kind> friend class bulk;
    template <class, kind> friend class gauges;
    template <class, class> friend class folds;
    template <class Container, class... Room>
    friend std::unique_ptr<Container> make(Room... room) noexcept;
    template <class> friend class lockfree::blocking;
    core *const of;
    const std::size_t home;

    bool is_made() const noexcept { return true; }
    static void drop(core *made) noexcept { drop_user<T>(*made); }

    static std::uint32_t make_core(core *&to, size_type room, limits most) noexcept {
        return core::make(room, layout_of<T>(), most, to);
    }
    static std::uint32_t make_core(core *&to, limits most) noexcept {
        return make_core(to, given::size, most);
    }
    static core *made(size_type room, limits most) {
        core *to = nullptr;
        throw_for(make_core(to, room, most));
        return to;
    }

    core *shared() const noexcept { return of; }
    container &asked() const noexcept { return const_cast<container &>(*this); }

    /// By the seat that the thread has at hand, mostly.
    template <class F> [[gnu::always_inline]] result_of_call<F> with(F call) {
        const slot *known = &table_of_thread.at(home);
        if (__builtin_expect(known->of != of, 0)) {
            known = slot_elsewhere(of, home);
            if (!known) return with_caller(call);
        }
        return call(*of, *known->by);
    }
    template <class F> [[gnu::cold, gnu::noinline]] result_of_call<F> with_caller(F call) {
        const caller me(*of);
        if (me.code == LOCKFREE_OK) return call(*of, *me.by);
        return not_made<result_of_call<F>>(me.code);
    }
};

/// A container of a core that is made for it, or null.
template <class Container, class... Room> std::unique_ptr<Container> make(Room... room) noexcept {
    using opened = typename Container::opened;
    opened of{};
    if (Container::make_core(of, room...) != LOCKFREE_OK) return nullptr;
    std::unique_ptr<Container> made(new (std::nothrow)
                                        Container(adopted<opened>{std::move(of)}));
    if (!made) Container::drop(of);
    else if (!made->is_made()) made.reset();
    return made;
}

}  // namespace detail
}  // namespace LOCKFREE_NAMES
}  // namespace lockfree
