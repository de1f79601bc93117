// The options of a container, Boost's names. What they cannot mean here is refused when it is
// compiled, with the reason.
#pragma once

#include "names.hpp"

#include <cstddef>
#include <cstdint>
#include <type_traits>

namespace lockfree {
inline namespace LOCKFREE_NAMES {

/// The capacity, 1 to 1,048,573, of an spsc_queue 1 to 4,294,967,295, known when it is compiled.
/// Implies fixed_sized<true>.
template <std::size_t N> struct capacity {};
/// fixed_sized<true>: the capacity is given to the constructor. fixed_sized<false> is refused: no
/// container here grows.
template <bool Fixed> struct fixed_sized {};
/// Is refused: the memory of a container is the library's. (Boost's name, so that the reason can be
/// said.)
template <class Alloc> struct allocator {};

struct uses_optional_t {};
/// For `pop(uses_optional)`, as Boost's.
inline constexpr uses_optional_t uses_optional{};

/// For a constructor: how far a container wears before it is spent, 2 to 2^42 - 1, so that a
/// program can be tried with a spent container. A queue takes `most` values in its life, or one
/// fewer; a stack makes `most` pushes and pops in all.
struct tag_limit {
    std::uint64_t most;
};

/// For a ring's constructor: how many passes are out at a time at most, of threads that have called
/// it and of `split` together. 1 to 65,534, and with the capacity at most 1,048,574. A ring that is
/// given none has 256, which cost 5 KiB, and 23 KiB more for values in cells (17 KiB from 1 KiB a
/// value on). Give a lower number if you make many rings.
struct pass_limit {
    std::size_t most;
};

/// For a ring's constructor, as a tag_limit: a ring of capacity n takes n * `most` values in its
/// life. 1 to 2^41 - 1.
struct lap_limit {
    std::uint64_t most;
};

#define LOCKFREE_NO_ALLOCATOR \
    "lockfree: no container here takes an allocator: its constructor takes all memory"

namespace detail {

enum class kind { queue, stack, ring };

/// The greatest tag, and so the limit of a container that is given none.
inline constexpr std::uint64_t greatest_tag = (std::uint64_t{1} << 42) - 1;
inline constexpr std::uint64_t greatest_lap = greatest_tag / 2;

inline constexpr std::size_t usual_passes = 256;

/// What a constructor may be told besides the capacity, and what it does if it is not told.
template <kind K> struct limits {
    std::uint64_t life;
    explicit constexpr limits(tag_limit tags = {greatest_tag}) noexcept : life(tags.most) {}
};
template <> struct limits<kind::ring> {
    std::uint64_t life;
    std::size_t passes;
    explicit constexpr limits(pass_limit of_passes = {usual_passes},
                              lap_limit laps = {greatest_lap}) noexcept
        : life(laps.most), passes(of_passes.most) {}
    explicit constexpr limits(lap_limit laps, pass_limit of_passes = {usual_passes}) noexcept
        : limits(of_passes, laps) {}
};
/// Of a queue for one producer and one consumer.
struct no_limits {};
template <kind K, class... Given> inline constexpr bool are_limits =
    std::is_constructible_v<limits<K>, Given...>;

struct plain_option {
    static constexpr bool known = true, sizes = false, fixes = false, grows = false,
                          allocates = false;
    static constexpr std::size_t size = 0;
};
template <class Option> struct option : plain_option {
    static constexpr bool known = false;
};
template <std::size_t N> struct option<capacity<N>> : plain_option {
    static constexpr bool sizes = true;
    static constexpr std::size_t size = N;
};
template <> struct option<fixed_sized<true>> : plain_option {
    static constexpr bool fixes = true;
};
template <> struct option<fixed_sized<false>> : plain_option {
    static constexpr bool grows = true;
};
template <class Alloc> struct option<allocator<Alloc>> : plain_option {
    static constexpr bool allocates = true;
};

constexpr int count_of(bool holds) { return holds ? 1 : 0; }

/// What the options of a container say together.
template <class... Options> struct options {
    static constexpr std::size_t size = (std::size_t{0} + ... + option<Options>::size);
    static constexpr bool sizes = (false || ... || option<Options>::sizes);
    static constexpr bool fixed =
        (false || ... || (option<Options>::fixes || option<Options>::sizes));

    static constexpr bool sound() {
        static_assert(
            (true && ... && option<Options>::known),
            "lockfree: an option is not known: there are capacity<N> and fixed_sized<true>");
        static_assert((0 + ... + count_of(option<Options>::sizes)) <= 1,
                      "lockfree: capacity<N> is given twice");
        static_assert((0 + ... + count_of(option<Options>::fixes || option<Options>::grows)) <= 1,
                      "lockfree: fixed_sized is given twice");
        static_assert(!(false || ... || option<Options>::grows),
                      "lockfree: no container here grows, so fixed_sized<false> cannot be had");
        static_assert(!(false || ... || option<Options>::allocates), LOCKFREE_NO_ALLOCATOR);
        return true;
    }
};

/// False, once a template that must not be used is.
template <class...> inline constexpr bool never_compiled = false;

}  // namespace detail
}  // namespace LOCKFREE_NAMES
}  // namespace lockfree
