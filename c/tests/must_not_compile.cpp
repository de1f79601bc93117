// What must not compile, and with which reason: each case by itself, with -DCASE=n. Without one it compiles.
// c/tests/cpp reads the reasons here.
//
// reason 1: an option is not known
// reason 2: capacity<N> is given twice
// reason 3: fixed_sized is given twice
// reason 4: fixed_sized<false> cannot be had
// reason 5: no container here takes an allocator
// reason 6: without fixed_sized<true> grows
// reason 7: without fixed_sized<true> grows
// reason 8: a capacity is 1 to 1,048,573
// reason 9: a capacity is 1 to 1,048,573
// reason 10: there is nothing to reserve
// reason 11: values are of an object type
// reason 12: the destructor of a value throws nothing
// reason 13: a stop is a std::stop_token
// reason 14: without fixed_sized<true> grows
// reason 15: no container here takes an allocator
// reason 16: fixed_sized<false> cannot be had
// reason 17: no container here takes an allocator
// reason 18: own queue, stack or spsc_queue is included already
// reason 19: there is nothing to reserve
// reason 20: deleted
// reason 21: no matching function
// reason 22: no matching function
// reason 23: no matching function
// reason 24: discards qualifiers
// reason 25: use of deleted function
// reason 26: use of deleted function
// reason 27: use of deleted function
// reason 28: its type must move
// reason 29: the destructor of a value throws nothing
// reason 30: values are of an object type
// reason 31: a capacity of an spsc_queue is 1 to 4,294,967,295
// reason 32: a capacity of an spsc_queue is 1 to 4,294,967,295
// reason 33: no matching function
// reason 34: no matching function
// reason 35: no container here takes an allocator
// reason 36: an option is not known
// reason 37: read-only location
// reason 38: deleted
// reason 39: no member named
// reason 40: own queue, stack or spsc_queue is included already
#ifndef CASE
#define CASE 0
#endif
#if CASE == 18
#define BOOST_LOCKFREE_FIFO_HPP_INCLUDED  // as Boost's header does
#elif CASE == 40
#define BOOST_LOCKFREE_SPSC_QUEUE_HPP_INCLUDED
#endif
#include "lockfree_boost.hpp"

#include <atomic>
#include <memory>
#include <string>
#include <utility>

using namespace lockfree;

struct throws_at_its_end {
    ~throws_at_its_end() noexcept(false) {}
};

/// Cannot be moved back into an object of a derived class.
struct unassignable {
    const int kind = 0;
};
struct derived : unassignable {
    std::string more;
};

int main() {
    queue<int, capacity<8>> sound;
    boost::lockfree::stack<int, boost::lockfree::fixed_sized<true>> also_sound(8);
#if CASE == 1
    queue<int, int, capacity<8>> refused;
#elif CASE == 2
    queue<int, capacity<8>, capacity<16>> refused;
#elif CASE == 3
    stack<int, fixed_sized<true>, fixed_sized<true>> refused(8);
#elif CASE == 4
    stack<int, fixed_sized<false>> refused(8);
#elif CASE == 5
    queue<int, capacity<8>, allocator<std::allocator<int>>> refused;
#elif CASE == 6
    queue<int> refused(128);
#elif CASE == 7
    stack<std::string> refused(128);
#elif CASE == 8
    queue<int, capacity<0>> refused;
#elif CASE == 9
    queue<int, capacity<1048574>> refused;
#elif CASE == 10
    sound.reserve(8);
#elif CASE == 11
    stack<const int, capacity<8>> refused;
#elif CASE == 12
    stack<throws_at_its_end, capacity<8>> refused;
#elif CASE == 13
    sound.push_wait(1, 5);
#elif CASE == 14
    boost::lockfree::queue<int> refused(128);
#elif CASE == 15
    boost::lockfree::stack<int, boost::lockfree::allocator<std::allocator<int>>> refused(8);
#elif CASE == 16
    boost::lockfree::queue<int, boost::lockfree::fixed_sized<false>> refused(8);
#elif CASE == 17
    queue<int, fixed_sized<true>> refused(8, std::allocator<int>());
#elif CASE == 19
    also_sound.reserve_unsafe(8);
#elif CASE == 20
    queue<unassignable, capacity<8>> bases;
    bases.push(derived());
#elif CASE == 21
    queue<const std::string *, capacity<8>> pointers;
    std::string *to = nullptr;
    pointers.pop(to);
#elif CASE == 22
    queue<unsigned long, capacity<8>> numbers;
    std::string *to = nullptr;
    return numbers.try_pop(to) == status::ok;
#elif CASE == 23
    stack<unassignable *, capacity<8>> bases;
    derived *to = nullptr;
    bases.pop(to);
#elif CASE == 24
    const auto pass = sound.split();
    return pass.empty();
#elif CASE == 25
    auto ends = spsc<int>(8);
    const spsc_producer<int> copied(ends.producer);
#elif CASE == 26
    auto ends = spsc<int>(8);
    ends.consumer = ends.consumer;
#elif CASE == 27
    spsc_queue<int> whole(8);
    const spsc_queue<int> moved(std::move(whole));
#elif CASE == 28
    spsc_queue<std::atomic<int>, capacity<8>> refused;
#elif CASE == 29
    spsc<throws_at_its_end>(8);
#elif CASE == 30
    spsc_queue<const std::string> refused(8);
#elif CASE == 31
    spsc_queue<int, capacity<0>> refused;
#elif CASE == 32
    spsc_queue<int, capacity<4294967296>> refused;
#elif CASE == 33
    spsc_queue<int> refused;
#elif CASE == 34
    spsc_queue<int, capacity<8>> refused(8);
#elif CASE == 35
    spsc_queue<int, allocator<std::allocator<int>>> refused(8);
#elif CASE == 36
    spsc_queue<int, int> refused(8);
#elif CASE == 37
    spsc_queue<long> words(8);
    words.front() = 1;
#elif CASE == 38
    spsc_queue<unassignable> bases(8);
    bases.push(derived());
#elif CASE == 39
    spsc_queue<int> single(8);
    single.shut();
#endif
    return sound.push(1) && also_sound.push(2) ? 0 : 1;
}
