// Paths of the headers that no other test takes. A whole call of the library is hardly ever BUSY, and its archive has the
// headers' version, so this program stands before the library: it says BUSY, or another version, when a test wants it.
#include "check.hpp"

#include <lockfree.hpp>

#include <array>
#include <cstdint>
#include <optional>
#include <stdexcept>
#include <string>
#include <vector>

namespace {

int busy_before = 0;  // how often the next call says BUSY before it is made
int asked_again = 0;
std::uint64_t value_of_put = 0;
std::uint32_t other_version = 0;

}  // namespace

extern "C" {

lockfree_answer __real_lockfree_put(lockfree_handle *, std::uint64_t, std::uint64_t);
lockfree_answer __real_lockfree_put_range(lockfree_handle *, const std::uint64_t *, std::size_t, std::uint64_t);
lockfree_answer __real_lockfree_go_on(lockfree_handle *, std::uint64_t);
std::uint32_t __real_lockfree_version(void);

lockfree_answer __wrap_lockfree_put(lockfree_handle *pass, std::uint64_t value, std::uint64_t tries) {
    value_of_put = value;
    if (busy_before > 0) return {0, LOCKFREE_BUSY};
    return __real_lockfree_put(pass, value, tries);
}
lockfree_answer __wrap_lockfree_go_on(lockfree_handle *pass, std::uint64_t tries) {
    if (busy_before == 0) return __real_lockfree_go_on(pass, tries);
    ++asked_again;
    return --busy_before > 0 ? lockfree_answer{0, LOCKFREE_BUSY} : __real_lockfree_put(pass, value_of_put, tries);
}
lockfree_answer __wrap_lockfree_put_range(lockfree_handle *pass, const std::uint64_t *values, std::size_t count,
                                          std::uint64_t tries) {
    if (busy_before == 0) return __real_lockfree_put_range(pass, values, count, tries);
    ++asked_again;
    --busy_before;
    return {0, LOCKFREE_BUSY};
}
std::uint32_t __wrap_lockfree_version(void) { return other_version ? other_version : __real_lockfree_version(); }

}  // extern "C"

namespace {

/// A call that is BUSY is continued until it is not, by the same pass, and is made once.
template <class Container> void continues_what_is_busy() {
    Container of(2);
    auto by = of.split();
    CHECK(of.push(1));  // (which also makes this thread's pass)
    asked_again = 0;
    busy_before = 3;
    CHECK(by.try_push(2) == lockfree::status::ok && asked_again == 3 && busy_before == 0);
    busy_before = 1;
    CHECK(of.try_push(3) == lockfree::status::full && asked_again == 4);
    CHECK(of.size() == 2);
    by = of.split();
    CHECK(by.pop() && by.pop() && !by.pop());
}

/// A range of a stack that is BUSY is put again, as a whole.
void puts_a_range_again() {
    lockfree::bounded_stack<int> of(8);
    const std::array<int, 3> some{1, 2, 3};
    asked_again = 0;
    busy_before = 2;
    CHECK(of.push(some.begin(), some.end()) == some.end() && asked_again == 2);
    for (const int expected : {3, 2, 1}) CHECK(of.pop() == expected);
    CHECK(!of.pop());
}

/// An archive whose first or second version number is another one is refused; the third may differ.
template <class Container> void refuses_another_version() {
    for (const std::uint32_t version : {LOCKFREE_H_VERSION + 100u, LOCKFREE_H_VERSION - 100u, LOCKFREE_H_VERSION + 10000u}) {
        other_version = version;
        bool refused = false;
        try {
            Container of(2);
        } catch (const std::logic_error &fault) {
            refused = std::string(fault.what()).find("another version") != std::string::npos;
        }
        CHECK(refused);
        CHECK(!lockfree::make<Container>(2));
    }
    other_version = LOCKFREE_H_VERSION + 1;
    Container of(2);
    CHECK(of.push(7) && of.pop() == 7);
    other_version = 0;
}

/// The calls that return an optional, of a container and of a pass, until what was closed is empty.
template <class Container> void pops_an_optional() {
    Container of(4);
    auto by = of.split();
    CHECK(of.push(1) && of.pop() == 1 && !of.pop());
    CHECK(of.push(2) && of.pop_wait() == 2);
    CHECK(by.push(3) && by.pop() == 3 && !by.pop());
    CHECK(by.push(4) && by.pop_wait() == 4);
    CHECK(of.push(5) && of.pop(lockfree::uses_optional) == 5);
    CHECK(of.close());
    CHECK(!of.pop_wait() && !by.pop_wait() && !of.pop() && !by.pop(lockfree::uses_optional));
}

/// A value of 1 KiB or more: its free cells are kept one by one.
struct large {
    int number;
    std::array<int, 400> rest;
    explicit large(int n = 0) : number(n) { rest.fill(n); }
};

/// Many more passes than 64, so that those of a queue and a stack find free cells of large values under a lock: each value comes
/// out once, whole and in order, although another pass pops it than has pushed it.
template <class Container> void more_passes_than_64(Container &of, bool last_first) {
    const int count = 90, each = 20, all = count * each;
    std::vector<typename Container::pass> passes;
    for (int i = 0; i < count; ++i) passes.push_back(of.split());
    for (int round = 0; round < 4; ++round) {
        for (int i = 0; i < all; ++i) {
            auto &by = passes[static_cast<std::size_t>(round % 2 ? i % count : i / each)];
            CHECK(by.push(large(i)));
        }
        CHECK(of.size() == static_cast<std::size_t>(all));
        for (int i = 0; i < all; ++i) {
            auto &by = passes[static_cast<std::size_t>(round < 2 ? count - 1 - i / each : i % count)];
            large out;
            const int expected = last_first ? all - 1 - i : i;
            CHECK(by.pop(out) && out.number == expected && out.rest.front() == expected && out.rest.back() == expected);
        }
        CHECK(of.empty());
    }
}
void more_passes_than_64_of_all() {
    lockfree::bounded_queue<large> queue(2000);
    lockfree::bounded_stack<large> stack(2000);
    lockfree::ring_queue<large> ring(2000);
    more_passes_than_64(queue, false);
    more_passes_than_64(stack, true);
    more_passes_than_64(ring, false);
}

/// The names of docs/cpp.md, asked for while the program runs.
void names_statuses() {
    using lockfree::status;
    struct named {
        status what;
        const char *name;
    };
    static const named all[] = {
        {status::ok, "ok"},       {status::full, "full"},           {status::empty, "empty"},     {status::closed, "closed"},
        {status::shut, "shut"},   {status::spent, "spent"},         {status::no_memory, "no_memory"}, {status::no_pass, "no_pass"},
        {status::shared, "shared"}, {status::stopped, "stopped"}, {static_cast<status>(77), "unknown"},
    };
    for (const named &one : all) CHECK(std::string(lockfree::to_string(one.what)) == one.name);
}

template <class Container> void all_of() {
    continues_what_is_busy<Container>();
    refuses_another_version<Container>();
    pops_an_optional<Container>();
}

}  // namespace

int main() {
    all_of<lockfree::bounded_queue<int>>();
    all_of<lockfree::bounded_stack<int>>();
    all_of<lockfree::ring_queue<int>>();
    puts_a_range_again();
    more_passes_than_64_of_all();
    names_statuses();
    std::puts("passed");
}
