// A pass or a container that ends, or is moved, in a function that a call of it runs: of consume_one,
// consume_all, a fold, a value's constructor or destructor, a conversion, an iterator, a range, a
// stop. What it had goes back when the call returns, and its seat has one user at a time.
#include "lockfree.hpp"
#include "check.hpp"

#include <cstddef>
#include <functional>
#include <iterator>
#include <memory>
#include <string>
#include <thread>
#include <utility>
#include <vector>

namespace {

using lockfree::status;

/// A pass in memory of its own, where ASan sees who looks at it after its end.
template <class Container> auto own_pass(Container &container) {
    return std::make_unique<typename Container::pass>(container.split());
}

template <class Container, class F> void last_pass_ends(F &&call) {
    auto container = std::make_unique<Container>();
    auto pass = own_pass(*container);
    container.reset();
    CHECK(pass->push(typename Container::value_type(3)) && pass->push(typename Container::value_type(4)));
    call(pass);
    CHECK(!pass);
}

template <class Container> void passes_end() {
    using value = typename Container::value_type;
    last_pass_ends<Container>([](auto &pass) { CHECK(pass->consume_one([&](value &) { pass.reset(); })); });
    last_pass_ends<Container>([](auto &pass) { CHECK(pass->consume_all([&](value &) { pass.reset(); }) == 1); });
    last_pass_ends<Container>([](auto &pass) {
        const lockfree::batch taken = pass->try_consume_all([&](value &) { pass.reset(); });
        CHECK(taken.count == 1 && taken.what == status::stopped);
    });
}

template <class Stack> void passes_end_in_folds() {
    using value = typename Stack::value_type;
    for (const bool reversed : {false, true})
        last_pass_ends<Stack>([&](auto &pass) {
            int seen = 0;
            const auto use = [&](value &) {
                if (++seen == 1) pass.reset();
            };
            CHECK((reversed ? pass->consume_all_atomic_reversed(use) : pass->consume_all_atomic(use)) == 2 && seen == 2);
        });
}

/// The container lives on, and another thread gets the seat once the call has returned, not before.
template <class T> void seats_have_one_user() {
    lockfree::ring_queue<T, lockfree::capacity<16>> ring{lockfree::pass_limit{2}};
    auto mine = ring.split(), theirs = ring.split();
    for (int i = 0; i < 8; ++i) CHECK(mine.push(T(i)));
    CHECK(mine.consume_one([&](T &) {
        mine = {};
        std::thread([&] {
            if constexpr (!lockfree::detail::goes_by_value<T>) CHECK(!ring.try_split());
        }).join();
    }));
    std::thread([&] { CHECK(ring.try_split() && theirs.consume_all([](T &) {}) == 7); }).join();
    CHECK(!mine && counted::alive == 0);
}

/// Threads stop when one of the messages says so, and others get their seats at once.
void stops_as_messages() {
    struct job {
        bool stops;
        std::string text;
    };
    using ring = lockfree::ring_queue<job, lockfree::capacity<64>>;
    ring jobs{lockfree::pass_limit{4}};
    std::vector<std::thread> workers;
    for (int i = 0; i < 3; ++i)
        workers.emplace_back([&] {
            for (int round = 0; round < 200; ++round) {
                auto pass = jobs.split();
                CHECK(pass.push({false, "a text that is longer than a short one"}) && pass.push({true, "stop"}));
                pass.consume_all([&](job &it) {
                    if (it.stops) pass = {};
                });
            }
        });
    for (auto &worker : workers) worker.join();
}

/// The pass is moved, and the moved one goes on.
template <class Stack> void moves() {
    using value = typename Stack::value_type;
    Stack stack;
    auto pass = own_pass(stack);
    typename Stack::pass moved;
    for (int i = 0; i < 3; ++i) CHECK(pass->push(value(i)));
    CHECK(pass->consume_all_atomic([&](value &) {
        if (!pass) return;
        moved = std::move(*pass);
        pass.reset();
        CHECK(moved.push(value(9)));
    }) == 3);
    CHECK(moved.size() == 1 && moved.consume_all([&](value &) { auto kept = std::move(moved); moved = std::move(kept); }) == 1);
    CHECK(moved.push(value(1)) && stack.size() == 1);
    const auto second = stack.split();
    CHECK(moved && second);
}

/// The value has the last share of what owns the pass and the container.
struct owner;
struct message {
    std::shared_ptr<owner> of;
    explicit message(std::shared_ptr<owner> last) : of(std::move(last)) {}
};
using messages = lockfree::queue<message, lockfree::capacity<8>>;
struct owner {
    counted alive;
    std::unique_ptr<messages> container = std::make_unique<messages>();
    messages::pass pass = container->split();
};
void values_own() {
    for (const int way : {0, 1, 2, 3, 4}) {
        auto all = std::make_shared<owner>();
        owner &it = *all;
        if (way == 4) {  // a value that is refused, and destroyed
            CHECK(it.container->close());
            CHECK(it.pass.try_emplace(std::move(all)) == status::closed && !all);
            continue;
        }
        CHECK(it.pass.push(message(all)));
        all.reset();
        if (way == 0) CHECK(it.pass.consume_one([](message &) {}));
        if (way == 1) CHECK(it.container->consume_one([](message &) {}));
        if (way == 2) CHECK(it.pass.consume_all([](message &) {}) == 1);
        if (way == 3) CHECK(it.container->consume_all([](message &) {}) == 1);
    }
    CHECK(counted::alive == 0);
}

/// A container that ends in its own calls: in a thread that has called before, in a late call, and in `finish`.
template <class Container> void containers_end() {
    using value = typename Container::value_type;
    auto container = std::make_unique<Container>();
    CHECK(container->push(value(1)) && container->push(value(2)));
    CHECK(container->consume_all([&](value &) { container.reset(); }) == 1);
    container = std::make_unique<Container>();
    CHECK(container->push(value(1)) && container->push(value(2)) && container->push(value(3)));
    int seen = 0;
    CHECK(container->finish([&](value &) {
        if (++seen == 1) container.reset();
    }) == status::ok && seen == 3);
    std::thread([] {
        struct at_the_end {
            std::unique_ptr<Container> of;
            ~at_the_end() {
                CHECK(of->push(value(1)) && of->push(value(2)));
                CHECK(of->consume_one([&](value &) { of.reset(); }) && !of);
            }
        };
        static thread_local at_the_end last{std::make_unique<Container>()};
        CHECK(last.of->empty());
    }).join();
}

void stops_end() {
    lockfree::queue<counted, lockfree::capacity<1>> queue;
    auto pass = own_pass(queue);
    counted out;
    CHECK(pass->pop_wait(out, [&] { return pass.reset(), false; }) == status::stopped && !pass);
    pass = own_pass(queue);
    CHECK(queue.push(counted(1)) && pass->push_wait(counted(2), [&] { return pass.reset(), false; }) == status::stopped && !pass);
    lockfree::queue<long, lockfree::capacity<1>> words;
    auto word_pass = own_pass(words);
    CHECK(words.push(1) && word_pass->push_wait(2, [&] { return word_pass.reset(), false; }) == status::stopped && !word_pass);
}

/// An argument of a push. It ends the pass or the container when a value is made of it: of a value
/// that is its own word and has a constructor, of one that lies in a cell, or by a conversion.
struct ending {
    const std::function<void()> &end;
    operator long() const { return end(), 7; }
};
struct word_made {
    int number;
    explicit word_made(const ending &by) : number(static_cast<int>(long{by})) {}
};
struct cell_made {
    counted number;
    explicit cell_made(const ending &by) : number(by) {}
};
static_assert(lockfree::detail::goes_by_value<word_made> && !lockfree::detail::goes_by_value<cell_made>);
long number_of(long it) { return it; }
long number_of(const word_made &it) { return it.number; }
long number_of(const cell_made &it) { return *it.number.number; }

template <class Container> void constructors_end() {
    auto container = std::make_unique<Container>();
    auto pass = own_pass(*container);
    const std::function<void()> pass_ends = [&] { pass.reset(); }, container_ends = [&] { container.reset(); };
    CHECK(pass->try_emplace(ending{pass_ends}) == status::ok && !pass);
    const auto value = container->pop();
    CHECK(value && number_of(*value) == 7 && container->empty());
    pass = own_pass(*container);
    CHECK(container->emplace(ending{container_ends}) && !container);
    CHECK(number_of(*pass->pop()) == 7 && pass->emplace_wait(ending{pass_ends}) == status::ok && !pass);
    container = std::make_unique<Container>();
    pass = own_pass(*container);
    while (container->emplace(ending{[] {}})) {}
    const auto stops = [] { return false; };
    CHECK(pass->emplace_wait_until(stops, ending{pass_ends}) == status::stopped && !pass);
    CHECK(container->close() && container->try_emplace(ending{container_ends}) == status::closed && !container);
}

/// The pass is another thread's once the push has returned.
template <class T> void constructors_leave() {
    lockfree::ring_queue<T, lockfree::capacity<4>> ring{lockfree::pass_limit{1}};
    auto pass = ring.split();
    const std::function<void()> end = [&] {
        pass = {};
        CHECK(!ring.try_split());
    };
    CHECK(pass.emplace(ending{end}) && !pass && ring.pop());
}

/// Which function of an iterator, or of a range, ends the pass or the container.
enum class function { begin, copy, compare, read, step };
struct at_function {
    function which;
    const std::function<void()> &end;
    void runs(function now) const {
        if (now == which) end();
    }
};
template <class Category> struct walk {
    using iterator_category = Category;
    using value_type = long;
    using difference_type = std::ptrdiff_t;
    using pointer = const long *;
    using reference = long;
    const at_function &ends;
    long at;
    walk(const at_function &by, long from) : ends(by), at(from) {}
    walk(const walk &other) : ends(other.ends), at(other.at) { ends.runs(function::copy); }
    walk &operator=(const walk &) = delete;
    reference operator*() const { return ends.runs(function::read), at; }
    walk &operator++() { return ends.runs(function::step), ++at, *this; }
    bool operator==(const walk &other) const { return !(*this != other); }
    bool operator!=(const walk &other) const { return ends.runs(function::compare), at != other.at; }
};
template <class Category> struct walked {
    const at_function &ends;
    walk<Category> begin() const { return ends.runs(function::begin), walk<Category>(ends, 1); }
    walk<Category> end() const { return {ends, 4}; }
};

/// Of three values the stack has all, and else those are there that came before.
template <class Container, class Category> void iterators_end() {
    constexpr bool at_once = lockfree::detail::reads_twice<walk<Category>> &&
                             std::is_base_of_v<lockfree::stack<long, lockfree::capacity<4>>, Container>;
    for (const function which : {function::begin, function::copy, function::compare, function::read, function::step})
        for (const int way : {0, 1, 2}) {
            if (which == function::begin && way == 0) continue;
            auto container = std::make_unique<Container>();
            auto pass = own_pass(*container), other = own_pass(*container);
            const std::function<void()> end = [&] { way == 2 ? container.reset() : pass.reset(); };
            const at_function ends{which, end};
            const auto [next, what] = way == 0   ? pass->try_push(walk<Category>(ends, 1), walk<Category>(ends, 4))
                                      : way == 1 ? pass->try_push_range(walked<Category>{ends})
                                                 : container->try_push_range(walked<Category>{ends});
            const bool all = at_once || (which == function::copy && way == 0);  // (at the return)
            const long put = all ? 3 : which == function::read || which == function::step ? 1 : 0;
            CHECK(what == (all ? status::ok : status::stopped) && next.at == 1 + put && (way == 2 ? !container : !pass));
            if (way != 2) CHECK(other->consume_all([](long) {}) == static_cast<std::size_t>(put));
        }
}

/// The same of what a pop writes to.
struct written {
    const at_function &ends;
    explicit written(const at_function &by) : ends(by) {}
    written(const written &other) : ends(other.ends) { ends.runs(function::copy); }
    written &operator*() { return ends.runs(function::read), *this; }
    written &operator++() { return ends.runs(function::step), *this; }
    written &operator=(long) { return *this; }
};
template <class Container> void outputs_end() {
    for (const function which : {function::copy, function::read, function::step}) {
        Container container;
        auto pass = own_pass(container);
        const std::function<void()> end = [&] { pass.reset(); };
        const at_function ends{which, end};
        CHECK(pass->push(1) && pass->push(2) && pass->push(3));
        const std::size_t count = pass->pop(written(ends), 3);
        CHECK(count == (which == function::copy ? 3 : 1) && !pass == (which != function::copy));
    }
}

/// The pass goes back now, to the next thread; in a function once the call returns.
template <class T> void leaves() {
    lockfree::ring_queue<T, lockfree::capacity<4>> ring{lockfree::pass_limit{1}};
    const auto other_can = [&] {
        bool can = false;
        std::thread([&] { can = static_cast<bool>(ring.try_split()); }).join();
        return can;
    };
    ring.leave();
    CHECK(ring.push(T(1)) && ring.push(T(2)) && !other_can());
    ring.leave();
    CHECK(other_can() && ring.consume_one([&](T &) { ring.leave(); }) && other_can());
    CHECK(ring.consume_all([&](T &) { ring.leave(); }) == 1 && other_can() && ring.empty());
}

}  // namespace

int main() {
    passes_end<lockfree::queue<long, lockfree::capacity<4>>>();
    passes_end<lockfree::queue<counted, lockfree::capacity<4>>>();
    passes_end<lockfree::stack<short, lockfree::capacity<4>>>();
    passes_end<lockfree::ring_queue<counted, lockfree::capacity<4>>>();
    passes_end_in_folds<lockfree::stack<long, lockfree::capacity<4>>>();
    passes_end_in_folds<lockfree::stack<counted, lockfree::capacity<4>>>();
    seats_have_one_user<int>();
    seats_have_one_user<counted>();
    stops_as_messages();
    moves<lockfree::stack<long, lockfree::capacity<8>>>();
    moves<lockfree::stack<counted, lockfree::capacity<8>>>();
    values_own();
    containers_end<lockfree::queue<long, lockfree::capacity<4>>>();
    containers_end<lockfree::stack<counted, lockfree::capacity<4>>>();
    stops_end();
    constructors_end<lockfree::queue<long, lockfree::capacity<4>>>();
    constructors_end<lockfree::queue<word_made, lockfree::capacity<4>>>();
    constructors_end<lockfree::queue<cell_made, lockfree::capacity<4>>>();
    constructors_end<lockfree::stack<long, lockfree::capacity<4>>>();
    constructors_end<lockfree::stack<word_made, lockfree::capacity<4>>>();
    constructors_end<lockfree::stack<cell_made, lockfree::capacity<4>>>();
    constructors_end<lockfree::ring_queue<word_made, lockfree::capacity<4>>>();
    constructors_leave<word_made>();
    constructors_leave<cell_made>();
    iterators_end<lockfree::queue<long, lockfree::capacity<4>>, std::forward_iterator_tag>();
    iterators_end<lockfree::ring_queue<long, lockfree::capacity<4>>, std::input_iterator_tag>();
    iterators_end<lockfree::stack<long, lockfree::capacity<4>>, std::forward_iterator_tag>();
    iterators_end<lockfree::stack<long, lockfree::capacity<4>>, std::input_iterator_tag>();
    outputs_end<lockfree::queue<long, lockfree::capacity<4>>>();
    outputs_end<lockfree::stack<long, lockfree::capacity<4>>>();
    leaves<int>();
    leaves<counted>();
    CHECK(counted::alive == 0);
    std::puts("passed");
}
