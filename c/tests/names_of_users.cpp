// Types of users with names and operators that the headers could take for their own; what std::invoke calls; views.
#include "lockfree.hpp"
#include "check.hpp"

#include <iterator>
#include <string>
#include <utility>
#include <vector>
#if __cplusplus >= 202002L
#include <ranges>
#endif

namespace user {

/// Templates that take anything, under names of the headers' functions.
struct value {
    std::string inner;
};
template <class... All> void assign(All &&...) { std::abort(); }
template <class... All> void hand_over(All &&...) { std::abort(); }
template <class... All> void move_back(All &&...) { std::abort(); }
template <class... All> void use_word(All &&...) { std::abort(); }
template <class... All> void put_made(All &&...) { std::abort(); }
template <class... All> void put_word(All &&...) { std::abort(); }
template <class... All> void use_own_word(All &&...) { std::abort(); }
template <class... All> void put_begun(All &&...) { std::abort(); }
template <class... All> void is_plain(All &&...) { std::abort(); }
template <class... All> void asks(All &&...) { std::abort(); }
template <class... All> void waits_for(All &&...) { std::abort(); }
template <class... All> void word_of_value(All &&...) { std::abort(); }
template <class... All> void addressof(All &&...) { std::abort(); }
template <class... All> void launder(All &&...) { std::abort(); }
template <class... All> void invoke(All &&...) { std::abort(); }
struct stops {
    bool operator()() const { return true; }
};

/// Its address is another one than that of its bytes.
struct elsewhere {
    int number;
    elsewhere *operator&() { return nullptr; }
    const elsewhere *operator&() const { return nullptr; }
};
struct elsewhere_in_a_cell : elsewhere {
    std::string inner;
};

/// A pointer whose commas end the program.
struct pointer {
    value *at;
    value &operator*() const { return *at; }
    pointer &operator++() { return ++at, *this; }
    bool operator==(const pointer &other) const { return at == other.at; }
    bool operator!=(const pointer &other) const { return at != other.at; }
};
template <class Any> void operator,(const pointer &, Any &&) { std::abort(); }
template <class Any> void operator,(Any &&, const pointer &) { std::abort(); }

struct job {
    int *done;
    void run() const { ++*done; }
};

}  // namespace user

template <> struct std::iterator_traits<user::pointer> {
    using iterator_category = std::forward_iterator_tag;
    using value_type = user::value;
    using difference_type = std::ptrdiff_t;
    using pointer = user::value *;
    using reference = user::value &;
};

namespace {

template <class Container> void names() {
    Container container(4);
    user::value out, kept{"kept"};
    CHECK(container.push(user::value{"a"}) && container.push(std::as_const(kept)) && container.emplace(user::value{"b"}));
    CHECK(container.consume_one([](user::value &) {}) && container.pop(out) && container.pop());
    CHECK(container.pop_wait(out, user::stops()) == lockfree::status::stopped);
    std::vector<user::value> many{{"x"}, {"y"}, {"z"}};
    CHECK(container.push(user::pointer{many.data()}, user::pointer{many.data() + 3}) == user::pointer{many.data() + 3});
    CHECK(container.pop(user::pointer{many.data()}, 5) == 3 && container.empty());
    CHECK(container.finish([](user::value) {}) == lockfree::status::ok);
}

template <template <class, class...> class Container> void all() {
    names<Container<user::value, lockfree::fixed_sized<true>>>();
    Container<user::elsewhere, lockfree::capacity<4>> words;
    user::elsewhere number{7};
    CHECK(words.push(number) && words.push(user::elsewhere{8}) && words.pop().value().number + words.pop().value().number == 15);
    Container<user::elsewhere_in_a_cell, lockfree::capacity<4>> cells;
    user::elsewhere_in_a_cell text;
    text.inner = "t";
    CHECK(cells.push(std::move(text)) && cells.pop().value().inner == "t");
    int done = 0;
    Container<user::job, lockfree::capacity<4>> jobs;
    CHECK(jobs.push(user::job{&done}) && jobs.consume_one(&user::job::run) && done == 1);
    CHECK(jobs.push(user::job{&done}) && jobs.consume_all(&user::job::run) == 1 && done == 2);
}

#if __cplusplus >= 202002L
/// A view whose iterators are forward ones, though their old category says input: all at once.
void views() {
    lockfree::stack<std::string, lockfree::capacity<8>> stack;
    const std::vector<int> numbers{1, 2, 3};
    const auto texts = numbers | std::views::transform([](int n) { return std::to_string(n); });
    static_assert(lockfree::detail::reads_twice<decltype(texts.begin())>);
    CHECK(stack.push(texts.begin(), texts.end()) == texts.end() && stack.pop().value() == "3" && stack.size() == 2);
}
#endif

}  // namespace

int main() {
    all<lockfree::queue>();
    all<lockfree::stack>();
    all<lockfree::ring_queue>();
#if __cplusplus >= 202002L
    views();
#endif
    std::puts("passed");
}
