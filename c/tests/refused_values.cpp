// A value that is refused is where it was: of push, of emplace, of a range, of a waiting call.
#include "lockfree.hpp"
#include "check.hpp"

#include <iterator>
#include <memory>
#include <stdexcept>
#include <string>
#include <utility>
#include <vector>

namespace {

const std::string text(40, 'x');

/// Cannot be moved without an exception in sight, but copied: it stays, since a copy is pushed.
struct copied {
    std::string inner;
    explicit copied(std::string of) : inner(std::move(of)) {}
    copied(const copied &) = default;
    copied(copied &&other) noexcept(false) : inner(std::move(other.inner)) {}
    copied &operator=(const copied &) = default;
};

/// Can be moved by its constructor alone.
struct unassignable {
    const int kind;
    std::unique_ptr<int> inner;
    unassignable(int of, int n) : kind(of), inner(std::make_unique<int>(n)) {}
    unassignable(unassignable &&) noexcept = default;
};

template <template <class, class...> class Container> void of_push() {
    Container<std::string, lockfree::capacity<1>> texts;
    auto pass = texts.split();
    std::string kept = text;
    CHECK(texts.push("a") && !texts.push(std::move(kept)) && kept == text);
    CHECK(!texts.bounded_push(std::move(kept)) && kept == text && !pass.push(std::move(kept)) && kept == text);
    CHECK(!texts.emplace(std::move(kept)) && kept == text && !texts.emplace(std::size_t{5}, 'y'));
    CHECK(texts.try_push(std::move(kept)) == lockfree::status::full && kept == text);
    std::string out;
    CHECK(texts.pop(out) && out == "a" && texts.push(std::move(kept)) && texts.pop(out) && out == text);

    Container<std::unique_ptr<int>, lockfree::capacity<1>> pointers;
    auto three = std::make_unique<int>(3);
    CHECK(pointers.push(std::make_unique<int>(1)) && !pointers.push(std::move(three)) && three && *three == 3);
    // the loop that everybody writes: pushes the value, not what is left of it
    for (int tries = 0; !pointers.push(std::move(three)); ++tries) {
        std::unique_ptr<int> first;
        CHECK(tries < 2 && (tries == 0 || pointers.pop(first)));
    }
    std::unique_ptr<int> found;
    CHECK(pointers.pop(found) && found && *found == 3);
    CHECK(pointers.close() && !pointers.push(std::move(found)) && found && *found == 3);
}

template <template <class, class...> class Container> void of_other_types() {
    Container<copied, lockfree::capacity<1>> copies;
    copied one(text);
    CHECK(copies.push(copied("a")) && !copies.push(std::move(one)) && one.inner == text);
    Container<unassignable, lockfree::capacity<1>> moved;
    unassignable two(2, 7);
    CHECK(moved.emplace(1, 1) && !moved.push(std::move(two)) && two.kind == 2 && *two.inner == 7);
    CHECK(moved.consume_one([](unassignable &value) { CHECK(value.kind == 1); }) && moved.push(std::move(two)) && !two.inner);
    CHECK(moved.consume_one([](unassignable value) { CHECK(value.kind == 2 && *value.inner == 7); }));
}

template <template <class, class...> class Container> void of_waiting() {
    Container<std::unique_ptr<int>, lockfree::capacity<1>> pointers;
    auto three = std::make_unique<int>(3);
    CHECK(pointers.push(std::make_unique<int>(1)));
    int asked = 0;
    CHECK(pointers.push_wait(std::move(three), [&] { return ++asked == 3; }) == lockfree::status::stopped && asked == 3);
    CHECK(three && *three == 3);
    bool thrown = false;
    try {
        static_cast<void>(pointers.push_wait(std::move(three), []() -> bool { throw std::runtime_error("stop"); }));
    } catch (const std::runtime_error &) {
        thrown = true;
    }
    CHECK(thrown && three && *three == 3);
    CHECK(pointers.close() && pointers.push_wait(std::move(three)) == lockfree::status::closed && three && *three == 3);
}

/// What a range gave by rvalue and was not put is in the range again.
void of_ranges() {
    for (const std::size_t count : {6u, 100u}) {
        lockfree::stack<std::string, lockfree::capacity<4>> stack;
        std::vector<std::string> texts;
        for (std::size_t i = 0; i < count; ++i) texts.push_back(text + std::to_string(i));
        const auto left = stack.push(std::make_move_iterator(texts.begin()), std::make_move_iterator(texts.end())).base();
        CHECK(left == texts.begin() + 4 && stack.push(std::make_move_iterator(left), std::make_move_iterator(texts.end())).base() == left);
        for (std::size_t i = 0; i < count; ++i) CHECK(texts[i] == (i < 4 ? "" : text + std::to_string(i)));
        std::string out;
        CHECK(stack.pop(out) && out == text + "3" && stack.close());
        CHECK(stack.push(std::make_move_iterator(left), std::make_move_iterator(texts.end())).base() == left && *left == text + "4");
    }
}

}  // namespace

int main() {
    of_push<lockfree::queue>();
    of_push<lockfree::stack>();
    of_push<lockfree::ring_queue>();
    of_other_types<lockfree::queue>();
    of_other_types<lockfree::stack>();
    of_other_types<lockfree::ring_queue>();
    of_waiting<lockfree::queue>();
    of_waiting<lockfree::stack>();
    of_waiting<lockfree::ring_queue>();
    of_ranges();
    std::puts("passed");
}
