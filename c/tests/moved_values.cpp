// A push of an rvalue moves it, whatever its type lacks; if it is refused it is moved back. An object of a derived class is
// ended once, by its owner.
#include "lockfree.hpp"
#include "check.hpp"

#include <deque>
#include <iterator>
#include <list>
#include <memory>
#include <stdexcept>
#include <string>
#include <type_traits>
#include <utility>
#include <vector>

namespace {

using lockfree::status;

/// Its author forgot noexcept. Counts how often it is copied and moved.
struct unmarked {
    static inline int copies = 0, moves = 0;
    std::string inner;
    explicit unmarked(std::string of) : inner(std::move(of)) {}
    unmarked(const unmarked &other) : inner(other.inner) { ++copies; }
    unmarked(unmarked &&other) : inner(std::move(other.inner)) { ++moves; }
    unmarked &operator=(const unmarked &other) {
        inner = other.inner;
        ++copies;
        return *this;
    }
    unmarked &operator=(unmarked &&other) {
        inner = std::move(other.inner);
        ++moves;
        return *this;
    }
};

template <template <class, class...> class Container> void moves_and_never_copies() {
    Container<unmarked, lockfree::capacity<2>> container;
    unmarked value("kept"), out("");
    unmarked::copies = unmarked::moves = 0;
    CHECK(container.push(unmarked("a")) && container.emplace(std::move(value)) && value.inner.empty());
    CHECK(unmarked::copies == 0 && unmarked::moves == 2);
    value.inner = "kept";
    CHECK(container.try_push(std::move(value)) == status::full && value.inner == "kept");
    CHECK(container.push_wait(std::move(value), [] { return true; }) == status::stopped && value.inner == "kept");
    CHECK(container.pop(out) && unmarked::copies == 0);
    std::vector<unmarked> range;
    for (const char *text : {"b", "c", "d"}) range.emplace_back(text);
    unmarked::copies = 0;
    const auto first = std::make_move_iterator(range.begin()), last = std::make_move_iterator(range.end());
    CHECK(container.push(first, last).base() == range.begin() + 1);
    CHECK(unmarked::copies == 0 && range[0].inner.empty() && range[1].inner == "c" && range[2].inner == "d");
}

/// A standard container that has no copy, though its type says that it has, and whose move may throw.
template <template <class, class...> class Container> void containers_of_what_only_moves() {
    using pointers = std::deque<std::unique_ptr<int>>;
    struct holds {
        pointers inner;
        std::list<std::unique_ptr<int>> more;
    };
    Container<pointers, lockfree::capacity<1>> container;
    pointers some, out;
    some.push_back(std::make_unique<int>(3));
    CHECK(container.push(pointers()) && !container.push(std::move(some)) && some.size() == 1 && *some[0] == 3);
    CHECK(container.pop(out) && container.push(std::move(some)) && some.empty());
    CHECK(container.pop(out) && out.size() == 1 && *out[0] == 3);
    Container<holds, lockfree::capacity<1>> of_structs;
    holds one, got;
    one.inner.push_back(std::make_unique<int>(4));
    CHECK(of_structs.push(std::move(one)) && of_structs.pop(got) && *got.inner[0] == 4);
}

/// Has a move that may throw, and neither a copy nor an assignment.
struct only_made {
    const int kind;
    std::unique_ptr<int> inner;
    only_made(int of, int n) : kind(of), inner(std::make_unique<int>(n)) {}
    only_made(only_made &&other) noexcept(false) : kind(other.kind), inner(std::move(other.inner)) {}
};

template <template <class, class...> class Container> void values_without_assignment() {
    Container<only_made, lockfree::capacity<1>> container;
    only_made value(5, 7);
    CHECK(container.push(only_made(1, 1)) && !container.push(std::move(value)) && value.kind == 5 && *value.inner == 7);
    CHECK(container.consume_one([](only_made &) {}) && container.push(std::move(value)) && !value.inner);
    CHECK(container.pop().value().kind == 5);
}

/// A base with a virtual destructor and no assignment, and objects of a class derived from it.
struct base {
    static inline int ended = 0;
    const int kind;
    std::unique_ptr<int> inner = std::make_unique<int>(1);
    explicit base(int of) : kind(of) {}
    base(base &&) noexcept = default;
    virtual ~base() { ++ended; }
};
struct derived : base {
    static inline int ended = 0;
    std::string more = std::string(40, 'm');
    derived() : base(2) {}
    ~derived() override { ++ended; }
};

template <template <class, class...> class Container> void derived_objects_end_once() {
    Container<base, lockfree::capacity<1>> container;
    CHECK(container.emplace(1));
    derived::ended = 0;
    {
        derived object;
        base &part = object;
        CHECK(!container.push(std::move(object)) && !container.push(std::move(part)) && derived::ended == 0);
        CHECK(object.more.size() == 40 && object.kind == 2);
    }
    CHECK(derived::ended == 1);
    base whole(3);
    CHECK(!container.push(std::move(whole)) && whole.kind == 3 && *whole.inner == 1);
}

/// Without virtual functions nothing tells a part from a whole, so an rvalue of the derived class is refused when compiled.
struct plain {
    const int kind = 0;
    std::unique_ptr<int> inner;
    plain() = default;
    plain(plain &&) noexcept = default;
};
struct of_plain : plain {};
template <class Container, class Value, class = void> constexpr bool can_push = false;
template <class Container, class Value>
constexpr bool can_push<Container, Value, std::void_t<decltype(std::declval<Container &>().push(std::declval<Value>()))>> = true;
using plains = lockfree::queue<plain, lockfree::capacity<1>>;
static_assert(can_push<plains, plain> && !can_push<plains, of_plain>);

/// Throws when it is moved back. It is lost then, and nothing else is.
struct throws_on_its_way_back {
    counted inner;
    explicit throws_on_its_way_back(long n) : inner(n) {}
    throws_on_its_way_back(throws_on_its_way_back &&) = default;
    throws_on_its_way_back &operator=(throws_on_its_way_back &&) { throw std::runtime_error("back"); }
};

template <template <class, class...> class Container> void throws() {
    {
        Container<throws_on_its_way_back, lockfree::capacity<1>> container;
        CHECK(container.push(throws_on_its_way_back(1)));
        for (int round = 0; round < 100; ++round) {  // more often than there are cells
            bool thrown = false;
            try {
                static_cast<void>(container.push(throws_on_its_way_back(2)));
            } catch (const std::runtime_error &) {
                thrown = true;
            }
            CHECK(thrown && counted::alive == 1);
        }
        CHECK(container.consume_one([](throws_on_its_way_back &value) { CHECK(*value.inner.number == 1); }));
    }
    CHECK(counted::alive == 0);
}

template <template <class, class...> class Container> void all() {
    moves_and_never_copies<Container>();
    containers_of_what_only_moves<Container>();
    values_without_assignment<Container>();
    derived_objects_end_once<Container>();
    throws<Container>();
}

}  // namespace

int main() {
    all<lockfree::queue>();
    all<lockfree::stack>();
    all<lockfree::ring_queue>();
    std::puts("passed");
}
