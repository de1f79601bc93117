// What a program asks of the types when it is compiled: which calls throw nothing, which values lie in
// cells; passes that messages hold; what passes say of their container.
#include "lockfree.hpp"
#include "check.hpp"

#include <memory>
#include <string>
#include <thread>
#include <type_traits>

namespace {

using lockfree::status;

template <class T> using queue = lockfree::queue<T, lockfree::capacity<4>>;

/// Whether try_push of an lvalue, try_push of an rvalue, and try_pop throw nothing.
template <class By, class T> constexpr bool throw_nothing(bool copies, bool moves, bool pops) {
    return noexcept(std::declval<By &>().try_push(std::declval<const T &>())) == copies &&
           noexcept(std::declval<By &>().try_push(std::declval<T>())) == moves &&
           noexcept(std::declval<By &>().try_pop(std::declval<T &>())) == pops &&
           noexcept(std::declval<By &>().try_pop()) == moves;
}
struct throwing_move {
    throwing_move() = default;
    throwing_move(throwing_move &&) noexcept(false) {}
    throwing_move(const throwing_move &) {}
    throwing_move &operator=(throwing_move &&) noexcept(false) { return *this; }
};
static_assert(throw_nothing<queue<int>, int>(true, true, true));
static_assert(throw_nothing<queue<int>::pass, int>(true, true, true));
static_assert(throw_nothing<queue<std::string>, std::string>(false, true, true));
static_assert(throw_nothing<lockfree::ring_queue<std::string>::pass, std::string>(false, true, true));
static_assert(throw_nothing<queue<throwing_move>, throwing_move>(false, false, false));
static_assert(noexcept(std::declval<queue<long> &>().try_emplace(1)));
static_assert(!noexcept(std::declval<queue<std::string> &>().try_emplace("text")));
static_assert(!noexcept(std::declval<queue<int> &>().push(1)));  // (a thread's first call)
constexpr auto throws_nothing = [](int) noexcept {};
constexpr auto may_throw = [](int) {};
static_assert(noexcept(std::declval<queue<int> &>().try_consume_one(throws_nothing)));
static_assert(noexcept(std::declval<queue<int>::pass &>().try_consume_all(throws_nothing)));
static_assert(!noexcept(std::declval<queue<int> &>().try_consume_one(may_throw)));
static_assert(!noexcept(std::declval<queue<int>::pass &>().try_consume_all(may_throw)));

/// A value of 8 bytes that can be neither copied nor moved: it stays where it was made.
struct immovable {
    const immovable *made_at;
    immovable() : made_at(this) {}
    immovable(const immovable &) = delete;
    immovable &operator=(const immovable &) = delete;
};
void immovable_values() {
    queue<immovable> values;
    CHECK(values.emplace() && values.consume_one([](const immovable &it) { CHECK(it.made_at == &it); }));
}

/// A message whose type is not complete yet holds a pass of a container of such messages.
struct message {
    int number = 0;
    lockfree::queue_pass<message> reply_to;
};
struct other_message {
    lockfree::stack_pass<other_message> of_stack;
    lockfree::ring_pass<other_message> of_ring;
};
static_assert(std::is_same_v<lockfree::queue_pass<message>, lockfree::bounded_queue<message>::pass>);
static_assert(std::is_same_v<lockfree::stack_pass<int>, lockfree::stack<int, lockfree::capacity<2>>::pass>);
static_assert(std::is_same_v<lockfree::ring_pass<int>, lockfree::ring_queue<int>::pass>);

void messages_with_passes() {
    queue<message> requests;
    std::thread answers([&] {
        message request;
        CHECK(requests.pop_wait(request) == status::ok);
        CHECK(request.reply_to.push({request.number + 1, {}}));
    });
    {
        lockfree::bounded_queue<message> reply(1);  // ends while the other thread may still be in its push
        CHECK(requests.push({1, reply.split()}));
        message answer;
        CHECK(reply.pop_wait(answer) == status::ok && answer.number == 2);
    }
    answers.join();
    const other_message none{};
    CHECK(!none.of_stack && !none.of_ring);
}

/// A pass says the same as its container; each of these calls uses it, so it is not const.
template <class Container> void passes_tell() {
    Container container;
    const Container &shown = container;
    auto pass = container.split();
    CHECK(pass.push(1) && !pass.empty() && pass.size() == 1 && !pass.full() && !pass.is_closed() && pass.wear() > 0);
    CHECK(!shown.empty() && shown.size() == 1 && !shown.full() && !shown.is_closed() && shown.wear() > 0);
    bool is = true;
    std::size_t count = 0;
    double part = 0;
    CHECK(shown.try_empty(is) == status::ok && !is && shown.try_full(is) == status::ok && !is);
    CHECK(shown.try_size(count) == status::ok && count == 1 && shown.try_wear(part) == status::ok && part > 0);
    CHECK(pass.close() && shown.is_closed() && pass.is_closed() && shown.try_is_closed(is) == status::ok && is);
    const auto &unused = pass;
    CHECK(unused.capacity() == 4 && shown.capacity() == 4 && unused.is_lock_free() && unused);
}

}  // namespace

int main() {
    immovable_values();
    messages_with_passes();
    passes_tell<lockfree::queue<long, lockfree::capacity<4>>>();
    passes_tell<lockfree::stack<long, lockfree::capacity<4>>>();
    passes_tell<lockfree::ring_queue<long, lockfree::capacity<4>>>();
    std::puts("passed");
}
