// Containers that are worn out, shut, or left with values: what their calls say, and who gets what is left.
#include "lockfree.hpp"
#include "check.hpp"

#include <memory>
#include <stdexcept>
#include <thread>
#include <vector>

namespace {

using lockfree::status;

template <class Container> constexpr bool is_queue = std::is_base_of_v<lockfree::bounded_queue<counted>, Container>;

/// A container of this limit takes so many values, one after another; some queues one more.
template <class Container> constexpr long pushes_of(long limit) { return is_queue<Container> ? limit - 1 : limit / 2; }

template <class Container> void wears_out() {
    {
        Container container(4, lockfree::tag_limit{1000});
        const long pushes = pushes_of<Container>(1000);
        counted out;
        CHECK(container.wear() == 0);
        for (long i = 0; i < pushes; ++i) {
            CHECK(container.wear() <= static_cast<double>(i) / static_cast<double>(pushes) + 0.001);
            CHECK(container.try_push(counted(i)) == status::ok && container.try_pop(out) == status::ok && *out.number == i);
        }
        CHECK(container.wear() > 0.99);
        counted kept(7), more(8);
        if (is_queue<Container> && container.push(more)) CHECK(container.pop(out));  // some queues take one more
        CHECK(container.try_push(std::move(kept)) == status::spent && *kept.number == 7 && container.wear() == 1);
        CHECK(!container.push(kept) && container.push_wait(kept) == status::spent);
    }
    CHECK(counted::alive == 0);
}

/// What a spent container holds is handed out, or ends with it.
template <class Container> void leftovers_of_a_spent_one() {
    for (const bool by_hand : {true, false}) {
        {
            Container container(4, lockfree::tag_limit{50});
            std::vector<long> left;
            for (long i = 0; container.try_push(counted(i)) == status::ok;) {
                left.push_back(i++);
                counted out;
                if (left.size() == 4) {
                    if (container.try_pop(out) != status::ok) break;
                    CHECK(*out.number == (is_queue<Container> ? left.front() : left.back()));
                    left.erase(is_queue<Container> ? left.begin() : left.end() - 1);
                }
            }
            CHECK(container.wear() == 1 && counted::alive == static_cast<long>(left.size()) && left.size() >= 3);
            if (!by_hand) continue;
            std::vector<long> found;
            CHECK(container.finish([&](counted value) { found.push_back(*value.number); }) == status::ok);
            if (!is_queue<Container>) left = {left.rbegin(), left.rend()};
            CHECK(found == left && counted::alive == 0);
        }
        CHECK(counted::alive == 0);
    }
}

template <class Container> void finished() {
    {
        Container container(4);
        int found = 0;
        {
            auto pass = container.split();
            for (long i = 0; i < 4; ++i) CHECK(pass.push(counted(i)));
            CHECK(container.shut() && !container.pop());
            CHECK(container.finish([&](counted &) { ++found; }) == status::shared && found == 0 && counted::alive == 4);
        }
        std::thread([&] { CHECK(container.try_push(counted(9)) == status::full); }).join();
        bool thrown = false;
        try {
            static_cast<void>(container.finish([&](counted &) {
                if (++found == 2) throw std::runtime_error("two");
            }));
        } catch (const std::runtime_error &) {
            thrown = true;
        }
        CHECK(thrown && found == 2 && counted::alive == 2);
        CHECK(container.finish([&](counted &) { ++found; }) == status::ok && found == 4 && counted::alive == 0);
        CHECK(container.finish([&](counted &) { ++found; }) == status::ok && found == 4);
        counted out(5);
        CHECK(container.try_push(out) == status::closed && container.try_pop(out) == status::closed && container.empty());
        CHECK(container.is_closed() && !container.push(std::move(out)) && *out.number == 5);
        std::thread([&] { CHECK(container.try_push(counted(1)) == status::closed); }).join();
    }
    CHECK(counted::alive == 0);
}

/// Shut, with a pass that goes on: what is left ends with the last of them.
template <class Container> void shut_with_a_pass() {
    {
        auto container = std::make_unique<Container>(4);
        auto pass = container->split();
        CHECK(pass.push(counted(1)) && container->push(counted(2)) && container->shut());
        container.reset();
        CHECK(pass.push(counted(3)) && !pass.pop());
    }
    CHECK(counted::alive == 0);
}

template <class Container> void ends() {
    finished<Container>();
    shut_with_a_pass<Container>();
}

/// A pop that waits ends once nothing can come, also if it waits already when a push is refused.
template <class Container, class Limit> void waits_end(Limit limit) {
    Container container(4, limit);
    long popped = 0, pushed = 0;
    std::thread waits([&] {
        typename Container::value_type out;
        while (container.pop_wait(out) == status::ok) ++popped;
        CHECK(container.pop_wait(out) == status::spent && container.try_pop(out) == status::empty);
        CHECK(!container.pop_wait() && container.pop_wait(&out, 1).what == status::spent);
    });
    while (container.push_wait(typename Container::value_type(1)) == status::ok) ++pushed;
    waits.join();
    CHECK(pushed >= 7 && pushed == popped && container.try_push(typename Container::value_type(1)) == status::spent);
}

template <class Container> void all() {
    wears_out<Container>();
    leftovers_of_a_spent_one<Container>();
    ends<Container>();
}

}  // namespace

int main() {
    all<lockfree::bounded_queue<counted>>();
    all<lockfree::bounded_stack<counted>>();
    ends<lockfree::ring_queue<counted>>();
    waits_end<lockfree::bounded_queue<counted>>(lockfree::tag_limit{9});
    waits_end<lockfree::bounded_queue<int>>(lockfree::tag_limit{9});
    waits_end<lockfree::ring_queue<counted>>(lockfree::lap_limit{2});
    lockfree::queue<int, lockfree::capacity<2>> small{lockfree::tag_limit{3}};
    int out = 0;
    CHECK(small.push(1) && small.push(2) && small.pop(out) && out == 1 && small.pop(out) && out == 2);
    CHECK(!small.push(3) || small.pop(out));  // some queues take one more
    CHECK(small.try_push(4) == status::spent && small.wear() == 1);
    std::puts("passed");
}
