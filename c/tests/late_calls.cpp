// Calls from destructors of a thread's last objects, after its passes have gone back: of the container that it called last,
// and of another; and from the destructor of a static object.
#include "lockfree.hpp"
#include "check.hpp"

#include <thread>

namespace {

using stack = lockfree::stack<int, lockfree::capacity<8>>;

stack first, second;
stage steps;
bool pushed_late = false, pushed_to_other = false;

/// Is made before the thread calls, so its destructor runs when the thread's passes have gone back.
struct older {
    bool used = false;
    ~older() {
        if (!used) return;
        steps.reach(1);  // the passes are back
        steps.await(2);  // the other thread is in a fold
        pushed_late = first.push(5);
        int out = 0;
        pushed_to_other = second.push(6) && second.pop(out) && out == 6;
        steps.reach(3);
    }
};

/// A pass that went back is the next thread's. Nobody else calls by it, however late.
void passes_have_one_thread() {
    CHECK(first.push(0) && first.push(1));
    std::thread leaves([] {
        static thread_local older last;
        last.used = true;
        int out = 0;
        CHECK(second.push(2) && second.pop(out));
        CHECK(first.push(3) && first.pop(out) && out == 3);
    });
    std::thread folds([] {
        steps.await(1);
        CHECK(first.consume_all_atomic([](int value) {
            if (value == 0) return;
            steps.reach(2);  // the fold is under way, with a value to come
            steps.await(3);
        }) == 2);
    });
    leaves.join();
    folds.join();
    int out = 0;
    CHECK(pushed_late && pushed_to_other && first.pop(out) && out == 5 && first.empty());
}

/// What a thread pushes that has only its end to call in.
void first_calls_at_the_end() {
    struct only_at_the_end {
        ~only_at_the_end() { CHECK(first.push(7)); }
    };
    std::thread([] { static thread_local only_at_the_end last; (void)last; }).join();
    int out = 0;
    CHECK(first.pop(out) && out == 7);
}

/// A late call of a ring in a function of a late call: it needs no second pass.
void nested_calls_at_the_end() {
    using ring = lockfree::ring_queue<int, lockfree::capacity<4>>;
    ring numbers{lockfree::pass_limit{1}};
    struct only_at_the_end {
        ring *of = nullptr;
        ~only_at_the_end() {
            CHECK(of->try_push(1) == lockfree::status::ok && of->push(2));
            int seen = 0;
            CHECK(of->consume_one([&](int first) {
                CHECK(first == 1 && of->try_push(3) == lockfree::status::ok);
                CHECK(of->consume_one([&](int second) { seen = second; }));
            }));
            CHECK(seen == 2);
        }
    };
    std::thread([&] {
        static thread_local only_at_the_end last;
        last.of = &numbers;
        CHECK(numbers.empty());  // so its seats go back before `last` ends
    }).join();
    int out = 0;
    CHECK(numbers.pop(out) && out == 3 && numbers.empty());
}

/// And a fold in such a function, with a call in the fold.
void nested_folds_at_the_end() {
    struct only_at_the_end {
        ~only_at_the_end() {
            CHECK(first.push(1) && first.push(2) && first.consume_one([&](int value) {
                CHECK(value == 2 && first.consume_all_atomic([](int last) { CHECK(last == 1 && first.push(4)); }) == 1);
            }));
        }
    };
    std::thread([] {
        static thread_local only_at_the_end last;
        (void)last;
        CHECK(first.empty());
    }).join();
    int out = 0;
    CHECK(first.pop(out) && out == 4 && first.empty());
}

struct at_exit {
    ~at_exit() {
        int out = 0;
        CHECK(first.push(8) && second.push(9) && first.pop(out) && out == 8);
    }
} ends_last;

}  // namespace

int main() {
    passes_have_one_thread();
    first_calls_at_the_end();
    nested_calls_at_the_end();
    nested_folds_at_the_end();
    std::puts("passed");
}
