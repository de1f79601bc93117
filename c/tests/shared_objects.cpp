// Containers that one shared object made and the code of another calls, each with the archive and the header in it. Built with
// -DOBJECT it is such an object; the program gets two of them as words.
#ifdef OBJECT
#include "lockfree.hpp"

#include <string>

using queue = lockfree::queue<std::string, lockfree::capacity<4>>;

#define SHOWN extern "C" __attribute__((visibility("default")))
SHOWN void *make_queue() { return new queue; }
SHOWN void end_queue(void *of) { delete static_cast<queue *>(of); }
SHOWN bool push_to(void *of, const char *text) { return static_cast<queue *>(of)->push(text); }
SHOWN bool pop_from(void *of, std::string *to) { return static_cast<queue *>(of)->pop(*to); }
#else
#include "check.hpp"

#include <dlfcn.h>
#include <string>
#include <thread>

namespace {

struct object {
    void *(*make_queue)();
    void (*end_queue)(void *);
    bool (*push_to)(void *, const char *);
    bool (*pop_from)(void *, std::string *);

    explicit object(const char *path) {
        void *const opened = dlopen(path, RTLD_NOW | RTLD_LOCAL);
        if (!opened) std::puts(dlerror());
        CHECK(opened);
        find(opened, "make_queue", make_queue);
        find(opened, "end_queue", end_queue);
        find(opened, "push_to", push_to);
        find(opened, "pop_from", pop_from);
    }

private:
    template <class F> static void find(void *opened, const char *name, F &to) {
        to = reinterpret_cast<F>(dlsym(opened, name));
        CHECK(to);
    }
};

/// Each value comes out of the container into which it was put, whoever calls.
void calls(const object &first, const object &second) {
    void *const a = first.make_queue();
    void *const b = second.make_queue();
    std::string out;
    CHECK(first.push_to(a, "of a") && second.push_to(b, "of b"));
    CHECK(second.push_to(a, "of a, by the other") && first.push_to(b, "of b, by the other"));
    CHECK(first.pop_from(a, &out) && out == "of a" && second.pop_from(a, &out) && out == "of a, by the other");
    CHECK(first.pop_from(b, &out) && out == "of b" && second.pop_from(b, &out) && out == "of b, by the other");
    CHECK(!first.pop_from(a, &out) && !first.pop_from(b, &out) && second.push_to(a, "is left"));
    first.end_queue(a);
    second.end_queue(b);
}

}  // namespace

int main(int count, char **words) {
    CHECK(count == 3);
    const object first(words[1]), second(words[2]);
    for (int round = 0; round < 30; ++round) calls(first, second);
    std::thread([&] { calls(second, first); }).join();
    std::puts("passed");
}
#endif
