// over Boost: runs
// over lockfree: runs
#include "containers.hpp"

#include <memory>
#include <string>

struct base {
    int number = 7;
};
struct derived : base {};

int main() {
    lf::spsc_queue<int, lf::capacity<4>> numbers;
    lf::spsc_queue<derived *, lf::capacity<4>> pointers;
    lf::spsc_queue<const char *> texts(4);
    derived object;
    long number = 0;
    base *to = nullptr;
    std::string text;
    CHECK(numbers.push(7) && numbers.pop(number) && number == 7);
    CHECK(pointers.push(&object) && pointers.pop(to) && to->number == 7);
    CHECK(texts.push("seven") && texts.pop(text) && text == "seven");
}
