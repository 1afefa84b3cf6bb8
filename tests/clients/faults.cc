// A fault for each word: what AddressSanitizer, UndefinedBehaviorSanitizer and LeakSanitizer report, in
// functions that are inlined in one another, in templates, in lambdas, in an unnamed namespace and in
// a shared library.
#include <algorithm>
#include <climits>
#include <cstdio>
#include <cstdlib>
#include <cstring>
#include <functional>
#include <map>
#include <string>
#include <thread>
#include <vector>

extern "C" int library_sum(const int *numbers, int count);

int global_numbers[10] = {1, 2, 3};
static int hidden_numbers[4] = {1, 2, 3, 4};
namespace names { int numbers[5] = {5}; }

struct Box {
    int *numbers;
    explicit Box(int count) : numbers(new int[count]) {
        asm volatile("" : : "r"(numbers) : "memory");
        for (int i = 0; i < count; i++) numbers[i] = i;
    }
    int get(int index) const { return numbers[index]; }
    void drop() const { delete[] numbers; }
};

namespace {
template <class Function> int apply(Function function, int value) { return function(value) + 1; }
template <class T, int n> struct Chain {
    static int of(const T &box, int index) { return Chain<T, n - 1>::of(box, index + 1); }
};
template <class T> struct Chain<T, 0> {
    static int of(const T &box, int index) { return box.get(index); }
};
[[gnu::noinline]] int fold(const std::vector<int> &numbers, int more) {
    int sum = 0;
    for (size_t i = 0; i < numbers.size() + more; i++) sum += numbers.data()[i];
    return sum;
}
}  // namespace

[[gnu::noinline]] static int heap(int count) { Box box(count); return library_sum(box.numbers, count); }
[[gnu::noinline]] static int freed(int count) { Box box(count); box.drop(); return box.get(1); }
[[gnu::noinline]] static int twice(int count) { Box box(count); box.drop(); box.drop(); return count; }
[[gnu::noinline]] static int stack(int index) {
    volatile int here[10];
    char buffer[13];
    snprintf(buffer, sizeof buffer, "%d", index);
    for (volatile int &number : here) number = buffer[0];
    return here[index];
}
[[gnu::noinline]] static int global(int index) { return global_numbers[index]; }
[[gnu::noinline]] static int hidden(int index) { return hidden_numbers[index] + names::numbers[index]; }
[[gnu::noinline]] static int named(int index) { return names::numbers[index]; }
[[gnu::noinline]] static int inlined(int count) {
    Box box(count);
    return apply([&](int index) { return box.get(index); }, count);
}
[[gnu::noinline]] static int chain(int count) { Box box(count); return Chain<Box, 9>::of(box, count - 8); }
[[gnu::noinline]] static int vector(int count) { std::vector<int> numbers(count, 1); return fold(numbers, count); }
[[gnu::noinline]] static int sorted(int count) {
    std::vector<int> numbers(count, 7);
    for (int i = 0; i < count; i++) numbers[i] = 31 * i % 17;
    Box keys(count);
    std::sort(numbers.begin(), numbers.end(), [&](int a, int b) { return keys.get(a + 40) < keys.get(b); });
    return numbers[0];
}
[[gnu::noinline]] static int text(int count) {
    std::map<std::string, std::vector<std::string>> lists;
    lists["one"].push_back(std::string(count, 'x'));
    const char *first = lists["one"][0].c_str();
    lists.clear();
    return static_cast<int>(strlen(first));
}
[[gnu::noinline]] static int overflow(int number) { return number + INT_MAX; }
[[gnu::noinline]] static int shift(int number) { return 1 << (number + 30); }
[[gnu::noinline]] static int outside(int index) { int numbers[4] = {index, 2, 3, 4}; return numbers[index]; }
[[gnu::noinline]] static int null(int count) {
    return *reinterpret_cast<volatile int *>(static_cast<long>(count - count));
}
[[gnu::noinline]] static int threaded(int count) {
    Box box(count);
    int found = 0;
    std::thread other([&] { found = std::bind(&Box::get, box, count)(); });
    other.join();
    return found;
}
[[gnu::noinline]] static int lose(int count) { Box box(count); return box.get(1); }
[[gnu::noinline]] static int leaked(int count) {
    int sum = 0;
    for (int i = 0; i < 20; i++) sum += lose(count);
    return sum;
}
[[gnu::noinline]] static int copied(int count) {
    std::string from(count, 'x');
    Box box(2);
    memcpy(box.numbers, from.data(), from.size());
    return box.get(0);
}

int main(int count, char **words) {
    const struct { const char *name; int (*run)(int); int value; } faults[] = {
        {"heap", heap, 8}, {"freed", freed, 8}, {"twice", twice, 8}, {"stack", stack, 10}, {"global", global, 10},
        {"hidden", hidden, 4}, {"named", named, 5}, {"inlined", inlined, 4}, {"chain", chain, 4}, {"vector", vector, 6},
        {"sorted", sorted, 40}, {"text", text, 40}, {"overflow", overflow, 8}, {"shift", shift, 8}, 
        {"outside", outside, 4}, {"null", null, 8}, {"threaded", threaded, 8}, {"leaked", leaked, 8}, {"copied", copied, 40}};
    for (const auto &fault : faults)
        if (count > 1 && !strcmp(words[1], fault.name)) return fault.run(fault.value) & 1;
    return 2;
}
