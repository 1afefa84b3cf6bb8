// MemorySanitizer: decisions by memory that was never written, of the stack and of the heap.
#include <cstdio>
#include <cstdlib>
#include <cstring>
namespace {
template <class T> inline bool odd(const T *all, int index) { return all[index] & 1; }
}
struct Pair { int first, second; bool is_odd() const { return odd(&first, 1); } };
__attribute__((noinline)) static int heap(int count) {
    int *all = static_cast<int *>(malloc(count * sizeof(int)));
    asm volatile("" : : "r"(all) : "memory");
    int found = odd(all, count / 2) ? 1 : 2;
    free(all);
    return found;
}
__attribute__((noinline)) static int stack(int count) {
    Pair pair;
    if (count > 100) memset(&pair, 1, sizeof pair);
    asm volatile("" : : "r"(&pair) : "memory");
    return pair.is_odd() ? 1 : 2;
}
int main(int count, char **words) {
    if (count > 1 && !strcmp(words[1], "heap")) return heap(8);
    return stack(count);
}
