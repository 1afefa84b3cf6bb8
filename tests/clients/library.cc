// A shared library, whose template reads one number more than there are.
namespace numbers {
static inline __attribute__((always_inline)) int peek(const int *all, int index) { return all[index]; }
template <class T> __attribute__((noinline)) T sum(const T *all, int count) {
    T total = 0;
    for (int i = 0; i <= count; i++) total += peek(all, i);
    return total;
}
}  // namespace numbers
extern "C" int library_sum(const int *all, int count) { return numbers::sum(all, count); }
