//! Panics, or reads a null pointer, in inlined code.
#[inline(always)]
fn innermost(values: &[usize], index: usize) -> usize {
    values[index] + 1
}
#[inline(never)]
fn outer(values: &[usize], index: usize) -> usize {
    let first = innermost(values, index);
    first * 2
}
fn main() {
    let count = std::env::args().count();
    let values = vec![1, 2, 3];
    println!("{}", outer(&values, count + 10));
}
