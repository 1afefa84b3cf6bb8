// Functions whose names demanglers write differently. It needs no library but core.
#![no_std]
#![crate_type = "lib"]
pub trait Shape {
    fn size(&self) -> usize;
}
pub struct Big<T>(pub T, pub usize);
impl<T: Copy + Into<usize>> Shape for Big<T> {
    #[inline(never)]
    fn size(&self) -> usize {
        self.0.into().wrapping_mul(self.1)
    }
}
#[inline(never)]
pub fn fold<F: Fn(usize) -> usize, const N: usize>(values: &[usize; N], step: F) -> usize {
    values.iter().fold(0, |sum, &value| step(sum ^ value))
}
#[inline(never)]
pub fn total(shapes: &[&dyn Shape]) -> usize {
    shapes.iter().map(|shape| shape.size()).sum()
}
#[no_mangle]
pub extern "C" fn run(x: usize) -> usize {
    let (one, two) = (Big(3_u8, x), Big(5_u16, x));
    let held = |y: usize| y.rotate_left(3) ^ x;
    fold(&[x, 1, 2], held) ^ fold(&[x, x], |y| y >> 1) ^ total(&[&one, &two])
}
