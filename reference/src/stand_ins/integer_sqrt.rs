//! Stand-in for the crate `integer-sqrt`: the largest x with x * x at most n, bit by bit, in 128 bits.

pub trait IntegerSquareRoot {
    fn integer_sqrt(&self) -> Self;
}

impl IntegerSquareRoot for u64 {
    fn integer_sqrt(&self) -> u64 {
        let n = u128::from(*self);
        let mut root: u128 = 0;
        for bit in (0..32).rev() {
            let next = root + (1 << bit);
            if next * next <= n {
                root = next;
            }
        }
        root as u64
    }
}
