//! "Values": the five operations on signed 32-bit numbers.

pub fn sum(a: i32, b: i32) -> i32 {
    a.wrapping_add(b)
}

pub fn difference(a: i32, b: i32) -> i32 {
    a.wrapping_sub(b)
}

pub fn product(a: i32, b: i32) -> i32 {
    a.wrapping_mul(b)
}

/// "The greatest whole number not above the exact one" (request A2); by zero it is 0; -2147483648 by -1 wraps to itself.
pub fn quotient(a: i32, b: i32) -> i32 {
    if b == 0 {
        return 0;
    }
    let towards_zero = a.wrapping_div(b);
    let fraction = a.wrapping_rem(b) != 0;
    if fraction && (a < 0) != (b < 0) {
        towards_zero - 1
    } else {
        towards_zero
    }
}

/// "The dividend less quotient times divisor, wrapped; so by zero it is the dividend."
pub fn remainder(a: i32, b: i32) -> i32 {
    difference(a, product(quotient(a, b), b))
}
