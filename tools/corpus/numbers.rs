//! Arithmetic by functions, over bits and small digits.

pub enum Bit {
    Zero,
    One,
}

pub struct Nibble(Bit, Bit, Bit, Bit);

pub enum Order {
    Less,
    Equal,
    More,
}

pub fn copy(bit: Bit) -> (Bit, Bit) {
    match bit {
        Bit::Zero => (Bit::Zero, Bit::Zero),
        Bit::One => (Bit::One, Bit::One),
    }
}

pub fn not(bit: Bit) -> Bit {
    match bit {
        Bit::Zero => Bit::One,
        Bit::One => Bit::Zero,
    }
}

pub fn and(a: Bit, b: Bit) -> Bit {
    match a {
        Bit::One => b,
        zero => zero,
    }
}

pub fn xor(a: Bit, b: Bit) -> Bit {
    match (a, b) {
        (Bit::Zero, b) => b,
        (Bit::One, b) => not(b),
    }
}

/// The sum and the carry.
pub fn half(a: Bit, b: Bit) -> (Bit, Bit) {
    let (a, again) = copy(a);
    let (b, too) = copy(b);
    (xor(a, b), and(again, too))
}

pub fn full(a: Bit, b: Bit, carry: Bit) -> (Bit, Bit) {
    let (sum, first) = half(a, b);
    let (sum, second) = half(sum, carry);
    (sum, not(and(not(first), not(second))))
}

pub fn add(left: Nibble, right: Nibble) -> (Nibble, Bit) {
    let (Nibble(a3, a2, a1, a0), Nibble(b3, b2, b1, b0)) = (left, right);
    let (s0, carry) = half(a0, b0);
    let (s1, carry) = full(a1, b1, carry);
    let (s2, carry) = full(a2, b2, carry);
    let (s3, carry) = full(a3, b3, carry);
    (Nibble(s3, s2, s1, s0), carry)
}

pub fn successor(digit: u8) -> (u8, bool) {
    match digit {
        0 => (1, false),
        1 => (2, false),
        2 => (3, false),
        _ => (0, true),
    }
}

pub fn compare(a: i8, b: i8) -> Order {
    match (a, b) {
        (-1, -1) => Order::Equal,
        (-1, _) => Order::Less,
        (_, -1) => Order::More,
        (0, 0) => Order::Equal,
        (0, _) => Order::Less,
        _ => Order::More,
    }
}

pub fn largest(a: i8, b: i8, c: i8) -> i8 {
    let largest = match compare(a, b) {
        Order::Less => b,
        _ => a,
    };
    match compare(largest, c) {
        Order::Less => c,
        _ => largest,
    }
}

/// The function is held first, and called then.
pub fn change(bit: Bit) -> Bit {
    let (change, bit) = (not, bit);
    change(bit)
}

pub fn keep(bit: Bit) -> Bit {
    bit
}

/// rustc takes the two functions for pointers here.
pub fn choose(negative: bool, bit: Bit) -> Bit {
    let change = if negative { not } else { keep };
    change(bit)
}

pub mod wrong {
    use super::*;

    pub fn copy(bit: Bit) -> (Bit, Bit) {
        match bit {
            Bit::Zero => Bit::Zero,
            Bit::One => (Bit::One, Bit::One, Bit::One),
        }
    }

    pub fn not(bit: Bit) -> Bit {
        match bit {
            Bit::Zero => 1,
            Bit::One => 0,
        }
    }

    pub fn and(a: Bit, b: Bit) -> Bit {
        if a { b } else { a }
    }

    pub fn xor(a: Bit, b: Bit) -> Bit {
        match (a, b) {
            (Bit::Zero, b) => b,
            (Bit::One, b) => super::not(b, b),
        }
    }

    pub fn half(a: Bit, b: Bit) -> (Bit, Bit) {
        let (a, again, third) = super::copy(a);
        (super::xor(a, b), again)
    }

    pub fn full(a: Bit, b: Bit, carry: Bit) -> (Bit, Bit) {
        let (sum, first) = super::half(a, b);
        super::half(super::half(sum, carry), first)
    }

    pub fn add(left: Nibble, right: Nibble) -> (Nibble, Bit) {
        let (Nibble(a3, a2, a1, a0), Nibble(b3, b2, b1, b0)) = left;
        (Nibble(b3, b2, b1, b0), a0)
    }

    pub fn successor(digit: u8) -> (u8, bool) {
        match digit {
            0 => (1, false),
            300u16 => (2, false),
            _ => 0,
        }
    }

    pub fn compare(a: i8, b: i8) -> Order {
        match (a, b) {
            (-1, -1) => Order::Equal,
            (true, _) => Order::Less,
            _ => Order::More,
        }
    }

    pub fn largest(a: i8, b: i8, c: i8) -> i8 {
        let largest = match super::compare(a, b) {
            Order::Less => b,
            _ => Order::More,
        };
        largest
    }

    pub fn change(bit: Bit) -> Bit {
        let (change, bit) = (super::not, bit);
        change(bit, change)
    }

    pub fn choose(negative: bool, bit: Bit) -> Bit {
        let change = if negative { super::not } else { super::copy };
        change(bit)
    }

    pub fn choose_and_call_the_choice(negative: bool, bit: Bit) -> Bit {
        let chosen = if negative { super::not(bit) } else { Bit::One };
        chosen(Bit::Zero)
    }
}
