//! Deep nests of `if`, `match` and blocks, where types come from afar.

pub enum Shape {
    Dot,
    Line(u8),
    Box(u8, u8),
}

pub enum Color {
    Gray(u8),
    Mixed(u8, u8, u8),
}

pub fn classify(a: bool, b: bool, c: bool) -> u8 {
    if a {
        if b {
            if c { 7 } else { 6 }
        } else {
            if c { 5 } else { 4 }
        }
    } else if b {
        if c { 3 } else { 2 }
    } else if c {
        1
    } else {
        0
    }
}

pub fn describe(shape: Shape, color: Color) -> (char, u16) {
    let kind = match shape {
        Shape::Dot => '.',
        Shape::Line(0) => '.',
        Shape::Line(_) => '-',
        Shape::Box(0, height) => match height {
            0 => '.',
            _ => '|',
        },
        Shape::Box(_, 0) => '-',
        Shape::Box(_, _) => '#',
    };
    let brightness = {
        let from_gray = 128;
        match color {
            Color::Gray(0) => 0,
            Color::Gray(_) => from_gray,
            Color::Mixed(0, 0, 0) => 0,
            Color::Mixed(255, 255, 255) => 255,
            Color::Mixed(_, _, _) => from_gray,
        }
    };
    (kind, brightness)
}

pub fn late(flag: bool) -> i64 {
    let count = {
        let inner = {
            let innermost = 5;
            if flag { innermost } else { 6 }
        };
        inner
    };
    let other: (_, bool) = (count, flag);
    match other {
        (value, true) => value,
        (_, false) => 7,
    }
}

pub fn guards(n: u32, limit: bool) -> Option<(u32, Shape)> {
    match n {
        0 => None,
        1 if limit => Some((1, Shape::Dot)),
        m if is_even(m) => Some((m, if limit { Shape::Line(1) } else { Shape::Box(1, 1) })),
        m => {
            let shape = match limit {
                true => Shape::Dot,
                false => Shape::Line(2),
            };
            Some((m, shape))
        }
    }
}

pub fn is_even(n: u32) -> bool {
    match n {
        0 => true,
        2 => true,
        _ => false,
    }
}

pub fn effects(shape: Shape) {
    let first = if let_through(true) { 1u8 } else { 2 };
    if let_through(is_even(4)) {
        drop_all((first, shape));
    };
    match first {
        1 => {}
        _ => drop_all(()),
    }
}

fn let_through(flag: bool) -> bool {
    flag
}

fn drop_all<T>(_: T) {}

pub fn ladder(a: Option<Option<Option<u8>>>) -> Result<u8, (bool, bool)> {
    match a {
        None => Err((false, false)),
        Some(inner) => match inner {
            None => Err((false, true)),
            Some(innermost) => match innermost {
                None => Err((true, false)),
                Some(n) => {
                    if is_even(match n { 0 => 0, _ => 1 }) {
                        Ok(n)
                    } else {
                        Err((true, true))
                    }
                }
            },
        },
    }
}

pub mod wrong {
    use super::*;

    pub fn classify(a: bool, b: bool, c: bool) -> u8 {
        if a {
            if b {
                if c { 7 } else { 'b' }
            } else {
                4
            }
        } else if b {
            3
        } else {
            c
        }
    }

    pub fn classify_without_else(a: bool, b: bool) -> u8 {
        if a {
            if b { 1 }
        } else {
            2
        }
    }

    pub fn describe(shape: Shape, color: Color) -> (char, u16) {
        let kind = match shape {
            Shape::Dot => '.',
            Shape::Line(true) => '.',
            Shape::Box(0, height) => height,
            _ => '#',
        };
        (kind, 1)
    }

    pub fn late(flag: bool) -> i64 {
        let count = {
            let innermost = 5;
            if flag { innermost } else { 6 }
        };
        let narrow: u8 = count;
        count
    }

    pub fn guards(n: u32, limit: bool) -> Option<(u32, Shape)> {
        match n {
            0 => None,
            m if m => Some((m, Shape::Dot)),
            m => Some((m, Shape::Line)),
        }
    }

    pub fn is_even(n: u32) -> bool {
        match n {
            0 => true,
            2 => true,
            _ => {
                false;
            }
        }
    }

    pub fn effects(shape: Shape) {
        if super::is_even(4) {
            (1, shape)
        }
        match shape {
            Shape::Dot => {}
            _ => 1,
        }
    }

    pub fn ladder(a: Option<Option<Option<u8>>>) -> Result<u8, (bool, bool)> {
        match a {
            None => Err(false),
            Some(inner) => match inner {
                None => Err((false, true)),
                Some(Some(n)) => n,
                Some(None) => Ok(inner),
            },
        }
    }
}
