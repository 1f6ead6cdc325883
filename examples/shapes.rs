use std::fmt;

#[derive(Debug, Clone)]
enum Shape {
    Circle { radius: u32 },
    Square(u32),
}

impl Shape {
    fn area(&self) -> u32 {
        match self {
            Shape::Circle { radius } => 3 * radius * radius,
            Shape::Square(side) => side * side,
        }
    }
}

impl fmt::Display for Shape {
    fn fmt(&self, f: &mut fmt::Formatter) -> fmt::Result {
        write!(f, "{} of area {}", if self.area() > 9 { "big" } else { "small" }, self.area())
    }
}

fn larger(first: Option<u32>, second: Option<u32>) -> Option<u32> {
    match (first, second) {
        (Some(a), Some(b)) => Some(if a > b { a } else { b }),
        (Some(a), None) | (None, Some(a)) => Some(a),
        (None, None) => None,
    }
}

fn limits(scale: u16) -> (u16, bool) {
    let wide = scale > 10;
    let limit = if wide { 100 } else { scale };
    (limit, limit)
}

fn main() {
    let shapes = vec![Shape::Square(3), Shape::Circle { radius: 2 }];
    let mut best = None;
    for (at, shape) in shapes.iter().enumerate() {
        let area = shape.area();
        best = larger(best, Some(area));
        println!("{at}: {shape}");
    }
    let found = best.unwrap_or(0);
    let text: &str = if found > 9 { "big" } else { "small" };
    println!("{text} {:?}", limits(2));
}
