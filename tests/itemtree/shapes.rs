//! Shapes and their areas.
use std::{collections::HashMap as Map, fmt::{self, Display}};

pub mod round {
    pub(crate) struct Circle(pub f32);

    impl Circle {
        pub fn area(&self) -> f32 {
            3.0 * self.0 * self.0
        }
    }

    #[cfg(feature = "extra")]
    pub fn r#type() {}

    mod inner {
        pub fn area() {}
    }
}

#[cfg(test)]
mod tests;

pub(in crate::round) const LIMIT: usize = 3;

fn area(sides: [f32; 2]) -> f32 {
    sides[0] * sides[1]
}
