use std::fmt;

pub enum Shape {
    Square { side: u32 },
    #[cfg(test)]
    Round(f32),
}

struct Point<T> {
    pub x: T,
    pub(super) r#type: T,
}

trait Area: Sized {
    const UNIT: u8 = 1;
    type Out;
    fn area(&self) -> Self::Out;
    helper!();
}

impl<T: Copy> fmt::Display for Point<T>
where
    T: fmt::Debug,
{
    fn fmt(&self, f: &mut fmt::Formatter<'_>) -> fmt::Result {
        fn inner() {}
        Ok(())
    }
}

#[cfg(windows)]
mod os {
    union Bits { a: u8, b: [u8; 1] }
    struct Pair(u8, u8);
    impl !Send for Pair {}
}
