//! What Universal Ctags and `itemtree tags` tell alike.
use std::fmt;

pub struct Point<T> {
    pub x: T,
    pub(crate) width: T,
    r#type: T,
    y: Vec<(T, u8)>,
}

struct Pair(u8, u16);

enum Shape {
    #[allow(unused)]
    Square(u32),
    Rect { width: u32, height: u32 },
    Empty = 3,
}

trait Area<T>: Sized {
    type Out;
    fn area(&self) -> Self::Out;
    fn twice(&self) -> u32 {
        2 * self.once()
    }
}

impl<T> Point<T> {
    pub async fn later(&self) {}
    const fn now() {}
    unsafe extern "C" fn foreign() {}
}

impl<'a> fmt::Display for Point<&'a str> {
    fn fmt(&self, f: &mut fmt::Formatter<'_>) -> fmt::Result {
        Ok(())
    }
}

mod outer {
    static COUNT: u8 = 1;
    type Short = u8;

    mod inner {
        pub enum Deep {
            Leaf,
        }
        impl super::super::Area<u8> for crate::Pair {
            type Out = u8;
            fn area(&self) -> u8 {
                1
            }
        }
        trait Far {
            fn away();
        }
        fn plain() {}
    }

    impl Near {
        fn by() {}
    }

    struct Near {
        field: u8,
    }
}

macro_rules! call {
    () => {};
}

extern "C" {
    fn outside();
}
