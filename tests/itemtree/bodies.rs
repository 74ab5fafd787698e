//! What Universal Ctags and `itemtree tags --bodies` tell alike.
fn outer() {
    fn inner() {
        fn deep() {
            struct Deepest {
                field: u8,
            }
        }
    }
    #[derive(Debug)]
    pub struct Local {
        side: u8,
    }
    enum Choice {
        First,
        Second(u8),
    }
    impl Local {
        type Out = u8;
        fn method(&self) {
            static COUNT: u8 = 1;
        }
    }
    trait Near {
        fn by(&self) {
            fn beside() {}
        }
    }
    type Short = u8;
    macro_rules! local {
        () => {};
    }
    mod module {
        fn in_module() {
            fn below() {}
        }
        mod inner_module {
            struct Far;
        }
    }
    extern "C" {
        fn foreign();
        static EXTERNAL: u8;
    }
    use std::fmt;
    let r#loop = vec![{ fn in_macro() {} 1 }];
    let closure = |x: u8| {
        struct InClosure;
        x
    };
    call(1, || { fn in_argument() {} });
    if r#loop.len() > { fn in_condition() {} 1 } {
        fn in_if() {}
    } else if true {
        fn in_else_if() {}
    } else {
        fn in_else() {}
    }
    match closure(1) {
        0 => {
            fn in_arm() {}
        }
        _ => call(Point { x: { fn in_field() {} 1 } }),
    }
    for _ in 0..1 {
        loop {
            fn in_loop() {}
        }
    }
    unsafe {
        fn in_unsafe() {}
    }
    const fn last() -> u8 {
        1
    }
}

mod around {
    pub struct Circle;
    impl Circle {
        pub fn area(&self) -> u8 {
            async fn helper(a: u8) -> u8 {
                a
            }
            fn second() {
                struct Third;
                impl Third {
                    fn fourth() {
                        fn fifth() {}
                    }
                }
            }
            1
        }
    }
}
