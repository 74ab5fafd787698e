//! Impls of all kinds of types.
mod a {
    impl<T> super::b::Tr for V::W { fn above() {} }
    mod V {
        impl W<u8> { fn inner() {} }
        struct W<T>(T);
        fn called() {}
    }
    impl super::Tr for [u8] { fn listed() {} }
}
impl Tr<Vec<u8>> for crate::a::V::W<u8> { fn crated() {} }
impl<T> Tr for W<T> where T: Tr { fn bound() {} }
impl<'a> Tr for W<&'a str> { fn borrowed() {} }
impl !Send for W { fn negative() {} }
impl<const N: usize> W<{ N + 1 }> { fn length() {} }
impl Tr<for<'a> fn(&'a u8)> for W<Box<dyn Fn(u8) -> Vec<u8>>> { fn boxed() {} }
impl Fn(u8) -> u8 for W::<T> { fn spread() {} }
impl ::a::V::W { fn absolute() {} }
impl Tr for <W as Of<u8>>::Out { fn through() {} }
impl Tr for dyn Other { fn lone() {} }
impl<T> Tr for &T { fn shared() {} }
impl Tr for (u8, W) { fn pair() {} }
impl Tr for *const W { fn pointed() {} }
impl Tr for fn(W) -> W { fn shown() {} }
impl Tr for r#type { fn raw() {} }
impl Tr for told!() { fn told() {} }
