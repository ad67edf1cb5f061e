//! Stand-in for static_assertions.

/// Fails to compile unless both types have one size.
#[macro_export]
macro_rules! assert_eq_size {
    ($a:ty, $b:ty) => {
        const _: () = assert!(::core::mem::size_of::<$a>() == ::core::mem::size_of::<$b>());
    };
}
