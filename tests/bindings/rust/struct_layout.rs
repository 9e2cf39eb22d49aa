// Checks the structs of minisign-proved-sys. tests/bindings/rust.py appends this file to the crate's declarations, and
// replaces STRUCTS by checks of the sizes and offsets that a C compiler gives to the structs of the header.
#[cfg(test)]
mod inside {
    use super::*;
    extern crate std;
    use std::mem::{size_of, ManuallyDrop, MaybeUninit};
    macro_rules! size {
        ($of:ty, $number:expr) => {
            assert_eq!(size_of::<$of>(), $number, stringify!($of))
        };
    }
    macro_rules! offset {
        ($of:ty, $number:expr, $field:ident) => {
            let value = MaybeUninit::<$of>::uninit();
            let at = unsafe { std::ptr::addr_of!((*value.as_ptr()).$field) } as usize - value.as_ptr() as usize;
            assert_eq!(at, $number, "{} of {}", stringify!($field), stringify!($of))
        };
    }
    #[test]
    fn clears_dropped_key() {
        let mut key = ManuallyDrop::new(minisign_secret_key { mark: 1, key_id: [2; 8], secret: [3; 64] });
        unsafe { ManuallyDrop::drop(&mut key) };
        assert_eq!(key.secret, [0; 64]);
    }
    #[test]
    fn structs_have_layout_of_header() {
        // STRUCTS
    }
}
