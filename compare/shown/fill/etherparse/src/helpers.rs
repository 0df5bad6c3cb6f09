// Ours, not etherparse's: fills in the byte readers that the shown files call, and the bit fields.

/// The 16-bit number at `ptr`, high byte first.
///
/// # Safety
///
/// Two bytes must be readable at `ptr`.
pub(crate) unsafe fn get_unchecked_be_u16(ptr: *const u8) -> u16 {
    // SAFETY: the caller promises two readable bytes, and a byte array needs no alignment.
    u16::from_be_bytes(unsafe { *ptr.cast() })
}

/// The 32-bit number at `ptr`, high byte first.
///
/// # Safety
///
/// Four bytes must be readable at `ptr`.
pub(crate) unsafe fn get_unchecked_be_u32(ptr: *const u8) -> u32 {
    // SAFETY: the caller promises four readable bytes, and a byte array needs no alignment.
    u32::from_be_bytes(unsafe { *ptr.cast() })
}

/// The four bytes at `ptr`.
///
/// # Safety
///
/// Four bytes must be readable at `ptr`.
pub(crate) unsafe fn get_unchecked_4_byte_array(ptr: *const u8) -> [u8; 4] {
    // SAFETY: the caller promises four readable bytes, and a byte array needs no alignment.
    unsafe { *ptr.cast() }
}

/// A field of fewer bits than its type has. No memory access rests on the value, so a wrong one is
/// at worst a wrong number; `new_unchecked` is `unsafe` because the shown files call it so.
macro_rules! field {
    ($name:ident, $number:ty, $about:literal) => {
        #[doc = $about]
        #[derive(Clone, Copy, Debug, Default, Eq, Hash, Ord, PartialEq, PartialOrd)]
        pub struct $name($number);

        impl $name {
            /// The field with that value.
            ///
            /// # Safety
            ///
            /// Nothing is asked for memory's sake; the value should fit the field.
            pub const unsafe fn new_unchecked(value: $number) -> $name {
                $name(value)
            }

            /// The value.
            pub const fn value(self) -> $number {
                self.0
            }
        }
    };
}
pub(crate) use field;
