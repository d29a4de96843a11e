//! Stands in for the crate `bitflags`: the constants of a type over one number, and the number in and out.

#[macro_export]
macro_rules! bitflags {
    (impl $name:ident: $number:ty { $($(#[$note:meta])* const $flag:ident = $value:expr;)* }) => {
        impl $name {
            $($(#[$note])* pub const $flag: Self = Self($value);)*

            pub const fn bits(&self) -> $number {
                self.0
            }

            pub const fn from_bits_retain(bits: $number) -> Self {
                Self(bits)
            }
        }
    };
}
