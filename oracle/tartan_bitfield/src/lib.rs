//! A stand-in for `tartan_bitfield::bitfield!`, in the forms that the given Rust uses and no others:
//! a struct over `u8` whose fields are `[low..=high] name: u8` or `[bit] name`, each read by a method of its name.

#[macro_export]
macro_rules! bitfield {
    ($(#[$attribute:meta])* $visibility:vis struct $name:ident(u8) { $($fields:tt)* }) => {
        $(#[$attribute])*
        $visibility struct $name(pub u8);

        impl $name {
            $crate::bitfield!(@fields $($fields)*);
        }
    };

    (@fields) => {};
    (@fields [$low:literal ..= $high:literal] $name:ident : u8 $(, $($rest:tt)*)?) => {
        fn $name(&self) -> u8 {
            // bits above `high` go out at the top, bits below `low` at the bottom
            (self.0 << (7 - $high)) >> (7 - $high + $low)
        }
        $crate::bitfield!(@fields $($($rest)*)?);
    };
    (@fields [$bit:literal] $name:ident $(, $($rest:tt)*)?) => {
        fn $name(&self) -> bool {
            (self.0 >> $bit) & 1 == 1
        }
        $crate::bitfield!(@fields $($($rest)*)?);
    };
}

#[cfg(test)]
mod tests {
    bitfield! {
        struct Parts(u8) {
            [0..=2] low: u8,
            [3] flag,
            [4..=7] high: u8
        }
    }

    #[test]
    fn every_byte() {
        for byte in 0..=255u8 {
            let parts = Parts(byte);
            assert_eq!(parts.low(), byte % 8);
            assert_eq!(parts.flag(), byte / 8 % 2 == 1);
            assert_eq!(parts.high(), byte / 16);
        }
    }
}
