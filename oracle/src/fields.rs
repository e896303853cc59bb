//! Every field of the given Rust's structs, private ones too, handed out and taken in with its path.

/// One part of the path to a field.
#[derive(Clone, Copy, Debug, PartialEq)]
pub enum Part {
    Name(&'static str),
    Index(usize),
    Variant(&'static str),
}

/// What the stand-in for `#[derive(Savefile)]` writes for each type.
pub trait Fields {
    /// Hands out each field, in the order of declaration.
    fn dump(&self, at: &mut Vec<Part>, out: &mut dyn FnMut(&[Part], i64));
    /// Asks a value for each field; none keeps the field as it is. An enum keeps its variant.
    fn load(&mut self, at: &mut Vec<Part>, get: &mut dyn FnMut(&[Part]) -> Option<i64>);
}

macro_rules! number {
    ($($t:ty),*) => { $(
        impl Fields for $t {
            fn dump(&self, at: &mut Vec<Part>, out: &mut dyn FnMut(&[Part], i64)) {
                out(at, *self as i64);
            }
            fn load(&mut self, at: &mut Vec<Part>, get: &mut dyn FnMut(&[Part]) -> Option<i64>) {
                if let Some(value) = get(at) {
                    *self = <$t>::try_from(value).unwrap_or_else(|_| panic!("{at:?}: {value} does not fit"));
                }
            }
        }
    )* };
}

number!(u8, i8, u16, usize);

impl Fields for bool {
    fn dump(&self, at: &mut Vec<Part>, out: &mut dyn FnMut(&[Part], i64)) {
        out(at, *self as i64);
    }
    fn load(&mut self, at: &mut Vec<Part>, get: &mut dyn FnMut(&[Part]) -> Option<i64>) {
        match get(at) {
            Some(0) => *self = false,
            Some(1) => *self = true,
            Some(value) => panic!("{at:?}: {value} does not fit"),
            None => {}
        }
    }
}

impl<T: Fields, const N: usize> Fields for [T; N] {
    fn dump(&self, at: &mut Vec<Part>, out: &mut dyn FnMut(&[Part], i64)) {
        for (i, element) in self.iter().enumerate() {
            at.push(Part::Index(i));
            element.dump(at, out);
            at.pop();
        }
    }
    fn load(&mut self, at: &mut Vec<Part>, get: &mut dyn FnMut(&[Part]) -> Option<i64>) {
        for (i, element) in self.iter_mut().enumerate() {
            at.push(Part::Index(i));
            element.load(at, get);
            at.pop();
        }
    }
}
