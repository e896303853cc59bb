//! The ways in which a program can be wrong, named once: an enum of them and of none, and a list of all.

macro_rules! faults {
    ($($(#[$what:meta])* $name:ident,)*) => {
        #[derive(Clone, Copy, Debug, PartialEq)]
        enum Fault {
            None,
            $($(#[$what])* $name,)*
        }

        const FAULTS: &[Fault] = &[$(Fault::$name,)*];
    };
}
