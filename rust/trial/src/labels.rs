//! Enums for tables.

/// An enum whose cases have words for a table.
macro_rules! labels {
    ($(#[$about:meta])* pub enum $name:ident { $($case:ident = $label:literal,)* }) => {
        $(#[$about])*
        #[derive(Clone, Copy, PartialEq, Eq, Debug)]
        pub enum $name { $($case,)* }

        impl $name {
            pub const ALL: &'static [$name] = &[$($name::$case,)*];

            pub fn label(self) -> &'static str {
                match self { $($name::$case => $label,)* }
            }
        }
    };
}
pub(crate) use labels;
