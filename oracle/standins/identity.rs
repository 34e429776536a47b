//! Stands in for identity.rs, which was not given.
//! It must define `define_dense_id`, the macro by which stack/partial.rs makes
//! the number of a partial path: a 32-bit index with its own type.

macro_rules! define_dense_id {
    (
        $(#[$struct_meta:meta])*
        $vis:vis struct $name:ident(u32);
        display = $prefix:literal;
        $(#[$from_meta:meta])*
        from_index = $message:literal;
    ) => {
        $(#[$struct_meta])*
        #[derive(Clone, Copy, Debug, PartialEq, Eq)]
        $vis struct $name(u32);

        impl $name {
            $(#[$from_meta])*
            #[must_use]
            pub fn from_index(index: usize) -> Self {
                Self(u32::try_from(index).expect($message))
            }

            #[must_use]
            pub const fn index(self) -> usize {
                self.0 as usize
            }
        }
    };
}

pub(crate) use define_dense_id;
