//! Indices into the tables of a layout, each with a type of its own.

macro_rules! id {
    ($(#[$doc:meta])* $name:ident) => {
        $(#[$doc])*
        #[derive(Clone, Copy, PartialEq, Eq, PartialOrd, Ord, Hash, Debug)]
        pub struct $name(u32);

        impl $name {
            /// The index as one of vectors. Tables have fewer than 2^32 rows: files that are read have less than 4 GiB
            /// of section headers and symbols, and what is beyond is never looked up.
            pub(crate) fn new(index: usize) -> Self {
                $name(u32::try_from(index).unwrap_or(u32::MAX))
            }

            /// The index in its table.
            pub fn index(self) -> usize {
                self.0 as usize
            }
        }
    };
}

id!(
    /// An input section: of an object, the common blocks of an object, or one that GNU ld makes itself.
    SectionId
);
id!(
    /// An output section statement: those of the script in its order, then those that were added for orphans.
    OutputId
);
id!(
    /// A statement of the script that the passes go over.
    StatementId
);
id!(
    /// A name that is not local, as far as script, command line or GNU ld itself speak of it.
    SymbolId
);
id!(
    /// A region of MEMORY; the first that no script names is `*default*`.
    RegionId
);
id!(
    /// A name of sections, kept once.
    NameId
);
id!(
    /// A compiled expression.
    ExprId
);
