// A module of ir that is in no file that we have.

/// The types that the compiler tells apart.
#[derive(Debug, Clone, PartialEq, Eq)]
pub enum Type<'t> {
    Int,
    Double,
    Bool,
    Heap(u8),
    Other(&'t str),
}
