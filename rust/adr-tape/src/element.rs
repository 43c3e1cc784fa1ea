//! What is recorded and read back.

use std::borrow::Cow;

/// An element of a recording.
#[derive(Clone, Debug, PartialEq, Eq, Hash)]
pub enum Element<'a> {
    /// A block of 32,768 bytes, borrowed or owned.
    Block(Cow<'a, [u8]>),
    /// A filemark.
    Filemark,
}

impl Element<'_> {
    /// The element with bytes of its own; a borrowed block is copied.
    #[must_use]
    pub fn into_owned(self) -> Element<'static> {
        match self {
            Element::Block(block) => Element::from(block.into_owned()),
            Element::Filemark => Element::Filemark,
        }
    }
}

impl<'a> From<&'a [u8]> for Element<'a> {
    fn from(block: &'a [u8]) -> Self {
        Element::Block(Cow::Borrowed(block))
    }
}

impl From<Vec<u8>> for Element<'_> {
    fn from(block: Vec<u8>) -> Self {
        Element::Block(Cow::Owned(block))
    }
}
