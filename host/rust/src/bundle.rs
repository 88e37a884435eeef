use crate::bytes::float_at;
use crate::library;
use crate::Refusal;
use std::borrow::Cow;
use std::fmt;

/// The length of a bundle in bytes.
pub const BUNDLE_BYTES: usize = 6_127_736;
/// The length of the curves in bytes: 31 curves of 2,049 f32.
pub const CURVES_BYTES: usize = 254_076;

/// The tables of the filter: bytes that were opened, so that the header is the fixed one and every entry usable.
///
/// It borrows its bytes or owns them. A `Bundle<'static>` of a `Vec` can stand in a struct beside its [`Curves`], and threads can share
/// both.
#[derive(Clone)]
pub struct Bundle<'a> {
    bytes: Cow<'a, [u8]>,
}

impl<'a> Bundle<'a> {
    /// Opens a bundle: looks at its length (1), its header (2) and every entry in order (3). A slice is borrowed, a `Vec` becomes the
    /// bundle's own; neither is copied.
    ///
    /// ```
    /// use sid_filter::{Bundle, Refusal};
    /// assert_eq!(Bundle::open(b"no bundle").err(), Some(Refusal::BundleLength));
    /// ```
    pub fn open(bytes: impl Into<Cow<'a, [u8]>>) -> Result<Bundle<'a>, Refusal> {
        let bytes = bytes.into();
        Refusal::check(library::open(&bytes))?;
        Ok(Bundle { bytes })
    }

    /// The bytes that were opened.
    pub fn as_bytes(&self) -> &[u8] {
        &self.bytes
    }
}

impl fmt::Debug for Bundle<'_> {
    /// The name alone, not the bytes.
    fn fmt(&self, f: &mut fmt::Formatter) -> fmt::Result {
        f.debug_struct("Bundle").finish_non_exhaustive()
    }
}

/// The 31 transfer curves of a bundle: summer 0 to 6, mixer 7 to 14, volume 15 to 30.
#[derive(Clone, PartialEq, Eq)]
pub struct Curves {
    bytes: Box<[u8]>,
}

impl Curves {
    /// How many curves there are.
    pub const COUNT: usize = 31;
    /// The entries of a curve; the last one repeats the one before it.
    pub const ENTRIES: usize = 2_049;

    /// Builds the curves of a bundle. The library looks at the entries of the analogue surface again (3); an opened bundle passes.
    pub fn build(bundle: &Bundle) -> Result<Curves, Refusal> {
        let mut bytes = vec![0; CURVES_BYTES].into_boxed_slice();
        Refusal::check(library::build_curves(bundle.as_bytes(), &mut bytes))?;
        Ok(Curves { bytes })
    }

    /// Curves that were kept as bytes. A run judges their length (4) and each entry that it reads (3).
    pub fn from_bytes(bytes: impl Into<Box<[u8]>>) -> Curves {
        Curves { bytes: bytes.into() }
    }

    /// The bytes: little-endian f32, one curve after another.
    pub fn as_bytes(&self) -> &[u8] {
        &self.bytes
    }

    /// The entries of one curve; none of a curve that is not there.
    pub fn curve(&self, index: usize) -> impl Iterator<Item = f32> + '_ {
        let entries = self.bytes.chunks_exact(4).skip(index.saturating_mul(Curves::ENTRIES)).take(Curves::ENTRIES);
        entries.map(|entry| float_at(entry, 0))
    }
}

impl fmt::Debug for Curves {
    /// The name alone, not the bytes.
    fn fmt(&self, f: &mut fmt::Formatter) -> fmt::Result {
        f.debug_struct("Curves").finish_non_exhaustive()
    }
}
