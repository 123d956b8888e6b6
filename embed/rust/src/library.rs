//! Whether the library that is linked is the one of this crate's version.
use crate::ffi::{self, Handle};
use crate::ids::{Counted, Given, IdShape, Loading, Stamped};
use crate::{Delta, Fault, Found, Row, Rows, Shape, Sizes, SlotCounts, Wanted};
use std::mem::size_of;

/// The first two numbers of the version: libraries that share them share their header.
macro_rules! version {
    () => {
        concat!(env!("CARGO_PKG_VERSION_MAJOR"), ".", env!("CARGO_PKG_VERSION_MINOR"))
    };
}

/// What is said of any other.
pub const IS_ANOTHER: &str = concat!("the library that is linked isn't that of version ", version!());

/// What the header's structs take here, in its order: five of them are handles, as are two by id and two of a cache. Those by
/// id no call of this crate takes: a shape, an upquery, an id with its answer before its rows, and the last one.
const SIZES: [usize; 26] = [
    size_of::<Row>(),
    size_of::<Rows>(),
    size_of::<Wanted>(),
    size_of::<Delta>(),
    size_of::<Shape>(),
    size_of::<Sizes>(),
    size_of::<SlotCounts>(),
    size_of::<Handle>(),
    size_of::<Handle>(),
    size_of::<Handle>(),
    size_of::<Handle>(),
    size_of::<Handle>(),
    size_of::<[u64; 4]>(),
    size_of::<[u64; 5]>(),
    size_of::<Handle>(),
    size_of::<Handle>(),
    size_of::<[u64; 2]>() + size_of::<Rows>(),
    size_of::<IdShape>(),
    size_of::<Handle>(),
    size_of::<Handle>(),
    size_of::<Stamped>(),
    size_of::<Counted>(),
    size_of::<Loading>(),
    size_of::<Given>(),
    size_of::<Found>(),
    size_of::<[u64; 2]>(),
];

/// Refuses a library of another version, or one whose structs have other sizes.
pub fn is_own() -> Result<(), Fault> {
    // SAFETY: it takes nothing.
    let version = unsafe { ffi::nr_version() };
    // SAFETY: it takes a number, and any will do.
    let size_at = |place| unsafe { ffi::nr_struct_size(place) } as usize;
    let has_sizes = (0..).map(size_at).take(SIZES.len() + 1).eq(SIZES.into_iter().chain([0]));
    let is_own = format!("{}.{}", version >> 16, version >> 8 & 0xff) == version!() && has_sizes;
    is_own.then_some(()).ok_or(Fault::OtherLibrary)
}
