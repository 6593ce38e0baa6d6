//! The seal of an image, by which damage is found, and the newest image of several places.

use crate::error::done;
use crate::sys;
use crate::Error;

/// How many octets a seal has.
pub const SEAL_OCTETS: usize = sys::PTPM_SEAL_OCTETS;

/// An image that was found whole.
#[derive(Clone, Copy, Debug, PartialEq, Eq)]
pub struct Sealed<'a> {
    /// Its octets, without the seal.
    pub image: &'a [u8],
    /// How often it was saved.
    pub count: u64,
}

/// Writes the seal of an image after it, and gives both. The image is the first `size` octets, and `count` is the number of this
/// save.
///
/// # Errors
///
/// [`Error::NoRoom`] if there is no room for the seal. No octet is written then.
pub fn seal(octets: &mut [u8], size: usize, count: u64) -> Result<&[u8], Error> {
    let mut sealed = 0;
    // SAFETY: the octets and the size may be written.
    done(unsafe { sys::ptpm_image_seal_in(octets.as_mut_ptr(), octets.len(), size, count, &mut sealed) })?;
    Ok(&octets[..sealed])
}

/// The image that octets begin with, if its seal follows.
///
/// # Errors
///
/// [`Error::NotAnImage`] or [`Error::Damaged`].
pub fn unseal(octets: &[u8]) -> Result<Sealed<'_>, Error> {
    let (mut count, mut size) = (0, 0);
    // SAFETY: the octets may be read, and the count and the size may be written.
    done(unsafe { sys::ptpm_image_unseal(octets.as_ptr(), octets.len(), &mut count, &mut size) })?;
    Ok(Sealed { image: &octets[..size], count })
}

/// The newest whole image of several places, each of `place` octets: its place, counted from 0, and the image.
pub fn newest_image(octets: &[u8], place: usize) -> Option<(usize, Sealed<'_>)> {
    let places = octets.len().checked_div(place)?;
    let (mut count, mut size) = (0, 0);
    // SAFETY: the octets may be read, and the count and the size may be written.
    let found = unsafe { sys::ptpm_newest_image_in(octets.as_ptr(), octets.len(), place, &mut count, &mut size) };
    if found == places {
        return None;
    }
    let octets = &octets[found * place..];
    Some((found, Sealed { image: &octets[..size], count }))
}
