//! NumPy's files: `.npy` of version 1.0 that hold little-endian `f64` (`'<f8'`) in C order on three axes.
//!
//! A file is a slice of bytes; opening, reading and writing it is the caller's. What is taken `numpy.load`
//! takes too, with the same lengths and bits: the keys of the header in any order, each once, either
//! quotes, spaces, tabs and newlines between its signs, with the last comma or without; as with
//! `numpy.load`, at most 10,000 bytes of it, and lengths whose product, zeros left out, is below 2^60. Any
//! other file is [`Refusal::NotNpy`], data bytes missing or left over included. What is written is what
//! `numpy.save` writes.
//!
//! Voxels are moved, not looked at: a NaN keeps its bits, and meets [`Refusal::Value`] where it is
//! resampled.
//!
//! ```
//! use vurelika::{npy, shift, BorderMode, Request, Volume};
//!
//! let scan = Volume {
//!     dims: [2, 2, 4],
//!     voxels: [10.0, 20.0, 30.0, 40.0].repeat(4),
//! };
//! let file = npy::write(&scan)?;
//! assert!(file.starts_with(b"\x93NUMPY\x01\x00"));
//! assert_eq!(file.len(), 128 + 8 * 16);
//!
//! let Volume { dims, voxels } = npy::read(&file)?;
//! let request = Request {
//!     dims,
//!     factors: [0.0, 0.0, 1.0],
//!     order: 1,
//!     prefilter: true,
//!     mode: BorderMode::Constant(-1.0),
//! };
//! let moved = shift(&request, &voxels)?;
//! assert_eq!(moved.voxels[..4], [-1.0, 10.0, 20.0, 30.0]);
//! # Ok::<(), vurelika::Refusal>(())
//! ```

use crate::{door, Refusal, Volume};

/// The lengths of the file's axes, whether or not [`read`] would take them. Its one refusal is
/// [`Refusal::NotNpy`].
///
/// ```
/// # use vurelika::{npy, Refusal, Volume};
/// let file = npy::write(&Volume { dims: [2, 3, 4], voxels: vec![0.0; 24] })?;
/// assert_eq!(npy::dims(&file), Ok([2, 3, 4]));
/// assert_eq!(npy::dims(&file[..file.len() - 1]), Err(Refusal::NotNpy));
/// # Ok::<(), Refusal>(())
/// ```
pub fn dims(bytes: &[u8]) -> Result<[usize; 3], Refusal> {
    door::npy_dims(bytes)
}

/// The volume of a file. Refusals: [`Refusal::NotNpy`], [`Refusal::Length`], [`Refusal::Count`].
///
/// ```
/// # use vurelika::{npy, Refusal};
/// let header = b"{'shape': (2, 2, 2), \"descr\": '<f8', 'fortran_order': False}";
/// let mut file = b"\x93NUMPY\x01\x00".to_vec();
/// file.extend((header.len() as u16).to_le_bytes());
/// file.extend(header);
/// file.extend([1.5f64; 8].map(f64::to_le_bytes).concat());
/// let volume = npy::read(&file)?;
/// assert_eq!((volume.dims, volume.voxels), ([2, 2, 2], vec![1.5; 8]));
///
/// file.push(0);
/// assert_eq!(npy::read(&file), Err(Refusal::NotNpy));
/// # Ok::<(), Refusal>(())
/// ```
pub fn read(bytes: &[u8]) -> Result<Volume, Refusal> {
    Refusal::before_buffers(read_into(bytes, &mut []))?; // past this the lengths are small
    let dims = dims(bytes)?;
    let mut voxels = vec![0.0; dims.iter().product()];
    read_into(bytes, &mut voxels)?;
    Ok(Volume { dims, voxels })
}

/// [`read`] into a lent slice, of as many places as the file has voxels, else [`Refusal::Buffer`]. On
/// refusal it holds what it held.
///
/// ```
/// # use vurelika::{npy, Refusal, Volume};
/// let file = npy::write(&Volume { dims: [2, 2, 2], voxels: vec![7.0; 8] })?;
/// let mut voxels = [0.0; 9];
/// assert_eq!(npy::read_into(&file, &mut voxels), Err(Refusal::Buffer));
/// npy::read_into(&file, &mut voxels[..8])?;
/// assert_eq!(voxels, [7.0, 7.0, 7.0, 7.0, 7.0, 7.0, 7.0, 7.0, 0.0]);
/// # Ok::<(), Refusal>(())
/// ```
pub fn read_into(bytes: &[u8], voxels: &mut [f64]) -> Result<(), Refusal> {
    door::npy_read(bytes, voxels)
}

/// How many bytes the file of a volume of these lengths has; or the refusal that [`write()`] would give
/// whatever the voxels are, [`Refusal::Length`] or [`Refusal::Count`].
///
/// ```
/// # use vurelika::{npy, Refusal};
/// assert_eq!(npy::size([2, 3, 4]), Ok(128 + 8 * 24));
/// assert_eq!(npy::size([1, 512, 512]), Ok(128 + 8 * 512 * 512)); // a radiograph
/// assert_eq!(npy::size([2, 3, 0]), Err(Refusal::Length));
/// assert_eq!(npy::size([4096; 3]), Err(Refusal::Count));
/// ```
pub fn size(dims: [usize; 3]) -> Result<usize, Refusal> {
    Refusal::before_buffers(write_into(dims, &[], &mut []))?;
    Ok(door::npy_size(dims))
}

/// The file of a volume. Refusals: [`Refusal::Length`], [`Refusal::Count`], and [`Refusal::Buffer`] where
/// there are more or fewer voxels than the lengths say.
pub fn write(volume: &Volume) -> Result<Vec<u8>, Refusal> {
    let size = size(volume.dims)?;
    if volume.voxels.len() != volume.dims.iter().product() {
        return Err(Refusal::Buffer); // before room is made for what would not be written
    }
    let mut bytes = vec![0; size];
    write_into(volume.dims, &volume.voxels, &mut bytes)?;
    Ok(bytes)
}

/// [`write()`] into a lent slice, of exactly [`size`] bytes. On refusal it holds what it held.
///
/// ```
/// # use vurelika::npy;
/// let mut file = vec![0; npy::size([2, 2, 2])?];
/// npy::write_into([2, 2, 2], &[0.5; 8], &mut file)?;
/// let text = b"{'descr': '<f8', 'fortran_order': False, 'shape': (2, 2, 2), }";
/// assert!(file[10..].starts_with(text));
/// assert_eq!(file[128..136], 0.5f64.to_le_bytes());
/// # Ok::<(), vurelika::Refusal>(())
/// ```
pub fn write_into(dims: [usize; 3], voxels: &[f64], bytes: &mut [u8]) -> Result<(), Refusal> {
    door::npy_write(dims, voxels, bytes)
}
