//! The functions of libvurelika.a. include/vurelika.h says what each takes, returns and leaves.

/// How many codes there are, and places of `counts`.
pub const VURELIKA_CODES: usize = 4;

/// How many neighbours an axis has at most, and places of `neighbours` and `weights`.
pub const VURELIKA_NEIGHBOURS: usize = 6;

/// Functions that take what `shift` takes.
macro_rules! resamplers {
    ($($name:ident),*) => {
        extern "C" {
            $(pub fn $name(
                d0: usize, d1: usize, d2: usize,
                f0: f64, f1: f64, f2: f64,
                order: usize, prefilter: u32, mode: u32, fill: f64,
                input: *const f64, input_len: usize,
                output: *mut f64, output_len: usize,
                coverage: *mut u8, coverage_len: usize,
                work: *mut f64, work_len: usize,
                counts: *mut u64, counts_len: usize,
            ) -> u32;)*
        }
    };
}

resamplers!(vurelika_shift, vurelika_zoom);

/// Functions that take what `shift_voxel` takes.
macro_rules! voxels {
    ($($name:ident),*) => {
        extern "C" {
            $(pub fn $name(
                d0: usize, d1: usize, d2: usize,
                f0: f64, f1: f64, f2: f64,
                order: usize, prefilter: u32, mode: u32, fill: f64,
                input: *const f64, input_len: usize,
                work: *const f64, work_len: usize,
                x: usize, y: usize, z: usize,
                value: *mut f64, value_len: usize,
                code: *mut u8, code_len: usize,
            ) -> u32;)*
        }
    };
}

voxels!(vurelika_shift_voxel, vurelika_zoom_voxel);

/// Functions that take what `shift_point` takes.
macro_rules! points {
    ($($name:ident),*) => {
        extern "C" {
            $(pub fn $name(
                length: usize, factor: f64,
                order: usize, prefilter: u32, mode: u32, index: usize,
                coordinate: *mut f64, coordinate_len: usize,
                neighbours: *mut usize, neighbours_len: usize,
                weights: *mut f64, weights_len: usize,
            ) -> u32;)*
        }
    };
}

points!(vurelika_shift_point, vurelika_zoom_point);

#[rustfmt::skip]
extern "C" {
    pub fn vurelika_spline_filter(
        d0: usize, d1: usize, d2: usize, order: usize, mode: u32, fill: f64,
        input: *const f64, input_len: usize, output: *mut f64, output_len: usize,
    ) -> u32;
    pub fn vurelika_spline_filter1d(
        d0: usize, d1: usize, d2: usize, order: usize, axis: usize, mode: u32, fill: f64,
        input: *const f64, input_len: usize, output: *mut f64, output_len: usize,
    ) -> u32;
    pub fn vurelika_zoom_length(length: usize, factor: f64) -> usize;
    pub fn vurelika_work_count(
        d0: usize, d1: usize, d2: usize, order: usize, prefilter: u32, mode: u32,
    ) -> usize;
    pub fn vurelika_npy_dims(
        bytes: *const u8, bytes_len: usize, dims: *mut usize, dims_len: usize,
    ) -> u32;
    pub fn vurelika_npy_read(
        bytes: *const u8, bytes_len: usize, volume: *mut f64, volume_len: usize,
    ) -> u32;
    pub fn vurelika_npy_size(d0: usize, d1: usize, d2: usize) -> usize;
    pub fn vurelika_npy_write(
        d0: usize, d1: usize, d2: usize,
        volume: *const f64, volume_len: usize, bytes: *mut u8, bytes_len: usize,
    ) -> u32;
}
