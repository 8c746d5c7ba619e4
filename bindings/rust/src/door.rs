//! The library's functions for C (include/vurelika.h), over slices. All that is unsafe is here.

use vurelika_sys as c;

use crate::{BorderMode, Counts, Point, Refusal, Request, Voxel};

/// The functions that resample.
#[derive(Clone, Copy)]
pub(crate) enum Entry {
    Shift,
    Zoom,
}

impl Entry {
    pub(crate) fn call(
        self,
        request: &Request,
        input: &[f64],
        output: &mut [f64],
        coverage: &mut [u8],
        work: &mut [f64],
    ) -> Result<Counts, Refusal> {
        let function = match self {
            Entry::Shift => c::vurelika_shift,
            Entry::Zoom => c::vurelika_zoom,
        };
        let [d0, d1, d2] = request.dims;
        let [f0, f1, f2] = request.factors;
        let (mode, fill) = mode_and_fill(request.mode);
        let mut counts = [0; c::VURELIKA_CODES];
        // SAFETY: each pointer goes with the length of its slice, and Rust's borrows keep the slices
        // that are written apart from each other and from the input.
        let status = unsafe {
            function(
                d0,
                d1,
                d2,
                f0,
                f1,
                f2,
                request.order,
                request.prefilter.into(),
                mode,
                fill,
                input.as_ptr(),
                input.len(),
                output.as_mut_ptr(),
                output.len(),
                coverage.as_mut_ptr(),
                coverage.len(),
                work.as_mut_ptr(),
                work.len(),
                counts.as_mut_ptr(),
                counts.len(),
            )
        };
        Refusal::check(status)?;
        let [computed, filled, defaulted, folded] = counts;
        Ok(Counts {
            computed,
            filled,
            defaulted,
            folded,
        })
    }

    pub(crate) fn voxel(
        self,
        request: &Request,
        input: &[f64],
        work: &[f64],
        [x, y, z]: [usize; 3],
    ) -> Result<Voxel, Refusal> {
        let function = match self {
            Entry::Shift => c::vurelika_shift_voxel,
            Entry::Zoom => c::vurelika_zoom_voxel,
        };
        let [d0, d1, d2] = request.dims;
        let [f0, f1, f2] = request.factors;
        let (mode, fill) = mode_and_fill(request.mode);
        let (mut value, mut code) = ([0.0], [0]);
        // SAFETY: as in `call`.
        let status = unsafe {
            function(
                d0,
                d1,
                d2,
                f0,
                f1,
                f2,
                request.order,
                request.prefilter.into(),
                mode,
                fill,
                input.as_ptr(),
                input.len(),
                work.as_ptr(),
                work.len(),
                x,
                y,
                z,
                value.as_mut_ptr(),
                value.len(),
                code.as_mut_ptr(),
                code.len(),
            )
        };
        Refusal::check(status)?;
        let ([value], [code]) = (value, code);
        Ok(Voxel { value, code })
    }

    pub(crate) fn point(
        self,
        length: usize,
        factor: f64,
        order: usize,
        prefilter: bool,
        mode: BorderMode,
        index: usize,
    ) -> Result<Point, Refusal> {
        let function = match self {
            Entry::Shift => c::vurelika_shift_point,
            Entry::Zoom => c::vurelika_zoom_point,
        };
        let (mode, _) = mode_and_fill(mode);
        let mut coordinate = [0.0];
        let mut neighbours = [0; c::VURELIKA_NEIGHBOURS];
        let mut weights = [0.0; c::VURELIKA_NEIGHBOURS];
        // SAFETY: as in `call`.
        let status = unsafe {
            function(
                length,
                factor,
                order,
                prefilter.into(),
                mode,
                index,
                coordinate.as_mut_ptr(),
                coordinate.len(),
                neighbours.as_mut_ptr(),
                neighbours.len(),
                weights.as_mut_ptr(),
                weights.len(),
            )
        };
        Refusal::check(status)?;
        let [coordinate] = coordinate;
        Ok(Point {
            coordinate,
            neighbours,
            weights,
        })
    }
}

pub(crate) fn spline_filter(
    request: &Request,
    input: &[f64],
    output: &mut [f64],
) -> Result<(), Refusal> {
    let [d0, d1, d2] = request.dims;
    let (mode, fill) = mode_and_fill(request.mode);
    // SAFETY: as in `Entry::call`.
    Refusal::check(unsafe {
        c::vurelika_spline_filter(
            d0,
            d1,
            d2,
            request.order,
            mode,
            fill,
            input.as_ptr(),
            input.len(),
            output.as_mut_ptr(),
            output.len(),
        )
    })
}

pub(crate) fn spline_filter1d(
    request: &Request,
    axis: usize,
    input: &[f64],
    output: &mut [f64],
) -> Result<(), Refusal> {
    let [d0, d1, d2] = request.dims;
    let (mode, fill) = mode_and_fill(request.mode);
    // SAFETY: as in `Entry::call`.
    Refusal::check(unsafe {
        c::vurelika_spline_filter1d(
            d0,
            d1,
            d2,
            request.order,
            axis,
            mode,
            fill,
            input.as_ptr(),
            input.len(),
            output.as_mut_ptr(),
            output.len(),
        )
    })
}

/// The dimensions that zoom gives; one is 0 where it would refuse them.
pub(crate) fn zoom_dims(request: &Request) -> [usize; 3] {
    // SAFETY: the function takes numbers alone.
    [0, 1, 2].map(|i| unsafe { c::vurelika_zoom_length(request.dims[i], request.factors[i]) })
}

/// How many places of work shift and zoom need; 0 where they refuse whatever it is.
pub(crate) fn work_count(request: &Request) -> usize {
    let [d0, d1, d2] = request.dims;
    let (mode, _) = mode_and_fill(request.mode);
    // SAFETY: the function takes numbers alone.
    unsafe { c::vurelika_work_count(d0, d1, d2, request.order, request.prefilter.into(), mode) }
}

pub(crate) fn npy_dims(bytes: &[u8]) -> Result<[usize; 3], Refusal> {
    let mut dims = [0; 3];
    // SAFETY: as in `Entry::call`.
    let status =
        unsafe { c::vurelika_npy_dims(bytes.as_ptr(), bytes.len(), dims.as_mut_ptr(), dims.len()) };
    Refusal::check(status)?;
    Ok(dims)
}

pub(crate) fn npy_read(bytes: &[u8], volume: &mut [f64]) -> Result<(), Refusal> {
    // SAFETY: as in `Entry::call`.
    Refusal::check(unsafe {
        c::vurelika_npy_read(
            bytes.as_ptr(),
            bytes.len(),
            volume.as_mut_ptr(),
            volume.len(),
        )
    })
}

/// The bytes of a volume's file; 0 where `npy_write` refuses the lengths.
pub(crate) fn npy_size([d0, d1, d2]: [usize; 3]) -> usize {
    // SAFETY: the function takes numbers alone.
    unsafe { c::vurelika_npy_size(d0, d1, d2) }
}

pub(crate) fn npy_write(
    [d0, d1, d2]: [usize; 3],
    volume: &[f64],
    bytes: &mut [u8],
) -> Result<(), Refusal> {
    // SAFETY: as in `Entry::call`.
    Refusal::check(unsafe {
        c::vurelika_npy_write(
            d0,
            d1,
            d2,
            volume.as_ptr(),
            volume.len(),
            bytes.as_mut_ptr(),
            bytes.len(),
        )
    })
}

/// The number of a mode, and a fill, which is read in Constant alone.
fn mode_and_fill(mode: BorderMode) -> (u32, f64) {
    match mode {
        BorderMode::Constant(fill) => (0, fill),
        BorderMode::Mirror => (1, 0.0),
        BorderMode::Nearest => (2, 0.0),
        BorderMode::Reflect => (3, 0.0),
        BorderMode::Wrap => (4, 0.0),
        BorderMode::Replicate => (5, 0.0),
    }
}
