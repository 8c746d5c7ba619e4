//! The kinds of requests: what each reads from its line, and what it asks of the Rust.

use ndarray::Array3;
use ndarray_ndimage::probe::{self, Axes, Point};
use ndarray_ndimage::{pad, BorderMode, PadMode};
use requests::document;
use requests::request::{Alone, Asked, Entry, Request};
use requests::theirs::{self, Theirs};
use shared::rust;

use crate::answer::{Answer, Style};
use crate::constants;
use crate::fields::Fields;
use crate::voxels;

/// A request that has been read: asks the Rust and writes what it says.
type Question = Box<dyn FnOnce(&mut Answer)>;

/// The answer to one request line; an error where the line itself is at fault.
pub fn answer(line: &str, style: Style) -> Result<String, String> {
    let mut words = line.split_whitespace();
    let kind = words.next().unwrap_or_default();
    let mut fields = Fields::read(words)?;
    let question = read(kind, &mut fields)?;
    fields.none_left()?;
    let answered = rust::call(|| {
        let mut answer = Answer::new(style);
        question(&mut answer);
        answer.into_line()
    });
    Ok(answered.unwrap_or_else(|| "panic".into()))
}

fn read(kind: &str, fields: &mut Fields) -> Result<Question, String> {
    match kind {
        "shift" => whole_call(fields, Entry::Shift),
        "zoom" => whole_call(fields, Entry::Zoom),
        "shift_voxel" => one_voxel(fields, Entry::Shift),
        "zoom_voxel" => one_voxel(fields, Entry::Zoom),
        "zoom_length" => zoom_length(fields),
        "spline_filter" => whole_call(fields, Entry::SplineFilter),
        "spline_filter1d" => whole_call(fields, Entry::SplineFilter1d),
        "coefficients" => coefficients(fields),
        "pad" => edge_pad(fields),
        "lane" => lane(fields),
        "causal_start" => start(fields, probe::causal_start),
        "anticausal_start" => start(fields, probe::anticausal_start),
        "map_coordinates" => map_coordinates(fields),
        "build_splines" => build_splines(fields),
        "points" => points(fields),
        "codes" => codes(fields),
        "round_ties_even" => round_ties_even(fields),
        "powi" => powi(fields),
        "constants" => constants_of_order(fields),
        _ => Err(format!("{kind:?} is no kind of request")),
    }
}

/// Three axes, and every number of the volume.
fn read_flat(fields: &mut Fields) -> Result<([usize; 3], Vec<f64>), String> {
    let dims = fields.three_wholes("dims")?;
    let values = voxels::read(fields, dims.iter().product())?;
    Ok((dims, values))
}

/// A volume, and of what is asked of an entry that which all of them have.
fn read_asked(fields: &mut Fields, entry: Entry) -> Result<(Asked, Vec<f64>), String> {
    let (dims, input) = read_flat(fields)?;
    let (mode, fill) = fields.mode_and_fill()?;
    let asked = Asked {
        entry,
        dims,
        factors: [0.0; 3],
        order: fields.whole("order")?,
        axis: 0,
        prefilter: 0,
        mode,
        fill,
    };
    Ok((asked, input))
}

fn read_request(fields: &mut Fields, entry: Entry) -> Result<Request, String> {
    let (mut asked, input) = read_asked(fields, entry)?;
    if entry.resamples() {
        asked.factors = fields.three_floats("factors")?;
        asked.prefilter = fields.flag("prefilter")?.into();
    }
    if entry == Entry::SplineFilter1d {
        asked.axis = fields.whole("axis")?;
    }
    Ok(Request {
        lengths: asked.lengths(),
        asked,
        input,
    })
}

/// An entry, with the codes that its axes' tables give. Where an axis has length 1 the Rust is not asked, and a
/// refusal has its number.
fn whole_call(fields: &mut Fields, entry: Entry) -> Result<Question, String> {
    let request = read_request(fields, entry)?;
    Ok(Box::new(move |answer| {
        let Request { asked, input, .. } = &request;
        match document::answer(&request) {
            refusal @ 1.. if asked.has_single() => write_refusal(answer, refusal),
            _ => write_left(
                answer,
                &theirs::call(asked, input).expect("no panic in the Rust"),
            ),
        }
    }))
}

/// One voxel of `shift` or `zoom`: of the Rust's volume, or by its tables over the numbers of `work`; or the
/// refusal that documents 01 and 02 give it.
fn one_voxel(fields: &mut Fields, entry: Entry) -> Result<Question, String> {
    let request = read_request(fields, entry)?;
    let alone = Alone::at(fields.three_wholes("at")?);
    let work = voxels::read_work(fields, request.asked.needed())?;
    Ok(Box::new(move |answer| {
        match document::answer_alone(&request, &alone) {
            0 => write_voxel(answer, voxel(&request, alone.at, work.as_deref())),
            refusal => write_refusal(answer, refusal),
        }
    }))
}

fn write_refusal(answer: &mut Answer, refusal: u32) {
    answer.word("refusal").word(refusal);
}

fn voxel(request: &Request, at: [usize; 3], work: Option<&[f64]>) -> (f64, u8) {
    let voxel = match work {
        Some(work) => theirs::voxel(&request.asked, work, at),
        None => theirs::call(&request.asked, &request.input).map(|theirs| theirs.voxel(at)),
    };
    voxel.expect("no panic in the Rust")
}

fn write_voxel(answer: &mut Answer, (value, code): (f64, u8)) {
    answer.word("code").word(code);
    answer.word("value").floats(&[value]);
}

/// Of a filter there are no codes.
fn write_left(answer: &mut Answer, theirs: &Theirs) {
    if !theirs.codes.is_empty() {
        let count_of = |code| theirs.codes.iter().filter(|c| **c == code).count();
        answer.word("dims").wholes(&theirs.dims);
        answer.word("counts").wholes(&[0, 1, 2, 3].map(count_of));
        write_codes(answer, &theirs.codes);
    }
    answer.word("values").floats(&theirs.values);
}

fn write_codes(answer: &mut Answer, codes: &[u8]) {
    let digits: String = codes.iter().map(|c| char::from(b'0' + c)).collect();
    answer.word("codes").word(digits);
}

fn write_volume(answer: &mut Answer, out: &Array3<f64>) {
    let values = out.as_slice().expect("the Rust keeps the input's layout");
    answer.word("dims").wholes(out.shape());
    answer.word("values").floats(values);
}

fn zoom_length(fields: &mut Fields) -> Result<Question, String> {
    let length = fields.whole("length")?;
    let factor = fields.float("factor")?;
    Ok(Box::new(move |answer| {
        let output = probe::zoom_length(length, factor);
        answer.word("length").word(output);
    }))
}

fn coefficients(fields: &mut Fields) -> Result<Question, String> {
    let (mut asked, input) = read_asked(fields, Entry::Shift)?;
    asked.prefilter = fields.flag("prefilter")?.into();
    Ok(Box::new(move |answer| {
        let source = theirs::source(&asked, &input);
        write_volume(answer, &source.expect("no panic in the Rust"));
    }))
}

fn edge_pad(fields: &mut Fields) -> Result<Question, String> {
    let (dims, input) = read_flat(fields)?;
    let width = fields.whole("width")?;
    Ok(Box::new(move |answer| {
        let data = theirs::volume(dims, &input);
        write_volume(answer, &pad(&data, &[[width, width]], PadMode::Edge));
    }))
}

fn read_lane(fields: &mut Fields) -> Result<Vec<f64>, String> {
    let length = fields.whole("length")?;
    voxels::read(fields, length)
}

fn lane(fields: &mut Fields) -> Result<Question, String> {
    let lane = read_lane(fields)?;
    let order = fields.whole("order")?;
    let mode = fields.rusts_mode()?;
    Ok(Box::new(move |answer| {
        let filtered = probe::lane(&lane, order, mode);
        answer.word("values").floats(&filtered);
    }))
}

fn start(
    fields: &mut Fields,
    start_of: fn(&[f64], f64, BorderMode<f64>) -> f64,
) -> Result<Question, String> {
    let lane = read_lane(fields)?;
    let pole = fields.float("pole")?;
    let mode = fields.rusts_mode()?;
    Ok(Box::new(move |answer| {
        let start = start_of(&lane, pole, mode);
        answer.word("value").floats(&[start]);
    }))
}

fn map_coordinates(fields: &mut Fields) -> Result<Question, String> {
    let length: usize = fields.whole("length")?;
    let mode = fields.rusts_mode()?;
    let at = fields.floats("at")?;
    Ok(Box::new(move |answer| {
        let fold = |at: &f64| probe::map_coordinates(*at, length as f64, mode);
        let folded: Vec<f64> = at.iter().map(fold).collect();
        answer.word("values").floats(&folded);
    }))
}

fn build_splines(fields: &mut Fields) -> Result<Question, String> {
    let order = fields.whole("order")?;
    let at = fields.floats("at")?;
    Ok(Box::new(move |answer| {
        for at in at {
            let weights = probe::build_splines(at, order);
            answer.word("weights").floats(&weights);
        }
    }))
}

/// An axis; the other two are left without output.
fn read_axis(fields: &mut Fields) -> Result<(Axes, usize, BorderMode<f64>), String> {
    let length = fields.whole("length")?;
    let axes = Axes {
        idim: [length; 3],
        odim: [fields.whole("output")?, 0, 0],
        zooms: [fields.float("zoom")?; 3],
        shifts: [fields.float("shift")?; 3],
        nb_prepad: fields.whole("prepad")?,
    };
    Ok((axes, fields.whole("order")?, fields.rusts_mode()?))
}

/// The table of one axis.
fn points(fields: &mut Fields) -> Result<Question, String> {
    let (axes, order, mode) = read_axis(fields)?;
    Ok(Box::new(move |answer| {
        let [points, ..] = axes.points(order, mode);
        for (at, point) in points.iter().enumerate() {
            answer.word("at").word(at);
            write_point(answer, point);
        }
    }))
}

/// The codes along one axis.
fn codes(fields: &mut Fields) -> Result<Question, String> {
    let (axes, order, mode) = read_axis(fields)?;
    Ok(Box::new(move |answer| {
        let [codes, ..] = axes.codes_along(order, mode);
        write_codes(answer, &codes);
    }))
}

fn write_point(answer: &mut Answer, point: &Point) {
    match point {
        Point::Dropped => {
            answer.word("dropped");
        }
        Point::Kept {
            first,
            edge,
            neighbours,
            weights,
        } => {
            answer.word(if *edge { "edge" } else { "inner" });
            answer.word("first").word(first);
            answer.word("neighbours").wholes(neighbours);
            answer.word("weights").floats(weights);
        }
    }
}

fn round_ties_even(fields: &mut Fields) -> Result<Question, String> {
    let at = fields.floats("at")?;
    Ok(Box::new(move |answer| {
        let rounded: Vec<f64> = at.iter().map(|x| probe::round_ties_even(*x)).collect();
        answer.word("values").floats(&rounded);
    }))
}

fn powi(fields: &mut Fields) -> Result<Question, String> {
    let base = fields.float("base")?;
    let exponent = fields.whole("exponent")?;
    Ok(Box::new(move |answer| {
        answer.word("value").floats(&[base.powi(exponent)]);
    }))
}

fn constants_of_order(fields: &mut Fields) -> Result<Question, String> {
    let order = fields.whole("order")?;
    Ok(Box::new(move |answer| constants::write(answer, order)))
}
