//! Each refusal, both sides of its limit, what it leaves in the buffers, and numbers that would
//! overflow a careless caller.

use vurelika::{
    shift, shift_into, spline_filter, spline_filter1d, spline_filter1d_into, spline_filter_into,
    zoom, zoom_into, BorderMode, Counts, Refusal, Request,
};

type Resampler = fn(&Request, &[f64], &mut [f64], &mut [u8], &mut [f64]) -> Result<Counts, Refusal>;

const ENTRIES: [Resampler; 2] = [shift_into, zoom_into];

/// Taken by all four functions: a zoom by 1 and a shift by 1 alike.
const TAKEN: Request = Request {
    dims: [2, 3, 4],
    factors: [1.0; 3],
    order: 3,
    prefilter: true,
    mode: BorderMode::Constant(0.5),
};
const VOXELS: usize = 24;

fn with(change: impl FnOnce(&mut Request)) -> Request {
    let mut request = TAKEN;
    change(&mut request);
    request
}

fn zeros(request: &Request) -> Vec<f64> {
    vec![0.0; request.dims.iter().product()]
}

#[test]
fn order() {
    let six = with(|r| r.order = 6);
    let five = with(|r| r.order = 5);
    let one = with(|r| r.order = 1);
    let input = zeros(&TAKEN);
    assert_eq!(shift(&six, &input), Err(Refusal::Order));
    assert_eq!(zoom(&six, &input), Err(Refusal::Order));
    assert_eq!(spline_filter(&six, &input), Err(Refusal::Order));
    assert_eq!(spline_filter1d(&six, 0, &input), Err(Refusal::Order));
    assert_eq!(spline_filter(&one, &input), Err(Refusal::Order));
    assert!(shift(&five, &input).is_ok() && zoom(&five, &input).is_ok());
    assert!(spline_filter(&five, &input).is_ok() && spline_filter1d(&one, 2, &input).is_ok());
}

#[test]
fn axis() {
    let input = zeros(&TAKEN);
    assert_eq!(spline_filter1d(&TAKEN, 3, &input), Err(Refusal::Axis));
    assert_eq!(spline_filter1d(&TAKEN, usize::MAX, &[]), Err(Refusal::Axis));
    assert!(spline_filter1d(&TAKEN, 2, &input).is_ok());
}

#[test]
fn length() {
    for bad in [0, 4097, usize::MAX] {
        for axis in 0..3 {
            let request = with(|r| r.dims[axis] = bad);
            assert_eq!(shift(&request, &[]), Err(Refusal::Length));
            assert_eq!(zoom(&request, &[]), Err(Refusal::Length));
            assert_eq!(spline_filter(&request, &[]), Err(Refusal::Length));
            assert_eq!(spline_filter1d(&request, 0, &[]), Err(Refusal::Length));
        }
    }
    let longest = with(|r| r.dims = [2, 2, 4096]);
    assert!(shift(&longest, &zeros(&longest)).is_ok());
    assert!(zoom(&longest, &zeros(&longest)).is_ok());
    let shortest = with(|r| (r.dims, r.factors) = ([1; 3], [0.0; 3]));
    assert!(shift(&shortest, &[0.0]).is_ok());
    assert!(spline_filter(&shortest, &[0.0]).is_ok());
    assert!(spline_filter1d(&shortest, 0, &[0.0]).is_ok());
}

#[test]
fn factor() {
    let input = zeros(&TAKEN);
    for bad in [f64::NAN, f64::INFINITY, 1048576.0, -1048576.0] {
        let request = with(|r| r.factors[1] = bad);
        assert_eq!(shift(&request, &input), Err(Refusal::Factor));
    }
    for bad in [f64::NAN, f64::INFINITY, 0.0, -1.0, 4096.5] {
        let request = with(|r| r.factors[1] = bad);
        assert_eq!(zoom(&request, &input), Err(Refusal::Factor));
    }
    let far = with(|r| r.factors[1] = 1048575.5);
    assert!(shift(&far, &input).is_ok());
}

#[test]
fn output_length() {
    let input = zeros(&TAKEN);
    for bad in [0.1, 4096.0] {
        let request = with(|r| r.factors[2] = bad);
        assert_eq!(zoom(&request, &input), Err(Refusal::OutputLength));
    }
    let longest = with(|r| r.factors[2] = 1024.0);
    assert_eq!(
        zoom(&longest, &input).map(|volume| volume.dims),
        Ok([2, 3, 4096])
    );
}

/// No room is made for what is refused: the last two would take gigabytes.
#[test]
fn count() {
    let large = with(|r| r.dims = [4096; 3]);
    assert_eq!(shift(&large, &[]), Err(Refusal::Count));
    assert_eq!(zoom(&large, &[]), Err(Refusal::Count));
    assert_eq!(spline_filter(&large, &[]), Err(Refusal::Count));
    assert_eq!(spline_filter1d(&large, 0, &[]), Err(Refusal::Count));
    let output = with(|r| r.factors = [2048.0, 1365.0, 1024.0]);
    assert_eq!(zoom(&output, &zeros(&TAKEN)), Err(Refusal::Count));
    for mode in [BorderMode::Nearest, BorderMode::Replicate] {
        let work = with(|r| (r.dims, r.mode) = ([512; 3], mode));
        assert_eq!(shift(&work, &[]), Err(Refusal::Count));
    }
    // 2^27 voxels are taken, and then the input is found to be missing.
    let admitted = with(|r| r.dims = [512; 3]);
    assert_eq!(shift(&admitted, &[]), Err(Refusal::Buffer));
}

#[test]
fn buffer() {
    for wrong in [0, VOXELS - 1, VOXELS + 1] {
        let input = vec![0.0; wrong];
        assert_eq!(shift(&TAKEN, &input), Err(Refusal::Buffer));
        assert_eq!(zoom(&TAKEN, &input), Err(Refusal::Buffer));
        assert_eq!(spline_filter(&TAKEN, &input), Err(Refusal::Buffer));
        assert_eq!(spline_filter1d(&TAKEN, 0, &input), Err(Refusal::Buffer));
    }
}

#[test]
fn value() {
    let limit = 100f64.exp2();
    for bad in [f64::NAN, f64::NEG_INFINITY, limit * 1.5] {
        let mut input = zeros(&TAKEN);
        let fill = with(|r| r.mode = BorderMode::Constant(bad));
        assert_eq!(shift(&fill, &input), Err(Refusal::Value));
        assert_eq!(spline_filter(&fill, &input), Err(Refusal::Value));
        input[VOXELS - 1] = bad;
        assert_eq!(zoom(&TAKEN, &input), Err(Refusal::Value));
        assert_eq!(spline_filter1d(&TAKEN, 0, &input), Err(Refusal::Value));
    }
    assert!(shift(&TAKEN, &[limit; VOXELS]).is_ok());
}

#[test]
fn beside() {
    let half = |mode| {
        let request = with(|r| (r.order, r.factors, r.mode) = (0, [0.0, 0.0, -0.5], mode));
        shift(&request, &zeros(&request))
    };
    for mode in [
        BorderMode::Constant(0.5),
        BorderMode::Mirror,
        BorderMode::Nearest,
        BorderMode::Reflect,
        BorderMode::Wrap,
    ] {
        assert_eq!(half(mode), Err(Refusal::Beside));
    }
    assert!(half(BorderMode::Replicate).is_ok());
}

/// Lent buffers that are too short, too long or just right: a refusal leaves each as it was.
#[test]
fn what_a_refusal_leaves() {
    const PAINT: f64 = 0.125;
    const NO_CODE: u8 = 255;
    let input = zeros(&TAKEN);
    let refused = |request: &Request, input: &[f64], lent: [usize; 3], refusal: Refusal| {
        for entry in ENTRIES {
            let mut output = vec![PAINT; lent[0]];
            let mut coverage = vec![NO_CODE; lent[1]];
            let mut work = vec![PAINT; lent[2]];
            let answer = entry(request, input, &mut output, &mut coverage, &mut work);
            assert_eq!(answer, Err(refusal));
            assert!(output.iter().chain(&work).all(|&x| x == PAINT));
            assert!(coverage.iter().all(|&code| code == NO_CODE));
        }
    };
    refused(
        &TAKEN,
        &input,
        [VOXELS - 1, VOXELS, VOXELS],
        Refusal::Buffer,
    );
    refused(
        &TAKEN,
        &input,
        [VOXELS, VOXELS + 1, VOXELS],
        Refusal::Buffer,
    );
    refused(
        &TAKEN,
        &input,
        [VOXELS, VOXELS, VOXELS - 1],
        Refusal::Buffer,
    );
    refused(&TAKEN, &[f64::NAN; VOXELS], [VOXELS; 3], Refusal::Value);
    refused(&with(|r| r.order = 6), &input, [VOXELS; 3], Refusal::Order);

    let mut output = [PAINT; VOXELS];
    let voxels = [f64::NAN; VOXELS];
    assert_eq!(
        spline_filter_into(&TAKEN, &voxels, &mut output),
        Err(Refusal::Value)
    );
    assert_eq!(
        spline_filter1d_into(&TAKEN, 3, &input, &mut output),
        Err(Refusal::Axis)
    );
    assert_eq!(output, [PAINT; VOXELS]);
}

/// Work may be longer than it need be: it begins with the coefficients, and the rest is left alone.
#[test]
fn work() -> Result<(), Refusal> {
    let input: Vec<f64> = (0..VOXELS).map(|i| (i * i) as f64).collect();
    let sizes = TAKEN.shift_sizes()?;
    let mut output = vec![0.0; sizes.output];
    let mut coverage = vec![0; sizes.output];
    let mut work = vec![0.125; sizes.work + 5];
    let counts = shift_into(&TAKEN, &input, &mut output, &mut coverage, &mut work)?;
    assert_eq!(work[..sizes.work], spline_filter(&TAKEN, &input)?);
    assert_eq!(work[sizes.work..], [0.125; 5]);

    let allocated = shift(&TAKEN, &input)?;
    assert_eq!(
        (allocated.voxels, allocated.coverage, allocated.counts),
        (output, coverage, counts)
    );
    Ok(())
}

#[test]
fn refusals_are_errors_in_words() {
    for refusal in Refusal::ALL {
        let error: Box<dyn std::error::Error> = refusal.into();
        let number = format!("refusal {}: ", refusal.number());
        assert!(error.to_string().starts_with(&number));
    }
}
