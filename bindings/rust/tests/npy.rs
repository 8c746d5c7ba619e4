//! Files of NumPy: what comes back, each refusal with what it leaves, and files that are cut short.

use vurelika::{npy, shift, BorderMode, Refusal, Request, Volume};

const DIMS: [usize; 3] = [2, 3, 4];
const VOXELS: usize = 24;
const HEADER: usize = 128;
const PAINT: f64 = 0.125;

/// Words of every kind: zeros, subnormal, normal and infinite numbers, quiet and signalling NaNs with
/// their payloads, each with both signs.
const WORDS: [u64; VOXELS / 2] = [
    0,
    1,
    0x000f_ffff_ffff_ffff,
    0x0010_0000_0000_0000,
    0x3ff0_0000_0000_0000,
    0x0123_4567_89ab_cdef,
    0x7fef_ffff_ffff_ffff,
    0x7ff0_0000_0000_0000,
    0x7ff0_0000_0000_0001,
    0x7ff7_ffff_ffff_ffff,
    0x7ff8_0000_0000_0000,
    0x7fff_ffff_ffff_ffff,
];

fn words() -> Vec<u64> {
    let negative = WORDS.map(|word| word | 1 << 63);
    [WORDS, negative].concat()
}

fn volume() -> Volume {
    Volume {
        dims: DIMS,
        voxels: words().into_iter().map(f64::from_bits).collect(),
    }
}

fn bits(voxels: &[f64]) -> Vec<u64> {
    voxels.iter().map(|voxel| voxel.to_bits()).collect()
}

/// The file of a header and as many data bytes of 0.
fn file(header: &str, data: usize) -> Vec<u8> {
    let length = (header.len() as u16).to_le_bytes();
    let mut bytes = [b"\x93NUMPY\x01\x00", &length[..], header.as_bytes()].concat();
    bytes.resize(bytes.len() + data, 0);
    bytes
}

/// The file of a volume of zeros, however long its axes.
fn file_of(dims: [usize; 3]) -> Vec<u8> {
    let [a, b, c] = dims;
    let header = format!("{{'descr':'<f8','fortran_order':False,'shape':({a},{b},{c})}}");
    file(&header, 8 * a * b * c)
}

#[test]
fn there_and_back() -> Result<(), Refusal> {
    let bytes = npy::write(&volume())?;
    assert_eq!(bytes.len(), HEADER + 8 * VOXELS);
    assert_eq!(npy::size(DIMS), Ok(bytes.len()));
    let data: Vec<u8> = words().into_iter().flat_map(u64::to_le_bytes).collect();
    assert_eq!(bytes[HEADER..], data);

    assert_eq!(npy::dims(&bytes), Ok(DIMS));
    let read = npy::read(&bytes)?;
    assert_eq!((read.dims, bits(&read.voxels)), (DIMS, words()));
    assert_eq!(npy::write(&read)?, bytes);
    Ok(())
}

/// The reader moves a NaN, and the resampler refuses it.
#[test]
fn a_nan() -> Result<(), Refusal> {
    let Volume { dims, voxels } = npy::read(&npy::write(&volume())?)?;
    let request = Request {
        dims,
        factors: [0.0; 3],
        order: 1,
        prefilter: false,
        mode: BorderMode::Mirror,
    };
    assert_eq!(shift(&request, &voxels), Err(Refusal::Value));
    Ok(())
}

/// Radiographs, lanes and single voxels are volumes too.
#[test]
fn single_slices() -> Result<(), Refusal> {
    for dims in [
        [1, 4, 6],
        [4, 1, 6],
        [24, 1, 1],
        [1, 24, 1],
        [1, 1, 24],
        [1; 3],
    ] {
        let words = &words()[..dims.iter().product()];
        let voxels = words.iter().map(|&word| f64::from_bits(word)).collect();
        let bytes = npy::write(&Volume { dims, voxels })?;
        assert_eq!(bytes.len(), HEADER + 8 * words.len());
        let read = npy::read(&bytes)?;
        assert_eq!((read.dims, bits(&read.voxels)), (dims, words.to_vec()));
    }
    assert_eq!(npy::size([1, 4096, 4096]), Ok(HEADER + (8 << 24)));
    Ok(())
}

#[test]
fn the_header() -> Result<(), Refusal> {
    for dims in [DIMS, [2, 2, 4096], [2, 100, 10], [1, 512, 1]] {
        let [a, b, c] = dims;
        let text =
            format!("{{'descr': '<f8', 'fortran_order': False, 'shape': ({a}, {b}, {c}), }}");
        let voxels = vec![0.0; a * b * c];
        let bytes = npy::write(&Volume { dims, voxels })?;
        assert_eq!(bytes, file(&format!("{text:117}\n"), 8 * a * b * c));
    }
    Ok(())
}

/// A header with other spacing, quotes and order, none of which our writer has.
#[test]
fn another_header() {
    let spelled = "\t{\n\"shape\" :(2,\n3 ,4 ) , 'fortran_order':\tFalse,\"descr\": '<f8'\t}";
    let read = npy::read(&file(spelled, 8 * VOXELS)).expect("NumPy takes it too");
    assert_eq!((read.dims, read.voxels), (DIMS, vec![0.0; VOXELS]));
}

#[test]
fn not_npy() -> Result<(), Refusal> {
    let good = npy::write(&volume())?;
    let longer = [&good[..], &[0]].concat();
    let prefixes = (0..good.len()).map(|length| &good[..length]);
    for bytes in prefixes.chain([&longer[..]]) {
        let mut voxels = [PAINT; VOXELS];
        assert_eq!(npy::read_into(bytes, &mut voxels), Err(Refusal::NotNpy));
        assert_eq!(voxels, [PAINT; VOXELS]);
        assert_eq!(npy::dims(bytes), Err(Refusal::NotNpy));
        assert_eq!(npy::read(bytes), Err(Refusal::NotNpy));
    }
    Ok(())
}

/// Lengths that no resampler takes: the file is well formed, and says what they are.
#[test]
fn length() {
    for bad in [[0, 2, 2], [1, 0, 1], [2, 2, 4097]] {
        let bytes = file_of(bad);
        let mut voxels = vec![PAINT; bad.iter().product()];
        assert_eq!(npy::dims(&bytes), Ok(bad));
        assert_eq!(npy::read(&bytes), Err(Refusal::Length));
        assert_eq!(npy::read_into(&bytes, &mut voxels), Err(Refusal::Length));
        assert!(voxels.iter().all(|&voxel| voxel == PAINT));
        assert_eq!(npy::size(bad), Err(Refusal::Length));
        assert_eq!(
            npy::write(&Volume { dims: bad, voxels }),
            Err(Refusal::Length)
        );
    }
}

/// By the lengths alone: a file of so many voxels would have more than 1 GB.
#[test]
fn count() {
    for (dims, refusal) in [
        ([512, 512, 513], Refusal::Count),
        ([4096; 3], Refusal::Count),
        ([usize::MAX, 2, 2], Refusal::Length),
        ([512; 3], Refusal::Buffer),
    ] {
        let mut bytes = [7; HEADER];
        assert_eq!(npy::write_into(dims, &[], &mut bytes), Err(refusal));
        assert_eq!(bytes, [7; HEADER]);
        let voxels = vec![];
        assert_eq!(npy::write(&Volume { dims, voxels }), Err(refusal));
    }
    assert_eq!(npy::size([4096; 3]), Err(Refusal::Count));
    assert_eq!(npy::size([512; 3]), Ok(HEADER + (8 << 27)));
}

#[test]
fn buffer() -> Result<(), Refusal> {
    let volume = volume();
    let good = npy::write(&volume)?;
    for wrong in [0, VOXELS - 1, VOXELS + 1] {
        let mut voxels = vec![PAINT; wrong];
        assert_eq!(npy::read_into(&good, &mut voxels), Err(Refusal::Buffer));
        assert!(voxels.iter().all(|&voxel| voxel == PAINT));

        let mut bytes = vec![7; good.len()];
        assert_eq!(
            npy::write_into(DIMS, &voxels, &mut bytes),
            Err(Refusal::Buffer)
        );
        assert!(bytes.iter().all(|&byte| byte == 7));
        assert_eq!(
            npy::write(&Volume { dims: DIMS, voxels }),
            Err(Refusal::Buffer)
        );
    }
    for wrong in [0, good.len() - 1, good.len() + 1] {
        let mut bytes = vec![7; wrong];
        assert_eq!(
            npy::write_into(DIMS, &volume.voxels, &mut bytes),
            Err(Refusal::Buffer)
        );
        assert!(bytes.iter().all(|&byte| byte == 7));
    }
    Ok(())
}
