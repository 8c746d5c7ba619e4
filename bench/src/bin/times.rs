//! Times of the sides in one run, turn by turn, the best of each. The values of the Rust's every turn
//! are compared with ours bit for bit, and a difference ends the run.

use std::time::{Duration, Instant};

use bench::{timed, voxels_of, Call, Entry, Lent, SciPy};
use ndarray_ndimage::BorderMode::{self, Mirror, Nearest, Reflect};

/// All calls are made again after some minutes, so that a machine that is slow for a while does not
/// spoil one of them.
const ROUNDS: usize = 5;

/// In a round a call gets this many turns, or as many as begin within `PATIENCE`, but no fewer than
/// `FEWEST`, nor than begin within `AT_LEAST`.
const TURNS: usize = 21;
const FEWEST: usize = 3;
const PATIENCE: Duration = Duration::from_secs(2);
const AT_LEAST: Duration = Duration::from_millis(50);

/// A call, its best times so far and its turns. SciPy may not be there.
struct Timed {
    call: Call,
    ours: Duration,
    rust: Duration,
    scipy: Option<Duration>,
    turns: usize,
}

/// A table of the calls that it shows.
struct Table {
    title: String,
    calls: Vec<Timed>,
    print: fn(&[Timed]),
}

fn main() {
    let mut scipy = SciPy::open();
    match &scipy {
        Some(scipy) => println!("and against: {}", scipy.version),
        None => println!("SciPy is not here, and is not measured"),
    }
    let mut tables = vec![
        ratios(Entry::Shift, Mirror, false),
        ratios(Entry::Zoom, Mirror, false),
        ratios(Entry::Shift, Mirror, true),
        ratios(Entry::Shift, Reflect, true),
        ratios(Entry::Shift, Nearest, true),
        sizes([48, 96, 144]),
        sizes([4, 8, 16]),
    ];
    for _ in 0..ROUNDS {
        for timed in tables.iter_mut().flat_map(|table| &mut table.calls) {
            timed.take_turns(&mut scipy);
        }
    }
    for table in tables {
        println!("\n{}", table.title);
        (table.print)(&table.calls);
    }
}

fn ratios(entry: Entry, mode: BorderMode<f64>, prefilter: bool) -> Table {
    let side = 96;
    let orders = if prefilter { 2..=5 } else { 0..=5 };
    let call = |order| Call {
        entry,
        side,
        order,
        mode,
        prefilter,
    };
    Table {
        title: format!("{entry:?}, {mode:?}, prefilter {}, {side}^3", on(prefilter)),
        calls: orders.map(call).map(Timed::new).collect(),
        print: print_ratios,
    }
}

fn print_ratios(calls: &[Timed]) {
    println!("order   ours ms   Rust ms   ratio  SciPy ms   ratio   best of");
    for timed in calls {
        let ours = timed.ours.as_secs_f64();
        print!("{:5}{:10.2}", timed.call.order, 1e3 * ours);
        for other in [Some(timed.rust), timed.scipy] {
            match other.map(|other| other.as_secs_f64()) {
                Some(other) => print!("{:10.2}{:8.2}", 1e3 * other, ours / other),
                None => print!("{:>10}{:>8}", "-", "-"),
            }
        }
        println!("{:10}", timed.turns);
    }
}

/// What one voxel takes at three sizes, which stand beside each other in a row.
fn sizes(sides: [usize; 3]) -> Table {
    let off = (0..=5).map(|order| (order, false));
    let on_too = (2..=5).map(|order| (order, true));
    let rows = off.chain(on_too);
    let calls = rows.flat_map(|(order, prefilter)| {
        sides.map(|side| Call {
            entry: Entry::Shift,
            side,
            order,
            mode: Mirror,
            prefilter,
        })
    });
    Table {
        title: "Shift, Mirror: ns a voxel, ours, the Rust's and SciPy's".into(),
        calls: calls.map(Timed::new).collect(),
        print: print_sizes,
    }
}

fn print_sizes(calls: &[Timed]) {
    print!("order  prefilter");
    for timed in &calls[..3] {
        print!("{:>22}^3", timed.call.side);
    }
    println!();
    for row in calls.chunks(3) {
        let call = row[0].call;
        print!("{:5}  {:9}", call.order, on(call.prefilter));
        for timed in row {
            let voxels = timed.call.side.pow(3) as f64;
            for time in [Some(timed.ours), Some(timed.rust), timed.scipy] {
                match time {
                    Some(time) => print!("{:8.1}", 1e9 * time.as_secs_f64() / voxels),
                    None => print!("{:>8}", "-"),
                }
            }
        }
        println!();
    }
}

fn on(prefilter: bool) -> &'static str {
    if prefilter {
        "on"
    } else {
        "off"
    }
}

impl Timed {
    fn new(call: Call) -> Timed {
        Timed {
            call,
            ours: Duration::MAX,
            rust: Duration::MAX,
            scipy: None,
            turns: 0,
        }
    }

    fn take_turns(&mut self, scipy: &mut Option<SciPy>) {
        let data = self.call.volume();
        let mut lent = Lent::new(&self.call);
        if let Some(scipy) = scipy {
            scipy.prepare(&self.call);
        }
        let began = Instant::now();
        let mut turns = 0;
        while turns < FEWEST
            || turns < TURNS && began.elapsed() < PATIENCE
            || began.elapsed() < AT_LEAST
        {
            let (ours, ()) = timed(|| lent.call(voxels_of(&data)));
            let (rust, volume) = timed(|| self.call.rust(&data));
            assert!(
                bits(voxels_of(&volume)).eq(bits(&lent.output)),
                "the values differ"
            );
            self.ours = self.ours.min(ours);
            self.rust = self.rust.min(rust);
            if let Some(scipy) = scipy {
                let turn = scipy.turn();
                self.scipy = Some(self.scipy.map_or(turn, |best| best.min(turn)));
            }
            turns += 1;
        }
        self.turns += turns;
    }
}

fn bits(values: &[f64]) -> impl Iterator<Item = u64> + '_ {
    values.iter().map(|value| value.to_bits())
}
