//! A figure: the same work on both sides, timed in turns.
use std::hint::black_box;
use std::time::{Duration, Instant};

/// One side's function, by its symbol, and a pass that does the work so many times.
pub struct Side {
    pub symbol: &'static str,
    pass: Box<dyn Fn(usize)>,
}

impl Side {
    pub fn new(symbol: &'static str, pass: impl Fn(usize) + 'static) -> Self {
        Side {
            symbol,
            pass: Box::new(pass),
        }
    }

    pub fn pass(&self, turns: usize) {
        (self.pass)(turns)
    }

    fn time(&self, passes: u32, turns: usize) -> Duration {
        let start = Instant::now();
        for _ in 0..passes {
            self.pass(turns);
        }
        start.elapsed()
    }
}

pub struct Figure {
    pub name: String,
    /// How many times a pass does the work.
    pub turns: usize,
    /// How many units a turn has: calls, or samples.
    pub units: usize,
    /// The most that the Rattle's time may be of the Rust's, where a target is set.
    pub most: Option<f64>,
    /// Whether the two sides give the same.
    pub agree: Box<dyn Fn() -> bool>,
    pub rattle: Side,
    pub rust: Side,
}

impl Figure {
    /// The units of a pass.
    fn all(&self) -> usize {
        self.turns * self.units
    }

    pub fn side(&self, name: &str) -> &Side {
        match name {
            "rattle" => &self.rattle,
            "rust" => &self.rust,
            _ => panic!("rattle or rust"),
        }
    }

    /// The least time of a unit over many rounds, in nanoseconds. The sides take turns, so that
    /// both meet the same disturbances.
    fn times(&self) -> (f64, f64) {
        const ROUNDS: u32 = 100;
        let once = self
            .rattle
            .time(1, self.turns)
            .max(self.rust.time(1, self.turns))
            .max(Duration::from_nanos(100));
        let passes = (Duration::from_millis(1).as_nanos() / once.as_nanos()).max(1) as u32;
        let (mut rattle, mut rust) = (Duration::MAX, Duration::MAX);
        for _ in 0..ROUNDS {
            rattle = rattle.min(self.rattle.time(passes, self.turns));
            rust = rust.min(self.rust.time(passes, self.turns));
        }
        let unit = |t: Duration| t.as_secs_f64() * 1e9 / (passes as f64 * self.all() as f64);
        (unit(rattle), unit(rust))
    }

    /// Both times and their ratio, once the two sides were seen to agree.
    fn measured(&self) -> (f64, f64, f64) {
        assert!((self.agree)(), "{}: the two sides differ", self.name);
        let (rattle, rust) = self.times();
        (rattle, rust, rattle / rust)
    }

    /// The most that the ratio may be; `over` where it is more.
    fn most(&self, ratio: f64) -> String {
        let over = |m| if ratio > m { " over" } else { "" };
        self.most.map_or(String::new(), |m| format!("{m:.2}{}", over(m)))
    }

    /// A row: name, both times, their ratio, and the most that it may be.
    pub fn print_row(&self) {
        let (rattle, rust, ratio) = self.measured();
        let most = self.most(ratio);
        let digits = if rust < 100.0 { 2 } else { 0 };
        println!(
            "| {} | {rattle:.digits$} | {rust:.digits$} | {ratio:.2} | {most} |",
            self.name
        );
    }

    /// The symbols, how many units a pass has, the name, both times, their ratio, and the most that it
    /// may be.
    pub fn print_call(&self) {
        let (rattle, rust, ratio) = self.measured();
        let digits = if rust < 100.0 { 2 } else { 0 };
        println!(
            "{}\t{}\t{}\t{}\t{rattle:.digits$}\t{rust:.digits$}\t{ratio:.2}\t{}",
            self.rattle.symbol,
            self.rust.symbol,
            self.all(),
            self.name,
            self.most(ratio)
        );
    }
}

/// A figure at three numbers of points; the most that a ratio may be is of the last.
pub struct Sizes {
    pub name: &'static str,
    pub figures: [Figure; 3],
}

impl Sizes {
    /// A row: name, the three ratios, the most that the last may be, and both times at each number of points.
    pub fn print_row(&self) {
        let all = self.figures.each_ref().map(Figure::measured);
        let ratios = all.map(|(_, _, ratio)| format!("{ratio:.2}")).join(" | ");
        let times = all
            .map(|(rattle, rust, _)| format!("{rattle:.0} / {rust:.0}"))
            .join(" | ");
        let most = self.figures[2].most(all[2].2);
        println!("| {} | {ratios} | {most} | {times} |", self.name);
    }
}

/// Calls f on each input. The compiler sees neither the inputs nor what becomes of the results.
pub fn each<A: Copy, B>(inputs: &[A], f: impl Fn(A) -> B) {
    for &x in black_box(inputs) {
        black_box(f(x));
    }
}

/// A figure of two C functions of one number.
macro_rules! calls {
    ($name:expr, $rattle:ident, $rust:ident, $from:ty => $to:ty, $inputs:expr) => {{
        extern "C" {
            fn $rattle(x: $from) -> $to;
            fn $rust(x: $from) -> $to;
        }
        let inputs: std::rc::Rc<Vec<$from>> = std::rc::Rc::new($inputs);
        let (first, second, both) = (inputs.clone(), inputs.clone(), inputs.clone());
        Figure {
            name: $name.to_string(),
            turns: inputs.len(),
            units: 1,
            most: None,
            agree: Box::new(move || both.iter().all(|&x| unsafe { $rattle(x) == $rust(x) })),
            rattle: Side::new(stringify!($rattle), move |turns| {
                figure::each(&first[..turns], |x| unsafe { $rattle(x) })
            }),
            rust: Side::new(stringify!($rust), move |turns| {
                figure::each(&second[..turns], |x| unsafe { $rust(x) })
            }),
        }
    }};
}
