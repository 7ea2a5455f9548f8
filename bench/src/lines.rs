//! The lines that are printed, and what is wanted of them.

/// A call on one input: the nanoseconds of the Rust, of the port, and of a plain memcpy of the payload where there is one.
pub struct Line {
    pub name: String,
    pub rust: f64,
    pub port: f64,
    pub memcpy: Option<f64>,
    /// The most that port / Rust is to be.
    pub goal: f64,
}

pub const MB: usize = 1 << 20;

/// The most that a ratio is to be, of frames and lists of so many bytes.
pub fn goal(bytes: usize) -> f64 {
    if bytes < MB {
        1.0
    } else {
        0.6
    }
}

/// The most that taking may cost beside a plain memcpy of the payload.
const MEMCPY_GOAL: f64 = 1.5;

fn verdict(value: f64, goal: f64) -> &'static str {
    if value <= goal {
        "met"
    } else {
        "NOT met"
    }
}

impl Line {
    pub fn ratio(&self) -> f64 {
        self.port / self.rust
    }

    pub fn print(&self) {
        print!(
            "{:<44} Rust {:>9.2} us  port {:>9.2} us  ratio {:.2} (goal {:.1}: {})",
            self.name,
            self.rust / 1000.0,
            self.port / 1000.0,
            self.ratio(),
            self.goal,
            verdict(self.ratio(), self.goal),
        );
        if let Some(memcpy) = self.memcpy {
            let ratio = self.port / memcpy;
            print!(
                "  to memcpy {ratio:.2} (goal {MEMCPY_GOAL}: {})",
                verdict(ratio, MEMCPY_GOAL)
            );
        }
        println!();
    }
}

/// How much longer four times the bytes take: 4 where time is linear.
pub fn print_growth(name: &str, small: &Line, large: &Line) {
    print!(
        "growth of {name} from 1 MB to 4 MB: port {:.2} times, Rust {:.2} times",
        large.port / small.port,
        large.rust / small.rust,
    );
    if let (Some(small), Some(large)) = (small.memcpy, large.memcpy) {
        print!(", memcpy {:.2} times", large / small);
    }
    println!();
}
