//! Writes calls of the Rust's interval manager and its answers, for the program `manager_replay` to replay. One call to a
//! line: call, argument, value, answer, entries in use after it, start and end of the top interval after it. A call is 0
//! new, 1 change_capacity, 2 get, 3 release, 4 used, 5 is_empty, 6 get_capacity. The value is 0, or 9 where the Rust gives
//! its one error. What there is none of is 0.
use random::Random;
use reference::common::intervalstoremanager::IntervalStoreManager;

const CAPACITIES: [usize; 12] = [1, 2, 3, 4, 5, 8, 16, 60, 200, 512, 1000, 1024];
const CALLS_EACH: usize = 220;

struct Recorder {
    rust: IntervalStoreManager<usize>,
    in_use: Vec<usize>,
    lines: String,
}

impl Recorder {
    fn line(&mut self, call: usize, argument: usize, value: usize, answer: usize) {
        let n = self.rust.last_in_use();
        let (start, end) = match n {
            0 => (0, 0),
            _ => (self.rust.starts()[n - 1], self.rust.ends()[n - 1]),
        };
        self.lines += &format!("{call} {argument} {value} {answer} {n} {start} {end}\n");
    }

    fn open(&mut self, capacity: usize) {
        self.rust = IntervalStoreManager::new(capacity);
        self.in_use.clear();
        self.line(0, capacity, 0, 0);
    }

    fn change_capacity(&mut self, capacity: usize) {
        self.rust.change_capacity(capacity);
        self.line(1, capacity, 0, 0);
    }

    fn get(&mut self) {
        match self.rust.get() {
            Ok(index) => {
                self.in_use.push(index);
                self.line(2, 0, 0, index);
            }
            Err(_) => self.line(2, 0, 9, 0),
        }
    }

    fn release(&mut self, place: usize) {
        let index = self.in_use.swap_remove(place);
        self.rust.release(index).expect("a release has no error");
        self.line(3, index, 0, 0);
    }

    fn read(&mut self, call: usize) {
        let answer = match call {
            4 => self.rust.used(),
            5 => self.rust.is_empty() as usize,
            _ => self.rust.get_capacity(),
        };
        self.line(call, 0, 0, answer);
    }

    /// A call that the Rust takes: the first two thirds of a list take more indices than they give back.
    fn any(&mut self, step: usize, random: &mut Random) {
        let gets = if step < 2 * CALLS_EACH / 3 { 6 } else { 2 };
        match random.below(20) {
            0 => self.read(random.within(4, 6)),
            1 => {
                let capacity = self.rust.get_capacity();
                self.change_capacity(random.within(capacity / 2, capacity + 1 + capacity / 8).min(1024));
            }
            _ if self.in_use.is_empty() || random.below(10) < gets => self.get(),
            _ if random.one_in(3) => self.release(self.in_use.len() - 1),
            _ => self.release(random.below(self.in_use.len())),
        }
    }
}

/// The whole list.
pub fn recorded() -> String {
    let mut random = Random::new(1);
    let mut recorder = Recorder {
        rust: IntervalStoreManager::new(1),
        in_use: Vec::new(),
        lines: String::new(),
    };
    for capacity in CAPACITIES {
        recorder.open(capacity);
        for step in 1..CALLS_EACH {
            recorder.any(step, &mut random);
        }
    }
    recorder.lines
}
