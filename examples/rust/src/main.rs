//! A fan loop over the proved point store. A hold keeps the latest windows of temperature readings, and
//! a store of its own the hot ones, for the service report. It is run on a short series that stands for
//! the probes.
//!
//! At the root of the repository:
//!
//!     make
//!     cargo run --manifest-path examples/rust/Cargo.toml
//!
//! The file 'stdout' is what it prints.

use point_store::{Added, Hold, Laid, PointStore, ProvedPointStore, Result, Shape};

/// A reading: the lamp's and the board's temperature in degrees, and the reason code.
type Reading = ([f32; 2], usize);

const SERIES: [Reading; 9] = [
    ([31.0, 28.5], 0),
    ([36.5, 29.0], 0),
    ([48.0, 30.5], 9),
    ([63.5, 33.0], 9),
    ([66.0, 35.5], 9),
    ([52.5, 36.0], 0),
    ([41.0, 34.5], 0),
    ([35.5, 32.0], 5),
    ([33.0, 30.0], 0),
];

/// A window is three readings of two temperatures.
const READING: usize = 2;
const SHINGLE_SIZE: usize = 3;
const WINDOW: Shape = Shape::new(READING * SHINGLE_SIZE, 16)
    .shingle_size(SHINGLE_SIZE)
    .initial_capacity(5)
    .labels(true);

/// How many windows the loop itself looks back on.
const LATEST: usize = 3;

/// From this mean temperature of the lamp on, a window goes into the report.
const HOT: f32 = 55.0;

/// A window's index and label index.
type Kept = (usize, usize);

fn main() -> Result<()> {
    // The hold forms the windows out of readings; the report is handed whole ones.
    let mut latest = WINDOW.internal_shingling(true).open_hold(LATEST)?;
    let mut report = WINDOW.open()?;
    println!("{}", ProvedPointStore::name());
    let mut hot = Vec::new();
    for (temperatures, reason) in SERIES {
        print!("{:?}: ", temperatures);
        match latest.add(&temperatures, reason)? {
            Added::Waiting => println!("waiting for a full window"),
            Added::Kept {
                index,
                laid,
                free_indices,
                ..
            } => {
                let window = latest.store().copy(index)?;
                let lamp = mean_of_lamp(&window);
                println!(
                    "fan at {}%, {}, {free_indices} indices left",
                    fan_speed(lamp),
                    laid_text(index, laid)
                );
                if lamp >= HOT {
                    let (index, label, _) = report.add(&window, reason)?;
                    hot.push((index, label));
                }
            }
        }
    }
    let before = latest.store().free_start()?;
    latest.compact()?;
    println!(
        "compacted from {} floats to {}",
        before,
        latest.store().free_start()?
    );
    print_latest(&latest)?;
    print_report(&report, &hot)
}

fn mean_of_lamp(window: &[f32]) -> f32 {
    window.iter().step_by(READING).sum::<f32>() / SHINGLE_SIZE as f32
}

/// The fan's speed in percent: 20 up to 30 degrees, 100 from 60 on.
fn fan_speed(lamp: f32) -> u32 {
    (20.0 + (lamp - 30.0) * 80.0 / 30.0).clamp(20.0, 100.0) as u32
}

fn laid_text(index: usize, laid: Laid) -> String {
    match laid {
        Laid::Whole(place) => format!("index {index}, whole at place {place}"),
        Laid::Joined(place) => format!("index {index}, joined at place {place}"),
    }
}

fn print_latest(latest: &Hold) -> Result<()> {
    println!("latest:");
    for index in latest.held()? {
        println!("  index {index}: {:?}", latest.store().copy(index)?);
    }
    Ok(())
}

fn print_report(report: &ProvedPointStore, hot: &[Kept]) -> Result<()> {
    println!("report:");
    for &(index, label) in hot {
        println!(
            "  index {index}, reason {} of class {}: {:?}",
            report.label(label)?,
            report.attribute(label)?,
            report.copy(index)?
        );
    }
    Ok(())
}
