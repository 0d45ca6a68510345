//! Times the library and the Rust on the same inputs in one process, prints a table of ratios and draws a chart of them.
mod c_loop;
mod chart;
mod measured;
mod rows_equal;
mod sides;
mod timed;

use measured::{Row, CHECK};
use rows_equal::Compared;

fn print(rows: &[Row]) {
    println!("| What | Capacity | Labels | Library, ns | Rust, ns | Ratio |");
    println!("|---|---|---|---|---|---|");
    for row in rows {
        let labels = if row.labels { "on" } else { "off" };
        let of = if row.what == CHECK { " (C)" } else { "" };
        println!(
            "| {} | {} | {labels} | {:.0} | {:.0}{of} | {:.2} |",
            row.what,
            row.capacity,
            row.here,
            row.there,
            row.here / row.there
        );
    }
}

fn print_compared(row: &Compared) {
    println!("\n| Rows equal, to memcmp | Library, ns | memcmp, ns | Ratio |");
    println!("|---|---|---|---|");
    let ratio = row.here / row.there;
    println!("| {} | {:.1} | {:.1} | {ratio:.2} |", row.what, row.here, row.there);
}

fn main() {
    let path = std::env::args().nth(1).expect("the picture to write");
    let mut rows: Vec<Row> = Vec::new();
    for labels in [false, true] {
        for capacity in [64, 256, 1024] {
            rows.extend(measured::rows(capacity, labels));
        }
    }
    let kinds = rows.len() / 6;
    let order: Vec<&str> = rows.iter().take(kinds).map(|row| row.what).collect();
    rows.sort_by_key(|row| order.iter().position(|what| *what == row.what));
    print(&rows);
    print_compared(&rows_equal::compared());
    std::fs::write(&path, chart::drawn(&rows)).expect(&path);
}
