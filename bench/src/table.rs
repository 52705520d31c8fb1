//! The tables of docs/PERFORMANCE.md, as Markdown.

use crate::{Bench, Row, SIZES};
use std::time::Duration;

pub fn tables(bench: &Bench, rows: &[Row]) -> String {
    let names = bench.names();
    [
        starts(bench, rows),
        costs(&names, rows),
        rooms(&names, rows),
    ]
    .join("\n")
}

/// What an empty feed costs.
fn starts(bench: &Bench, rows: &[Row]) -> String {
    let [x, y] = bench.names();
    let [time_x, time_y] = [0, 1].map(|which| {
        let starts = rows.iter().map(|row| row.times.start[which]);
        milliseconds(starts.min().unwrap_or_default())
    });
    let mut said = format!("Taken off: starting {x}, {time_x} ms, and {y}, {time_y} ms");
    if let Some(instructions) = bench.instructions {
        let [count_x, count_y] = instructions.map(grouped);
        said += &format!("; {count_x} and {count_y} instructions");
    }
    format!("{said}. Here: {}.\n", bench.counter.says())
}

fn costs([x, y]: &[String; 2], rows: &[Row]) -> String {
    let head = [
        "Feed",
        "Records",
        "Bytes in",
        "Bytes out",
        &format!("{x}, ms"),
        &format!("{y}, ms"),
        "Ratio",
        &format!("{x}, instructions a record"),
        &format!("{y}, instructions a record"),
        "Ratio",
    ]
    .map(str::to_string);
    table(&head, rows.iter().map(cost_cells))
}

fn cost_cells(row: &Row) -> Vec<String> {
    let [time_x, time_y] = row.times.work;
    let mut cells = vec![
        row.feed.to_string(),
        grouped(row.records.into()),
        grouped(row.bytes_in),
        grouped(row.bytes_out),
        milliseconds(time_x),
        milliseconds(time_y),
        ratio(time_x.as_secs_f64(), time_y.as_secs_f64()),
    ];
    match row.instructions {
        Some([x, y]) => {
            cells.extend([x, y].map(|count| grouped(a_record(count, row.records))));
            cells.push(ratio(x as f64, y as f64));
        }
        None => cells.extend(["", "", ""].map(str::to_string)),
    }
    cells
}

/// A column for each number of records, so that growth would be seen.
fn rooms(names: &[String; 2], rows: &[Row]) -> String {
    let mut head = vec!["Room in bytes".to_string()];
    head.extend(SIZES.map(|(records, _)| format!("{} records", grouped(records.into()))));
    let lines = names.iter().enumerate().flat_map(|(which, name)| {
        rows.chunks(SIZES.len()).map(move |of_kind| {
            let mut cells = vec![format!("{}, {name}", of_kind[0].feed)];
            cells.extend(of_kind.iter().map(|row| grouped(row.rooms[which])));
            cells
        })
    });
    table(&head, lines)
}

fn table(head: &[String], rows: impl Iterator<Item = Vec<String>>) -> String {
    let line = |cells: &[String]| format!("| {} |\n", cells.join(" | "));
    let mut table = line(head);
    table += &format!("|---|{}\n", "---:|".repeat(head.len() - 1));
    rows.for_each(|cells| table += &line(&cells));
    table
}

fn milliseconds(time: Duration) -> String {
    format!("{:.2}", time.as_secs_f64() * 1000.0)
}

/// Empty where there is nothing to divide by.
fn ratio(x: f64, y: f64) -> String {
    if y > 0.0 {
        format!("{:.2}", x / y)
    } else {
        String::new()
    }
}

/// Rounded.
fn a_record(count: u64, records: u32) -> u64 {
    let records = u64::from(records);
    (count + records / 2) / records
}

/// With a comma before each three digits.
pub fn grouped(number: u64) -> String {
    let digits = number.to_string();
    let mut grouped = String::new();
    for (place, digit) in digits.chars().enumerate() {
        if place > 0 && (digits.len() - place) % 3 == 0 {
            grouped.push(',');
        }
        grouped.push(digit);
    }
    grouped
}

#[cfg(test)]
mod tests {
    use super::*;
    use crate::time::Times;

    #[test]
    fn numbers_as_people_read_them() {
        assert_eq!(grouped(0), "0");
        assert_eq!(grouped(999), "999");
        assert_eq!(grouped(1000), "1,000");
        assert_eq!(grouped(12_345_678), "12,345,678");
        assert_eq!(a_record(1499, 1000), 1);
        assert_eq!(a_record(1500, 1000), 2);
        assert_eq!(milliseconds(Duration::from_micros(1234)), "1.23");
        assert_eq!(ratio(3.0, 2.0), "1.50");
        assert_eq!(ratio(3.0, 0.0), "");
    }

    #[test]
    fn a_row_without_counts_has_as_many_cells_as_one_with() {
        let row = |instructions| Row {
            feed: "pace",
            records: 1000,
            bytes_in: 20_000,
            bytes_out: 30_000,
            times: Times {
                start: [Duration::ZERO; 2],
                work: [Duration::from_millis(3), Duration::from_millis(2)],
            },
            instructions,
            rooms: [4096, 4096],
        };
        let with = cost_cells(&row(Some([600_000, 400_000])));
        assert_eq!(with[6..], ["1.50", "600", "400", "1.50"]);
        assert_eq!(cost_cells(&row(None)).len(), with.len());
    }
}
