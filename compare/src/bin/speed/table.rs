//! A table of speeds, and of the ratios of its first row to the others.

use std::time::Duration;

pub struct Row {
    pub name: &'static str,
    /// Millions a second: mean, slowest and fastest lap.
    speeds: [f64; 3],
}

impl Row {
    /// Millions a second in all laps, in the slowest and in the fastest.
    pub fn new(name: &'static str, laps: &[Duration], things_a_lap: u64) -> Row {
        let millions = things_a_lap as f64 / 1e6;
        let rate = |lap: &Duration| millions / lap.as_secs_f64().max(1e-9);
        let total: Duration = laps.iter().sum();
        let slowest = laps.iter().map(rate).fold(f64::INFINITY, f64::min);
        let fastest = laps.iter().map(rate).fold(0.0, f64::max);
        Row { name, speeds: [rate(&total) * laps.len() as f64, slowest, fastest] }
    }

    fn print(&self) {
        let [mean, slowest, fastest] = self.speeds;
        println!("  {:<42}{mean:>10.2}{slowest:>10.2}{fastest:>10.2}", self.name);
    }

    /// Of the means, and of the fastest laps, which noise disturbs least.
    fn print_ratio(&self, library: &Row) {
        let [mean, _, fastest] = [0, 1, 2].map(|i| library.speeds[i] / self.speeds[i]);
        let names = format!("{} : {}", library.name, self.name);
        println!("  {names:<42}{mean:>10.6}{:>10}{fastest:>10.6}", "");
    }
}

pub fn print(what: &str, rows: &[Row]) {
    println!("  {what:<42}{:>10}{:>10}{:>10}", "mean", "slowest", "fastest");
    rows.iter().for_each(Row::print);
    rows.iter().skip(1).for_each(|row| row.print_ratio(&rows[0]));
}
