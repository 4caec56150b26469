//! Rows and how they are printed: one by one as they are measured, and at the end as Markdown.

/// What was measured in each build; none where it is not there or did not come out.
#[derive(Clone)]
pub struct Row {
    pub name: String,
    pub rust: Option<f64>,
    pub rattle: Option<f64>,
}

/// What the two columns of figures hold.
pub type Columns = [&'static str; 2];

pub const BUILDS: Columns = ["Rust", "Rattle"];

/// The rows of one unit.
#[derive(Clone)]
pub struct Section {
    pub title: &'static str,
    pub columns: Columns,
    pub rows: Vec<Row>,
}

impl Row {
    pub fn new(name: &str, rust: Option<f64>, rattle: Option<f64>) -> Row {
        Row { name: name.to_string(), rust, rattle }
    }

    /// The second column to the first; none where either lacks or the first is not above 0.
    fn ratio(&self) -> Option<f64> {
        let rust = self.rust.filter(|&rust| rust > 0.0)?;
        Some(self.rattle? / rust)
    }

    pub fn print(&self) {
        let ratio = self.ratio().map_or(nothing(), of_ratio);
        println!("{:<60} {:>11} {:>11} {:>7}", self.name, figure(self.rust), figure(self.rattle), ratio);
    }
}

pub fn print_head(title: &str, [first, second]: Columns) {
    println!("{title:<60} {first:>11} {second:>11} {:>7}", "ratio");
}

fn nothing() -> String {
    "-".to_string()
}

fn figure(value: Option<f64>) -> String {
    match value {
        None => nothing(),
        Some(value) if value < 10.0 => format!("{value:.2}"),
        Some(value) if value < 1_000.0 => format!("{value:.1}"),
        Some(value) => format!("{value:.0}"),
    }
}

fn of_ratio(ratio: f64) -> String {
    if ratio < 0.1 {
        format!("{ratio:.4}")
    } else {
        format!("{ratio:.2}")
    }
}

fn least(values: impl Iterator<Item = Option<f64>>) -> Option<f64> {
    values.flatten().min_by(f64::total_cmp)
}

/// One row of several runs: the least of each build, and the ratios of the runs from least to largest.
fn joined(runs: &[&Row]) -> String {
    let mut ratios: Vec<f64> = runs.iter().filter_map(|row| row.ratio()).collect();
    ratios.sort_by(f64::total_cmp);
    let ratio = match (ratios.first(), ratios.last()) {
        (Some(&low), Some(&high)) if of_ratio(low) != of_ratio(high) => {
            format!("{} to {}", of_ratio(low), of_ratio(high))
        }
        (Some(&one), _) => of_ratio(one),
        _ => nothing(),
    };
    let rust = figure(least(runs.iter().map(|row| row.rust)));
    let rattle = figure(least(runs.iter().map(|row| row.rattle)));
    format!("| {} | {rust} | {rattle} | {ratio} |", runs[0].name)
}

/// The tables of some runs, which have the same sections and rows.
pub fn print_markdown(runs: &[Vec<Section>]) {
    for (at, section) in runs[0].iter().enumerate() {
        let [first, second] = section.columns;
        println!("\n| {} | {first} | {second} | ratio |\n|---|---|---|---|", section.title);
        for row in 0..section.rows.len() {
            let of_runs: Vec<&Row> = runs.iter().map(|run| &run[at].rows[row]).collect();
            println!("{}", joined(&of_runs));
        }
    }
}
