//! Medians, ratios and targets, laid out as a Markdown table.

/// A contestant, the median of its times, and whether it answers otherwise than the others.
pub struct Timed {
    pub name: String,
    pub median: f64,
    otherwise: bool,
}

impl Timed {
    pub fn of(name: &str, mut times: Vec<f64>, otherwise: bool) -> Timed {
        times.sort_by(f64::total_cmp);
        Timed {
            name: name.to_string(),
            median: times[times.len() / 2],
            otherwise,
        }
    }

    pub fn less(mut self, time: f64) -> Timed {
        self.median -= time;
        self
    }
}

/// What the proved code is to reach.
#[derive(Clone, Copy)]
pub enum Target {
    /// At most so many times as long as this contestant.
    Ratio(&'static str, f64),
    /// At most so many nanoseconds.
    Most(f64),
}

pub struct Row {
    what: String,
    unit: String,
    times: Vec<Timed>,
    targets: Vec<Target>,
}

impl Row {
    pub fn new(what: &str, unit: &str, times: Vec<Timed>, targets: &[Target]) -> Row {
        Row {
            what: what.to_string(),
            unit: unit.to_string(),
            times,
            targets: targets.to_vec(),
        }
    }

    fn timed(&self, name: &str) -> Option<&Timed> {
        self.times.iter().find(|timed| timed.name == name)
    }

    fn median(&self, name: &str) -> Option<f64> {
        self.timed(name).map(|timed| timed.median)
    }

    fn time(&self, name: &str) -> String {
        self.timed(name).map_or(String::new(), |timed| {
            let mark = if timed.otherwise { " *" } else { "" };
            format!("{:.2}{mark}", timed.median)
        })
    }

    fn ratio(&self, name: &str) -> String {
        match (self.median("proved"), self.median(name)) {
            (Some(proved), Some(other)) => format!("{:.2}", proved / other),
            _ => String::new(),
        }
    }

    fn cell(&self, column: &str) -> String {
        match column.strip_prefix("proved / ") {
            Some(other) => self.ratio(other),
            None => self.time(column),
        }
    }

    fn verdict(&self) -> String {
        let said: Vec<String> = self
            .targets
            .iter()
            .map(|target| {
                let proved = self.median("proved").unwrap_or(f64::INFINITY);
                let (met, text) = match *target {
                    Target::Ratio(name, most) => (
                        self.median(name)
                            .is_some_and(|other| proved <= most * other),
                        format!("{most} x {name}"),
                    ),
                    Target::Most(most) => (proved <= most, format!("{most} ns")),
                };
                format!("{text}: {}", if met { "reached" } else { "MISSED" })
            })
            .collect();
        said.join("; ")
    }
}

/// A contestant's times, or how they compare with the proved code's.
#[rustfmt::skip]
const COLUMNS: [&str; 10] = [
    "proved", "before", "by value", "by value before",
    "second", "proved / second", "lean", "proved / lean", "C", "proved / C",
];

fn line(cells: &[String]) {
    println!("| {} |", cells.join(" | "));
}

/// Prints the rows; columns that no row fills are left out.
pub fn print(title: &str, rows: &[Row]) {
    let columns: Vec<&str> = COLUMNS
        .into_iter()
        .filter(|column| rows.iter().any(|row| !row.cell(column).is_empty()))
        .collect();
    let targets = rows.iter().any(|row| !row.targets.is_empty());
    println!("\n### {title}\n");
    let mut head = vec!["measured".to_string(), "unit".to_string()];
    head.extend(columns.iter().map(|column| column.to_string()));
    let mut rule = "|---|---|".to_string() + &"--:|".repeat(columns.len());
    if targets {
        head.push("targets".to_string());
        rule.push_str("---|");
    }
    line(&head);
    println!("{rule}");
    for row in rows {
        let mut cells = vec![row.what.clone(), row.unit.clone()];
        cells.extend(columns.iter().map(|column| row.cell(column)));
        if targets {
            cells.push(row.verdict());
        }
        line(&cells);
    }
}
