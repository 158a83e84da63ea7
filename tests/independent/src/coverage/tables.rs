//! Counts by row and column, and the cells that they make.

use std::collections::{BTreeMap, BTreeSet};
use std::fmt;

/// What stands between the parts of a line of cells.
const BAR: &str = " | ";

/// One table of the report.
#[derive(Clone, Copy, Debug, PartialEq, Eq, PartialOrd, Ord)]
pub enum Part {
    Kinds,
    Commands,
    CommandStates,
    Waiting,
    Granted,
    Link,
    LinkEffects,
    LinkShown,
    Asked,
    Limits,
    Data,
    Borders,
    Frames,
    FrameOrder,
    Acceptance,
    Stored,
    Checks,
    Wire,
    Sends,
    Order,
    Counts,
    Verdicts,
    PutOut,
    Appended,
    Ephsr,
    Ecr,
    Effects,
    Reset,
    Strips,
    Line,
    Eph,
    States,
    Registers,
}

impl Part {
    fn title(self) -> &'static str {
        match self {
            Self::Kinds => "Records by kind and answer",
            Self::Commands => "MMU commands by answer",
            Self::CommandStates => "MMU commands by what they meet",
            Self::Waiting => "Waiting requests by what they meet",
            Self::Granted => "Waiting requests by what a driver does",
            Self::Link => "Link by what it meets",
            Self::LinkEffects => "Link by what becomes of EPH",
            Self::LinkShown => "Link by where it shows",
            Self::Asked => "Parts asked for",
            Self::Limits => "Parts by their limits",
            Self::Data => "Data accesses by answer",
            Self::Borders => "Data accesses by place",
            Self::Frames => "Frames by length and value",
            Self::FrameOrder => "Frames by what else holds",
            Self::Acceptance => "Frames by their address",
            Self::Stored => "Frames stored",
            Self::Checks => "Frames by their check sequence",
            Self::Wire => "Wire bytes",
            Self::Sends => "Sends by outcome and answer",
            Self::Order => "Refusals by what else holds",
            Self::Counts => "Byte counts refused",
            Self::Verdicts => "Sends done, by how they ended",
            Self::PutOut => "Bytes put out",
            Self::Appended => "Sends by what they append",
            Self::Ephsr => "EPHSR after a send",
            Self::Ecr => "ECR after a send",
            Self::Effects => "Accesses with an effect",
            Self::Reset => "Soft resets by what they meet",
            Self::Strips => "Strips beside pages",
            Self::Line => "Interrupt line",
            Self::Eph => "EPH by the control bits set",
            Self::States => "States and borders",
            Self::Registers => "Accesses by register",
        }
    }
}

/// Counts by row and column; rows and columns sort by their names.
#[derive(Default)]
struct Table(BTreeMap<String, BTreeMap<String, u64>>);

impl fmt::Display for Table {
    fn fmt(&self, f: &mut fmt::Formatter) -> fmt::Result {
        let columns: BTreeSet<&String> = self.0.values().flat_map(BTreeMap::keys).collect();
        let wide = |column: &str| column.len().max(8) + 1;
        let rows = self.0.keys().map(String::len).max().unwrap_or(0).max(24);
        write!(f, "{:rows$}", "")?;
        for column in &columns {
            write!(f, "{column:>0$}", wide(column))?;
        }
        writeln!(f)?;
        for (row, counts) in &self.0 {
            write!(f, "{row:rows$}")?;
            for &column in &columns {
                let count = counts.get(column).map_or("-".into(), u64::to_string);
                write!(f, "{count:>0$}", wide(column))?;
            }
            writeln!(f)?;
        }
        Ok(())
    }
}

/// All tables.
#[derive(Default)]
pub struct Tables(BTreeMap<Part, Table>);

impl Tables {
    pub fn count(&mut self, part: Part, row: impl Into<String>, column: impl Into<String>) {
        let rows = &mut self.0.entry(part).or_default().0;
        let counts = rows.entry(row.into()).or_default();
        *counts.entry(column.into()).or_default() += 1;
    }

    /// The cells reached: a line for each row, with the columns behind it.
    pub fn cells(&self) -> Vec<String> {
        let line = |part: Part, row: &String, counts: &BTreeMap<String, u64>| {
            let columns = counts.keys().map(|column| column.trim());
            let names = [part.title(), row].into_iter().chain(columns);
            names.collect::<Vec<_>>().join(BAR)
        };
        let rows = self.0.iter().flat_map(|(part, table)| {
            let row = move |(row, counts)| line(*part, row, counts);
            table.0.iter().map(row)
        });
        rows.collect()
    }

    /// A line for each cell reached, with its count behind it.
    pub fn counts(&self) -> Vec<String> {
        let mut lines = Vec::new();
        for (part, table) in &self.0 {
            for (row, counts) in &table.0 {
                for (column, count) in counts {
                    let names = [part.title(), row, column.trim()].join(BAR);
                    lines.push(format!("{names}{BAR}{count}"));
                }
            }
        }
        lines
    }
}

impl fmt::Display for Tables {
    fn fmt(&self, f: &mut fmt::Formatter) -> fmt::Result {
        for (part, table) in &self.0 {
            writeln!(f, "{}\n{table}", part.title())?;
        }
        Ok(())
    }
}

/// Cells one by one, from lines as `Tables::cells` gives them; a line that
/// starts with # is a remark.
pub fn single_cells<'a>(lines: impl IntoIterator<Item = &'a str>) -> BTreeSet<String> {
    let cells = lines.into_iter().filter(|line| !line.starts_with('#'));
    cells.flat_map(cells_of_line).collect()
}

fn cells_of_line(line: &str) -> Vec<String> {
    let names: Vec<&str> = line.split(BAR).collect();
    let [part, row, columns @ ..] = &names[..] else {
        return Vec::new();
    };
    let cell = |column: &&str| [part, row, column].map(|name| name.trim()).join(BAR);
    columns.iter().map(cell).collect()
}
