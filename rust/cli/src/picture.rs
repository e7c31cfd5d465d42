//! Who holds, gives back and awaits each partition: a row for each member.

use crate::coordinator::{Group, Member};
use crate::group::{awaited, members, not_held};
use crate::style::Style;
use crate::{id, slots, table};

/// Up to so many members all rows are drawn again, in a larger group only those that changed.
const FEW: usize = 8;

const HEADING: [&str; COLUMNS] = ["place", "member", "epoch", "holds", "gives back", "awaits"];
const COLUMNS: usize = 6;

#[derive(Clone, PartialEq, Eq)]
pub struct Picture {
    epoch: i32,
    target_epoch: i32,
    free: Vec<u16>,
    rows: Vec<Row>,
}

#[derive(Clone, PartialEq, Eq)]
struct Row {
    place: u8,
    cells: [String; COLUMNS],
}

impl Picture {
    pub fn of(group: &Group) -> Picture {
        let members = members(group);
        let rows = members.iter();
        Picture {
            epoch: group.epoch(),
            target_epoch: group.target_epoch(),
            free: not_held(group),
            rows: rows
                .map(|(place, member)| Row::of(group, *place, member))
                .collect(),
        }
    }

    /// The picture in lines, with `*` at each row that is not as before.
    pub fn lines(&self, before: &Picture, style: Style) -> Vec<String> {
        let marked = self.marked_rows(before);
        let few = marked.len() <= FEW;
        let shown: Vec<&(bool, Row)> = marked.iter().filter(|row| few || row.0).collect();
        let mut lines = self.front(marked.is_empty());
        lines.extend(table_lines(&shown, style));
        match marked.len() - shown.len() {
            0 => {}
            left_out => lines.push(format!("  and {left_out} as before")),
        }
        lines
    }

    /// The picture with all of its rows and no marks.
    pub fn all_lines(&self, style: Style) -> Vec<String> {
        let marked = self.marked_rows(self);
        let mut lines = self.front(marked.is_empty());
        lines.extend(table_lines(&marked.iter().collect::<Vec<_>>(), style));
        lines
    }

    /// What stands above the rows.
    fn front(&self, no_rows: bool) -> Vec<String> {
        let (epoch, target_epoch) = (self.epoch, self.target_epoch);
        let nobody = if no_rows { ", no members" } else { "" };
        vec![
            format!("group   epoch {epoch}, target epoch {target_epoch}{nobody}"),
            format!("free    {}", slots::show(&self.free)),
        ]
    }

    /// The rows by place, those of members that went too, and whether each changed.
    fn marked_rows(&self, before: &Picture) -> Vec<(bool, Row)> {
        let is_at = |place: u8| move |row: &&Row| row.place == place;
        let present = self.rows.iter().map(|row| {
            let changed = before.rows.iter().find(is_at(row.place)) != Some(row);
            (changed, row.clone())
        });
        let gone = before.rows.iter();
        let gone = gone.filter(|row| !self.rows.iter().any(|other| other.place == row.place));
        let gone = gone.map(|row| (true, row.gone()));
        let mut rows: Vec<(bool, Row)> = present.chain(gone).collect();
        rows.sort_by_key(|(_, row)| row.place);
        rows
    }
}

impl Row {
    fn of(group: &Group, place: u8, member: &Member) -> Row {
        let cells = [
            format!("p{place}"),
            id::show(&member.id),
            member.epoch.to_string(),
            cell(&member.assigned),
            cell(&member.revoking),
            cell(&awaited(group, place, member)),
        ];
        Row { place, cells }
    }

    /// The row of a member that went.
    fn gone(&self) -> Row {
        let [place, member, ..] = self.cells.clone();
        let nothing = || String::from("-");
        Row {
            place: self.place,
            cells: [
                place,
                member,
                "gone".into(),
                nothing(),
                nothing(),
                nothing(),
            ],
        }
    }
}

fn cell(list: &[u16]) -> String {
    match list {
        [] => "-".into(),
        _ => slots::show(list),
    }
}

fn table_lines(rows: &[&(bool, Row)], style: Style) -> Vec<String> {
    if rows.is_empty() {
        return Vec::new();
    }
    let mut cells = vec![HEADING.map(String::from)];
    cells.extend(rows.iter().map(|(_, row)| row.cells.clone()));
    let marks = [false].into_iter().chain(rows.iter().map(|row| row.0));
    let drawn = table::draw(&cells).into_iter().zip(marks);
    drawn
        .flat_map(|(lines, changed)| marked(lines, changed, style))
        .collect()
}

fn marked(lines: Vec<String>, changed: bool, style: Style) -> Vec<String> {
    let first = if changed { "* " } else { "  " };
    let marks = [first].into_iter().chain(std::iter::repeat("  "));
    let lines = lines.into_iter().zip(marks);
    lines
        .map(|(line, mark)| match changed {
            true => style.changed(&format!("{mark}{line}")),
            false => format!("{mark}{line}"),
        })
        .collect()
}

#[cfg(test)]
mod tests;
