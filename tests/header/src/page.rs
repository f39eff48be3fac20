//! docs/STATE.md against the specification: where each table begins, how many rows of how many bytes it has, and the state's length.

use crate::specs::Specs;
use std::fs;
use std::path::Path;

/// First byte, rows and bytes of a row of each table, in the page's order, by the names that numbers.txt uses.
const TABLES: [[&str; 3]; 16] = [
    ["rows.MEMORY", "1", "Layout.memory_codec.size"],
    ["Layout.turn_base", "1", "Layout.flag_codec.size"],
    ["Layout.pd_flag_base", "Limits.pd_count", "Layout.flag_codec.size"],
    ["Layout.cq_flag_base", "Limits.cq_count", "Layout.flag_codec.size"],
    ["Layout.cq_base", "Limits.cq_count", "Layout.queue_codec.size"],
    ["Layout.entry_base", "Layout.entry_count", "Records.completion_codec.size"],
    ["Layout.mr_flag_base", "Limits.mr_count", "Layout.flag_codec.size"],
    ["Layout.mr_base", "Limits.mr_count", "Layout.region_codec.size"],
    ["Layout.page_base", "Layout.page_count", "Layout.page_codec.size"],
    ["Layout.qp_flag_base", "Limits.qp_count", "Layout.flag_codec.size"],
    ["Layout.qp_base", "Limits.qp_count", "Layout.pair_codec.size"],
    ["Layout.waiting_base", "Limits.qp_count", "Layout.waiting_codec.size"],
    ["Layout.receive_base", "Layout.receive_count", "Records.receive_codec.size"],
    ["Layout.send_head_base", "Limits.qp_count", "Layout.waiting_codec.size"],
    ["Layout.kind_base", "Layout.queued_count", "Layout.kind_codec.size"],
    ["Layout.record_base", "Layout.queued_count", "Limits.record_size"],
];

/// Compares, and gives back how many tables agree; else what differs.
pub fn compare(root: &Path) -> Result<usize, String> {
    let specs = Specs::read(&root.join("crates"))?;
    let file = root.join("docs/STATE.md");
    let page = fs::read_to_string(&file).map_err(|error| format!("{}: {error}", file.display()))?;
    let value = |name: &str| specs.value(name).ok_or(format!("the specification has no {name}"));
    let size = value("Layout.state_size")?;
    for length in [format!("exactly **{} bytes**", grouped(size)), format!("the length is {} and", grouped(size))] {
        if !page.contains(&length) {
            return Err(format!("the page does not say '{length}'"));
        }
    }
    let rows: Vec<&str> = page.lines().filter(|line| line.starts_with('|') && line.contains(" × ")).collect();
    if rows.len() != TABLES.len() + 1 {
        return Err(format!("the page has {} lines of tables, heading included", rows.len()));
    }
    for (row, [first, count, bytes]) in rows[1..].iter().zip(TABLES) {
        let wanted = format!("| {} | {} × {} |", grouped(value(first)?), grouped(value(count)?), value(bytes)?);
        if !row.contains(&wanted) {
            return Err(format!("'{wanted}' is not on the line {row}"));
        }
    }
    Ok(TABLES.len())
}

/// The number with a comma before each three digits.
fn grouped(number: u64) -> String {
    match number {
        0..=999 => number.to_string(),
        _ => format!("{},{:03}", grouped(number / 1000), number % 1000),
    }
}
