//! The tables, in Markdown.

use crate::measure::{Figure, Figures};
use crate::walks::{WalkLine, STEPS};

pub struct Line {
    pub class: &'static str,
    pub rows: usize,
    pub figures: Figures,
}

pub fn show(lines: &[Line]) {
    println!("Nanoseconds a row, median (least):\n");
    println!("| class | rows | goscript | port | goscript / port |");
    println!("|---|---:|---:|---:|---:|");
    for Line { class, rows, figures } in lines {
        let (goscript, port) = (figures.goscript, figures.port[0]);
        let ratio = goscript.median / port.median;
        println!("| {class} | {rows} | {} | {} | {ratio:.1} |", text(goscript), text(port));
    }
    println!("\nParts of the port, nanoseconds a row, by difference of medians:\n");
    println!("| class | rows | refusal | label | placing | verdict | sum | in one call |");
    println!("|---|---:|---:|---:|---:|---:|---:|---:|");
    for Line { class, rows, figures } in lines {
        let [marks, refusal, labels, placing, verdict] = figures.port.map(|figure| figure.median);
        // Each call looks for refusals first.
        let parts = [refusal, labels - refusal, placing - refusal, verdict - refusal];
        let sum: f64 = parts.iter().sum();
        let parts = parts.map(|part| format!("{part:.2}")).join(" | ");
        println!("| {class} | {rows} | {parts} | {sum:.2} | {marks:.2} |");
    }
}

pub fn show_walks(lines: &[WalkLine], starts: &[(usize, Figure)]) {
    println!("\nWalks of {STEPS} steps, nanoseconds a step, median (least):\n");
    println!("| choices | tree of nodes | port | tree / port | port, million steps a second |");
    println!("|---|---:|---:|---:|---:|");
    for WalkLine { choices, tree, port } in lines {
        let (ratio, a_second) = (tree.median / port.median, 1_000.0 / port.median);
        println!("| {choices} | {} | {} | {ratio:.1} | {a_second:.0} |", text(*tree), text(*port));
    }
    println!(
        "\nThe walk call with limit 0, nanoseconds a body as people write them, median (least):\n"
    );
    println!("| rows | port |");
    println!("|---:|---:|");
    for (rows, start) in starts {
        println!("| {rows} | {} |", text(*start));
    }
}

fn text(Figure { median, least }: Figure) -> String {
    format!("{median:.2} ({least:.2})")
}
