//! Measures the calls of the proved library against the same calls written by hand in Rust and against one plain pass over the rules, all in one run.
//!
//!     measure-calls CHART TABLE     writes how the times grow into CHART, an SVG picture, and the tables of ratios into TABLE, as Markdown: that of all sizes, and that of
//!                                   one yard, where the gap table is kept
//!
//! First the calls written by hand are held against the library over random calls; where the two differ, nothing is measured.
#![forbid(unsafe_code)]

mod agree;
mod byhand;
mod cases;
mod chart;
mod growth;
mod measure;
mod office;
mod shapes;
mod table;

fn main() {
    let mut words = std::env::args().skip(1);
    let (chart, table) = (words.next().expect("a file for the chart"), words.next().expect("a file for the table"));
    let (compared, given) = agree::check();
    println!("{} random calls by the library and by hand: the same answers and tables. How many gave each number, DONE to NOMARK, ABSENT and YARD: {:?}", compared, given);
    let rows = table::rows();
    let yard = table::yard_rows();
    print!("{}", table::targets(&rows));
    let lines = growth::lines();
    growth::print(&lines);
    std::fs::write(&chart, chart::svg(&lines)).expect("the chart is written");
    let tables = format!("{}\nOne yard:\n\n{}", table::markdown(&rows, &table::SIZES), table::markdown(&yard, &table::YARDS));
    std::fs::write(&table, tables).expect("the table is written");
}
