//! The growth of the calls as a picture: the times double from line to line. A time that grows as steps + rules is the dashed line.

use crate::growth::{larger, Line, SIZES};
use crate::shapes::Shape;
use std::fmt::Write;

const PANEL: (f64, f64) = (220.0, 240.0);
const TOP: f64 = 44.0;
const LEFTS: [f64; 2] = [64.0, 314.0];
const LEGEND: f64 = 556.0;
const COLOURS: [&str; 6] = ["#000000", "#0072b2", "#d55e00", "#b8860b", "#009e73", "#aa4499"];

pub fn svg(lines: &[Line]) -> String {
    let mut out = String::from("<svg xmlns=\"http://www.w3.org/2000/svg\" viewBox=\"0 0 820 340\" width=\"820\" height=\"340\" font-family=\"sans-serif\" font-size=\"12\">\n");
    out += "<title>How the time of a call grows with the tables</title>\n<rect width=\"820\" height=\"340\" fill=\"white\"/>\n";
    let most = lines.iter().flat_map(|line| line.times).fold(larger(SIZES[SIZES.len() - 1]), f64::max);
    let doublings = most.log2().ceil() as u32;
    let middle = TOP + PANEL.1 / 2.0;
    let _ = writeln!(out, "<text x=\"18\" y=\"{0}\" text-anchor=\"middle\" transform=\"rotate(-90 18 {0})\">time, as a multiple of the first size</text>", middle);
    for (shape, left) in Shape::ALL.into_iter().zip(LEFTS) {
        frame(&mut out, shape, left, doublings);
        let own: Vec<&Line> = lines.iter().filter(|line| line.shape == shape).collect();
        for (kind, line) in own.iter().enumerate() {
            draw(&mut out, left, kind, &line.times, doublings);
        }
        if left == LEFTS[0] {
            legend(&mut out, &own);
        }
    }
    out + "</svg>\n"
}

/// Where a size stands, and where a time does on an axis of so many doublings.
fn across(left: f64, column: usize) -> f64 {
    left + PANEL.0 * (column as f64 + 0.4) / (SIZES.len() as f64 - 0.2)
}

fn up(time: f64, doublings: u32) -> f64 {
    TOP + PANEL.1 * (1.0 - time.log2() / f64::from(doublings))
}

/// The axes of one panel, its grid and the dashed line.
fn frame(out: &mut String, shape: Shape, left: f64, doublings: u32) {
    let (right, bottom) = (left + PANEL.0, TOP + PANEL.1);
    let _ = writeln!(out, "<text x=\"{}\" y=\"{}\" font-weight=\"bold\">rules in the shape: {}</text>", left, TOP - 14.0, shape.name());
    for doubling in 0..=doublings {
        let y = up(f64::from(1 << doubling), doublings);
        let _ = writeln!(out, "<line x1=\"{}\" y1=\"{1}\" x2=\"{2}\" y2=\"{1}\" stroke=\"#dddddd\"/>", left, y, right);
        let _ = writeln!(out, "<text x=\"{}\" y=\"{}\" text-anchor=\"end\">{}</text>", left - 6.0, y + 4.0, 1 << doubling);
    }
    for (column, (steps, rules)) in SIZES.into_iter().enumerate() {
        let x = across(left, column);
        let _ = writeln!(out, "<text x=\"{:.1}\" y=\"{}\" text-anchor=\"middle\" font-size=\"11\">{}</text>", x, bottom + 15.0, steps);
        let _ = writeln!(out, "<text x=\"{:.1}\" y=\"{}\" text-anchor=\"middle\" font-size=\"11\">{}</text>", x, bottom + 28.0, rules);
    }
    let _ = writeln!(out, "<text x=\"{}\" y=\"{}\" text-anchor=\"middle\">steps, and rules below</text>", (left + right) / 2.0, bottom + 46.0);
    let _ = writeln!(out, "<path d=\"M{} {}V{}H{}\" fill=\"none\" stroke=\"#444444\"/>", left, TOP, bottom, right);
    let _ = writeln!(out, "<polyline points=\"{}\" fill=\"none\" stroke=\"#888888\" stroke-dasharray=\"5 4\"/>", path(left, &SIZES.map(larger), doublings));
}

/// The line of one call, with a mark at each size.
fn draw(out: &mut String, left: f64, kind: usize, times: &[f64; SIZES.len()], doublings: u32) {
    let _ = writeln!(out, "<polyline points=\"{}\" fill=\"none\" stroke=\"{}\" stroke-width=\"1.5\"/>", path(left, times, doublings), COLOURS[kind]);
    for (column, time) in times.iter().enumerate() {
        mark(out, kind, across(left, column), up(*time, doublings));
    }
}

/// The points of a line through its times.
fn path(left: f64, times: &[f64; SIZES.len()], doublings: u32) -> String {
    let points = times.iter().enumerate().map(|(column, time)| format!("{:.1},{:.1}", across(left, column), up(*time, doublings)));
    points.collect::<Vec<String>>().join(" ")
}

/// The mark of a call: figures that can be told apart where several stand on one place.
fn mark(out: &mut String, kind: usize, x: f64, y: f64) {
    let drawn = match kind {
        0 => format!("<circle cx=\"{:.1}\" cy=\"{:.1}\" r=\"6\" fill=\"none\"", x, y),
        1 => format!("<circle cx=\"{:.1}\" cy=\"{:.1}\" r=\"3\" fill=\"{}\"", x, y, COLOURS[kind]),
        2 => format!("<path d=\"M{:.1} {:.1}l5 9h-10z\" fill=\"none\"", x, y - 6.0),
        3 => format!("<path d=\"M{:.1} {:.1}l5 -9h-10z\" fill=\"none\"", x, y + 6.0),
        4 => format!("<rect x=\"{:.1}\" y=\"{:.1}\" width=\"8\" height=\"8\" fill=\"none\"", x - 4.0, y - 4.0),
        _ => format!("<path d=\"M{:.1} {:.1}l5 5l-5 5l-5 -5z\" fill=\"{}\"", x, y - 5.0, COLOURS[kind]),
    };
    let _ = writeln!(out, "{} stroke=\"{}\" stroke-width=\"1.5\"/>", drawn, COLOURS[kind]);
}

fn legend(out: &mut String, lines: &[&Line]) {
    for (kind, line) in lines.iter().enumerate() {
        let y = TOP + 14.0 + 24.0 * kind as f64;
        let _ = writeln!(out, "<line x1=\"{}\" y1=\"{1}\" x2=\"{2}\" y2=\"{1}\" stroke=\"{3}\" stroke-width=\"1.5\"/>", LEGEND, y, LEGEND + 26.0, COLOURS[kind]);
        mark(out, kind, LEGEND + 13.0, y);
        let _ = writeln!(out, "<text x=\"{}\" y=\"{}\">{}</text>", LEGEND + 34.0, y + 4.0, line.name);
    }
    let y = TOP + 14.0 + 24.0 * lines.len() as f64;
    let _ = writeln!(out, "<line x1=\"{}\" y1=\"{1}\" x2=\"{2}\" y2=\"{1}\" stroke=\"#888888\" stroke-dasharray=\"5 4\"/>", LEGEND, y, LEGEND + 26.0);
    let _ = writeln!(out, "<text x=\"{}\" y=\"{}\">as steps + rules</text>", LEGEND + 34.0, y + 4.0);
}
