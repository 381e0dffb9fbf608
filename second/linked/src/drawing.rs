//! The picture of the bound as SVG: a row of panels for each m, a panel for each a, a cell
//! for each s and c.

use crate::cells::{Cell, Class, MOST_FAULTY, N, ROUNDS_SHOWN};
use crate::patterns::Faults;
use std::fmt::Write;

const CELL: usize = 30;
const LEFT: usize = 56;
const TOP: usize = 92;
/// From one row of panels to the next.
const ROW: usize = 296;
/// Between panels.
const GAP: usize = 40;
const WIDTH: usize = LEFT + CELL * 21 + GAP * 5 + 30;
const HEIGHT: usize = TOP + ROW * 2 + 132;

const CLASSES: [Class; 4] =
    [Class::Promised, Class::Held, Class::FailedForSome, Class::FailedForAll];

/// A class's colour, of a palette that colour-blind people tell apart.
fn colour(class: Class) -> &'static str {
    match class {
        Class::Promised => "#0072B2",
        Class::Held => "#BFE3F7",
        Class::FailedForSome => "#F5C04A",
        Class::FailedForAll => "#D55E00",
    }
}

fn meaning(class: Class) -> &'static str {
    match class {
        Class::Promised => "within the bound: agreement is proved, and held in every trial",
        Class::Held => "outside the bound: held in every trial",
        Class::FailedForSome => {
            "outside: failed in some trials, with senders of some statuses only"
        }
        Class::FailedForAll => "outside: failed in some trials, whatever the sender's status",
    }
}

/// The picture of cells in any order.
pub fn draw(cells: &[Cell]) -> String {
    let mut svg = format!(
        "<svg xmlns=\"http://www.w3.org/2000/svg\" viewBox=\"0 0 {WIDTH} {HEIGHT}\" \
         width=\"{WIDTH}\" height=\"{HEIGHT}\" font-family=\"sans-serif\" font-size=\"13\">\n\
         <title>Agreement of good cards among {N}, by faulty cards</title>\n\
         <rect width=\"{WIDTH}\" height=\"{HEIGHT}\" fill=\"white\"/>\n"
    );
    text(&mut svg, (24, 34), "20\" font-weight=\"bold", &format!("Where {N} cards agree"));
    let axes = "a arbitrary, s symmetric and c manifest cards; at least two of the cards are good";
    text(&mut svg, (24, 58), "14", axes);
    for (row, m) in ROUNDS_SHOWN.into_iter().enumerate() {
        let top = TOP + ROW * row;
        let rounds = if m == 1 { "round" } else { "rounds" };
        text(
            &mut svg,
            (24, top + 8),
            "16\" font-weight=\"bold",
            &format!("m {m}: {m} {rounds} of relay"),
        );
        for a in 0..=MOST_FAULTY {
            let shown = cells.iter().filter(|cell| (cell.m, cell.faults.a) == (m, a));
            panel(&mut svg, a, m, top + 52, &shown.copied().collect::<Vec<_>>());
        }
    }
    let never = cells.iter().filter(|cell| cell.trial.agreed == 0).count();
    legend(&mut svg, TOP + ROW * ROUNDS_SHOWN.len() + 8, never);
    svg + "</svg>\n"
}

fn text(svg: &mut String, (x, y): (usize, usize), size: &str, words: &str) {
    let _ = writeln!(svg, "<text x=\"{x}\" y=\"{y}\" font-size=\"{size}\">{words}</text>");
}

/// A panel's left edge: those before it are each a cell narrower than the last.
fn left_of(a: usize) -> usize {
    LEFT + (0..a).map(|before| CELL * (MOST_FAULTY + 1 - before) + GAP).sum::<usize>()
}

fn panel(svg: &mut String, a: usize, m: usize, top: usize, cells: &[Cell]) {
    let (left, foot) = (left_of(a), top + CELL * (MOST_FAULTY + 1));
    let side = MOST_FAULTY + 1 - a;
    let name = if a > m { format!("a {a} &gt; m") } else { format!("a {a}") };
    text(svg, (left - 14, foot - CELL * side - 8), "14\" font-weight=\"bold", &name);
    for number in 0..side {
        let middle = CELL * number + CELL / 2;
        text(svg, (left + middle - 4, foot + 16), "13", &number.to_string());
        text(svg, (left - 14, foot - middle + 5), "13", &number.to_string());
    }
    text(svg, (left + CELL * side / 2 - 4, foot + 34), "14\" font-style=\"italic", "s");
    text(svg, (left - 30, foot - CELL * side / 2 + 5), "14\" font-style=\"italic", "c");
    for cell in cells {
        let Faults { a, s, c } = cell.faults;
        let (x, y) = (left + CELL * s, foot - CELL * (c + 1));
        let failed = cell.trial.tables - cell.trial.agreed;
        let told = format!(
            "m {m}, a {a}, s {s}, c {c}: failed in {failed} of {} tables",
            cell.trial.tables
        );
        square(svg, (x, y), cell.class, &told);
    }
    bound_line(svg, (left, foot), cells);
}

/// A cell with its symbol, and the text that a reader's pointer brings up.
fn square(svg: &mut String, (x, y): (usize, usize), class: Class, told: &str) {
    let colour = colour(class);
    let _ = writeln!(
        svg,
        "<g><title>{told}</title><rect x=\"{x}\" y=\"{y}\" width=\"{CELL}\" height=\"{CELL}\" \
         fill=\"{colour}\" stroke=\"white\" stroke-width=\"2\"/>{}</g>",
        symbol(x + CELL / 2, y + CELL / 2, class)
    );
}

fn symbol(x: usize, y: usize, class: Class) -> String {
    let (l, r, t, b) = (x - 6, x + 6, y - 6, y + 6);
    let rising = format!("M{l} {b}L{r} {t}");
    let stroke = "fill=\"none\" stroke=\"black\" stroke-width=\"2.5\"";
    match class {
        Class::Promised => format!("<circle cx=\"{x}\" cy=\"{y}\" r=\"7\" fill=\"white\"/>"),
        Class::Held => format!("<circle cx=\"{x}\" cy=\"{y}\" r=\"6\" {stroke}/>"),
        Class::FailedForSome => format!("<path d=\"{rising}\" {stroke}/>"),
        Class::FailedForAll => format!("<path d=\"{rising}M{l} {t}L{r} {b}\" {stroke}/>"),
    }
}

/// The edges between cells within the bound and what is not.
fn bound_line(svg: &mut String, (left, foot): (usize, usize), cells: &[Cell]) {
    let within = |s: usize, c: usize| {
        let here = |cell: &&Cell| (cell.faults.s, cell.faults.c) == (s, c);
        cells.iter().find(here).is_some_and(|cell| cell.class == Class::Promised)
    };
    let mut path = String::new();
    for Faults { s, c, .. } in cells.iter().map(|cell| cell.faults) {
        if !within(s, c) {
            continue;
        }
        let (x, y) = (left + CELL * (s + 1), foot - CELL * (c + 1));
        if !within(s + 1, c) {
            let _ = write!(path, "M{x} {}V{y}", y + CELL);
        }
        if !within(s, c + 1) {
            let _ = write!(path, "M{} {y}H{x}", x - CELL);
        }
    }
    if !path.is_empty() {
        let style = "fill=\"none\" stroke=\"black\" stroke-width=\"4\" stroke-linecap=\"square\"";
        let _ = writeln!(svg, "<path d=\"{path}\" {style}/>");
    }
}

/// The classes, the bound's line, and the number of cells in which every trial failed.
fn legend(svg: &mut String, top: usize, never: usize) {
    for (line, class) in CLASSES.into_iter().enumerate() {
        let y = top + 32 * line;
        square(svg, (24, y - 20), class, meaning(class));
        text(svg, (64, y), "14", meaning(class));
    }
    let x = 590;
    let _ = writeln!(svg, "<path d=\"M{x} {}h30\" stroke=\"black\" stroke-width=\"4\"/>", top - 5);
    text(svg, (x + 40, top), "14", "the bound:");
    let rule = format!("{N} &gt; 2a + 2s + c + m, a at most m");
    text(svg, (x + 40, top + 20), "14", &rule);
    text(svg, (x, top + 64), "14", &format!("Cells in which every trial failed: {never}"));
}
