//! A quotation as text and as JSON.

use super::{counts, head, lengths, list, passes};
use crate::args::Format;
use crate::plate::point;
use crate::quote::Quotation;
use crate::words::{self, units};
use twillharbor::Lengths;

/// The quotation, in one of the two forms that it has.
pub fn quote(quotation: &Quotation, format: Format) -> String {
    match format {
        Format::Text => text(quotation),
        Format::Json => json(quotation),
        Format::Svg | Format::PlateMarks | Format::PlateFile => super::no_format(),
    }
}

fn text(quotation: &Quotation) -> String {
    let joined = quotation.joined;
    let counted = words::counts(joined.path.counts());
    let mut text = format!(
        "# quote, {}: {counted}\n\
         # lengths in units, in 1/1,024 of one, and in percent of the whole to the nearest hundredth\n",
        joined.plate.terms()
    );
    text += &kinds(quotation);
    text += "# the most passes over a groove, its points, its first pair and its last; grooves with as many\n";
    text += &most(quotation);
    if joined.is_layered {
        text += "# the lengths of each layer's contours, in units, in 1/1,024, and in percent of all contours'\n";
        text += &layers(quotation);
    }
    let layer = if joined.is_layered { ", and their layers" } else { "" };
    text += &format!(
        "# the contours' lengths, in units, in 1/1,024, and in percent of their sum, which is the cuts'{layer}\n"
    );
    text + &contours(quotation)
}

/// A line for each kind and for the whole.
fn kinds(quotation: &Quotation) -> String {
    let Lengths { cuts, back_steps, jumps } = quotation.lengths;
    let kinds = [("cuts", cuts), ("back-steps", back_steps), ("jumps", jumps)];
    let kinds = kinds.into_iter().chain([("whole", quotation.whole())]);
    let rows = kinds
        .map(|(kind, length)| row(kind.to_owned(), length, quotation.percent_of_whole(length)));
    table(&rows.collect::<Vec<_>>())
}

/// `passes 2 (0,0) -> (4,0) first 1 last 4 grooves 2 of 3`.
fn most(quotation: &Quotation) -> String {
    let passes = &quotation.passes;
    let Some(most) = passes.most() else { return "passes 0\n".to_owned() };
    let pair = quotation.joined.pair(most.first);
    format!(
        "passes {} {} -> {} first {} last {} grooves {} of {}\n",
        most.passes,
        point(pair.from),
        point(pair.to),
        most.first,
        most.last,
        passes.grooves_with_most(),
        passes.grooves()
    )
}

/// A line for each layer.
fn layers(quotation: &Quotation) -> String {
    let rows = quotation.layers().into_iter().map(|(layer, length)| {
        row(format!("layer {layer}"), length, quotation.percent_of_contours(length))
    });
    table(&rows.collect::<Vec<_>>())
}

/// A line for each contour and for their sum.
fn contours(quotation: &Quotation) -> String {
    let layers = &quotation.joined.plate.layers;
    let lengths = quotation.contours.iter().zip(layers).enumerate();
    let mut rows: Vec<Vec<String>> = lengths
        .map(|(contour, (&length, layer))| {
            let percent = quotation.percent_of_contours(length);
            let mut row = row(format!("contour {contour}"), length, percent);
            row.extend(quotation.joined.is_layered.then(|| layer.to_string()));
            row
        })
        .collect();
    let sum = quotation.contours.iter().sum();
    rows.push(row("sum".to_owned(), sum, quotation.percent_of_contours(sum)));
    table(&rows)
}

fn row(label: String, length: u64, percent: Option<String>) -> Vec<String> {
    vec![label, units(length), length.to_string(), percent.unwrap_or_else(|| "-".to_owned())]
}

/// Rows as lines, in columns: the labels in the first, and numbers with their points below one another.
fn table(rows: &[Vec<String>]) -> String {
    let columns = rows.iter().map(Vec::len).max().unwrap_or_default();
    let widths: Vec<[usize; 2]> = (0..columns)
        .map(|column| {
            let cells = rows.iter().filter_map(|row| row.get(column));
            cells
                .map(|cell| halves(column, cell).map(str::len))
                .fold([0, 0], |[a, b], [c, d]| [a.max(c), b.max(d)])
        })
        .collect();
    let line = |row: &Vec<String>| {
        let cells = row.iter().zip(&widths).enumerate().map(|(column, (cell, &[left, right]))| {
            let [before, after] = halves(column, cell);
            format!("{before:>left$}{after:<right$}")
        });
        format!("{}\n", cells.collect::<Vec<_>>().join("  ").trim_end())
    };
    rows.iter().map(line).collect()
}

/// What stands before the place at which a column's cells are aligned, and what behind.
fn halves(column: usize, cell: &str) -> [&str; 2] {
    let (before, after) = match column {
        0 => ("", cell),
        _ => cell.split_at(cell.find('.').unwrap_or(cell.len())),
    };
    [before, after]
}

fn json(quotation: &Quotation) -> String {
    let Quotation { joined, lengths: along, contours, passes: passed } = quotation;
    let (along, whole) = (*along, quotation.whole());
    let in_units = format!(
        "{{\"cuts\":{},\"back_steps\":{},\"jumps\":{},\"whole\":{}}}",
        units(along.cuts),
        units(along.back_steps),
        units(along.jumps),
        units(whole)
    );
    let share = |length: u64| or_null(quotation.percent_of_whole(length));
    let percent = format!(
        "{{\"cuts\":{},\"back_steps\":{},\"jumps\":{}}}",
        share(along.cuts),
        share(along.back_steps),
        share(along.jumps)
    );
    let layer_lengths = match joined.is_layered {
        true => format!(",\n\"layer_lengths\":{}", layer_objects(quotation)),
        false => String::new(),
    };
    let shares = contours.iter().map(|&length| or_null(quotation.percent_of_contours(length)));
    format!(
        "{{{},\n{},\n\"lengths\":{},\"whole\":{whole},\n\"units\":{in_units},\n\"percent\":{percent},\n\
         \"passes\":{}{layer_lengths},\n\"contour_lengths\":[{}],\n\"contour_percent\":[{}]}}\n",
        head(&joined.plate),
        counts(joined.path.counts()),
        lengths(along),
        passes(joined, passed),
        contours.iter().map(u64::to_string).collect::<Vec<_>>().join(","),
        shares.collect::<Vec<_>>().join(",")
    )
}

/// The layers as objects, with their lengths and shares.
fn layer_objects(quotation: &Quotation) -> String {
    list(quotation.layers().into_iter().map(|(layer, length)| {
        let percent = or_null(quotation.percent_of_contours(length));
        format!("{{\"layer\":{layer},\"length\":{length},\"percent\":{percent}}}")
    }))
}

fn or_null(percent: Option<String>) -> String {
    percent.unwrap_or_else(|| "null".to_owned())
}

#[cfg(test)]
mod tests {
    use super::table;

    #[test]
    fn numbers_stand_with_their_points_below_one_another() {
        let rows = [["cuts", "8", "8192"], ["back-steps", "10.25", "-"], ["a", "0.5", "1"]];
        let rows = rows.map(|row| row.map(str::to_owned).to_vec());
        assert_eq!(
            table(&rows),
            "cuts         8     8192\nback-steps  10.25     -\na            0.5      1\n"
        );
        assert_eq!(table(&[]), "");
    }
}
