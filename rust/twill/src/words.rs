//! Words for kinds, and numbers in sentences.

use crate::passes::Over;
use crate::plate::{LayerCounts, point};
use twillharbor::{Counts, Lengths, Mark, Pair};

/// The word for a mark's kind.
pub const fn kind(mark: Mark) -> &'static str {
    match mark {
        Mark::Start { .. } => "start",
        Mark::Cut { .. } => "cut",
        Mark::BackStep { .. } => "back-step",
        Mark::Jump { .. } => "jump",
        Mark::Touch { .. } => "touch",
    }
}

/// `1 jump`, `2 jumps`, `2 touches`.
pub fn count(number: usize, what: &str) -> String {
    let ending = match number {
        1 => "",
        _ if what.ends_with("ch") => "es",
        _ => "s",
    };
    format!("{} {what}{ending}", grouped(number))
}

/// `1,048,576`.
pub fn grouped(number: usize) -> String {
    let digits = number.to_string();
    let mut grouped = String::new();
    for (place, digit) in digits.chars().enumerate() {
        if place > 0 && (digits.len() - place).is_multiple_of(3) {
            grouped.push(',');
        }
        grouped.push(digit);
    }
    grouped
}

/// `layer 3`, `layers 0, 1 and 3`, `no layer`.
pub fn layers<'a>(numbers: impl Iterator<Item = &'a u32>) -> String {
    let numbers: Vec<String> = numbers.map(u32::to_string).collect();
    match numbers.as_slice() {
        [] => "no layer".into(),
        [one] => format!("layer {one}"),
        [most @ .., last] => format!("layers {} and {last}", most.join(", ")),
    }
}

/// `layer 3: 2 cuts, 1 contour`.
pub fn layer(number: u32, counts: LayerCounts) -> String {
    let (cuts, contours) = (count(counts.cuts, "cut"), count(counts.contours, "contour"));
    format!("layer {number}: {cuts}, {contours}")
}

/// `6 points: 2 cuts, 2 back-steps, 1 jump, 0 touches`.
pub fn counts(counts: Counts) -> String {
    format!(
        "{}: {}, {}, {}, {}",
        count(counts.points, "point"),
        count(counts.cuts, "cut"),
        count(counts.back_steps, "back-step"),
        count(counts.jumps, "jump"),
        count(counts.touches, "touch")
    )
}

/// A length in units, of which the library gives 1,024ths: the exact decimal.
pub fn units(length: u64) -> String {
    // A 1,024th is 0.0009765625.
    let fraction = format!("{:010}", (length % 1_024) * 9_765_625);
    let number = format!("{}.{fraction}", length / 1_024);
    number.trim_end_matches('0').trim_end_matches('.').to_owned()
}

/// `lengths: cuts 8 = 8192/1024, back-steps 1.5 = 1536/1024, jumps 0 = 0/1024`.
pub fn lengths(lengths: Lengths) -> String {
    let Lengths { cuts, back_steps, jumps } = lengths;
    let length = |length: u64| format!("{} = {length}/1024", units(length));
    let [cuts, back_steps, jumps] = [cuts, back_steps, jumps].map(length);
    format!("lengths: cuts {cuts}, back-steps {back_steps}, jumps {jumps}")
}

/// `passes: at most 2 over a groove, (0,0) -> (4,0), first by pair 1, last by pair 4`; the pair is the
/// first.
pub fn passes(most: Option<(Over, &Pair)>) -> String {
    let Some((Over { passes, first, last }, pair)) = most else {
        return "passes: there is no groove".to_owned();
    };
    let (from, to) = (point(pair.from), point(pair.to));
    format!(
        "passes: at most {passes} over a groove, {from} -> {to}, first by pair {first}, last by pair {last}"
    )
}

#[cfg(test)]
mod tests {
    use super::{count, counts, layer, layers, lengths, units};
    use crate::plate::LayerCounts;
    use twillharbor::{Counts, Lengths};

    #[test]
    fn units_are_exact_decimals() {
        for (length, shown) in [
            (0, "0"),
            (1, "0.0009765625"),
            (512, "0.5"),
            (1_448, "1.4140625"),
            (8_192, "8"),
            (10 * 1_024 + 1_023, "10.9990234375"),
            ((1 << 52) - 1, "4398046511103.9990234375"),
            (u64::MAX, "18014398509481983.9990234375"),
        ] {
            assert_eq!(units(length), shown);
            // What fits an f64 is read back as the same length.
            if length < 1 << 53 {
                assert_eq!(shown.parse::<f64>().unwrap() * 1_024.0, length as f64);
            }
        }
        assert_eq!(
            lengths(Lengths { cuts: 8_192, back_steps: 1, jumps: 0 }),
            "lengths: cuts 8 = 8192/1024, back-steps 0.0009765625 = 1/1024, jumps 0 = 0/1024"
        );
    }

    #[test]
    fn layers_are_listed() {
        for (numbers, words) in [
            (&[][..], "no layer"),
            (&[3], "layer 3"),
            (&[0, 15], "layers 0 and 15"),
            (&[0, 1, 3], "layers 0, 1 and 3"),
        ] {
            assert_eq!(layers(numbers.iter()), words);
        }
        let counts = LayerCounts { contours: 1, cuts: 1_000 };
        assert_eq!(layer(3, counts), "layer 3: 1,000 cuts, 1 contour");
    }

    #[test]
    fn numbers_are_grouped_and_plural() {
        assert_eq!(count(0, "jump"), "0 jumps");
        assert_eq!(count(1, "jump"), "1 jump");
        assert_eq!(count(999, "cut"), "999 cuts");
        assert_eq!(count(1_048_576, "point"), "1,048,576 points");
        assert_eq!([0, 1, 2].map(|n| count(n, "touch")), ["0 touches", "1 touch", "2 touches"]);
        let of = Counts { points: 1000, cuts: 1, back_steps: 12_345, jumps: 2, touches: 1 };
        assert_eq!(counts(of), "1,000 points: 1 cut, 12,345 back-steps, 2 jumps, 1 touch");
    }
}
