//! A block at a glance: one character for each number.

use ccfb::{Mark, Metric};

/// How many numbers a row shows.
const NUMBERS_OF_A_ROW: usize = 60;
/// A space follows each so many numbers of a row, so that a number can be found by counting.
const NUMBERS_OF_A_GROUP: usize = 10;

/// What the characters mean.
pub const LEGEND: &str =
    "strips: | received, > over range, ? no time (with CE: C, G, Q), . missing";

/// The rows of the strip, each with its first number in front.
pub fn rows(metrics: &[(u16, Metric)]) -> impl Iterator<Item = String> + '_ {
    metrics.chunks(NUMBERS_OF_A_ROW).map(|row| {
        let groups: Vec<String> = row.chunks(NUMBERS_OF_A_GROUP).map(characters).collect();
        format!("{:>5}: {}", row[0].0, groups.join(" "))
    })
}

fn characters(group: &[(u16, Metric)]) -> String {
    group.iter().map(|(_, metric)| character(*metric)).collect()
}

fn character(metric: Metric) -> char {
    let (plain, with_ce) = match metric {
        Metric::NotReceived => return '.',
        Metric::Received { .. } => ('|', 'C'),
        Metric::OverRange { .. } => ('>', 'G'),
        Metric::NoTime { .. } => ('?', 'Q'),
    };
    if metric.mark() == Some(Mark::Ce) {
        with_ce
    } else {
        plain
    }
}

#[cfg(test)]
mod tests {
    use super::*;

    /// As many numbers starting at `begin` as there are metrics.
    fn numbered(begin: u16, metrics: &[Metric]) -> Vec<(u16, Metric)> {
        (0..).map(|j| begin.wrapping_add(j)).zip(metrics.iter().copied()).collect()
    }

    fn rows_of(begin: u16, metrics: &[Metric]) -> Vec<String> {
        rows(&numbered(begin, metrics)).collect()
    }

    #[test]
    fn each_kind_has_its_character() {
        let kinds = |mark| {
            [
                Metric::Received { mark, offset: 7 },
                Metric::OverRange { mark },
                Metric::NoTime { mark },
                Metric::NotReceived,
            ]
        };
        for mark in [Mark::NotEct, Mark::Ect1, Mark::Ect0] {
            assert_eq!(rows_of(900, &kinds(mark)), ["  900: |>?."]);
        }
        assert_eq!(rows_of(900, &kinds(Mark::Ce)), ["  900: CGQ."]);
    }

    #[test]
    fn rows_are_aligned_across_the_wrap() {
        let rows = rows_of(65_500, &[Metric::NotReceived; 125]);
        let ten = "..........";
        let full = [ten; 6].join(" ");
        assert_eq!(
            rows,
            [format!("65500: {full}"), format!("   24: {full}"), "   84: .....".to_string()]
        );
    }

    #[test]
    fn whole_groups_end_without_a_space() {
        assert_eq!(rows_of(1, &[Metric::NotReceived; 10]), ["    1: .........."]);
        assert_eq!(rows_of(1, &[Metric::NotReceived; 11]), ["    1: .......... ."]);
        assert_eq!(rows_of(1, &[Metric::NotReceived; 60]).len(), 1);
    }

    #[test]
    fn an_empty_block_has_no_row() {
        assert!(rows_of(1, &[]).is_empty());
    }
}
