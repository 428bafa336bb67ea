//! The rows of `docs/DIFFERENCES.md`: each name of a difference is a part of one.

use crate::{compare, rows};

const DIFFERENCES: &str = include_str!("../../docs/DIFFERENCES.md");

/// Returns how many rows of tables have a part.
fn rows_with(part: &str) -> usize {
    let rows = DIFFERENCES.lines().filter(|line| line.starts_with("| "));
    rows.filter(|row| row.contains(part)).count()
}

/// Checks that each name stands in one row.
///
/// # Errors
///
/// The names that stand in none, or in more than one.
pub fn check() -> Result<(), String> {
    let names = rows::ROWS.iter().map(|row| row.name).chain(compare::ROWS);
    let strays: Vec<_> = names.filter(|name| rows_with(name) != 1).collect();
    match strays.as_slice() {
        [] => Ok(()),
        names => Err(format!("not in one row of docs/DIFFERENCES.md: {names:?}")),
    }
}

#[cfg(test)]
mod tests {
    use super::{check, rows_with};

    #[test]
    fn each_name_stands_in_one_row() {
        assert_eq!(check(), Ok(()));
    }

    #[test]
    fn a_name_that_stands_nowhere_is_found() {
        assert_eq!(rows_with("no such row"), 0);
        assert!(rows_with("float") > 1);
    }
}
