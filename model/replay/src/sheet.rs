//! `replay --sheet`: a sheet as a person reads it.

use model::sheet::{read_rows, Broken, Row};

/// The state, how many rows and offers there are, and a line for each row; or what is wrong with bytes that are no sheet.
pub fn text(bytes: &[u8]) -> Result<String, Broken> {
    let (state, rows) = read_rows(bytes)?;
    let offers: usize = rows.iter().map(|row| row.priced().count()).sum();
    let title = format!("state {state} rows {} offers {offers}\n", rows.len());
    Ok(rows.iter().map(row_text).fold(title, |text, row| text + &row))
}

fn row_text(row: &Row) -> String {
    let seats: Vec<String> = row.priced().map(|(seat, price)| format!("seat {seat} {price}")).collect();
    format!("row {}: {}\n", row.number, seats.join(", "))
}

#[cfg(test)]
mod tests {
    use super::text;

    fn bytes_of(numbers: &[u32]) -> Vec<u8> {
        numbers.iter().flat_map(|number| number.to_be_bytes()).collect()
    }

    #[test]
    fn sheets() {
        let text = |numbers: &[u32]| text(&bytes_of(numbers)).unwrap();
        assert_eq!(text(&[7, 1, 0, 0x0400_0000, 1200]), "state 7 rows 1 offers 1\nrow 0: seat 5 1200\n");
        assert_eq!(text(&[9, 0]), "state 9 rows 0 offers 0\n");
        assert_eq!(
            text(&[u32::MAX, 2, 64, 0xB000_0000, 10, 0, 30, 0xFFFF_FFC0, 1, u32::MAX]),
            "state 4294967295 rows 2 offers 4\nrow 1: seat 0 10, seat 2 0, seat 3 30\n\
             row 67108863: seat 31 4294967295\n"
        );
    }

    #[test]
    fn what_is_no_sheet() {
        let wrong = |numbers: &[u32]| text(&bytes_of(numbers)).unwrap_err().to_string();
        assert_eq!(wrong(&[7]), "at byte 4, the bytes end before state number and count of rows do");
        assert_eq!(wrong(&[7, 1]), "at byte 8, the bytes end before the last row does");
        assert_eq!(wrong(&[7, 1, 0, 3, 1]), "at byte 20, the bytes end before the last row does");
        assert_eq!(wrong(&[7, 0, 0]), "at byte 8, bytes follow the last row");
        assert_eq!(wrong(&[7, 1, 1, 1, 1]), "at byte 8, the six bits after the row's number are not zero");
        assert_eq!(wrong(&[7, 1, 0, 0]), "at byte 12, the row's mask is zero");
        let two = |first, second| wrong(&[7, 2, first, 1, 1, second, 2, 1]);
        assert_eq!(two(64, 64), "at byte 20, the row has the number of the row before it");
        assert_eq!(two(64, 0), "at byte 20, the row's number is below that of the row before it");
    }
}
