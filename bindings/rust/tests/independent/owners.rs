//! Who owns which separators: P1 of document 02, which the quotations are from.

/// "They want a table lent as bytes, ten a row"; "at most 128 rows in rising order."
const ROW_SIZE: usize = 10;
const MOST_ROWS: usize = 128;

/// "first and last number of 32 bits, product line of 16".
#[derive(Clone, Copy)]
struct Row {
    first: u32,
    last: u32,
    line: u16,
}

impl Row {
    /// "highest byte first". None for "a row cut short".
    fn read(bytes: &[u8]) -> Option<Row> {
        let ten: [u8; ROW_SIZE] = bytes.try_into().ok()?;
        let [a, b, c, d, e, f, g, h, i, j] = ten;
        Some(Row {
            first: u32::from_be_bytes([a, b, c, d]),
            last: u32::from_be_bytes([e, f, g, h]),
            line: u16::from_be_bytes([i, j]),
        })
    }

    /// "whose row holds the number".
    fn holds(&self, number: u32) -> bool {
        (self.first..=self.last).contains(&number)
    }
}

/// "a row whose first is above its last or not above the previous row's last, a row 129 or a row cut short", with the
/// row's number "counted from 1".
fn is_at_fault(rows: &[Option<Row>], number: usize) -> bool {
    let previous = if number == 1 { None } else { rows[number - 2] };
    match (rows[number - 1], previous) {
        (None, _) => true,
        (Some(_), _) if number > MOST_ROWS => true,
        (Some(row), None) => row.first > row.last,
        (Some(row), Some(previous)) => row.first > row.last || row.first <= previous.last,
    }
}

/// "a number that no row holds; the least one". Where it is not 0, the number before it is held, and by a row that ends
/// there: it is 0 or a row's last and one more. After the last number, 4294967295, there is none.
fn least_number_not_held(rows: &[Row]) -> Option<u32> {
    let after_rows = rows.iter().map(|row| u64::from(row.last) + 1);
    std::iter::once(0)
        .chain(after_rows)
        .filter_map(|number| u32::try_from(number).ok())
        .filter(|number| !rows.iter().any(|row| row.holds(*number)))
        .min()
}

/// "15: a row whose first is above its last or not above the previous row's last, a row 129 or a row cut short; the
/// first such row's number, counted from 1, comes with it. 16: otherwise, a number that no row holds; the least one comes
/// with it." "The empty table is a gap." Gives the rows, or the number and what comes with it.
fn accepted_rows(table: &[u8]) -> Result<Vec<Row>, (u32, u32)> {
    let rows: Vec<Option<Row>> = table.chunks(ROW_SIZE).map(Row::read).collect();
    if let Some(number) = (1..=rows.len()).find(|number| is_at_fault(&rows, *number)) {
        return Err((15, number as u32));
    }
    let rows: Vec<Row> = rows.into_iter().flatten().collect();
    match least_number_not_held(&rows) {
        Some(number) => Err((16, number)),
        None => Ok(rows),
    }
}

/// "An accepted table covers every number from 0 to 4294967295 exactly one time". Gives the number and what comes with
/// it, 0 for an accepted table.
pub fn check_owners(table: &[u8]) -> (u32, u32) {
    accepted_rows(table).map_or_else(|refused| refused, |_| (0, 0))
}

/// "A separator's number is its first four bytes, highest byte first." None if it "is under four bytes; one over 256
/// isn't refused here."
fn separator_number(separator: &[u8]) -> Option<u32> {
    separator.first_chunk().map(|four| u32::from_be_bytes(*four))
}

/// "asking it for a separator gives the one line whose row holds the number." "17, after both: the separator asked about
/// is under four bytes". Gives the number and the line or what comes with the number, 0 with 17.
pub fn owner(table: &[u8], separator: &[u8]) -> (u32, u32) {
    let rows = match accepted_rows(table) {
        Ok(rows) => rows,
        Err(refused) => return refused,
    };
    let Some(number) = separator_number(separator) else {
        return (17, 0);
    };
    let lines: Vec<u16> = rows
        .iter()
        .filter(|row| row.holds(number))
        .map(|row| row.line)
        .collect();
    assert_eq!(lines.len(), 1, "rows that hold {number}");
    (0, u32::from(lines[0]))
}
