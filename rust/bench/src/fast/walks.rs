//! Carries and walks, in a calendar of so many months whose rows are worked out by a
//! function.

#[inline]
fn is_genuine<const ROW: usize>(
    row: &[u64; ROW],
    months: u64,
    row_of: impl Fn(u64) -> [u64; ROW],
) -> bool {
    if row[0] >= months {
        return false;
    }
    // All numbers at once, without a jump for each; as arrays the two would be
    // compared by a call of the C library.
    let numbers = row.iter().zip(row_of(row[0]));
    numbers.fold(0, |differing, (a, b)| differing | (a ^ b)) == 0
}

/// The month of the calendar so many months on.
#[inline]
fn moved(lunation: u64, count: i64, months: u64) -> Option<u64> {
    // Below 0 it wraps round to far past the last month.
    let next = lunation.wrapping_add_signed(count);
    (next < months).then_some(next)
}

#[inline]
pub fn carried<const ROW: usize>(
    row: &[u64; ROW],
    count: i64,
    months: u64,
    row_of: impl Fn(u64) -> [u64; ROW],
) -> Result<[u64; ROW], u64> {
    if !is_genuine(row, months, &row_of) {
        return Err(4);
    }
    moved(row[0], count, months).map(row_of).ok_or(5)
}

/// A walk's last row and its totals. The first row is tested, the month alone is moved,
/// and one row is worked out at the end.
#[inline]
pub fn walked<const ROW: usize>(
    row: &[u64; ROW],
    counts: &[i64],
    months: u64,
    row_of: impl Fn(u64) -> [u64; ROW],
) -> Result<([u64; ROW], [u64; 3]), u64> {
    if !is_genuine(row, months, &row_of) {
        return Err(4);
    }
    let (mut month, mut answered) = (row[0], 0);
    for &count in counts {
        if let Some(next) = moved(month, count, months) {
            month = next;
            answered += 1;
        }
    }
    let below = u64::from(month < row[0]);
    Ok((row_of(month), [below, month.abs_diff(row[0]), answered]))
}
