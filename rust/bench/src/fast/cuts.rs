//! Points of the cuts of a year.

/// A year's parts, of which a day has as many as the divisor says.
#[derive(Clone, Copy)]
pub struct SunYear {
    pub parts: u64,
    pub degree_divisor: u64,
}

/// A point of a cut after so many years, each cut by its own constants.
#[inline]
pub fn point(past: u64, cut: u64, index: u64, year: SunYear) -> Result<[u64; 3], u64> {
    if index >= cut {
        return Err(8);
    }
    match cut {
        24 => Ok(point_of::<24>(past, index, year)),
        60 => Ok(point_of::<60>(past, index, year)),
        72 => Ok(point_of::<72>(past, index, year)),
        _ => Err(8),
    }
}

#[inline]
fn point_of<const CUT: u64>(past: u64, index: u64, year: SunYear) -> [u64; 3] {
    let (parts, full) = ((CUT * past + index) * year.parts, year.degree_divisor);
    [parts / (CUT * full), parts / CUT % full, parts % CUT]
}

/// The same by the machine's division, in 32 bits: where cuts come in any order, a jump
/// to each one's own constants takes longer.
#[inline]
pub fn point_by_division(past: u64, cut: u64, index: u64, year: SunYear) -> Result<[u64; 3], u64> {
    if !matches!(cut, 24 | 60 | 72) || index >= cut {
        return Err(8);
    }
    let (parts, cut) = ((index * year.parts) as u32, cut as u32);
    let (whole, rest) = (past * year.parts + u64::from(parts / cut), parts % cut);
    let (day, remainder) = (whole / year.degree_divisor, whole % year.degree_divisor);
    Ok([day, remainder, u64::from(rest)])
}
