//! Numbers as the treatise writes them.

/// The number that is written, where it is one: 一萬六千一 is 16,001.
pub fn number(text: &str) -> Option<u64> {
    match text.split_once('萬') {
        None => below_ten_thousand(text),
        Some((above, "")) => Some(10_000 * below_ten_thousand(above)?),
        Some((above, below)) => {
            Some(10_000 * below_ten_thousand(above)? + below_ten_thousand(below)?)
        }
    }
}

/// A place that is empty is not written, and neither is the 一 of a first 十.
fn below_ten_thousand(text: &str) -> Option<u64> {
    let (mut sum, mut written) = (0, None);
    let mut least = 10_000;
    for sign in text.chars() {
        if let Some(digit) = digit(sign) {
            if written.replace(digit).is_some() {
                return None;
            }
            continue;
        }
        let place = place(sign).filter(|place| *place < least)?;
        let digit = written.take().or((place == 10).then_some(1))?;
        sum += digit * place;
        least = place;
    }
    Some(sum + written.unwrap_or(0)).filter(|number| *number > 0)
}

fn digit(sign: char) -> Option<u64> {
    let digits = "一二三四五六七八九".chars();
    let index = digits.zip(1..).find(|(digit, _)| *digit == sign);
    index.map(|(_, value)| value)
}

fn place(sign: char) -> Option<u64> {
    match sign {
        '十' => Some(10),
        '百' => Some(100),
        '千' => Some(1_000),
        _ => None,
    }
}
