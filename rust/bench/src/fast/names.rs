//! Day names.

use super::rows::SIXTY;

const NAME: usize = 6;
pub const LIST: usize = SIXTY as usize * NAME;

const WRITTEN: &str = "\
    甲子乙丑丙寅丁卯戊辰己巳庚午辛未壬申癸酉\
    甲戌乙亥丙子丁丑戊寅己卯庚辰辛巳壬午癸未\
    甲申乙酉丙戌丁亥戊子己丑庚寅辛卯壬辰癸巳\
    甲午乙未丙申丁酉戊戌己亥庚子辛丑壬寅癸卯\
    甲辰乙巳丙午丁未戊申己酉庚戌辛亥壬子癸丑\
    甲寅乙卯丙辰丁巳戊午己未庚申辛酉壬戌癸亥\
";

pub static GANZHI: [u8; LIST] = {
    let mut names = [0; LIST];
    names.copy_from_slice(WRITTEN.as_bytes());
    names
};

/// Whose list the name is in, and where it begins.
#[inline]
pub fn location(day: u64, theirs: usize, house: usize) -> Result<[u64; 2], u64> {
    let index = day.wrapping_sub(1);
    if index >= SIXTY {
        return Err(3);
    }
    let whose = match (theirs, house) {
        (LIST, _) => 1,
        (_, LIST) => 2,
        _ => return Err(10),
    };
    Ok([whose, index * NAME as u64])
}
