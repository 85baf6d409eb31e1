//! The planets' stages, read from the printed text. What the reader does not
//! know ends the program, so that nothing printed is passed over.

use crate::numerals;
use crate::planets::Twilight;
use crate::stage_text::PARAGRAPHS;

/// How a planet goes; the discriminant is the number that is written.
#[derive(Clone, Copy, Debug, Default, PartialEq, Eq)]
pub enum Course {
    #[default]
    NoStage = 0,
    Hidden = 1,
    Direct = 2,
    Station = 3,
    Retrograde = 4,
}

/// A day's motion in degrees, all zeros where none is printed.
#[derive(Clone, Copy, Debug, Default, PartialEq, Eq)]
pub struct Motion {
    pub whole: u64,
    pub numerator: u64,
    pub denominator: u64,
}

/// One stage as it is printed; 0 for what is not.
#[derive(Clone, Copy, Debug, Default, PartialEq, Eq)]
pub struct Stage {
    pub days: u64,
    pub days_remainder: u64,
    /// Below 0 where the planet goes back.
    pub degrees: i64,
    pub degrees_remainder: u64,
    pub motion: Motion,
    pub course: Course,
    pub twilight: Twilight,
}

/// The stages of the planet at an index from 0, in order.
pub fn of_planet(index: usize) -> Vec<Stage> {
    let mut stages = Vec::new();
    for paragraph in PARAGRAPHS[index] {
        for sentence in paragraph.split_terminator('。') {
            stages.push(read_stage(sentence, fraction_of(&stages)));
        }
    }
    stages
}

/// The denominator of the direct motion printed last, 0 where none is. One that
/// is printed by its numerator alone is counted in the same parts.
fn fraction_of(stages: &[Stage]) -> u64 {
    let mut direct = stages.iter().filter(|stage| stage.course == Course::Direct);
    let last = direct.next_back();
    last.map_or(0, |stage| stage.motion.denominator)
}

/// `fraction` is the denominator of a motion that is printed without one.
fn read_stage(sentence: &str, fraction: u64) -> Stage {
    let mut stage = Stage::default();
    for phrase in sentence.split(['，', '、']) {
        stage.read_phrase(without_close(phrase), fraction);
    }
    assert_ne!(stage.course, Course::NoStage, "no course: {sentence}");
    stage
}

/// What comes when a stage is over. Mercury also comes into sight 而留, where
/// 不行 says of the stage itself that it stands.
const CLOSES: [&str; 5] = ["而留", "而旋", "而與日合", "而與日晨合", "而與日夕合"];

fn without_close(phrase: &str) -> &str {
    let mut closes = CLOSES.iter();
    let open = closes.find_map(|close| phrase.strip_suffix(close));
    open.unwrap_or(phrase)
}

impl Stage {
    fn read_phrase(&mut self, phrase: &str, fraction: u64) {
        match phrase {
            "" | "在日前" | "在日後" => {}
            "疾" | "遲" | "大疾" | "大遲" => {}
            "順" | "復順" => self.goes(Course::Direct),
            "逆" => self.goes(Course::Retrograde),
            "不行" | "復留" => self.goes(Course::Station),
            "在日前伏" | "在日後伏" => self.goes(Course::Hidden),
            "晨與日合" | "晨見東方" => self.twilight = Twilight::Morning,
            "夕與日合" | "夕見西方" => self.twilight = Twilight::Evening,
            "晨伏東方" => self.hides(Twilight::Morning),
            "夕伏西方" => self.hides(Twilight::Evening),
            counted => self.read_counted(counted, fraction),
        }
    }

    /// A hidden planet stays hidden, whichever way it goes.
    fn goes(&mut self, course: Course) {
        if self.course != Course::Hidden {
            self.course = course;
        }
    }

    fn hides(&mut self, twilight: Twilight) {
        self.goes(Course::Hidden);
        self.twilight = twilight;
    }

    fn read_counted(&mut self, phrase: &str, fraction: u64) {
        if let Some(motion) = phrase.strip_prefix("日行") {
            self.motion = read_motion(motion, fraction);
        } else if let Some(remainder) = phrase.strip_prefix("日餘") {
            self.days_remainder = number(remainder);
        } else if let Some(remainder) = phrase.strip_prefix("度餘") {
            self.degrees_remainder = number(remainder);
        } else if let Some(days) = phrase.strip_prefix('伏') {
            self.goes(Course::Hidden);
            self.read_days_and_degrees(days);
        } else {
            self.read_days_and_degrees(phrase);
        }
    }

    /// Days, degrees, or degrees in so many days.
    fn read_days_and_degrees(&mut self, phrase: &str) {
        let degrees = match phrase.split_once('日') {
            Some((days, degrees)) => {
                self.days = number(days);
                degrees
            }
            None => phrase,
        };
        if !degrees.is_empty() {
            self.degrees = read_degrees(degrees);
        }
    }
}

fn read_degrees(phrase: &str) -> i64 {
    let size = |degrees: &str| number(before("度", degrees)) as i64;
    if let Some(back) = phrase.strip_prefix('退') {
        return -size(back);
    }
    let on = phrase
        .strip_prefix("行星")
        .or_else(|| phrase.strip_prefix('行'));
    size(on.unwrap_or_else(|| panic!("neither on nor back: {phrase}")))
}

/// 一度十三分之三, 十三分之三, or 三分 in parts that were named before.
fn read_motion(phrase: &str, fraction: u64) -> Motion {
    let (whole, parts) = match phrase.split_once('度') {
        Some((whole, parts)) => (number(whole), parts),
        None => (0, phrase),
    };
    let (denominator, numerator) = match parts.split_once("分之") {
        Some((denominator, numerator)) => (number(denominator), number(numerator)),
        None => (fraction, number(before("分", parts))),
    };
    assert!(denominator > 0, "parts that were not named: {phrase}");
    Motion {
        whole,
        numerator,
        denominator,
    }
}

/// What stands before the measure that ends a phrase.
fn before<'text>(measure: &str, phrase: &'text str) -> &'text str {
    let count = phrase.strip_suffix(measure);
    count.unwrap_or_else(|| panic!("no {measure} at the end: {phrase}"))
}

fn number(text: &str) -> u64 {
    numerals::number(text).unwrap_or_else(|| panic!("not a number: {text}"))
}
