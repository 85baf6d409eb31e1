//! The planets' stages, as they hang together.

use second::ask;
use second::numbers::{D, P};
use second::numerals;
use second::planets::{Planet, Twilight};
use second::stages::{Course, Motion, Stage};

fn stages(planet: u64) -> Vec<Stage> {
    ask::stages(planet).unwrap()
}

fn all_stages() -> impl Iterator<Item = Stage> {
    (1..=5).flat_map(stages)
}

#[test]
fn numbers_as_written() {
    let written = [
        ("一", 1),
        ("十", 10),
        ("十六", 16),
        ("二十", 20),
        ("一百二", 102),
        ("一百一十二", 112),
        ("六千八百四", 6_804),
        ("一萬", 10_000),
        ("一萬六千一", 16_001),
        ("六百七十二萬三千八百八十八", 6_723_888),
        ("一千三百一十四萬九千八十三", 13_149_083),
    ];
    for (text, number) in written {
        assert_eq!(numerals::number(text), Some(number), "{text}");
    }
    for text in ["", "萬", "百", "萬一", "一二", "十百", "十十", "六日", "日"] {
        assert_eq!(numerals::number(text), None, "{text}");
    }
}

#[test]
fn counts() {
    let counts = [1, 2, 3, 4, 5].map(|planet| stages(planet).len());
    assert_eq!(counts, [9, 9, 7, 14, 10]);
}

/// From conjunction to conjunction: the planet's number in days, and in degrees
/// what the sun goes in them, but for the circle by which the outer three fall
/// behind it.
#[test]
fn sums() {
    for (planet, index) in Planet::ALL.iter().zip(1..) {
        let (mut time, mut way) = (0, 0);
        for stage in stages(index) {
            time += stage.days * D + stage.days_remainder;
            way += stage.degrees * D as i64 + stage.degrees_remainder as i64;
        }
        let behind = if index <= 3 { P } else { 0 };
        assert_eq!(time, planet.number);
        assert_eq!(way, (planet.number - behind) as i64);
    }
}

/// The day's motion, day for day, comes to the degrees.
#[test]
fn motions() {
    let mut moving = 0;
    for stage in all_stages() {
        let Motion {
            whole,
            numerator,
            denominator,
        } = stage.motion;
        let printed = matches!(stage.course, Course::Direct | Course::Retrograde);
        assert_eq!(denominator > 0, printed);
        if printed {
            let way = stage.days * (whole * denominator + numerator);
            assert_eq!(way, stage.degrees.unsigned_abs() * denominator);
            moving += 1;
        }
    }
    assert_eq!(moving, 25);
}

#[test]
fn courses() {
    for stage in all_stages() {
        match stage.course {
            Course::Direct => assert!(stage.degrees > 0),
            Course::Station => assert_eq!(stage.degrees, 0),
            Course::Retrograde => assert!(stage.degrees < 0),
            Course::Hidden => assert_ne!(stage.degrees, 0),
            Course::NoStage => panic!("a stage that is none"),
        }
        let remainders = stage.days_remainder + stage.degrees_remainder;
        assert!(stage.course == Course::Hidden || remainders == 0);
    }
    let hidden = [1, 2, 3, 4, 5].map(|planet| {
        let courses = stages(planet).into_iter().map(|stage| stage.course);
        courses.filter(|course| *course == Course::Hidden).count()
    });
    assert_eq!(hidden, [2, 2, 2, 4, 4]);
}

/// Said in the first two stages and in the last one from a conjunction to the
/// next, and nowhere else.
fn said(stages: &[Stage], rising: Twilight, setting: Twilight) {
    let last = stages.len() - 1;
    for (place, stage) in stages.iter().enumerate() {
        let expected = match place {
            0 | 1 => rising,
            _ if place == last => setting,
            _ => Twilight::Neither,
        };
        assert_eq!(stage.twilight, expected, "{place}");
    }
}

#[test]
fn mornings_and_evenings() {
    for planet in [1, 2, 3] {
        said(&stages(planet), Twilight::Morning, Twilight::Evening);
    }
    for planet in [4, 5] {
        let stages = stages(planet);
        let (evening, morning) = stages.split_at(stages.len() / 2);
        said(evening, Twilight::Evening, Twilight::Evening);
        said(morning, Twilight::Morning, Twilight::Morning);
    }
}

/// Mercury comes into sight standing; what ends another stage isn't its course.
#[test]
fn closing_words() {
    assert_eq!(stages(5)[6].course, Course::Station);
    assert_eq!(stages(5)[6].twilight, Twilight::Morning);
    assert_eq!(stages(1)[2].course, Course::Direct);
    assert_eq!(stages(4)[8].course, Course::Retrograde);
    assert_eq!(stages(4)[6].twilight, Twilight::Evening);
}

/// Motions of a numerator alone are in the parts of the direct motion, past the
/// retrograde one.
#[test]
fn motions_without_a_denominator() {
    for (planet, parts) in [(1, 58), (2, 23)] {
        let stages = stages(planet);
        assert_ne!(stages[4].motion.denominator, parts);
        for place in [1, 2, 6, 7] {
            assert_eq!(stages[place].motion.denominator, parts);
        }
    }
}
