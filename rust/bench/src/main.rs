//! Measures the library against plain Rust and prints a Markdown table.

// The library's own functions, as the C boundary has them; the safe wrappers
// would add a copy of each answer. The crate is named to have them linked.
#[path = "../../xinghe/src/raw.rs"]
mod raw;
use xinghe as _;

mod calendar_inputs;
mod calendars;
mod inputs;
mod measure;
mod survey;

use bench::fast::{self, Division, MonthsBefore, Row, Table, ROW};
use calendar_inputs::CalendarInputs;
use inputs::{Inputs, Volume, VOLUME_YEARS};
use measure::{measure, Line};

/// A walk's last row and its totals.
type End = (Row, [u64; 3]);

/// A planet's count of stages, and the stages.
type Stages = ([u64; 1], [[u64; 10]; 14]);

/// A volume that is mended, the list of the blocks written afresh, and their count.
type Mended = (Volume, [u64; fast::MOST_BLOCKS], [u64; 1]);

/// The jobs that stand on the months before a year, by one way to them in Rust.
fn years_and_dates<B: MonthsBefore>(
    inputs: &CalendarInputs<ROW>,
    names: [&'static str; 7],
) -> [Line; 7] {
    [
        measure(
            names[0],
            &inputs.years,
            [0; 6],
            |&year, out| raw::xinghe_year_head(year, out),
            |&year, out| fast::year_head::<B>(year, out),
        ),
        measure(
            names[1],
            &inputs.months,
            [0; ROW],
            |&(year, place), out| raw::xinghe_month_row(year, place, out),
            |&(year, place), out| fast::month_row::<B>(year, place, out),
        ),
        measure(
            names[2],
            &inputs.dates,
            [0; 2],
            |&(year, place, day), out| raw::xinghe_day_of_date(year, place, day, out),
            |&(year, place, day), out| fast::day_of_date::<B>(year, place, day, out),
        ),
        measure(
            names[3],
            &inputs.days,
            [0; 3],
            |&number, out| raw::xinghe_date_of_day(number, out),
            |&number, out| fast::date_of_day::<B>(number, out),
        ),
        measure(
            names[4],
            &inputs.carries,
            [0; ROW],
            |(row, count), out| raw::xinghe_carry(row, *count, out),
            |(row, count), out| fast::carry::<B>(row, *count, out),
        ),
        measure(
            names[5],
            &inputs.walks,
            ([0; ROW], [0; 3]),
            library_walk,
            |(row, counts), end: &mut End| fast::walk::<B>(row, counts, &mut end.0, &mut end.1),
        ),
        measure(
            names[6],
            &inputs.years,
            [0; 13 * ROW],
            // SAFETY: pointer and length are those of an array.
            |&year, out| unsafe { raw::xinghe_fill_year(year, out.as_mut_ptr(), out.len()) },
            |&year, out| fast::fill_year::<B>(year, out),
        ),
    ]
}

const BY_DIVISION: [&str; 7] = [
    "head of a year",
    "row of a month",
    "date to day",
    "day to date",
    "carry",
    "walk of 1,000 counts",
    "a year's list",
];

const BY_TABLE: [&str; 7] = [
    "head of a year, in Rust too from a table",
    "row of a month, from a table",
    "date to day, from a table",
    "day to date, from a table",
    "carry, from a table",
    "walk of 1,000 counts, from a table",
    "a year's list, from a table",
];

fn library_walk((row, counts): &(Row, Vec<i64>), end: &mut End) -> u64 {
    let (out, totals) = end;
    // SAFETY: pointer and length are those of a slice.
    unsafe { raw::xinghe_walk(row, counts.as_ptr(), counts.len(), out, totals) }
}

fn cuts(inputs: &CalendarInputs<ROW>) -> [Line; 2] {
    [
        measure(
            "point of a cut",
            &inputs.points,
            [0; 3],
            |&(year, cut, index), out| raw::xinghe_cut_point(year, cut, index, out),
            |&(year, cut, index), out| fast::cut_point(year, cut, index, out),
        ),
        measure(
            "the same, in Rust by a division in 32 bits",
            &inputs.points,
            [0; 3],
            |&(year, cut, index), out| raw::xinghe_cut_point(year, cut, index, out),
            |&(year, cut, index), out| fast::cut_point_by_division(year, cut, index, out),
        ),
    ]
}

fn moons(inputs: &CalendarInputs<ROW>) -> [Line; 4] {
    [
        measure(
            "phases",
            &inputs.months,
            [0; 12],
            |&(year, place), out| raw::xinghe_phases(year, place, out),
            |&(year, place), out| fast::phases(year, place, out),
        ),
        measure(
            "eclipses",
            &inputs.months,
            [0; 15],
            |&(year, place), out| raw::xinghe_nodes(year, place, out),
            |&(year, place), out| fast::nodes(year, place, out),
        ),
        measure(
            "corrections",
            &inputs.months,
            [0; 14],
            |&(year, place), out| raw::xinghe_corrections(year, place, out),
            |&(year, place), out| fast::corrections(year, place, out),
        ),
        measure(
            "the same, in Rust too from the rates alone",
            &inputs.months,
            [0; 14],
            |&(year, place), out| raw::xinghe_corrections(year, place, out),
            |&(year, place), out| fast::corrections_from_rates(year, place, out),
        ),
    ]
}

fn planets(inputs: &Inputs) -> [Line; 2] {
    let blank: Stages = ([0], [[0; 10]; 14]);
    [
        measure(
            "conjunctions",
            &inputs.conjunctions,
            [0; 10],
            |&(year, planet), out| raw::xinghe_conjunctions(year, planet, out),
            |&(year, planet), out| fast::conjunctions(year, planet, out),
        ),
        measure(
            "stages",
            &inputs.planets,
            blank,
            |&planet, (count, out)| raw::xinghe_stages(planet, count, out),
            |&planet, (count, out)| fast::stages(planet, count, out),
        ),
    ]
}

fn names(inputs: &Inputs) -> [Line; 2] {
    let list = [0; fast::LIST];
    [
        measure(
            "label",
            &inputs.labels,
            [0; 2],
            |&(day, length), out| {
                let (theirs, house) = (&list[..length], &list);
                // SAFETY: pointers and lengths are those of a slice and an array.
                unsafe {
                    let (theirs, house) = (theirs.as_ptr(), house.as_ptr());
                    raw::xinghe_label(day, theirs, length, house, fast::LIST, out)
                }
            },
            |&(day, length), out| fast::label(day, &list[..length], &list, out),
        ),
        measure(
            "the sixty names",
            &[(); 256],
            list,
            |(), out| raw::xinghe_ganzhi_names(out),
            |(), out| fast::ganzhi_names(out),
        ),
    ]
}

fn volumes(inputs: &Inputs) -> [Line; 2] {
    let blank = ([0; size_of::<Volume>()], [0]);
    [
        measure(
            "a volume of 20 years, written",
            &inputs.first_years,
            blank,
            |&first, (out, count)| {
                let last = first + VOLUME_YEARS - 1;
                // SAFETY: pointer and length are those of an array.
                unsafe { raw::xinghe_write_volume(first, last, out.as_mut_ptr(), out.len(), count) }
            },
            |&first, (out, count)| fast::write_volume(first, first + VOLUME_YEARS - 1, out, count),
        ),
        measure(
            "a volume of 20 years, read",
            &inputs.volumes,
            [0; 2],
            // SAFETY: as above; the volume is only read.
            |volume, out| unsafe { raw::xinghe_read_volume(volume.as_ptr(), volume.len(), out) },
            |volume, out| fast::read_volume(volume, out),
        ),
    ]
}

fn reigns(inputs: &Inputs) -> [Line; 2] {
    let library = |&(volume, from, to): &(usize, u64, u64), out: &mut _| {
        let volume = &inputs.volumes[volume];
        // SAFETY: pointer and length are those of an array.
        unsafe { raw::xinghe_marked(volume.as_ptr(), volume.len(), from, to, out) }
    };
    [
        measure(
            "marked moons of a span",
            &inputs.spans,
            [0; 2],
            library,
            |&(volume, from, to), out| fast::marked(&inputs.volumes[volume], from, to, out),
        ),
        measure(
            "the same, in Rust too with products of 16 bits",
            &inputs.spans,
            [0; 2],
            library,
            |&(volume, from, to), out| {
                fast::marked_by_halves(&inputs.volumes[volume], from, to, out)
            },
        ),
    ]
}

/// Mending is in place: each call is given a copy of its own, and the copying is timed
/// with it.
fn library_mend(scratched: &Volume, (volume, damaged, count): &mut Mended) -> u64 {
    *volume = *scratched;
    // SAFETY: pointer and length are those of an array.
    unsafe { raw::xinghe_mend(volume.as_mut_ptr(), volume.len(), damaged, count) }
}

fn rust_mend(scratched: &Volume, (volume, damaged, count): &mut Mended) -> u64 {
    *volume = *scratched;
    fast::mend(volume, damaged, count)
}

fn rust_mend_by_names(scratched: &Volume, (volume, damaged, count): &mut Mended) -> u64 {
    *volume = *scratched;
    fast::mend_by_names(volume, damaged, count)
}

fn mendings(inputs: &Inputs) -> [Line; 4] {
    let blank: Mended = ([0; _], [0; _], [0]);
    let (scratched, whole) = (&inputs.scratched, &inputs.volumes);
    [
        measure(
            "a volume of 20 years, 4 scratched, mended",
            scratched,
            blank,
            library_mend,
            rust_mend,
        ),
        measure(
            "the same, in Rust too by the years that blocks name",
            scratched,
            blank,
            library_mend,
            rust_mend_by_names,
        ),
        measure(
            "a volume of 20 years, whole, mended",
            whole,
            blank,
            library_mend,
            rust_mend,
        ),
        measure(
            "the same, in Rust too by the years that blocks name",
            whole,
            blank,
            library_mend,
            rust_mend_by_names,
        ),
    ]
}

fn main() {
    let inputs = Inputs::new();
    let calendar = &inputs.calendar;
    println!("| job | library, ns per call | Rust, ns per call | library / Rust |");
    println!("|---|---|---|---|");
    for line in years_and_dates::<Division>(calendar, BY_DIVISION) {
        line.print();
    }
    for line in years_and_dates::<Table>(calendar, BY_TABLE) {
        line.print();
    }
    cuts(calendar).iter().for_each(Line::print);
    moons(calendar).iter().for_each(Line::print);
    planets(&inputs).iter().for_each(Line::print);
    names(&inputs).iter().for_each(Line::print);
    volumes(&inputs).iter().for_each(Line::print);
    reigns(&inputs).iter().for_each(Line::print);
    mendings(&inputs).iter().for_each(Line::print);
    calendars::lines().for_each(|line| line.print());
    let survey = survey::measure();
    survey.print();
    println!();
    println!(
        "Both opt-level 3, same inputs, answers checked equal first. The two are timed by \
         turns and the best of {} repetitions is taken, of {} for the survey. The library is \
         called through its C boundary; the Rust functions take the same arguments and are \
         never inlined either. The whole survey took {:.2} s and {:.2} s.",
        measure::REPETITIONS,
        survey::REPETITIONS,
        survey.library * fast::ROUND_MONTHS as f64 / 1e9,
        survey.rust * fast::ROUND_MONTHS as f64 / 1e9,
    );
}
