//! The pictures as track plans: what is measured in them, over plans that are made and plans by hand.

mod boxes;
mod forced;
mod measured;
mod plans;

use std::collections::BTreeMap;
use std::fmt::Write;
use std::sync::{LazyLock, Mutex};

use crate::common::{files, on_all_cores, read, stations};
use boxes::{outside, overlaps};
use forced::Broken;
use judge::Situation;
use measured::{Figures, figures, sections};
use oracle::generate;
use station::ask;
use station::layout::curve::{Point, point};
use station::shown;

fn picture(name: &str, file: &[u8]) -> String {
    shown::picture(name, &ask::answer(file), "", true).unwrap_or_else(|| panic!("{name} is refused"))
}

fn drawn(name: &str, situation: &Situation) -> (String, Figures) {
    let file = plans::file(situation);
    let svg = picture(name, &file);
    if let Some(folder) = std::env::var_os("PLANS") {
        let folder = std::path::Path::new(&folder);
        std::fs::write(folder.join(format!("{name}.txt")), &file).expect("the plan can be written");
        std::fs::write(folder.join(format!("{name}.svg")), &svg).expect("the picture can be written");
    }
    let figures = figures(&svg, situation);
    (svg, figures)
}

/// A generated file that is accepted, and its picture.
fn by_chance(index: u64) -> Option<(Situation, String)> {
    let file = generate::case(index).file;
    let svg = shown::picture("by chance", &ask::answer(&file), "", true)?;
    Some((judge::read(&file).ok()?, svg))
}

/// Nothing lies over another thing or outside of the picture.
fn check_boxes(svg: &str) -> Result<(), String> {
    let (over, out) = (overlaps(svg), outside(svg));
    if over.is_empty() && out.is_empty() { Ok(()) } else { Err(format!("over one another: {over:?}; outside: {out:?}")) }
}

/// The figures of generated files, so many as `./run-tests N` says.
fn figures_by_chance() -> Figures {
    let all = Mutex::new(Figures::default());
    on_all_cores(files(), |index| {
        if let Some((situation, svg)) = by_chance(index) {
            let one = figures(&svg, &situation);
            let mut all = all.lock().expect("no thread panics");
            *all = *all + one;
        }
        Ok(())
    });
    all.into_inner().expect("no thread panics")
}

fn row(name: &str, one: &Figures) -> String {
    format!(
        "{name:<20}{:>6}{:>7}{:>7}{:>9}{:>7}{:>9}{:>7}{:>6}{:>6}{:>7}{:>7}{:>6}{:>6}{:>6}{:>7}{:>12}{:>7.0}{:>8.2}\n",
        one.folds,
        one.third_legs,
        one.parted_legs,
        one.unforced,
        one.turns,
        one.unforced_turns,
        one.crossings,
        one.bends,
        one.bent_straight_legs,
        one.overlaps,
        one.over_sections,
        one.rows,
        one.cuts,
        one.leg_cuts,
        one.train_cuts,
        format!("{}/{}", one.left_signals, one.signals),
        one.width,
        one.area / 1e6
    )
}

/// How many plans are drawn.
const PLANS: u64 = 240;

/// All plans, those that are made and then those by hand, drawn once for all tests.
fn all_plans() -> Vec<(String, Situation, String, Figures)> {
    static DRAWN: LazyLock<Vec<(String, Situation, String, Figures)>> = LazyLock::new(|| {
        let made = (0..PLANS).map(plans::plan);
        let by_hand = plans::by_hand().into_iter().map(|(name, situation, _)| (String::from(name), situation));
        made.chain(by_hand)
            .map(|(name, situation)| {
                let (svg, figures) = drawn(&name, &situation);
                (name, situation, svg, figures)
            })
            .collect()
    });
    DRAWN.clone()
}

#[test]
fn folds_and_third_legs_stand_only_where_the_tracks_force_them() {
    let drawn = all_plans();
    let (made, by_hand) = drawn.split_at(PLANS as usize);
    for (name, _, _, figures) in made {
        assert_eq!((figures.folds, figures.third_legs, figures.parted_legs), (0, 0, 0), "{name}");
    }
    for ((name, _, forced), (_, _, _, figures)) in plans::by_hand().into_iter().zip(by_hand) {
        assert_eq!([figures.folds, figures.third_legs + figures.parted_legs, figures.crossings], forced, "{name}");
    }
}

/// Generated files join sections by chance. Those with at most five tracks to four sections are plans, in which folds and third legs stand only where the
/// tracks force them, but in one of two hundred at most; the others are tangles of rings.
#[test]
fn stations_by_chance_fold_where_their_tracks_force_it() {
    let counts = Mutex::new((0, 0, [Broken::default(); 3]));
    on_all_cores(files(), |index| {
        let Some((situation, svg)) = by_chance(index) else { return Ok(()) };
        let drawn = measured::drawn(&svg);
        if drawn.tracks.len() * 4 <= usize::from(situation.sections) * 5 {
            let broken = forced::broken(&situation, &drawn);
            let mut counts = counts.lock().expect("no thread panics");
            counts.0 += 1;
            counts.1 += usize::from(broken[..2].iter().any(|broken| broken.unforced > 0));
            counts.2.iter_mut().zip(broken).for_each(|(all, one)| *all += one);
        }
        Ok(())
    });
    let (plans, with_unforced, [folds, legs, turns]) = counts.into_inner().expect("no thread panics");
    println!("{plans} plans by chance, {with_unforced} with what is not forced; folds: {folds:?}; legs: {legs:?}; turns: {turns:?}");
    assert!(plans > 0 && with_unforced * 200 <= plans, "{folds:?} and {legs:?}, unforced in {with_unforced} of {plans}");
}

#[test]
fn nothing_lies_over_another_thing() {
    for (name, _, svg, figures) in all_plans() {
        check_boxes(&svg).unwrap_or_else(|failure| panic!("{name}: {failure}"));
        assert_eq!(figures.over_sections, 0, "{name}");
    }
    check_boxes(&picture("large", &plans::file(&plans::large()))).unwrap_or_else(|failure| panic!("large: {failure}"));
    for name in stations() {
        let svg = shown::picture(&name, &ask::answer(&read(&name)), "", true);
        svg.map_or(Ok(()), |svg| check_boxes(&svg)).unwrap_or_else(|failure| panic!("{name}: {failure}"));
    }
    on_all_cores(files(), |index| by_chance(index).map_or(Ok(()), |(_, svg)| check_boxes(&svg)));
}

/// The places of a picture in one row, given as a college's own positions in another unit: each section stands as it did to the others.
#[test]
fn a_picture_by_positions_is_a_plan_too() {
    let mut drawn_by_positions = 0;
    for (name, situation, svg, figures_before) in all_plans().into_iter().filter(|(_, _, _, figures)| figures.cuts == 0) {
        let before = sections(&svg);
        let positions: Vec<Point> = before.values().map(|&((x, y), wide)| point((x + wide / 2.0) * 0.3 + 5.0, y * 0.2 - 9.0)).collect();
        let answer = ask::answer(&plans::file(&situation));
        let by_positions = shown::picture_at(&name, &answer, "", true, Some(&positions)).expect("a picture");
        let figures = figures(&by_positions, &situation);
        assert_eq!((figures.overlaps, figures.over_sections), (0, 0), "{name}: {:?}", overlaps(&by_positions));
        assert!(figures.folds <= figures_before.folds && figures.third_legs == 0, "{name}");
        let after = sections(&by_positions);
        let height = |places: &BTreeMap<usize, ((f64, f64), f64)>, section: usize| places[&section].0.1;
        for (one, two) in before.keys().flat_map(|&one| before.keys().map(move |&two| (one, two))) {
            let (was, is) = (height(&before, one) - height(&before, two), height(&after, one) - height(&after, two));
            assert!((was > 0.0) == (is > 0.0) && (was == 0.0) == (is == 0.0), "{name}: sections {one} and {two}");
        }
        drawn_by_positions += 1;
    }
    assert!(drawn_by_positions > 100, "{drawn_by_positions}");
}

/// No plan of these kinds needs a crossing; a turnout needs a bend for the leg that leaves its line.
#[test]
fn few_tracks_cross_or_bend() {
    let (mut turnouts, mut bends) = (0, 0);
    for (name, situation, _, figures) in all_plans().into_iter().take(PLANS as usize) {
        assert_eq!(figures.crossings, 0, "{name}");
        turnouts += situation.elements.iter().filter(|element| element.is_turnout()).count();
        bends += figures.bends;
    }
    assert!(bends * 100 <= turnouts * 115, "{bends} bends of {turnouts} turnouts");
}

#[test]
fn rows_are_cut_where_few_tracks_are() {
    let all: Figures = all_plans().into_iter().map(|(_, _, _, figures)| figures).sum();
    assert_eq!(all.train_cuts, 0, "{all:?}");
    assert!(all.leg_cuts * 5 <= all.cuts * 2, "{all:?}");
}

#[test]
fn signals_stand_on_the_left_of_their_way() {
    let all: Figures = all_plans().into_iter().map(|(_, _, _, figures)| figures).sum();
    assert!(all.left_signals * 100 >= all.signals * 98, "{all:?}");
}

#[test]
fn a_picture_is_the_same_each_time() {
    for index in [2, 26, 42] {
        let (name, situation) = plans::plan(index);
        let file = plans::file(&situation);
        assert!(picture(&name, &file) == picture(&name, &file), "{name}");
    }
}

/// How long this thread has been on a processor: beside other tests, or on a busy machine, a clock would tell more.
#[cfg(not(debug_assertions))]
fn on_the_processor() -> std::time::Duration {
    let told = std::fs::read_to_string("/proc/thread-self/schedstat").expect("Linux tells it");
    std::time::Duration::from_nanos(told.split(' ').next().and_then(|number| number.parse().ok()).expect("a number"))
}

/// One run of several has to be as short as that: other work on the machine makes single ones longer. The tangle has more time, since no order takes its
/// crossings away.
#[cfg(not(debug_assertions))]
#[test]
fn the_largest_stations_are_drawn_in_a_tenth_of_a_second() {
    for (name, situation, most) in [("large", plans::large(), 100), ("tangle", plans::tangle(), 300)] {
        let answer = ask::answer(&plans::file(&situation));
        let time = |_| {
            let begin = on_the_processor();
            assert!(shown::picture(name, &answer, "", true).is_some());
            on_the_processor() - begin
        };
        let short = (0..60).map(time).find(|time| time.as_millis() < most);
        assert!(short.is_some(), "{name} takes more than {most} ms");
    }
}

/// The figures of all plans, as a table: `FIGURES=1 cargo test --test desk -- --nocapture layout::table`.
#[test]
fn table_of_figures() {
    if std::env::var_os("FIGURES").is_none() {
        return;
    }
    let mut text = String::from(
        "\nplan                 folds  third parted unforced  turns unforced  cross bends  bent  label  track  rows  cuts  legs trains     signals  width    area\n",
    );
    let mut all = Figures::default();
    for index in 0..60 {
        let (name, situation) = plans::plan(index);
        let (_, figures) = drawn(&name, &situation);
        text += &row(&name, &figures);
        all = all + figures;
    }
    text += &row("60 plans", &all);
    text += &row(
        "600 more",
        &(60..660)
            .map(|index| {
                let (name, situation) = plans::plan(index);
                figures(&picture(&name, &plans::file(&situation)), &situation)
            })
            .sum(),
    );
    for (name, situation, _) in plans::by_hand() {
        text += &row(name, &drawn(name, &situation).1);
    }
    for (name, situation) in [("large", plans::large()), ("tangle", plans::tangle())] {
        let file = plans::file(&situation);
        let answer = ask::answer(&file);
        let begin = std::time::Instant::now();
        let _ = shown::picture(name, &answer, "", true);
        let time = begin.elapsed();
        text += &row(name, &drawn(name, &situation).1);
        let _ = writeln!(text, "{name}: {} sections in {time:?}", situation.sections);
    }
    let kept = stations()
        .iter()
        .filter_map(|name| {
            let file = read(name);
            Some(figures(&shown::picture(name, &ask::answer(&file), "", true)?, &judge::read(&file).ok()?))
        })
        .sum();
    text += &row("stations/", &kept);
    text += &row("generated", &figures_by_chance());
    print!("{text}");
}
