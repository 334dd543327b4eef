//! The values of the crate: numbers, states, causes, and situations at the edges of the C interface.

use std::error::Error;
use std::ffi::CStr;
use std::mem::offset_of;

use judge::{Cause, Desk, Element, ElementLine, Letter, MAX_STANDING, Refusal, Section, Situation, State, ffi};

#[test]
fn numbers() {
    assert_eq!(Section::at(0), Some(Section(1)));
    assert_eq!(Section::at(65_534), Some(Section(u16::MAX)));
    assert_eq!(Section::at(65_535), None);
    assert_eq!((Element(1).place(), Element(0).place()), (Some(0), None));
    assert_eq!(format!("{:>5}", Section(12)), "   12");
    assert_eq!(u16::from(Section::from(7)), 7);
}

#[test]
fn states() {
    assert_eq!([0, 1, 2, 3].map(State::new), [Some(State::Open), Some(State::One), Some(State::Two), None]);
    assert_eq!([State::Open, State::One, State::Two].map(State::of_signal), ["open", "proceed", "stop"]);
    assert_eq!([State::Open, State::One, State::Two].map(State::of_turnout), ["open", "straight", "diverted"]);
    for number in 0..=u8::MAX {
        assert_eq!(State::try_from(number), State::new(number).ok_or(Refusal::new(Cause::StateRange, 0)));
    }
}

/// What a file has.
#[test]
fn texts() {
    assert_eq!(format!("{}{:>5}{:>5}", Letter::U, Section(3), State::Two), "U    3    2");
    assert_eq!(Cause::StateRange.to_string(), "a state above 2");
}

#[test]
fn causes() {
    let numbers: Vec<u16> = Cause::ALL.iter().map(|cause| cause.number()).collect();
    assert_eq!(numbers, (1..=21).collect::<Vec<u16>>());
    for number in 0..=u16::MAX {
        assert_eq!(Cause::new(number).map_or(0, Cause::number), if numbers.contains(&number) { number } else { 0 });
    }
}

/// A struct of the C interface as tests/header.c prints it: its name and size, then each field with its offset and size.
macro_rules! lines_of {
    ($($name:literal $kind:ident { $($field:ident),* })*) => {
        [$((
            format!("{} {}", $name, size_of::<ffi::$kind>()),
            vec![$(format!("{}.{} {} {}", $name, stringify!($field), offset_of!(ffi::$kind, $field), size_of_field(|it: &ffi::$kind| &it.$field))),*],
        )),*]
    };
}

fn size_of_field<T, F>(_: impl Fn(&T) -> &F) -> usize {
    size_of::<F>()
}

/// What a C compiler makes of the header, which `./run-tests` compares with tests/header.stdout, is what the crate has: each limit, each cause, and
/// the layout of each struct, to the last field.
#[test]
fn the_header_agrees() {
    let header = include_str!("../../tests/header.stdout");
    let limits = [
        ("JUDGE_MAX_SECTIONS", judge::MAX_SECTIONS),
        ("JUDGE_MAX_PLAIN", judge::MAX_PLAIN),
        ("JUDGE_MAX_ELEMENTS", judge::MAX_ELEMENTS),
        ("JUDGE_MAX_TRAINS", judge::MAX_TRAINS),
        ("JUDGE_MAX_STANDING", judge::MAX_STANDING),
        ("JUDGE_MAX_OPEN", judge::MAX_OPEN),
        ("JUDGE_LINE_SIZE", judge::LINE_SIZE),
        ("JUDGE_MAX_FILE", judge::MAX_FILE),
        ("JUDGE_MAX_ROUTES", judge::MAX_ROUTES),
        ("JUDGE_ROUTES_SIZE", judge::TABLE_SIZE),
        ("JUDGE_MAX_LOG", judge::MAX_LOG),
        ("JUDGE_MAX_MARKS", judge::MAX_MARKS),
        ("JUDGE_REPORT_SIZE", judge::REPORT_SIZE),
        ("JUDGE_KEY_SIZE", judge::KEY_SIZE),
        ("JUDGE_NO_REFUSAL", usize::from(ffi::Refusal::NONE.number)),
    ];
    let causes = Cause::ALL.iter().map(|cause| {
        let words = format!("{cause:?}").chars().fold(String::from("JUDGE"), |mut name, letter| {
            if letter.is_ascii_uppercase() {
                name.push('_');
            }
            name.push(letter.to_ascii_uppercase());
            name
        });
        format!("{words} {}", cause.number())
    });
    let structs = lines_of! {
        "judge_refusal" Refusal { number, line }
        "judge_situation" Situation {
            sections, plain, elements, trains, plain_from, plain_to, is_turnout, element_first, element_second, element_third, element_state,
            is_long, train_size, train_section
        }
        "judge_reading" Reading { refusal, situation }
        "judge_verdict_answer" VerdictAnswer {
            refusal, dangerous, first_train, second_train, meeting, entries, looks, first_length, second_length
        }
        "judge_settings_answer" SettingsAnswer { refusal, safe, proceed }
        "judge_output" Output { refusal, length, subtractions }
        "judge_filled" Filled { refusal, length }
        "judge_mark" Mark { candidate, question, gained, possible }
        "judge_part" Part { list, length }
        "judge_desk" Desk { control, status, number_low, number_high, state, elements, file_state, element_state }
        "judge_desk_answer" DeskAnswer { refusal, desk }
        "judge_desk_byte" DeskByte { refusal, byte }
        "judge_placed" Placed { refusal, state }
        "judge_yes_no" YesNo { refusal, yes }
    };
    let structs = structs.into_iter().flat_map(|(first, fields)| std::iter::once(first).chain(fields));
    let wanted: Vec<String> = limits.iter().map(|(name, value)| format!("{name} {value}")).chain(causes).chain(structs).collect();
    // After these come the functions, which have no number.
    let given: Vec<&str> = header.lines().filter(|line| line.contains(' ')).collect();
    assert_eq!(given, wanted);
}

/// The version stands in include/judge.h, and C says of each refusal what the crate says.
#[test]
fn the_library_agrees() {
    let text = |start| unsafe { CStr::from_ptr(start) }.to_str().unwrap();
    assert_eq!(text(ffi::judge_version()), judge::VERSION);
    for number in 0..=u16::MAX {
        let words = Cause::new(number).map_or(if number == 0 { "no refusal" } else { "no refusal has this number" }, Cause::meaning);
        assert_eq!(text(ffi::judge_refusal_text(number)), words);
    }
}

#[test]
fn refusals() {
    let refusal = Refusal::new(Cause::StateRange, 4);
    assert_eq!(refusal.to_string(), "refusal 6, line 4: a state above 2");
    assert_eq!((refusal.cause(), refusal.number(), refusal.line(), refusal.meaning()), (Cause::StateRange, 6, 4, "a state above 2"));
    assert_eq!(Refusal::new(Cause::BufferShort, 0).to_string(), "refusal 9: a lent buffer too short");
    assert!(Refusal::new(Cause::MarkRange, 3).to_string().starts_with("refusal 18, record 3: "));
    let boxed: Box<dyn Error + Send + Sync> = refusal.into();
    assert_eq!(boxed.to_string(), refusal.to_string());
    assert_eq!(ffi::Refusal::NONE.result(), Ok(()));
    assert_eq!(ffi::Refusal::from(refusal).result(), Err(refusal));
}

fn small() -> Situation {
    Situation {
        letter: Letter::U,
        sections: 5,
        plain: vec![(Section(2), Section(1))],
        elements: vec![
            ElementLine::Signal { from: Section(1), to: Section(2), state: State::One },
            ElementLine::Turnout { stem: Section(2), straight: Section(3), diverted: Section(4), state: State::Open },
        ],
        trains: vec![vec![Section(1)], vec![Section(4), Section(5)]],
    }
}

#[test]
fn situations_there_and_back() {
    for situation in [small(), Situation::default()] {
        assert_eq!(Situation::try_from(&ffi::Situation::from(&situation)).as_ref(), Ok(&situation));
    }
    let situation = small();
    assert_eq!(situation.file_size(), 6 * 22);
    assert!(situation.open_elements().eq([Element(2)]));
    assert_eq!([0, 1].map(|place: usize| situation.elements[place].state_word()), ["proceed", "open"]);
}

/// More than the arrays hold keeps its counts, as far as they can be said, so that the writer refuses it.
#[test]
fn too_large_for_the_arrays() {
    let mut situation = small();
    situation.plain.resize(70_000, (Section(1), Section(2)));
    situation.elements.resize(257, small().elements[0]);
    situation.trains.resize(65, vec![Section(1)]);
    situation.trains[1] = vec![Section(3); 300];
    let raw = ffi::Situation::from(&situation);
    assert_eq!((raw.plain, raw.elements, raw.trains), (u16::MAX, 257, 65));
    assert_eq!((raw.train_size[1], &raw.train_section[MAX_STANDING..2 * MAX_STANDING]), (u8::MAX, [3; 4].as_slice()));
    assert_eq!((raw.train_size[2], raw.train_section[2 * MAX_STANDING]), (1, 1));
    assert_eq!(Situation::try_from(&raw), Err(Refusal::new(Cause::HeaderRange, 1)));
}

#[test]
fn values_that_are_no_situation() {
    let raw = ffi::Situation::from(&small());
    let refused = |change: fn(&mut ffi::Situation)| {
        let mut raw = raw.clone();
        change(&mut raw);
        Situation::try_from(&raw).map_err(|refusal| (refusal.number(), refusal.line())).map(drop)
    };
    assert_eq!(refused(|raw| raw.plain = 1025), Err((3, 1)));
    assert_eq!(refused(|raw| raw.elements = 257), Err((3, 1)));
    assert_eq!(refused(|raw| raw.trains = 65), Err((3, 1)));
    assert_eq!(refused(|raw| raw.element_state[1] = 3), Err((6, 4)));
    assert_eq!(refused(|raw| raw.train_size[0] = 5), Err((2, 5)));
    // Past the counts anything may stand; other numbers for a turnout and for U mean the same.
    let changed = |raw: &mut ffi::Situation| {
        (raw.is_turnout[1], raw.is_long) = (200, 2);
        (raw.element_state[2], raw.train_size[2], raw.plain_to[1], raw.element_third[0]) = (9, 9, 9, 9);
    };
    let mut other = raw.clone();
    changed(&mut other);
    assert_eq!(Situation::try_from(&other), Ok(small()));
}

/// Several threads may share all values.
#[test]
fn values_are_shared() {
    fn shared<T: Send + Sync>() {}
    shared::<(Situation, Refusal, Desk, judge::Verdict, judge::Settings, judge::ConflictTable, judge::Placement)>();
}

/// What a lent table holds lasts as long as that memory, also where the `ConflictTable` is gone.
#[test]
fn a_lent_table_lasts() {
    let (station, routes) = (include_bytes!("../../stations/K.txt"), include_bytes!("../../stations/K.routes"));
    let mut lent = [0; judge::TABLE_SIZE];
    let (bytes, conflicts) = {
        let table = judge::routes(station, routes, &mut lent).unwrap();
        (table.as_bytes(), table.conflicts(judge::Route(2)))
    };
    assert_eq!(bytes.len(), 16);
    assert!(conflicts.eq([judge::Route(1), judge::Route(4)]));
}
