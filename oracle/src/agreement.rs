//! The crate's functions beside its C interface, which is what the oracle is compared with: the same answers, and the same lent memory after them;
//! and beside these the functions with memory of their own, and the questions of a situation.

use judge::ffi::{self, Filled, Mark, VerdictAnswer};
use judge::{
    ConflictTable, Desk, Element, ElementLine, Letter, MAX_ELEMENTS, MAX_SECTIONS, MAX_TRAINS, Placement, Refusal, Route, Section,
    Settings, Situation, State, Train, Verdict, owned,
};
use oracle::random::Random;
use oracle::{answers, converter, generate, law, report, routes};

/// So many files, each with a route file, a log and a list of mark records besides.
const FILES: u64 = 6_000;

type Compared = Result<(), String>;

/// Compares two values.
fn same<T: PartialEq + std::fmt::Debug>(what: &str, given: T, wanted: T) -> Compared {
    if given == wanted { Ok(()) } else { Err(format!("{what}: the crate gives {given:?}, its C interface {wanted:?}")) }
}

/// A refusal, or none, as the C interface has it.
fn raw<T>(given: &Result<T, Refusal>) -> ffi::Refusal {
    given.as_ref().err().map_or(ffi::Refusal::NONE, |&refusal| refusal.into())
}

/// Memory with something in it.
fn held(random: &mut Random, room: usize) -> Vec<u8> {
    (0..room.div_ceil(8)).flat_map(|_| random.number().to_le_bytes()).take(room).collect()
}

/// The same, for sections.
fn held_sections(random: &mut Random, room: usize) -> Vec<Section> {
    (0..room).map(|_| Section(random.number() as u16)).collect()
}

/// The same, for states: once as bytes, once as values.
fn held_states(random: &mut Random, room: usize) -> (Vec<u8>, Vec<State>) {
    let bytes: Vec<u8> = (0..room).map(|_| random.between(0, 2) as u8).collect();
    let states = bytes.iter().map(|&byte| State::new(byte).expect("at most 2")).collect();
    (bytes, states)
}

fn bytes_of(states: &[State]) -> Vec<u8> {
    states.iter().map(|&state| state.get()).collect()
}

/// An operation that fills bytes, both ways, on equal memory.
fn same_filled(
    what: &str,
    mut memory: Vec<u8>,
    by_crate: impl for<'a> FnOnce(&'a mut [u8]) -> Result<&'a [u8], Refusal>,
    by_interface: impl FnOnce(&mut [u8]) -> Filled,
) -> Compared {
    let mut other = memory.clone();
    let wanted = by_interface(&mut other);
    let start = memory.as_ptr();
    let given = by_crate(&mut memory);
    same(what, raw(&given), wanted.refusal)?;
    if let Ok(part) = given {
        // What is handed back is the start of the lent memory.
        same(what, (part.as_ptr(), part), (start, &other[..wanted.length]))?;
    }
    same(what, memory, other)
}

fn same_reading(file: &[u8]) -> Compared {
    let (given, wanted) = (judge::read(file), ffi::read(file));
    same("read, refusal", raw(&given), wanted.refusal)?;
    let values = given.as_ref().map_or(ffi::Situation::ZEROS, ffi::Situation::from);
    if values != wanted.situation {
        return Err("read: another situation".to_string());
    }
    match given {
        Ok(situation) => same("what was read, there and back", Situation::try_from(&wanted.situation), Ok(situation)),
        Err(_) => Ok(()),
    }
}

/// What the oracle's writer takes.
fn to_oracle(situation: &Situation) -> law::Situation {
    let number = |section: Section| u32::from(section.get());
    let element = |line: &ElementLine| match *line {
        ElementLine::Signal { from, to, state } => {
            law::Element::Signal { from: number(from), to: number(to), state: u32::from(state.get()) }
        }
        ElementLine::Turnout { stem, straight, diverted, state } => law::Element::Turnout {
            stem: number(stem),
            straight: number(straight),
            diverted: number(diverted),
            state: u32::from(state.get()),
        },
    };
    law::Situation {
        header: law::Header {
            long: situation.letter == Letter::U,
            sections: u32::from(situation.sections),
            plain: situation.plain.len() as u32,
            elements: situation.elements.len() as u32,
            trains: situation.trains.len() as u32,
        },
        plain: situation.plain.iter().map(|&(from, to)| (number(from), number(to))).collect(),
        elements: situation.elements.iter().map(element).collect(),
        trains: situation.trains.iter().map(|train| train.iter().copied().map(number).collect()).collect(),
    }
}

/// Makes a situation too large for the C interface in one way, or in none.
fn enlarge(random: &mut Random, situation: &mut Situation) {
    let signal = ElementLine::Signal { from: Section(1), to: Section(2), state: State::Open };
    match random.between(1, 9) {
        1 => situation.plain.resize(random.pick(&[1024, 1025, 1026, 65_535, 65_536, 70_000]), (Section(1), Section(2))),
        2 => situation.elements.resize(random.pick(&[256, 257, 65_536, 65_600]), signal),
        3 => situation.trains.resize(random.pick(&[64, 65, 65_536, 65_600]), vec![Section(1)]),
        4..=6 if !situation.trains.is_empty() => {
            let train = random.place(situation.trains.len());
            situation.trains[train].resize(random.pick(&[0, 3, 4, 5, 6, 255, 256, 257, 260]), Section(1));
        }
        _ => {}
    }
}

/// Values for the writer: those that both forms have, and those that only one has.
fn same_writing(random: &mut Random) -> Compared {
    let values = generate::values(random);
    let room = random.pick(&[0, 22, 200, 2_000, judge::MAX_FILE]);
    let memory = held(random, room);
    let (mut given_memory, mut wanted_memory) = (memory.clone(), memory.clone());
    let answer = ffi::write(&values, &mut wanted_memory);
    let wanted = answer.refusal;
    let mut situation = match Situation::try_from(&values) {
        Ok(situation) => situation,
        Err(refusal) => {
            // The writer refuses as well, on that line or an earlier one.
            return same("values that are no situation", wanted.number != 0 && wanted.line <= refusal.line(), true);
        }
    };
    let given = judge::write_counted(&situation, &mut given_memory);
    same("write, refusal", raw(&given), wanted)?;
    same("write, memory", &given_memory, &wanted_memory)?;
    if let Ok(output) = given {
        same("write, length and subtractions", (output.length, output.subtractions), (answer.length, answer.subtractions))?;
        same("to_bytes", judge::to_bytes(&situation).as_deref(), Ok(&given_memory[..output.length]))?;
    }
    enlarge(random, &mut situation);
    let mut given_memory = memory.clone();
    let given = judge::write(&situation, &mut given_memory);
    let by_the_oracle = to_oracle(&situation);
    let wanted = law::write(&by_the_oracle, room);
    same("write of any size, refusal", raw(&given), wanted.as_ref().err().copied().unwrap_or(ffi::Refusal::NONE))?;
    let mut wanted_memory = memory;
    let text = wanted.unwrap_or_default();
    wanted_memory[..text.len()].copy_from_slice(&text);
    same("write of any size, length", given.unwrap_or(0), text.len())?;
    same("write of any size, memory", given_memory, wanted_memory)?;
    let whole = law::write(&by_the_oracle, usize::MAX);
    let text = whole.clone().unwrap_or_else(|refusal| law::line_text('R', &[refusal.number, refusal.line].map(u32::from)));
    same("the text of any size", situation.to_string().as_bytes(), &text)?;
    let file = judge::to_bytes(&situation);
    let asked = file.as_ref().map_err(|&refusal| refusal).and_then(judge::can_be_safe);
    same("a question of any size", judge::can_be_safe(&situation), asked)?;
    same("to_bytes of any size", file.map_err(ffi::Refusal::from), whole)
}

/// The fields of the C interface's answer.
fn verdict_fields(given: &Result<Verdict<&[Section]>, Refusal>) -> VerdictAnswer {
    let mut answer = VerdictAnswer::refused(raw(given));
    if let Ok(verdict) = given {
        answer.dangerous = u16::from(verdict.is_dangerous());
        (answer.entries, answer.looks) = (verdict.counts().entries, verdict.counts().looks);
    }
    if let Ok(Verdict::Dangerous { first, second, meeting, first_path, second_path, .. }) = given {
        (answer.first_train, answer.second_train, answer.meeting) = (first.get(), second.get(), meeting.get());
        (answer.first_length, answer.second_length) = (first_path.len(), second_path.len());
    }
    answer
}

fn same_verdict(random: &mut Random, file: &[u8], sections: usize) -> Compared {
    for [room, other_room] in [[sections, 512], [512, sections], [sections - 1, sections], [sections, sections - 1]] {
        let lists = [held_sections(random, room), held_sections(random, other_room)];
        let ([mut first, mut second], [mut one, mut two]) = (lists.clone(), lists);
        let starts = [first.as_ptr(), second.as_ptr()];
        let given = judge::verdict(file, &mut first, &mut second);
        let wanted = ffi::verdict(file, ffi::numbers_mut(&mut one), ffi::numbers_mut(&mut two));
        same("verdict", verdict_fields(&given), wanted)?;
        if let Ok(Verdict::Dangerous { first: train, second: later, first_path, second_path, .. }) = given {
            same("verdict, paths", [first_path.as_ptr(), second_path.as_ptr()], starts)?;
            same("verdict, first path", first_path, &one[..wanted.first_length])?;
            same("verdict, second path", second_path, &two[..wanted.second_length])?;
            // "The verdict's own two paths always get a yes."
            same("a drawing of the paths", judge::drawing(file, train, later, first_path, second_path), Ok(true))?;
        }
        same("verdict, lists", (first, second), (one, two))?;
    }
    Ok(())
}

fn same_drawing(random: &mut Random, file: &[u8]) -> Compared {
    let number = |random: &mut Random| random.pick(&[0, 1, 1, 2, 2, 3, 64, 65]);
    let list = |random: &mut Random| -> Vec<Section> { (0..random.between(0, 3)).map(|_| Section(random.between(0, 6) as u16)).collect() };
    let (i, j, first, second) = (number(random), number(random), list(random), list(random));
    let given = judge::drawing(file, Train(i), Train(j), &first, &second);
    let wanted = ffi::drawing(file, i, j, ffi::numbers(&first), ffi::numbers(&second));
    same("drawing", (raw(&given), u16::from(given == Ok(true))), (wanted.refusal, wanted.yes))
}

fn same_settings(random: &mut Random, file: &[u8], elements: usize) -> Compared {
    for room in [elements, elements.saturating_sub(1), elements + 3, 256] {
        let (mut bytes, mut states) = held_states(random, room);
        let start = states.as_ptr();
        let wanted = ffi::settings(file, &mut bytes);
        let given = judge::settings(file, &mut states);
        let (safe, proceed) = match given {
            Ok(Settings::Best { safe, proceed, setting }) => {
                same("settings, setting", (setting.as_ptr(), bytes_of(setting)), (start, bytes[..elements].to_vec()))?;
                (safe, proceed)
            }
            Ok(Settings::NoneSafe) | Err(_) => (0, 0),
        };
        same("settings", (raw(&given), safe, proceed), (wanted.refusal, wanted.safe, wanted.proceed))?;
        same("settings, memory", bytes_of(&states), bytes)?;

        let number = random.number() >> random.between(0, 63);
        let (mut bytes, mut states) = held_states(random, room);
        let start = states.as_ptr();
        let wanted = ffi::frame(file, number, &mut bytes);
        let given = judge::frame(file, number, &mut states);
        same("frame", raw(&given), wanted)?;
        if let Ok(setting) = given {
            same("frame, setting", (setting.as_ptr(), bytes_of(setting)), (start, bytes[..elements].to_vec()))?;
        }
        same("frame, memory", bytes_of(&states), bytes)?;
    }
    let (given, wanted) = (judge::can_be_safe(file), ffi::can_be_safe(file));
    same("can it be saved", (raw(&given), u16::from(given == Ok(true))), (wanted.refusal, wanted.yes))
}

fn same_key(random: &mut Random, file: &[u8]) -> Compared {
    for room in [judge::KEY_SIZE, judge::KEY_SIZE - 1, judge::KEY_SIZE + 9] {
        let by_interface = |buffer: &mut [u8]| {
            let answer = ffi::key(file, buffer);
            Filled { refusal: answer.refusal, length: answer.length }
        };
        same_filled("key", held(random, room), |buffer| judge::key(file, buffer), by_interface)?;
    }
    let mut buffer = held(random, judge::KEY_SIZE);
    let ffi::Output { refusal, length, subtractions } = ffi::key(file, &mut buffer);
    let output = judge::key_counted(file, &mut held(random, judge::KEY_SIZE));
    same("key, refusal", raw(&output), refusal)?;
    same("key, length and subtractions", output, Ok(judge::Output { length, subtractions }))?;
    same("the text of the key", judge::key_text(file).as_bytes(), &buffer[..length])
}

fn same_conversion(random: &mut Random, file: &[u8]) -> Compared {
    for file in converter::both_letters(file) {
        for room in [file.len(), file.len().saturating_sub(1), file.len() + 5] {
            same_filled("to S", held(random, room), |buffer| judge::to_s(&file, buffer), |buffer| ffi::to_s(&file, buffer))?;
            same_filled("to U", held(random, room), |buffer| judge::to_u(&file, buffer), |buffer| ffi::to_u(&file, buffer))?;
        }
    }
    Ok(())
}

fn same_owned(random: &mut Random, file: &[u8]) -> Compared {
    let (mut first, mut second) = ([Section(0); MAX_SECTIONS], [Section(0); MAX_SECTIONS]);
    let verdict = judge::verdict(file, &mut first, &mut second).map(Verdict::into_owned);
    let mut list = [State::Open; MAX_ELEMENTS];
    let settings = judge::settings(file, &mut list).map(Settings::into_owned);
    let number = random.number() >> random.between(0, 63);
    let frame = judge::frame(file, number, &mut list).map(<[State]>::to_vec);
    let key = judge::key_text(file);
    let mut buffer = vec![0; file.len()];
    same("owned to S", owned::to_s(file), judge::to_s(file, &mut buffer).map(<[u8]>::to_vec))?;
    same("owned to U", owned::to_u(file), judge::to_u(file, &mut buffer).map(<[u8]>::to_vec))?;
    same("owned verdict", owned::verdict(file), verdict.clone())?;
    same("owned settings", owned::settings(file), settings.clone())?;
    same("owned frame", owned::frame(file, number), frame.clone())?;
    same("owned key", owned::key(file), Ok(key.clone()))?;
    let read = Situation::try_from(file);
    same("read from text", str::from_utf8(file).ok().map(str::parse), str::from_utf8(file).ok().map(|_| read.clone()))?;
    let Ok(situation) = read else { return Ok(()) };
    same("verdict of a situation", owned::verdict(&situation), verdict)?;
    same("settings of a situation", owned::settings(&situation), settings)?;
    same("frame of a situation", owned::frame(&situation, number), frame)?;
    same("key of a situation", owned::key(&situation), Ok(key))?;
    same("a situation that can be saved", judge::can_be_safe(&situation), judge::can_be_safe(file))?;
    same("desk of a situation", Desk::start(&situation), Desk::start(file))
}

/// The desk of a file, and some writes after it.
fn same_desk(random: &mut Random, file: &[u8]) -> Compared {
    let (given, start) = (Desk::start(file), ffi::desk_start(file));
    same("desk, start", raw(&given), start.refusal)?;
    let Ok(mut desk) = given else { return Ok(()) };
    let mut wanted = start.desk;
    for _ in 0..30 {
        same("desk", ffi::Desk::from(desk), wanted)?;
        same("desk, interrupt", u16::from(desk.interrupt()), ffi::desk_interrupt(wanted))?;
        same("desk, elements", desk.elements(), wanted.elements)?;
        for address in 0..8 {
            let (byte, answer) = (desk.read(address), ffi::desk_read(wanted, address));
            same("desk, a read", (raw(&byte), u16::from(byte.unwrap_or(0))), (answer.refusal, answer.byte))?;
        }
        for number in [0, 1, 2, wanted.elements, wanted.elements + 1, u16::MAX] {
            let place = usize::from(number).checked_sub(1).filter(|&place| place < usize::from(wanted.elements));
            let states = place.map(|place| [wanted.element_state[place], wanted.file_state[place]]);
            let given = desk.state(Element(number)).zip(desk.file_state(Element(number)));
            same("desk, states", given.map(|(now, then)| [now.get(), then.get()]), states)?;
        }
        let (address, byte) = (random.pick(&[0, 2, 2, 3, 4, 4, 5, 5, 5, 6, u16::MAX]), random.between(0, 3) as u8);
        let answer = ffi::desk_write(wanted, address, byte);
        same("desk, a write", raw(&desk.write(address, byte)), answer.refusal)?;
        wanted = answer.desk;
    }
    Ok(())
}

fn same_routes(random: &mut Random, index: u64) -> Compared {
    let routes::Case { station, file } = routes::case(index);
    for room in [judge::TABLE_SIZE, 16, 1, 0] {
        let (mut memory, mut other) = (vec![7; room], vec![7; room]);
        let start = memory.as_ptr();
        let wanted = ffi::routes(&station, &file, &mut other);
        let given = judge::routes(&station, &file, &mut memory);
        same("routes", raw(&given), wanted.refusal)?;
        if let Ok(table) = given {
            let n = table.routes();
            same("routes, table", (table.as_bytes().as_ptr(), table.as_bytes()), (start, &other[..wanted.length]))?;
            same("routes, number", usize::from(n) * usize::from(n), wanted.length)?;
            for a in 0..=n + 1 {
                let any = random.between(0, u32::from(n) + 1) as u16;
                for b in [0, 1, any, n, n + 1, u16::MAX] {
                    let pair = [a, b].iter().all(|route| (1..=n).contains(route));
                    let wanted = pair.then(|| other[usize::from((a - 1) * n + b - 1)] == 1);
                    same("routes, a conflict", table.conflict(Route(a), Route(b)), wanted)?;
                }
                let conflicts: Vec<Route> = (1..=n).map(Route).filter(|&b| table.conflict(Route(a), b) == Some(true)).collect();
                same("routes, the conflicts of one", table.conflicts(Route(a)).collect(), conflicts)?;
            }
        }
        same("routes, memory", memory, other)?;
    }
    let mut table = [0; judge::TABLE_SIZE];
    same("owned routes", owned::routes(&station, &file), judge::routes(&station, &file, &mut table).map(ConflictTable::into_owned))
}

fn same_log(random: &mut Random) -> Compared {
    let lines = random.between(0, 12) as usize;
    let mut log: Vec<u8> = answers::log(random, lines).into_iter().flat_map(answers::text).collect();
    if random.once_in(3) && lines > 0 {
        let place = random.place(log.len());
        log[place] = random.pick(b"0123456789C \n");
    }
    for room in [log.len(), log.len() / 2, log.len() + 3] {
        let memory = held(random, room);
        same_filled(
            "standing answers",
            memory,
            |buffer| judge::standing_answers(&log, buffer),
            |buffer| ffi::standing_answers(&log, buffer),
        )?;
    }
    let mut buffer = vec![0; log.len()];
    let given = owned::standing_answers(&log).map(String::into_bytes);
    same("owned standing answers", given, judge::standing_answers(&log, &mut buffer).map(<[u8]>::to_vec))
}

fn same_report(random: &mut Random) -> Compared {
    let records = if random.once_in(50) { 1000 } else { random.between(0, 12) as usize };
    let mut marks: Vec<Mark> = report::list(random, records);
    if random.once_in(3) && records > 0 {
        marks[random.place(records)].possible = random.number() as u16;
    }
    for room in [judge::REPORT_SIZE, 22 * (records + 1) / 2, 22] {
        same_filled("report", held(random, room), |buffer| judge::report(&marks, buffer), |buffer| ffi::report(&marks, buffer))?;
    }
    let mut buffer = [0; judge::REPORT_SIZE];
    same("owned report", owned::report(&marks).map(String::into_bytes), judge::report(&marks, &mut buffer).map(<[u8]>::to_vec))
}

fn same_placement(random: &mut Random) -> Compared {
    let (paper, sections, trains) = (random.number(), random.between(0, 80) as u16, random.between(0, 66) as u16);
    for room in [MAX_TRAINS, usize::from(trains), usize::from(trains.saturating_sub(1))] {
        let mut list = held_sections(random, room);
        let mut other = list.clone();
        let start = list.as_ptr();
        let wanted = ffi::place(paper, sections, trains, ffi::numbers_mut(&mut other));
        let given = judge::place(paper, sections, trains, &mut list);
        same("placement", (raw(&given), given.map_or(0, |placement| placement.state)), (wanted.refusal, wanted.state))?;
        if let Ok(placement) = given {
            let placed = (placement.sections.as_ptr(), placement.sections);
            same("placement, sections", placed, (start, &other[..usize::from(trains)]))?;
        }
        same("placement, list", list, other)?;
    }
    let mut list = [Section(0); MAX_TRAINS];
    let wanted = judge::place(paper, sections, trains, &mut list).map(Placement::into_owned);
    same("owned placement", owned::place(paper, sections, trains), wanted)
}

fn compare_file(index: u64) -> Compared {
    let random = &mut Random::new(index ^ 0x6167_7265);
    let file = generate::case(index).file;
    let (sections, elements) = match law::read(&file) {
        Ok(situation) => (situation.header.sections as usize, situation.elements.len()),
        Err(_) => (512, 256),
    };
    same_reading(&file)?;
    same_writing(random)?;
    same_verdict(random, &file, sections)?;
    same_drawing(random, &file)?;
    same_settings(random, &file, elements)?;
    same_key(random, &file)?;
    same_conversion(random, &file)?;
    same_owned(random, &file)?;
    same_desk(random, &file)?;
    same_routes(random, index)?;
    same_log(random)?;
    same_report(random)?;
    same_placement(random)
}

/// How many files were tried, or the first difference.
pub fn compare() -> Result<u64, String> {
    for index in 0..FILES {
        compare_file(index).map_err(|difference| format!("file {index}: {difference}"))?;
    }
    Ok(FILES)
}
