//! Documents 01 and 02 in plain Rust, written from the documents alone: lists, sets and a textbook breadth-first search.
//!
//! It is there to be compared with, so each function follows the sentences of 01 and nothing is done for speed: every setting is
//! judged from scratch. Which path is shown is free in 01; a path shown by somebody else is checked with [`check_path`].

use std::collections::{BTreeMap, BTreeSet, HashMap, VecDeque};
use std::io::Write;

use judge::ffi::Refusal;

/// The bytes of a line: one letter, four fields of 5 bytes, one line feed.
pub const LINE: usize = 22;
/// The longest file.
pub const MOST_BYTES: usize = 29_590;
/// The highest numbers of sections, P lines, elements and trains.
pub const MOST: [u32; 4] = [512, 1024, 256, 64];
/// The most open elements that the settings question takes.
pub const MOST_OPEN: usize = 12;
/// The longest key: one V line and two paths of 512 sections.
pub const LONGEST_KEY: usize = LINE * (1 + 2 * 512);

/// The first line: its four numbers, and whether its letter is U (02, Item 2) and not S.
#[derive(Clone, Copy, Debug, PartialEq, Eq)]
pub struct Header {
    pub long: bool,
    pub sections: u32,
    pub plain: u32,
    pub elements: u32,
    pub trains: u32,
}

/// An element with its state: 0 open, 1 proceed or straight, 2 stop or diverted.
#[derive(Clone, Copy, Debug, PartialEq, Eq)]
pub enum Element {
    Signal { from: u32, to: u32, state: u32 },
    Turnout { stem: u32, straight: u32, diverted: u32, state: u32 },
}

impl Element {
    pub fn state(&self) -> u32 {
        match *self {
            Element::Signal { state, .. } | Element::Turnout { state, .. } => state,
        }
    }

    pub fn is_open(&self) -> bool {
        self.state() == 0
    }

    /// "An L line stands over the ordered pair (from, to). A D line stands over four."
    fn pairs(&self) -> Vec<(u32, u32)> {
        match *self {
            Element::Signal { from, to, .. } => vec![(from, to)],
            Element::Turnout { stem, straight, diverted, .. } => {
                vec![(stem, straight), (stem, diverted), (straight, stem), (diverted, stem)]
            }
        }
    }

    /// Whether it permits one of its pairs in a state: a signal at 1; a turnout at 1 the pairs of its straight leg, at 2 those of its diverted
    /// leg. An open element permits nothing.
    fn permits(&self, state: u32, pair: (u32, u32)) -> bool {
        match *self {
            Element::Signal { .. } => state == 1,
            Element::Turnout { straight, .. } => {
                let to_straight = pair.0 == straight || pair.1 == straight;
                (state == 1 && to_straight) || (state == 2 && !to_straight)
            }
        }
    }
}

/// A situation as values. The reader gives lists just as long as the counts say; the writer ignores what is past the counts.
#[derive(Clone, Debug, PartialEq, Eq)]
pub struct Situation {
    pub header: Header,
    pub plain: Vec<(u32, u32)>,
    pub elements: Vec<Element>,
    /// The sections of each train.
    pub trains: Vec<Vec<u32>>,
}

/// A verdict, without the paths shown. `named` is `None` when safe.
#[derive(Clone, Copy, Debug, PartialEq, Eq)]
pub struct Verdict {
    pub named: Option<Named>,
    pub entries: u32,
    pub looks: u32,
}

/// What a dangerous verdict names: trains i and j, and the section where they meet.
#[derive(Clone, Copy, Debug, PartialEq, Eq)]
pub struct Named {
    pub first: usize,
    pub second: usize,
    pub meeting: u32,
}

/// The reply to the settings question. `chosen` is `None` for 'no safe setting'.
#[derive(Clone, Debug, PartialEq, Eq)]
pub struct Reply {
    pub safe: u32,
    pub proceed: u32,
    pub chosen: Option<Vec<u32>>,
}

/// A refusal with its line, counted from 1; line 0 where the cause belongs to no line.
pub fn refusal(number: u16, line: usize) -> Refusal {
    Refusal { number, line: u16::try_from(line).expect("no file has so many lines") }
}

// ---- lines

/// One line of a given letter with its filled fields, the others blank.
pub fn line_text(letter: char, fields: &[u32]) -> Vec<u8> {
    let mut text = Vec::with_capacity(LINE);
    text.push(letter as u8);
    for place in 0..4 {
        match fields.get(place) {
            Some(number) => write!(text, "{number:>5}").expect("memory takes it"),
            None => text.extend(b"     "),
        }
    }
    text.push(b'\n');
    text
}

/// How many fields a letter fills, at least and at most; `None` for a letter that is not in the table. In a file that begins with U, "a T
/// line holds one to four different sections".
fn filled_fields(letter: u8, long: bool) -> Option<(usize, usize)> {
    match letter {
        b'S' | b'U' => Some((4, 4)),
        b'P' => Some((2, 2)),
        b'L' => Some((3, 3)),
        b'D' => Some((4, 4)),
        b'T' => Some((1, if long { 4 } else { 1 })),
        _ => None,
    }
}

/// "A filled field of a station file may now have spaces, then one or more digits, leading zeros allowed" (02, item 13).
pub fn padded_number(field: &[u8]) -> Option<u32> {
    let spaces = field.iter().take_while(|&&byte| byte == b' ').count();
    let digits = &field[spaces..];
    if digits.is_empty() || !digits.iter().all(|byte| byte.is_ascii_digit()) {
        return None;
    }
    Some(digits.iter().fold(0, |value, digit| 10 * value + u32::from(digit - b'0')))
}

/// "A filled field is a number in base ten, right-justified, with spaces before it and no leading zero; zero is the single digit 0." Route
/// files keep this form.
pub fn number(field: &[u8]) -> Option<u32> {
    padded_number(field).filter(|value| format!("{value:>5}").as_bytes() == field)
}

/// The letter and the filled fields of a line of the stated form, in a file that begins with U or not; `None` for any other line.
fn parse(line: &[u8], long: bool) -> Option<(u8, Vec<u32>)> {
    let letter = line[0];
    let (fewest, most) = filled_fields(letter, long)?;
    if line[LINE - 1] != b'\n' {
        return None;
    }
    let mut numbers = Vec::new();
    let mut blank = 0;
    for field in line[1..LINE - 1].chunks(5) {
        if field == b"     " {
            blank += 1;
        } else if blank > 0 {
            // "Filled from the left": no gap.
            return None;
        } else {
            numbers.push(padded_number(field)?);
        }
    }
    if numbers.len() < fewest || numbers.len() > most { None } else { Some((letter, numbers)) }
}

/// A line after the first, as values.
#[derive(Clone, Debug)]
enum Record {
    Plain(u32, u32),
    Element(Element),
    Train(Vec<u32>),
}

impl Record {
    fn of_line(line: &[u8], long: bool) -> Option<Record> {
        let (letter, numbers) = parse(line, long)?;
        match (letter, numbers.as_slice()) {
            (b'P', &[from, to]) => Some(Record::Plain(from, to)),
            (b'L', &[from, to, state]) => Some(Record::Element(Element::Signal { from, to, state })),
            (b'D', &[stem, straight, diverted, state]) => Some(Record::Element(Element::Turnout { stem, straight, diverted, state })),
            (b'T', sections) => Some(Record::Train(sections.to_vec())),
            _ => None,
        }
    }

    fn text(&self) -> Vec<u8> {
        match *self {
            Record::Train(ref sections) => line_text('T', sections),
            Record::Plain(from, to) => line_text('P', &[from, to]),
            Record::Element(Element::Signal { from, to, state }) => line_text('L', &[from, to, state]),
            Record::Element(Element::Turnout { stem, straight, diverted, state }) => line_text('D', &[stem, straight, diverted, state]),
        }
    }

    fn sections(&self) -> Vec<u32> {
        match *self {
            Record::Plain(from, to) => vec![from, to],
            Record::Element(Element::Signal { from, to, .. }) => vec![from, to],
            Record::Element(Element::Turnout { stem, straight, diverted, .. }) => vec![stem, straight, diverted],
            Record::Train(ref sections) => sections.clone(),
        }
    }

    /// "An L or P line stands over the ordered pair (from, to). A D line stands over four."
    fn pairs(&self) -> Vec<(u32, u32)> {
        match self {
            Record::Plain(from, to) => vec![(*from, *to)],
            Record::Element(element) => element.pairs(),
            Record::Train(_) => vec![],
        }
    }

    fn letter(&self) -> char {
        match self {
            Record::Plain(..) => 'P',
            Record::Element(Element::Signal { .. }) => 'L',
            Record::Element(Element::Turnout { .. }) => 'D',
            Record::Train(_) => 'T',
        }
    }

    /// The first of causes 5, 7, 6, 8, in a station of so many sections, where `taken` says over which pairs lines of which letters stand.
    fn cause(&self, sections: u32, taken: &Taken) -> Option<u16> {
        let named = self.sections();
        if named.iter().any(|&section| section < 1 || section > sections) {
            return Some(5);
        }
        if (1..named.len()).any(|place| named[..place].contains(&named[place])) {
            return Some(7);
        }
        if let Record::Element(element) = self
            && element.state() > 2
        {
            return Some(6);
        }
        // "Refusal 8 remains for two signals, two turnouts, or a P line with any other line, another P line included" (02, Item 3).
        let own = self.letter();
        let clash = |earlier: &char| matches!((*earlier, own), ('L', 'L') | ('D', 'D') | ('P', _) | (_, 'P'));
        if self.pairs().iter().filter_map(|pair| taken.get(pair)).flatten().any(clash) {
            return Some(8);
        }
        None
    }

    fn take(&self, taken: &mut Taken) {
        for pair in self.pairs() {
            taken.entry(pair).or_default().push(self.letter());
        }
    }
}

/// The letters of the lines over each pair.
type Taken = HashMap<(u32, u32), Vec<char>>;

impl Header {
    fn fields(&self) -> [u32; 4] {
        [self.sections, self.plain, self.elements, self.trains]
    }

    /// The absence of cause 3.
    fn in_range(&self) -> bool {
        self.sections >= 1 && self.fields().iter().zip(MOST).all(|(&field, most)| field <= most)
    }

    /// "1 plus the three counts".
    fn lines(&self) -> usize {
        (1 + self.plain + self.elements + self.trains) as usize
    }

    fn letter(&self) -> char {
        if self.long { 'U' } else { 'S' }
    }

    /// Which letters are allowed on a line after the first, counted from 1.
    fn letters_at(&self, line: usize) -> &'static [u8] {
        if line <= 1 + self.plain as usize {
            b"P"
        } else if line <= 1 + (self.plain + self.elements) as usize {
            b"LD"
        } else {
            b"T"
        }
    }
}

// ---- reader and writer

/// The situation of a file, or the first refusal: 1; then 2 and 3 on line 1; then 4; then line by line 2, 5, 7, 6, 8.
pub fn read(file: &[u8]) -> Result<Situation, Refusal> {
    if file.is_empty() || !file.len().is_multiple_of(LINE) || file.len() > MOST_BYTES {
        return Err(refusal(1, 0));
    }
    let lines: Vec<&[u8]> = file.chunks(LINE).collect();
    let long = lines[0][0] == b'U';
    let header = match parse(lines[0], long) {
        Some((b'S' | b'U', fields)) => Header { long, sections: fields[0], plain: fields[1], elements: fields[2], trains: fields[3] },
        _ => return Err(refusal(2, 1)),
    };
    if !header.in_range() {
        return Err(refusal(3, 1));
    }
    if lines.len() != header.lines() {
        return Err(refusal(4, 1));
    }
    let mut situation = Situation { header, plain: vec![], elements: vec![], trains: vec![] };
    let mut taken = Taken::new();
    for (before, text) in lines.iter().enumerate().skip(1) {
        let line = before + 1;
        if !header.letters_at(line).contains(&text[0]) {
            return Err(refusal(2, line));
        }
        let record = Record::of_line(text, long).ok_or(refusal(2, line))?;
        if let Some(cause) = record.cause(header.sections, &taken) {
            return Err(refusal(cause, line));
        }
        record.take(&mut taken);
        match record {
            Record::Plain(from, to) => situation.plain.push((from, to)),
            Record::Element(element) => situation.elements.push(element),
            Record::Train(sections) => situation.trains.push(sections),
        }
    }
    Ok(situation)
}

/// The bytes of a situation, for a buffer of so many bytes. Refusals: 3; then line by line 2, 5, 7, 6, 8; then 9. The writer gives "2, before
/// 5 on that line, for a train of no section, of more than four, or under S of more than one".
pub fn write(situation: &Situation, room: usize) -> Result<Vec<u8>, Refusal> {
    let header = situation.header;
    if !header.in_range() {
        return Err(refusal(3, 1));
    }
    let plain = situation.plain.iter().take(header.plain as usize).map(|&(from, to)| Record::Plain(from, to));
    let elements = situation.elements.iter().take(header.elements as usize).map(|&element| Record::Element(element));
    let trains = situation.trains.iter().take(header.trains as usize).map(|sections| Record::Train(sections.clone()));
    let mut text = line_text(header.letter(), &header.fields());
    let mut taken = Taken::new();
    for (before, record) in plain.chain(elements).chain(trains).enumerate() {
        if let Record::Train(sections) = &record
            && (sections.is_empty() || sections.len() > 4 || (!header.long && sections.len() > 1))
        {
            return Err(refusal(2, before + 2));
        }
        if let Some(cause) = record.cause(header.sections, &taken) {
            return Err(refusal(cause, before + 2));
        }
        record.take(&mut taken);
        text.extend(record.text());
    }
    if room < text.len() {
        return Err(refusal(9, 0));
    }
    Ok(text)
}

// ---- moves and reach

/// The states of all elements in the file.
fn file_states(situation: &Situation) -> Vec<u32> {
    situation.elements.iter().map(Element::state).collect()
}

/// The pairs under elements, each with the places of those that stand over it.
pub type Over = BTreeMap<(u32, u32), Vec<usize>>;

pub fn over(situation: &Situation) -> Over {
    let mut over = Over::new();
    for (place, element) in situation.elements.iter().enumerate() {
        for pair in element.pairs() {
            over.entry(pair).or_default().push(place);
        }
    }
    over
}

/// The permitted moves, with the elements in the given states: those of the P lines, and each pair that every element over it permits. "An
/// ordered pair may now stand under one signal and one turnout, and the move is then permitted exactly when both permit it" (02, Item 3).
fn permitted_moves(situation: &Situation, over: &Over, states: &[u32]) -> Vec<(u32, u32)> {
    let mut moves = situation.plain.clone();
    for (&pair, places) in over {
        if places.iter().all(|&place| situation.elements[place].permits(states[place], pair)) {
            moves.push(pair);
        }
    }
    moves
}

/// The moves that a situation permits in its file's states.
pub fn moves(situation: &Situation) -> BTreeSet<(u32, u32)> {
    permitted_moves(situation, &over(situation), &file_states(situation)).into_iter().collect()
}

/// For each section, counted from 1, where the moves lead from there: one list, with the place in it where each section's part begins and the next one's.
struct Successors {
    begins: Vec<usize>,
    list: Vec<u32>,
}

impl Successors {
    fn of(&self, section: u32) -> &[u32] {
        &self.list[self.begins[section as usize]..self.begins[section as usize + 1]]
    }

    /// How long a list is that has an entry for each section, and one for 0.
    fn entries(&self) -> usize {
        self.begins.len() - 1
    }
}

fn successors(sections: u32, moves: &[(u32, u32)]) -> Successors {
    let mut begins = vec![0; sections as usize + 2];
    for &(from, _) in moves {
        begins[from as usize + 1] += 1;
    }
    for section in 1..begins.len() {
        begins[section] += begins[section - 1];
    }
    let mut ends = begins.clone();
    let mut list = vec![0; moves.len()];
    for &(from, to) in moves {
        list[ends[from as usize]] = to;
        ends[from as usize] += 1;
    }
    Successors { begins, list }
}

/// Breadth-first search: for each section that a path from one of the starts ends in, the section before it (0 for a start).
fn search(successors: &Successors, starts: &[u32]) -> Vec<Option<u32>> {
    let mut before = vec![None; successors.entries()];
    for &start in starts {
        before[start as usize] = Some(0);
    }
    let mut waiting: VecDeque<u32> = starts.iter().copied().collect();
    while let Some(section) = waiting.pop_front() {
        for &next in successors.of(section) {
            if before[next as usize].is_none() {
                before[next as usize] = Some(section);
                waiting.push_back(next);
            }
        }
    }
    before
}

/// For each section, counted from 1, whether a train comes to it.
type Reach = Vec<bool>;

/// "A train's reach is the union of the reaches of its sections": of each, every section where a path from it ends.
fn reach(successors: &Successors, train: &[u32]) -> Reach {
    let mut union = vec![false; successors.entries()];
    for &start in train {
        for (section, before) in search(successors, &[start]).iter().enumerate() {
            union[section] |= before.is_some();
        }
    }
    union
}

/// "The situation is dangerous when two trains with different numbers have reaches that share a section."
pub fn is_safe(situation: &Situation, over: &Over, states: &[u32]) -> bool {
    let successors = successors(situation.header.sections, &permitted_moves(situation, over, states));
    let mut earlier = vec![false; successors.entries()];
    for train in &situation.trains {
        for (section, reached) in reach(&successors, train).into_iter().enumerate() {
            if reached && earlier[section] {
                return false;
            }
            earlier[section] |= reached;
        }
    }
    true
}

// ---- verdict

/// The refusal of a verdict on these bytes with two lists of so many numbers: the file's own; then 10; then 9.
pub fn verdict_refusal(read: &Result<Situation, Refusal>, first_room: usize, second_room: usize) -> Option<Refusal> {
    let situation = match read {
        Err(refusal) => return Some(*refusal),
        Ok(situation) => situation,
    };
    if let Some(place) = situation.elements.iter().position(Element::is_open) {
        return Some(refusal(10, element_line(situation, place)));
    }
    let sections = situation.header.sections as usize;
    if first_room < sections || second_room < sections {
        return Some(refusal(9, 0));
    }
    None
}

/// The line of an element, given its place in the list of elements, counted from 0.
fn element_line(situation: &Situation, place: usize) -> usize {
    1 + situation.plain.len() + place + 1
}

/// The verdict of a situation.
pub fn verdict(situation: &Situation) -> Verdict {
    let moves = permitted_moves(situation, &over(situation), &file_states(situation));
    let successors = successors(situation.header.sections, &moves);
    let reaches: Vec<Reach> = situation.trains.iter().map(|train| reach(&successors, train)).collect();
    let named = first_meeting(&reaches);
    let counted = match named {
        Some(named) => &reaches[..named.second],
        None => &reaches[..],
    };
    let mut entries = 0;
    let mut looks = 0;
    for reach in counted {
        entries += reach.iter().filter(|&&reached| reached).count() as u32;
        looks += moves.iter().filter(|&&(from, _)| reach[from as usize]).count() as u32;
    }
    Verdict { named, entries, looks }
}

/// The lowest train j that meets an earlier one, the first earlier train i that it meets, and the lowest section of both.
fn first_meeting(reaches: &[Reach]) -> Option<Named> {
    for (second, later) in reaches.iter().enumerate() {
        for (first, earlier) in reaches[..second].iter().enumerate() {
            if let Some(meeting) = (0..later.len()).find(|&section| earlier[section] && later[section]) {
                return Some(Named { first: first + 1, second: second + 1, meeting: meeting as u32 });
            }
        }
    }
    None
}

/// Whether a list of sections is a path of this train, counted from 1, to the meeting section, with no section twice, by the moves of the situation.
pub fn check_path(situation: &Situation, moves: &BTreeSet<(u32, u32)>, train: usize, meeting: u32, path: &[u32]) -> Result<(), String> {
    if !path.first().is_some_and(|start| situation.trains[train - 1].contains(start)) {
        return Err(format!("the path {path:?} does not start in a section of train {train}"));
    }
    if path.last() != Some(&meeting) {
        return Err(format!("the path {path:?} of train {train} does not end in section {meeting}"));
    }
    if let Some(step) = path.windows(2).find(|step| !moves.contains(&(step[0], step[1]))) {
        return Err(format!("the path {path:?} of train {train} has the step {step:?}, which is not permitted"));
    }
    let different: BTreeSet<u32> = path.iter().copied().collect();
    if different.len() < path.len() {
        return Err(format!("the path {path:?} of train {train} has a section twice"));
    }
    Ok(())
}

/// A shortest path of this train, counted from 1, to the meeting section.
pub fn shortest_path(situation: &Situation, train: usize, meeting: u32) -> Vec<u32> {
    let moves = permitted_moves(situation, &over(situation), &file_states(situation));
    let before = search(&successors(situation.header.sections, &moves), &situation.trains[train - 1]);
    let mut path = vec![meeting];
    let mut section = meeting;
    while let Some(previous) = before[section as usize]
        && previous != 0
    {
        path.insert(0, previous);
        section = previous;
    }
    path
}

// ---- settings

/// The refusal of a settings question on these bytes with a buffer of so many bytes: the file's own; then 11; then 9.
pub fn settings_refusal(read: &Result<Situation, Refusal>, room: usize) -> Option<Refusal> {
    let situation = match read {
        Err(refusal) => return Some(*refusal),
        Ok(situation) => situation,
    };
    let mut open = (0..situation.elements.len()).filter(|&place| situation.elements[place].is_open());
    if let Some(place) = open.nth(MOST_OPEN) {
        return Some(refusal(11, element_line(situation, place)));
    }
    if room < situation.elements.len() {
        return Some(refusal(9, 0));
    }
    None
}

/// All settings in 01's order: "the one with 1 at the lowest element number where they differ comes before the other".
pub fn all_settings(situation: &Situation) -> Vec<Vec<u32>> {
    let mut all = vec![vec![]];
    for element in &situation.elements {
        let choices = if element.is_open() { vec![1, 2] } else { vec![element.state()] };
        let mut longer = Vec::new();
        for setting in all {
            for &choice in &choices {
                let mut next = setting.clone();
                next.push(choice);
                longer.push(next);
            }
        }
        all = longer;
    }
    all
}

/// "An open signal adds to the proceed count when at 1; an open turnout never does."
fn proceed_count(situation: &Situation, setting: &[u32]) -> u32 {
    let mut count = 0;
    for (element, &state) in situation.elements.iter().zip(setting) {
        if matches!(element, Element::Signal { state: 0, .. }) && state == 1 {
            count += 1;
        }
    }
    count
}

/// The reply to the settings question: how many settings are safe, and the first of those with the highest proceed count.
pub fn settings(situation: &Situation) -> Reply {
    let mut reply = Reply { safe: 0, proceed: 0, chosen: None };
    let over = over(situation);
    for setting in all_settings(situation) {
        if !is_safe(situation, &over, &setting) {
            continue;
        }
        reply.safe += 1;
        let proceed = proceed_count(situation, &setting);
        if reply.chosen.is_none() || proceed > reply.proceed {
            reply.proceed = proceed;
            reply.chosen = Some(setting);
        }
    }
    reply
}

// ---- key

/// What the key of a file answers.
#[derive(Clone, Debug, PartialEq, Eq)]
pub enum Answer {
    Refused(Refusal),
    Judged(Verdict),
    Replied(Reply),
}

/// The key's answer: V with no open element, Q with open elements; R for a refusal.
pub fn answer(read: &Result<Situation, Refusal>) -> Answer {
    match read {
        Err(refusal) => Answer::Refused(*refusal),
        Ok(situation) if situation.elements.iter().any(Element::is_open) => match settings_refusal(read, usize::MAX) {
            Some(refusal) => Answer::Refused(refusal),
            None => Answer::Replied(settings(situation)),
        },
        Ok(situation) => Answer::Judged(verdict(situation)),
    }
}

/// The text of the key for an answer; the two paths are printed where the answer is a dangerous verdict.
pub fn key_text(answer: &Answer, first_path: &[u32], second_path: &[u32]) -> Vec<u8> {
    let mut text = Vec::new();
    match answer {
        Answer::Refused(refusal) => text.extend(line_text('R', &[refusal.number.into(), refusal.line.into()])),
        Answer::Judged(Verdict { named: None, entries, looks }) => text.extend(line_text('V', &[0, *entries, *looks])),
        Answer::Judged(Verdict { named: Some(named), entries, looks }) => {
            text.extend(line_text('V', &[1, *entries, *looks, named.meeting]));
            for &section in first_path {
                text.extend(line_text('A', &[named.first as u32, section]));
            }
            for &section in second_path {
                text.extend(line_text('B', &[named.second as u32, section]));
            }
        }
        Answer::Replied(Reply { safe, proceed, chosen }) => {
            text.extend(line_text('Q', &[u32::from(chosen.is_some()), *safe, *proceed]));
            for (place, &state) in chosen.iter().flatten().enumerate() {
                text.extend(line_text('E', &[place as u32 + 1, state]));
            }
        }
    }
    text
}

/// The sum of the digits in a text.
pub fn digits(text: &[u8]) -> u32 {
    text.iter().filter_map(|&byte| char::from(byte).to_digit(10)).sum()
}

/// The key of a file, with shortest paths.
pub fn key(file: &[u8]) -> Vec<u8> {
    let read = read(file);
    let answer = answer(&read);
    match (&read, &answer) {
        (Ok(situation), Answer::Judged(Verdict { named: Some(named), .. })) => {
            let first = shortest_path(situation, named.first, named.meeting);
            let second = shortest_path(situation, named.second, named.meeting);
            key_text(&answer, &first, &second)
        }
        _ => key_text(&answer, &[], &[]),
    }
}

#[cfg(test)]
#[path = "law_examples.rs"]
mod examples;
