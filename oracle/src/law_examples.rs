//! The oracle on the examples of document 01, and on the points where a careful reader could take 01 in two ways.

use super::*;

/// Station K of document 01 with other states, in element order, and other trains.
fn station_k(states: [u32; 4], trains: &[u32]) -> Vec<u8> {
    let mut text = line_text('S', &[5, 1, 4, trains.len() as u32]);
    text.extend(line_text('P', &[2, 1]));
    text.extend(line_text('L', &[1, 2, states[0]]));
    text.extend(line_text('D', &[2, 3, 4, states[1]]));
    text.extend(line_text('L', &[3, 5, states[2]]));
    text.extend(line_text('L', &[4, 5, states[3]]));
    for &section in trains {
        text.extend(line_text('T', &[section]));
    }
    text
}

/// Station K as printed in document 01.
const K: &str = concat!(
    "S    5    1    4    2\n",
    "P    2    1          \n",
    "L    1    2    1     \n",
    "D    2    3    4    1\n",
    "L    3    5    1     \n",
    "L    4    5    1     \n",
    "T    1               \n",
    "T    4               \n",
);

/// Its key as printed in document 01.
const KEY_OF_K: &str = concat!(
    "V    1    6    6    5\n",
    "A    1    1          \n",
    "A    1    2          \n",
    "A    1    3          \n",
    "A    1    5          \n",
    "B    2    4          \n",
    "B    2    5          \n",
);

fn refused(number: u16, line: usize) -> Option<Refusal> {
    Some(refusal(number, line))
}

fn refusal_of(lines: &[&str]) -> Option<Refusal> {
    read(lines.concat().as_bytes()).err()
}

fn judged(file: &[u8]) -> (Verdict, Vec<u32>, Vec<u32>) {
    let situation = read(file).unwrap();
    assert_eq!(verdict_refusal(&Ok(situation.clone()), 5, 5), None);
    let verdict = verdict(&situation);
    match verdict.named {
        None => (verdict, vec![], vec![]),
        Some(named) => {
            let first = shortest_path(&situation, named.first, named.meeting);
            let second = shortest_path(&situation, named.second, named.meeting);
            assert_eq!(check_path(&situation, &moves(&situation), named.first, named.meeting, &first), Ok(()));
            assert_eq!(check_path(&situation, &moves(&situation), named.second, named.meeting, &second), Ok(()));
            (verdict, first, second)
        }
    }
}

fn replied(file: &[u8]) -> Reply {
    settings(&read(file).unwrap())
}

fn named(first: usize, second: usize, meeting: u32) -> Option<Named> {
    Some(Named { first, second, meeting })
}

#[test]
fn k_as_printed() {
    assert_eq!(String::from_utf8(key(K.as_bytes())).unwrap(), KEY_OF_K);
    assert_eq!(station_k([1, 1, 1, 1], &[1, 4]), K.as_bytes());
}

#[test]
fn k1() {
    let (verdict, first, second) = judged(&station_k([1, 1, 1, 1], &[1, 4]));
    assert_eq!(verdict, Verdict { named: named(1, 2, 5), entries: 6, looks: 6 });
    assert_eq!((first, second), (vec![1, 2, 3, 5], vec![4, 5]));
}

#[test]
fn k2() {
    let (verdict, ..) = judged(&station_k([1, 1, 1, 2], &[1, 4]));
    assert_eq!(verdict, Verdict { named: None, entries: 5, looks: 5 });
    assert_eq!(key(&station_k([1, 1, 1, 2], &[1, 4])), b"V    0    5    5     \n");
}

#[test]
fn k3() {
    let (verdict, first, second) = judged(&station_k([2, 2, 2, 2], &[1, 4]));
    assert_eq!(verdict.named, named(1, 2, 1));
    assert_eq!((first, second), (vec![1], vec![4, 2, 1]));
}

#[test]
fn k4() {
    let (verdict, first, second) = judged(&station_k([1, 1, 1, 2], &[3, 3]));
    assert_eq!(verdict, Verdict { named: named(1, 2, 1), entries: 8, looks: 10 });
    assert_eq!((first, second), (vec![3, 2, 1], vec![3, 2, 1]));
}

#[test]
fn k5() {
    let (verdict, ..) = judged(&station_k([1, 1, 1, 1], &[5, 1, 4]));
    assert_eq!(verdict, Verdict { named: named(1, 2, 5), entries: 5, looks: 5 });
}

#[test]
fn k6() {
    let file = station_k([0, 0, 0, 0], &[1, 4]);
    assert_eq!(replied(&file), Reply { safe: 7, proceed: 2, chosen: Some(vec![1, 1, 1, 2]) });
    let text = concat!(
        "Q    1    7    2     \n",
        "E    1    1          \n",
        "E    2    1          \n",
        "E    3    1          \n",
        "E    4    2          \n",
    );
    assert_eq!(String::from_utf8(key(&file)).unwrap(), text);
}

#[test]
fn k7() {
    let reply = replied(&station_k([0, 0, 0, 0], &[]));
    assert_eq!(reply, Reply { safe: 16, proceed: 3, chosen: Some(vec![1, 1, 1, 1]) });
}

#[test]
fn k8() {
    let file = station_k([0, 0, 0, 0], &[3, 3]);
    assert_eq!(replied(&file), Reply { safe: 0, proceed: 0, chosen: None });
    assert_eq!(key(&file), b"Q    0    0    0     \n");
}

#[test]
fn a_file_is_given_back_by_the_writer() {
    for states in [[1, 1, 1, 1], [0, 2, 0, 1]] {
        let file = station_k(states, &[1, 4, 4]);
        let situation = read(&file).unwrap();
        assert_eq!(write(&situation, file.len()), Ok(file.clone()));
        assert_eq!(write(&situation, file.len() - 1), Err(refusal(9, 0)));
    }
}

#[test]
fn limits_of_the_s_line() {
    assert_eq!(refusal_of(&["S  512    0    0    0\n"]), None);
    assert_eq!(refusal_of(&["S  513    0    0    0\n"]), refused(3, 1));
    assert_eq!(refusal_of(&["S    0    0    0    0\n"]), refused(3, 1));
    assert_eq!(refusal_of(&["S    1 1025    0    0\n"]), refused(3, 1));
    assert_eq!(refusal_of(&["S    1 1024    0    0\n"]), refused(4, 1));
    assert_eq!(refusal_of(&["S    1    0  257    0\n"]), refused(3, 1));
    assert_eq!(refusal_of(&["S    1    0  256    0\n"]), refused(4, 1));
    assert_eq!(refusal_of(&["S    1    0    0   65\n"]), refused(3, 1));
    assert_eq!(refusal_of(&["S    1    0    0   64\n"]), refused(4, 1));
    assert_eq!(refusal_of(&["S65537    0    0    0\n"]), refused(3, 1));
    // 2 before 3 on line 1.
    assert_eq!(refusal_of(&["S  600    0    0   0x\n"]), refused(2, 1));
    assert_eq!(refusal_of(&["s  600    0    0    0\n"]), refused(2, 1));
}

#[test]
fn section_5_and_6_in_k() {
    assert_eq!(read(&station_k([1, 1, 1, 1], &[1, 5])).err(), None);
    assert_eq!(read(&station_k([1, 1, 1, 1], &[1, 6])).err(), refused(5, 8));
}

/// A station of one line of signals, so many of them open, after one that is fixed.
fn open_signals(open: u32) -> Vec<u8> {
    let mut text = line_text('S', &[open + 2, 0, open + 1, 1]);
    text.extend(line_text('L', &[1, 2, 2]));
    for place in 1..=open {
        text.extend(line_text('L', &[place + 1, place + 2, 0]));
    }
    text.extend(line_text('T', &[1]));
    text
}

#[test]
fn twelve_open_pass_and_thirteen_give_11() {
    let twelve = read(&open_signals(12));
    assert_eq!(settings_refusal(&twelve, 13), None);
    assert_eq!(settings_refusal(&twelve, 12), refused(9, 0));
    assert_eq!(settings(&twelve.unwrap()).safe, 4096);
    // The line of the thirteenth open element, and 11 before 9.
    let thirteen = read(&open_signals(13));
    assert_eq!(settings_refusal(&thirteen, 0), refused(11, 15));
    assert_eq!(key(&open_signals(13)), b"R   11   15          \n");
    // A verdict has 10 with the line of the first open element, before 9.
    assert_eq!(verdict_refusal(&thirteen, 0, 0), refused(10, 3));
}

#[test]
fn length_of_the_file() {
    assert_eq!(read(b"").err(), refused(1, 0));
    let file = station_k([1, 1, 1, 1], &[1, 4]);
    assert_eq!(read(&[&file[..], b"\n"].concat()).err(), refused(1, 0));
    assert_eq!(read(&[&file[..], b"T    1               \n"].concat()).err(), refused(4, 1));
    assert_eq!(read(&b"T    1               \n".repeat(1345)).err(), refused(2, 1));
    assert_eq!(read(&b"T    1               \n".repeat(1346)).err(), refused(1, 0));
    assert_eq!(key(b""), b"R    1    0          \n");
}

#[test]
fn form_of_a_field() {
    for (field, right) in [
        ("    1", true),
        ("    0", true),
        ("99999", true),
        ("     ", false),
        ("   01", false),
        ("00001", false),
        ("   00", false),
        ("1    ", false),
        ("  1  ", false),
        ("  1 1", false),
        ("\t   1", false),
        ("   +1", false),
        ("   -1", false),
        ("   1a", false),
    ] {
        assert_eq!(number(field.as_bytes()).is_some(), right, "{field:?}");
    }
    assert_eq!(number(b"99999"), Some(99999));
}

#[test]
fn form_of_a_padded_field() {
    for (field, value) in [
        ("    5", Some(5)),
        ("00005", Some(5)),
        ("  005", Some(5)),
        ("   05", Some(5)),
        ("00000", Some(0)),
        ("   00", Some(0)),
        ("09999", Some(9999)),
        ("     ", None),
        ("0 005", None),
        ("  05 ", None),
        ("0    ", None),
        ("-0001", None),
        ("+0001", None),
        (" -001", None),
        ("0x005", None),
        ("\t0005", None),
    ] {
        assert_eq!(padded_number(field.as_bytes()), value, "{field:?}");
    }
    assert_eq!(refusal_of(&["S00002000000000000001\n", "T   02               \n"]), None);
    assert_eq!(refusal_of(&["S00002000000000000001\n", "T0000200000          \n"]), refused(2, 2));
    assert_eq!(refusal_of(&["S00002000000000000001\n", "T00003               \n"]), refused(5, 2));
    assert_eq!(refusal_of(&["S00513000000000000000\n"]), refused(3, 1));
}

#[test]
fn place_of_a_line_goes_by_the_counts() {
    // One P line too few in the S line and one element too many: the second P line is 2.
    let lines = ["S    3    1    1    0\n", "P    1    2          \n", "P    2    3          \n"];
    assert_eq!(refusal_of(&lines), refused(2, 3));
    assert_eq!(refusal_of(&["S    3    2    0    0\n", lines[1], lines[2]]), None);
}

#[test]
fn order_of_the_causes_in_a_line() {
    let head = "S    5    0    1    0\n";
    assert_eq!(refusal_of(&[head, "D    9    9    1    x\n"]), refused(2, 2));
    assert_eq!(refusal_of(&[head, "D    9    9    1    7\n"]), refused(5, 2));
    assert_eq!(refusal_of(&[head, "D    3    3    1    7\n"]), refused(7, 2));
    assert_eq!(refusal_of(&[head, "D    3    2    1    7\n"]), refused(6, 2));
    assert_eq!(refusal_of(&[head, "D    3    2    1    0\n"]), None);
    let head = ["S    5    1    1    0\n", "P    2    3          \n"];
    assert_eq!(refusal_of(&[head[0], head[1], "D    3    2    1    7\n"]), refused(6, 3));
    assert_eq!(refusal_of(&[head[0], head[1], "D    3    2    1    2\n"]), refused(8, 3));
    assert_eq!(refusal_of(&[head[0], head[1], "D    3    1    2    1\n"]), refused(8, 3));
    assert_eq!(refusal_of(&[head[0], head[1], "L    2    3    2     \n"]), refused(8, 3));
    // Not 8: the other direction, and the two legs of a turnout.
    assert_eq!(refusal_of(&[head[0], head[1], "L    3    2    2     \n"]), None);
    assert_eq!(refusal_of(&[head[0], head[1], "D    1    2    3    1\n"]), None);
}

#[test]
fn lines_go_before_causes() {
    let lines = ["S    5    2    1    0\n", "P    1    2          \n", "P    1    2          \n", "X    1    2    1     \n"];
    assert_eq!(refusal_of(&lines), refused(8, 3));
}

#[test]
fn j_is_fixed_before_i() {
    // Trains 1 and 4 meet in section 5, trains 2 and 3 in section 6.
    let lines = [
        "S    6    4    0    4\n",
        "P    1    5          \n",
        "P    4    5          \n",
        "P    2    6          \n",
        "P    3    6          \n",
        "T    1               \n",
        "T    2               \n",
        "T    3               \n",
        "T    4               \n",
    ];
    let situation = read(lines.concat().as_bytes()).unwrap();
    assert_eq!(verdict(&situation), Verdict { named: named(2, 3, 6), entries: 6, looks: 3 });
}

#[test]
fn no_open_element_is_one_setting() {
    assert_eq!(replied(&station_k([1, 1, 1, 1], &[1, 4])), Reply { safe: 0, proceed: 0, chosen: None });
    let reply = replied(&station_k([1, 1, 1, 2], &[1, 4]));
    assert_eq!(reply, Reply { safe: 1, proceed: 0, chosen: Some(vec![1, 1, 1, 2]) });
}

#[test]
fn wrong_paths_are_told_apart() {
    let situation = read(K.as_bytes()).unwrap();
    assert!(check_path(&situation, &moves(&situation), 1, 5, &[1, 2, 3, 5]).is_ok());
    assert!(check_path(&situation, &moves(&situation), 1, 5, &[]).is_err());
    assert!(check_path(&situation, &moves(&situation), 1, 5, &[2, 3, 5]).is_err());
    assert!(check_path(&situation, &moves(&situation), 1, 5, &[1, 2, 3]).is_err());
    assert!(check_path(&situation, &moves(&situation), 1, 5, &[1, 2, 4, 5]).is_err());
    assert!(check_path(&situation, &moves(&situation), 1, 5, &[1, 2, 1, 2, 3, 5]).is_err());
    assert!(check_path(&situation, &moves(&situation), 1, 5, &[1, 5]).is_err());
}

#[test]
fn the_writer_refuses_values() {
    let right = read(K.as_bytes()).unwrap();
    let room = K.len();
    let with = |change: &dyn Fn(&mut Situation)| {
        let mut situation = right.clone();
        change(&mut situation);
        write(&situation, room).err()
    };
    assert_eq!(with(&|s| s.header.sections = 513), refused(3, 1));
    assert_eq!(with(&|s| s.plain[0] = (0, 1)), refused(5, 2));
    assert_eq!(with(&|s| s.plain[0] = (1, 1)), refused(7, 2));
    assert_eq!(with(&|s| s.elements[0] = Element::Signal { from: 1, to: 2, state: 3 }), refused(6, 3));
    assert_eq!(with(&|s| s.elements[0] = Element::Signal { from: 2, to: 1, state: 1 }), refused(8, 3));
    assert_eq!(with(&|s| s.trains[1] = vec![6]), refused(5, 8));
    // Entries past the counts are ignored.
    assert_eq!(with(&|s| s.trains.push(vec![999])), None);
    // 2, before 5, for a train of no section, of more than four, or under S of more than one; 7 for a repeat.
    assert_eq!(with(&|s| s.trains[0] = vec![]), refused(2, 7));
    assert_eq!(with(&|s| s.trains[1] = vec![9, 1]), refused(2, 8));
    let long = |train: &[u32]| {
        with(&|s| {
            s.header.long = true;
            s.trains[0] = train.to_vec();
        })
    };
    assert_eq!(long(&[1, 2, 3, 5]), None);
    assert_eq!(long(&[9, 9, 9, 9, 9]), refused(2, 7));
    assert_eq!(long(&[]), refused(2, 7));
    assert_eq!(long(&[1, 2, 1, 9]), refused(5, 7));
    assert_eq!(long(&[1, 2, 1]), refused(7, 7));
}

/// Station K under U: trains are the T lines as they stand.
fn long_k(states: [u32; 4], trains: &[&[u32]]) -> Vec<u8> {
    let mut text = station_k(states, &[]);
    text[..LINE].copy_from_slice(&line_text('U', &[5, 1, 4, trains.len() as u32]));
    for train in trains {
        text.extend(line_text('T', train));
    }
    text
}

#[test]
fn long_trains() {
    // Sections 1 and 4 of one train both lead to section 5: no danger between themselves, and section 5 is counted once.
    let (verdict, ..) = judged(&long_k([1, 1, 1, 1], &[&[1, 4]]));
    assert_eq!(verdict, Verdict { named: None, entries: 5, looks: 6 });
    // A path that starts in the second section.
    let (verdict, first, second) = judged(&long_k([2, 1, 2, 1], &[&[1, 4], &[5]]));
    assert_eq!(verdict, Verdict { named: named(1, 2, 5), entries: 4, looks: 1 });
    assert_eq!((first, second), (vec![4, 5], vec![5]));
    // Two trains that share a section of their standing.
    let (verdict, first, second) = judged(&long_k([2, 1, 2, 2], &[&[1, 4], &[5, 4]]));
    assert_eq!(verdict.named, named(1, 2, 4));
    assert_eq!((first, second), (vec![4], vec![4]));
    assert_eq!(replied(&long_k([0, 0, 0, 0], &[&[1, 2], &[4]])), Reply { safe: 6, proceed: 2, chosen: Some(vec![1, 1, 1, 2]) });
    assert_eq!(replied(&long_k([0, 0, 0, 0], &[&[1, 2, 3, 4], &[4]])).safe, 0);
    // A file with U in place of S gives what it gave.
    let mut long = K.as_bytes().to_vec();
    long[0] = b'U';
    assert_eq!(key(&long), KEY_OF_K.as_bytes());
    assert_eq!(write(&read(&long).unwrap(), 200), Ok(long));
}

#[test]
fn lines_of_long_trains() {
    let long = |line: &str| refusal_of(&["U    5    0    0    1\n", line]);
    assert_eq!(long("T    1               \n"), None);
    assert_eq!(long("T    1    5    3    2\n"), None);
    // A gap, and an empty first field, are 2; then 5; then 7, also of sections that are not neighbours.
    assert_eq!(long("T                    \n"), refused(2, 2));
    assert_eq!(long("T         1          \n"), refused(2, 2));
    assert_eq!(long("T    1         2     \n"), refused(2, 2));
    assert_eq!(long("T    9    9         1\n"), refused(2, 2));
    assert_eq!(long("T    1    1    6     \n"), refused(5, 2));
    assert_eq!(long("T    1    2    0    1\n"), refused(5, 2));
    assert_eq!(long("T    1    2    1     \n"), refused(7, 2));
    assert_eq!(long("T    4    2    1    4\n"), refused(7, 2));
    // Under S a second field is 2, and the U line has the S line's ranges.
    assert_eq!(refusal_of(&["S    5    0    0    1\n", "T    1    2          \n"]), refused(2, 2));
    assert_eq!(refusal_of(&["U  513    0    0    0\n"]), refused(3, 1));
    assert_eq!(refusal_of(&["U    1    0    0     \n"]), refused(2, 1));
    assert_eq!(refusal_of(&["U    1    0    0    1\n"]), refused(4, 1));
    // U is a letter of the first line alone.
    assert_eq!(refusal_of(&["U    5    0    0    1\n", "U    1               \n"]), refused(2, 2));
}

// ---- signals at the points (02, Item 3)

/// A turnout 2, 3, 4 with a signal over stem to straight leg, in either order of the two lines.
fn at_points(signal_first: bool, signal: u32, turnout: u32, trains: &[u32]) -> Vec<u8> {
    let mut text = line_text('S', &[4, 0, 2, trains.len() as u32]);
    let mut lines = [line_text('L', &[2, 3, signal]), line_text('D', &[2, 3, 4, turnout])];
    if !signal_first {
        lines.reverse();
    }
    text.extend(lines.concat());
    for &section in trains {
        text.extend(line_text('T', &[section]));
    }
    text
}

#[test]
fn both_permit() {
    for order in [true, false] {
        let permitted = |signal, turnout| moves(&read(&at_points(order, signal, turnout, &[])).unwrap());
        assert_eq!(permitted(1, 1), BTreeSet::from([(2, 3), (3, 2)]));
        assert_eq!(permitted(2, 1), BTreeSet::from([(3, 2)]));
        for signal in 0..=2 {
            assert_eq!(permitted(signal, 2), BTreeSet::from([(2, 4), (4, 2)]));
        }
        assert_eq!(permitted(0, 1), BTreeSet::from([(3, 2)]));
        assert_eq!(permitted(1, 0), BTreeSet::new());
        // One move in the looks.
        assert_eq!(judged(&at_points(order, 1, 1, &[2])).0, Verdict { named: None, entries: 2, looks: 2 });
    }
}

#[test]
fn an_open_signal_counts_over_a_leg_that_is_not_set() {
    for order in [true, false] {
        let both = |turnout| if order { vec![1, turnout] } else { vec![turnout, 1] };
        assert_eq!(replied(&at_points(order, 0, 0, &[2, 4])), Reply { safe: 2, proceed: 1, chosen: Some(both(1)) });
        assert_eq!(replied(&at_points(order, 0, 0, &[2, 3])), Reply { safe: 2, proceed: 1, chosen: Some(both(2)) });
        assert_eq!(replied(&at_points(order, 0, 2, &[2, 3])), Reply { safe: 2, proceed: 1, chosen: Some(both(2)) });
    }
}

#[test]
fn two_lines_over_a_pair() {
    let (signal, turnout, back) = ("L    1    2    1     \n", "D    1    2    3    0\n", "D    2    3    1    2\n");
    let two = |x, y| refusal_of(&["S    3    0    2    0\n", x, y]);
    let three = |x, y, z| refusal_of(&["S    3    0    3    0\n", x, y, z]);
    assert_eq!(two(signal, turnout), None);
    assert_eq!(two(turnout, signal), None);
    assert_eq!(two(signal, back), None);
    assert_eq!(two(signal, signal), refused(8, 3));
    assert_eq!(two(turnout, back), refused(8, 3));
    assert_eq!(three(signal, turnout, signal), refused(8, 4));
    assert_eq!(three(turnout, signal, back), refused(8, 4));
    for element in [signal, turnout, back] {
        assert_eq!(refusal_of(&["S    3    1    1    0\n", "P    1    2          \n", element]), refused(8, 3));
    }
}
