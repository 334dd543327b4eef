//! Route files that are hard for the judge, each with its station.

use oracle::generate::stations::Draft;
use oracle::law::{self, line_text};

pub struct RouteFile {
    pub name: &'static str,
    pub about: &'static str,
    pub station: Vec<u8>,
    pub routes: Vec<u8>,
}

/// All route files of the benchmark.
pub fn route_files() -> Vec<RouteFile> {
    vec![
        RouteFile {
            name: "apart",
            about: "64 routes of 32 sections and no W line, eight by eight in one place, no two of which conflict but in one place",
            station: station(),
            routes: routes(|route, place| 1 + 64 * (route % 8) + place, |_, _| None),
        },
        RouteFile {
            name: "agreeing",
            about: "64 routes of 32 sections with 16 W lines, all of which want the same states",
            station: station(),
            routes: routes(|route, place| 1 + 64 * (route % 8) + place, |_, turnout| Some(1 + turnout % 2)),
        },
        RouteFile {
            name: "opposed",
            about: "64 routes of 32 sections with 16 W lines; the last W line of one is against the last of each other",
            station: station(),
            routes: routes(
                |route, place| 1 + 64 * (route % 8) + place,
                |route, turnout| Some(if turnout < 15 { 1 } else { 1 + route % 2 }),
            ),
        },
    ]
}

/// A chain of 512 sections, with signals in one direction at 128 steps and 64 turnouts beside it.
fn station() -> Vec<u8> {
    let mut draft = Draft::new(512);
    for section in 1..512 {
        if section % 4 == 0 {
            draft.signal(section, section + 1, 2);
        } else {
            draft.plain(section, section + 1);
        }
    }
    for turnout in 0..64 {
        draft.turnout(8 * turnout + 1, 8 * turnout + 4, 8 * turnout + 6, 0);
    }
    law::write(&draft.situation(), usize::MAX).expect("the station is accepted")
}

/// 64 routes of 32 sections; the sections and the states that are wanted go by the route and the place, all from 0.
fn routes(section: fn(u32, u32) -> u32, state: fn(u32, u32) -> Option<u32>) -> Vec<u8> {
    // The signals stand first among the elements.
    const SIGNALS: u32 = 127;
    let mut file = vec![];
    for route in 0..64 {
        let wants: Vec<(u32, u32)> = (0..16).filter_map(|turnout| Some((SIGNALS + 1 + turnout, state(route, turnout)?))).collect();
        file.extend(line_text('R', &[route + 1, route + 1, 32, wants.len() as u32]));
        file.extend((0..32).flat_map(|place| line_text('K', &[section(route, place)])));
        file.extend(wants.iter().flat_map(|&(element, state)| line_text('W', &[element, state])));
    }
    file
}
