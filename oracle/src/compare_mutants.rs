//! The comparison finds no fault with the oracle itself, and tells mutants of it from it: the impostors of document 01, and some more.

use super::*;
use crate::generate;
use judge::ffi::Output;

/// The oracle with the judge's interface, and one fault or none.
struct Mutant {
    fault: &'static str,
}

impl Mutant {
    fn has(&self, fault: &str) -> bool {
        self.fault == fault
    }
}

impl Subject for Mutant {
    fn read(&self, file: &[u8]) -> Reading {
        match law::read(file) {
            Err(refusal) if self.has("reads a refused file as one without lines") && refusal.number == 8 => {
                Reading { refusal: Refusal::NONE, situation: Situation::ZEROS }
            }
            Err(refusal) => Reading { refusal, situation: Situation::ZEROS },
            Ok(situation) => {
                let mut situation = from_oracle(&situation);
                if self.has("leaves something past the counts") {
                    situation.train_section[255] |= 256;
                }
                if self.has("forgets the letter") {
                    situation.is_long = 0;
                }
                Reading { refusal: Refusal::NONE, situation }
            }
        }
    }

    fn write(&self, situation: &Situation, buffer: &mut [u8]) -> Output {
        let mut values = to_oracle(situation);
        if self.has("writes a train of more than four sections as one of four") {
            values.trains.iter_mut().for_each(|train| train.truncate(4));
        }
        match law::write(&values, buffer.len()) {
            Err(refusal) => {
                if self.has("writes before it refuses") && !buffer.is_empty() {
                    buffer[0] = !buffer[0];
                }
                output(Err(refusal))
            }
            Ok(text) => {
                buffer[..text.len()].copy_from_slice(&text);
                if self.has("clears the rest of the buffer") {
                    buffer[text.len()..].fill(0);
                }
                let mut output = output(Ok(&text));
                if self.has("counts no subtraction for an 8 and a 9") {
                    output.subtractions = law::digits(&text.iter().copied().filter(|&byte| byte < b'8').collect::<Vec<u8>>());
                }
                output
            }
        }
    }

    fn verdict(&self, file: &[u8], first: &mut [u16], second: &mut [u16]) -> VerdictAnswer {
        let read = law::read(file);
        let refusal = law::verdict_refusal(&read, first.len(), second.len());
        if self.has("refuses every verdict") {
            return verdict_answer(Some(law::refusal(9, 0)), None, 0, 0);
        }
        let (Ok(situation), None) = (&read, refusal) else {
            return verdict_answer(refusal, None, 0, 0);
        };
        let mut verdict = law::verdict(situation);
        match self.fault {
            "searches the first section only" => {
                let mut first_only = situation.clone();
                first_only.trains.iter_mut().for_each(|train| train.truncate(1));
                verdict = law::verdict(&first_only);
            }
            "calls a train's own sections a danger" if verdict.named.is_none() => {
                let mut apart = situation.clone();
                apart.trains = apart.trains.into_iter().flatten().map(|section| vec![section]).collect();
                verdict.named = law::verdict(&apart).named.map(|named| law::Named { first: 1, second: 1, ..named });
            }
            "is always safe" => verdict.named = None,
            "is always dangerous" if situation.trains.len() > 1 && verdict.named.is_none() => {
                verdict.named = Some(law::Named { first: 1, second: 2, meeting: 1 });
            }
            "has made-up entries" => verdict.entries += 1,
            "has made-up looks" => verdict.looks += 1,
            _ => {}
        }
        let Some(named) = verdict.named else {
            return verdict_answer(None, Some(verdict), 0, 0);
        };
        let first_path = law::shortest_path(situation, named.first, named.meeting);
        let second_path = law::shortest_path(situation, named.second, named.meeting);
        if !self.has("never writes paths") {
            for (list, path) in [(first, &first_path), (second, &second_path)] {
                for (entry, &section) in list.iter_mut().zip(path) {
                    *entry = section as u16;
                }
                if self.has("writes past the path")
                    && let Some(entry) = list.get_mut(path.len())
                {
                    *entry = !*entry;
                }
            }
        }
        let longer = usize::from(self.has("has a length too high"));
        verdict_answer(None, Some(verdict), first_path.len(), second_path.len() + longer)
    }

    fn settings(&self, file: &[u8], buffer: &mut [u8]) -> SettingsAnswer {
        let read = law::read(file);
        let room = if self.has("refuses every settings question") { 0 } else { buffer.len() };
        let refusal = law::settings_refusal(&read, room);
        let (Ok(situation), None) = (&read, refusal) else {
            return SettingsAnswer { refusal: refusal.unwrap_or(Refusal::NONE), safe: 0, proceed: 0 };
        };
        let mut reply = law::settings(situation);
        match self.fault {
            "replies none before trying" => reply = law::Reply { safe: 0, proceed: 0, chosen: None },
            "replies with all stops" => {
                let stops = |element: &law::Element| if element.is_open() { 2 } else { element.state() };
                reply.chosen = reply.chosen.map(|_| situation.elements.iter().map(stops).collect());
            }
            "has a made-up number of safe settings" => reply.safe = reply.safe.min(1),
            "counts turnouts" => {
                let open = situation.elements.iter().zip(reply.chosen.iter().flatten());
                reply.proceed = open.filter(|(element, state)| element.is_open() && **state == 1).count() as u32;
            }
            _ => {}
        }
        for (entry, &state) in buffer.iter_mut().zip(reply.chosen.iter().flatten()) {
            *entry = state as u8;
        }
        SettingsAnswer { refusal: Refusal::NONE, safe: reply.safe as u16, proceed: reply.proceed as u16 }
    }

    fn key(&self, file: &[u8], buffer: &mut [u8]) -> Output {
        if buffer.len() < law::LONGEST_KEY {
            return output(Err(Refusal { number: 9, line: 0 }));
        }
        let mut text = law::key(file);
        if self.has("ends a key without its last line") && text.len() > law::LINE {
            text.truncate(text.len() - law::LINE);
        }
        buffer[..text.len()].copy_from_slice(&text);
        let mut output = output(Ok(&text));
        if self.has("leaves the last line's subtractions out") {
            output.subtractions = law::digits(&text[..text.len() - law::LINE]);
        }
        output
    }
}

fn first_difference(fault: &'static str, files: u64) -> Option<Difference> {
    let mut tally = Tally::default();
    (0..files).find_map(|index| compare(&Mutant { fault }, &generate::case(index).file, index, &mut tally).err())
}

#[test]
fn the_oracle_agrees_with_itself() {
    assert_eq!(first_difference("", 300), None);
}

#[test]
fn mutants_are_caught() {
    for fault in [
        "reads a refused file as one without lines",
        "leaves something past the counts",
        "writes before it refuses",
        "clears the rest of the buffer",
        "refuses every verdict",
        "refuses every settings question",
        "is always safe",
        "is always dangerous",
        "has made-up entries",
        "has made-up looks",
        "never writes paths",
        "writes past the path",
        "has a length too high",
        "replies none before trying",
        "replies with all stops",
        "has a made-up number of safe settings",
        "counts turnouts",
        "ends a key without its last line",
        "leaves the last line's subtractions out",
        "counts no subtraction for an 8 and a 9",
        "forgets the letter",
        "writes a train of more than four sections as one of four",
        "searches the first section only",
        "calls a train's own sections a danger",
    ] {
        assert!(first_difference(fault, 300).is_some(), "nothing found against one that {fault}");
    }
}
