//! The static library as a subject of the comparison, by its C interface.

use judge::ffi::{self, Output, Reading, SettingsAnswer, Situation, VerdictAnswer};
use oracle::subject::Subject;

pub struct Library;

impl Subject for Library {
    fn read(&self, file: &[u8]) -> Reading {
        ffi::read(file)
    }

    fn write(&self, situation: &Situation, buffer: &mut [u8]) -> Output {
        ffi::write(situation, buffer)
    }

    fn verdict(&self, file: &[u8], first: &mut [u16], second: &mut [u16]) -> VerdictAnswer {
        ffi::verdict(file, first, second)
    }

    fn settings(&self, file: &[u8], buffer: &mut [u8]) -> SettingsAnswer {
        ffi::settings(file, buffer)
    }

    fn key(&self, file: &[u8], buffer: &mut [u8]) -> Output {
        ffi::key(file, buffer)
    }
}
