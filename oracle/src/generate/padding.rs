//! Numbers padded with zeros (02, item 13).

use crate::law::LINE;
use crate::random::Random;

/// Zeros in place of the last spaces before a number: of all, or of some of the filled fields, all five bytes or any number of them.
pub fn pad(random: &mut Random, file: &mut [u8]) {
    let (every, whole) = (random.once_in(2), random.once_in(2));
    for line in file.chunks_mut(LINE) {
        for field in line[1..LINE - 1].chunks_mut(5) {
            let spaces = field.iter().take_while(|&&byte| byte == b' ').count();
            if spaces == 5 || !(every || random.once_in(3)) {
                continue;
            }
            let kept = if whole { 0 } else { random.place(spaces + 1) };
            field[kept..spaces].fill(b'0');
        }
    }
}

#[cfg(test)]
mod tests {
    use super::*;
    use crate::generate::stations;
    use crate::law;

    /// A padded station is read as it is without the padding, and is written without it.
    #[test]
    fn padding_changes_no_value() {
        let mut changed = 0;
        for index in 0..400 {
            let mut random = Random::new(index);
            let (_, situation) = stations::station(&mut random);
            let file = law::write(&situation, usize::MAX).expect("a station that is written is accepted");
            let mut padded = file.clone();
            pad(&mut random, &mut padded);
            changed += u32::from(padded != file);
            let read = law::read(&padded).expect("a padded station is accepted");
            assert_eq!(law::write(&read, usize::MAX).as_ref(), Ok(&file));
        }
        assert!(changed > 300);
    }
}
