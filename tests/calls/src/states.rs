//! Words that random lists start from.

use reference::book::Span;
use reference::limits::{COMMANDS, RECORDS_PER_COMMAND};
use sampling::generator::Generator;

use crate::call::Setting;
use crate::words::PER_COMMAND;

/// The words of a command, of any value, small or large.
pub fn any_words(numbers: &mut Generator) -> Vec<u16> {
    let most = [2, 70, 65_536][numbers.below(3) as usize];
    let word = |_| numbers.below(most) as u16;
    (0..PER_COMMAND).map(word).collect()
}

/// A command that holds together: closed, or with any records, often as many
/// as there may be and many with one address between, at the low or at the high
/// end of the addresses.
pub fn sound_command(numbers: &mut Generator) -> Vec<u16> {
    let mut values = vec![0; PER_COMMAND];
    if numbers.one_in(4) {
        return values;
    }
    let count = if numbers.one_in(4) {
        RECORDS_PER_COMMAND
    } else {
        numbers.below(65) as usize
    };
    let longest = [1, 3, 64][numbers.below(3) as usize];
    let widest = [1, 5, 900][numbers.below(3) as usize];
    let mut next = numbers.below(40);
    for entry in values[1..].chunks_exact_mut(2).take(count) {
        let start = next + numbers.below(widest);
        let length = numbers.between(1, longest);
        entry.copy_from_slice(&[start as u16, length as u16]);
        next = start + length + 1;
    }
    if numbers.one_in(4) {
        let starts = values[1..].iter_mut().step_by(2).take(count);
        starts.for_each(|start| *start += (65_537 - next) as u16);
    }
    values[0] = count as u16 + 1;
    values
}

/// One word of a state, most often set to a number near those that are usual
/// there.
pub fn damage(numbers: &mut Generator) -> Setting {
    let command = numbers.below(COMMANDS as u64) as usize;
    let place = match numbers.below(3) {
        0 => 0,
        1 => numbers.between(1, 6),
        _ => numbers.below(PER_COMMAND as u64),
    };
    let most = [2, 70, 5_000, 65_536][numbers.below(4) as usize];
    let value = numbers.below(most) as u16;
    Setting::Words {
        command,
        place: place as usize,
        values: vec![value],
    }
}

/// Words of a state with which a record touches the next: the last one of its
/// command or any other. Nothing if the command that is chosen has no two.
pub fn touch(numbers: &mut Generator, commands: &[Vec<u16>]) -> Option<Setting> {
    let command = numbers.below(commands.len() as u64) as usize;
    let values = &commands[command];
    let pairs = u64::from(values[0].saturating_sub(2));
    if pairs == 0 {
        return None;
    }
    let record = if numbers.one_in(3) {
        pairs - 1
    } else {
        numbers.below(pairs)
    };
    let place = 2 + 2 * record as usize;
    let [start, next] = [values[place - 1], values[place + 1]];
    Some(Setting::Words {
        command,
        place,
        values: vec![next - start],
    })
}

/// A span of at most three bytes that ends where a record starts or starts
/// where one ends. Nothing if the words have no record with such a span.
pub fn beside(numbers: &mut Generator, values: &[u16]) -> Option<Span> {
    let records = values[1..].chunks_exact(2).map(|pair| (pair[0], pair[1]));
    let records: Vec<(u16, u16)> = records.filter(|record| record.1 > 0).collect();
    if records.is_empty() {
        return None;
    }
    let (start, len) = records[numbers.below(records.len() as u64) as usize];
    let (start, len) = (u64::from(start), u64::from(len));
    let length = numbers.below(4);
    let start = if numbers.one_in(2) {
        start.checked_sub(length)?
    } else {
        start + len
    };
    Some(Span { start, length })
}

#[cfg(test)]
mod tests {
    use super::*;
    use crate::words::book_of;

    #[test]
    fn a_sound_command_holds_together_in_any_place() {
        let mut numbers = Generator::new(3);
        for _ in 0..300 {
            let words: Vec<u16> = (0..COMMANDS)
                .flat_map(|_| sound_command(&mut numbers))
                .collect();
            let words = words.try_into().expect("as many words as a state has");
            assert!(book_of(&words).holds_together());
        }
    }

    #[test]
    fn two_records_that_touch_do_not_hold_together() {
        let mut numbers = Generator::new(4);
        let mut touched = 0;
        for _ in 0..300 {
            let mut commands: Vec<Vec<u16>> =
                (0..COMMANDS).map(|_| sound_command(&mut numbers)).collect();
            let Some(Setting::Words {
                command,
                place,
                values,
            }) = touch(&mut numbers, &commands)
            else {
                continue;
            };
            for (length, holds) in [(values[0], false), (values[0] - 1, true)] {
                commands[command][place] = length;
                let total = commands[command][2..].iter().step_by(2);
                let total: u64 = total.map(|length| u64::from(*length)).sum();
                let words = commands.concat().try_into().unwrap();
                let expected = holds && total <= 4_096;
                assert_eq!(book_of(&words).holds_together(), expected);
            }
            touched += 1;
        }
        assert!(touched > 100);
    }
}
