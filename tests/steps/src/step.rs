//! One step as numbers, its frame, and the line that stands for it.

use reference::frames::write_frame;
use sampling::generator::Generator;

/// The letters of the kinds, in the order of their numbers.
pub const LETTERS: [char; 5] = ['B', 'F', 'E', 'H', 'W'];

/// Expectations, each of which may stand behind a step.
pub const EXPECTATIONS: [&str; 12] = [
    "ok",
    "OK 8 1",
    "ok 8 1 040011002200330044",
    "no",
    "no 21",
    "no such thing",
    "04",
    "-",
    "zz",
    "0",
    "= ok =",
    "\u{fc}\\",
];

/// A step with the fields that its line has. The others are 0.
#[derive(Clone, Debug, Default)]
pub struct Step {
    pub kind: u64,
    pub command: u64,
    pub address: u64,
    /// Of a fetch alone; that of a write is the number of its bytes.
    pub length: u64,
    /// Of a write alone.
    pub data: Vec<u8>,
}

impl Step {
    /// The bytes of the frame, or the number of the refusal.
    pub fn frame(&self) -> Result<Vec<u8>, u8> {
        let length = match self.kind {
            3 | 4 => self.data.len() as u64,
            _ => self.length,
        };
        let mut output = vec![0; 5 + self.data.len()];
        let size = write_frame(
            self.kind,
            self.command,
            self.address,
            length,
            &self.data,
            &mut output,
        )
        .map_err(|refusal| refusal.number())?;
        output.truncate(size);
        Ok(output)
    }

    /// The fields of its line, the letter first, with the data in lower case.
    fn fields(&self) -> Vec<String> {
        let numbers = match self.kind {
            1 => vec![self.command, self.address, self.length],
            3 => vec![self.address],
            4 => vec![self.command, self.address],
            _ => vec![self.command],
        };
        let mut fields = vec![LETTERS[self.kind as usize].to_string()];
        fields.extend(numbers.iter().map(u64::to_string));
        if !self.data.is_empty() {
            fields.push(self.data.iter().map(|byte| format!("{byte:02x}")).collect());
        }
        fields
    }

    /// Its line with one blank between the fields.
    pub fn plain_line(&self) -> String {
        self.fields().join(" ")
    }

    /// Its line with blanks, zeros, cases, a dash for no data, an expectation
    /// and a comment as they come.
    pub fn any_line(&self, numbers: &mut Generator) -> String {
        let mut fields = self.fields();
        if self.kind >= 3 && self.data.is_empty() && numbers.one_in(4) {
            fields.push("-".to_string());
        }
        let mut line = blanks(numbers, 0);
        for (place, field) in fields.iter().enumerate() {
            let is_number = place > 0 && field.bytes().all(|byte| byte.is_ascii_digit());
            let is_data = is_number && place + 1 == fields.len() && !self.data.is_empty();
            if place > 0 {
                line += &blanks(numbers, 1);
            }
            if is_number && !is_data && numbers.one_in(8) {
                line += "00";
            }
            let upper = numbers.one_in(3);
            line += &if upper {
                field.to_uppercase()
            } else {
                field.clone()
            };
        }
        line += &blanks(numbers, 0);
        if numbers.one_in(5) {
            line += &any_expectation(numbers);
        }
        if numbers.one_in(5) {
            line += "# B 9 # zz = ";
        }
        line
    }
}

/// An expectation with blanks about it as they come.
fn any_expectation(numbers: &mut Generator) -> String {
    let place = numbers.below(EXPECTATIONS.len() as u64);
    let (before, behind) = (blanks(numbers, 0), blanks(numbers, 0));
    format!("={before}{}{behind}", EXPECTATIONS[place as usize])
}

/// So many blanks at least, mostly no more.
fn blanks(numbers: &mut Generator, least: usize) -> String {
    let more = if numbers.one_in(4) {
        numbers.below(4) as usize
    } else {
        0
    };
    (0..least + more)
        .map(|_| [' ', ' ', '\t', '\r'][numbers.below(4) as usize])
        .collect()
}
