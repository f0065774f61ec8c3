//! The file of calls: its lines in the order in which they are carried out.
//!
//! A line is a call or a setting, as in [`crate::line`], or one of these:
//!
//! ```text
//! part TITLE       the fresh state and map, and the usual bytes and lengths of
//!                  all buffers
//! list NAME        starts a list of calls and settings
//! done             ends it
//! try NAME         makes the calls of a list, and puts back state, map and buffers
//! try NAME = 20    the same, and each of its calls has to answer so
//! ```
//!
//! What stands behind `#` is not read. The bytes that are made for a call come
//! from the number of its line.

use std::collections::BTreeMap;

use crate::line::{parse, split_wanted, Line};

/// A line to carry out.
#[derive(Clone, Debug, PartialEq, Eq)]
pub struct Item {
    /// Where it comes from, for who reads a complaint.
    pub place: String,
    /// The seed of the bytes that are made for it.
    pub seed: u64,
    pub line: Line,
}

/// Reads a whole file. An error has the number of its line.
pub fn read(text: &str) -> Result<Vec<Item>, String> {
    let mut reader = Reader::default();
    let mut number = 0;
    for line in text.lines() {
        number += 1;
        let read = reader.take(number, line);
        read.map_err(|why| format!("line {number}: {why}"))?;
    }
    match reader.open {
        None => Ok(reader.items),
        Some(list) => Err(format!("line {number}: list '{}' has no end", list.name)),
    }
}

/// What was read so far.
#[derive(Default)]
struct Reader {
    items: Vec<Item>,
    lists: BTreeMap<String, Vec<Item>>,
    open: Option<List>,
}

/// A list that has not come to its end.
struct List {
    name: String,
    items: Vec<Item>,
}

impl Reader {
    /// Reads a line.
    fn take(&mut self, number: u64, text: &str) -> Result<(), String> {
        let bare = text.split('#').next().unwrap_or_default();
        let words: Vec<&str> = bare.split_whitespace().collect();
        let line = match words[..] {
            [] => return Ok(()),
            ["list", name] => return self.start(name),
            ["done"] => return self.done(),
            ["try", name, ref wanted @ ..] => return self.try_list(number, name, wanted),
            ["part", _, ..] if self.open.is_some() => return Err("a part in a list".into()),
            ["part", ref title @ ..] if !title.is_empty() => Line::Part(title.join(" ")),
            _ => parse(&words)?,
        };
        let item = Item {
            place: format!("line {number}"),
            seed: number,
            line,
        };
        match &mut self.open {
            Some(list) => list.items.push(item),
            None => self.items.push(item),
        }
        Ok(())
    }

    fn start(&mut self, name: &str) -> Result<(), String> {
        if self.open.is_some() {
            return Err("a list in a list".to_string());
        }
        if self.lists.contains_key(name) {
            return Err(format!("there is a list '{name}' already"));
        }
        self.open = Some(List {
            name: name.to_string(),
            items: vec![],
        });
        Ok(())
    }

    fn done(&mut self) -> Result<(), String> {
        let list = self.open.take().ok_or("there is no list to end")?;
        self.lists.insert(list.name, list.items);
        Ok(())
    }

    /// Adds the items of a list, between keeping and putting back.
    fn try_list(&mut self, number: u64, name: &str, words: &[&str]) -> Result<(), String> {
        if self.open.is_some() {
            return Err("a list is tried in a list".to_string());
        }
        let (left, wanted) = split_wanted(words)?;
        if let Some(word) = left.first() {
            return Err(format!("'{word}' is too much"));
        }
        let list = self.lists.get(name);
        let list = list.ok_or_else(|| format!("there is no list '{name}'"))?;
        let around = |line| Item {
            place: format!("line {number}"),
            seed: number,
            line,
        };
        self.items.push(around(Line::Keep));
        self.items
            .extend(list.iter().map(|item| tried(item, number, &wanted)));
        self.items.push(around(Line::PutBack));
        Ok(())
    }
}

/// An item of a list where it is tried.
fn tried(item: &Item, number: u64, wanted: &[u64]) -> Item {
    let line = match &item.line {
        Line::Call(call, own) if own.is_empty() => Line::Call(call.clone(), wanted.to_vec()),
        line => line.clone(),
    };
    Item {
        place: format!("{}, tried at line {number}", item.place),
        line,
        ..*item
    }
}

#[cfg(test)]
mod tests {
    use super::*;

    /// The lines of a text that can be read, as the program shows them.
    fn lines(text: &str) -> Vec<String> {
        let items = read(text).unwrap();
        let shown = items
            .iter()
            .map(|item| format!("{}: {}", item.place, item.line));
        shown.collect()
    }

    #[test]
    fn each_call_and_setting_is_read() {
        let text = "release\nfresh\nbegin 8\nend 18446744073709551615\nfetch 3 16+4\n\
                    host 0+70000\nown 7 65535+1\nshow 2 64\nread\nread 28 00 +3\n\
                    walk 3 4 18446744073709551608 65536\nlend scratch 300\nlend addresses 0\n\
                    lend lengths 40\nprp 131065 18446744073709551615\nprp 0 4096 1 0\n\
                    write 9 8 65536+4097 1\nreplay 08 00\nlend window 0\nlend store 65536\n\
                    fill output 7\nwords 7 128 65535\npart two words\nmap-fresh\nmap-begin\n\
                    map-fetch 4095+1\nmap-end\nmap-open 18446744073709551615\n\
                    map-words 62 0 18446744073709551615\nmap-values 4094 255 0\nmap-runs 64 1+2 64";
        let expected: Vec<String> = text
            .lines()
            .enumerate()
            .map(|(place, line)| format!("line {}: {line}", place + 1))
            .collect();
        assert_eq!(lines(text), expected);
    }

    #[test]
    fn entries_are_words() {
        let zeroes = " 0".repeat(124);
        let whole = format!("line 1: words 3 0 3 4 2 8 1{zeroes}");
        assert_eq!(lines("command 3 3 4+2 8+1"), [whole]);
        assert_eq!(lines("entry 0 63 9+1"), ["line 1: words 0 127 9 1"]);
        let pairs = "line 1: words 5 1 10 4 18 4 26 4";
        assert_eq!(lines("entries 5 3 10+4 8"), [pairs]);
    }

    #[test]
    fn page_entries_are_counted_up() {
        let entries =
            "line 1: prp 24 18446744073709551605 18446744073709551610 18446744073709551615";
        assert_eq!(lines("prps 24 3 18446744073709551605 5"), [entries]);
        assert_eq!(
            lines("prps 24 1 7 18446744073709551615"),
            ["line 1: prp 24 7"]
        );
    }

    #[test]
    fn comments_blanks_and_hexadecimal_in_any_groups_are_read() {
        let text = "# nothing\n\n  begin   3 # behind it = 7\nread 2800 40 0080 +1";
        let expected = ["line 3: begin 3", "line 4: read 28 00 40 00 80 +1"];
        assert_eq!(lines(text), expected);
    }

    #[test]
    fn a_list_is_carried_out_where_it_is_tried() {
        let text = "list two\nbegin 1 = 0\nlend store 5\nend 2\ndone\ntry two = 20\ntry two";
        let expected = [
            "line 6: keep",
            "line 2, tried at line 6: begin 1",
            "line 3, tried at line 6: lend store 5",
            "line 4, tried at line 6: end 2",
            "line 6: put back",
        ];
        assert_eq!(lines(text)[..5], expected);
        let items = read(text).unwrap();
        let wanted = items.iter().filter_map(|item| match &item.line {
            Line::Call(_, wanted) => Some(wanted.clone()),
            _ => None,
        });
        let wanted: Vec<Vec<u64>> = wanted.collect();
        assert_eq!(wanted, [vec![0], vec![20], vec![0], vec![]]);
    }

    /// A line that cannot be read, and why.
    const BAD: [(&str, &str); 50] = [
        ("bgin 1", "'bgin' is not known"),
        ("begin", "a word is missing at the end"),
        ("begin 1 2", "'2' is too much"),
        ("begin -1", "'-1' is no number of 64 bits"),
        ("begin +1", "'+1' is no number of 64 bits"),
        (
            "begin 18446744073709551616",
            "'18446744073709551616' is no number of 64 bits",
        ),
        ("fetch 1 16", "'16' is no span"),
        ("fetch 1 16+", "'' is no number of 64 bits"),
        ("fetch 1 16+4+1", "'4+1' is no number of 64 bits"),
        ("host 0+70001", "70001 is above 70000"),
        ("write 1 1 1+1 70001", "70001 is above 70000"),
        (
            "read 280",
            "'280' is not made of pairs of hexadecimal digits",
        ),
        ("read zz", "'zz' is not made of pairs of hexadecimal digits"),
        ("read 28 +x", "'x' is no number of 64 bits"),
        ("read +1 28", "'28' is too much"),
        ("lend stores 1", "'stores' is no buffer"),
        ("lend store 65537", "65537 is above 65536"),
        ("lend scratch 301", "301 is above 300"),
        ("lend addresses 41", "41 is above 40"),
        ("fill window", "a word is missing at the end"),
        ("walk 1 2 3", "a word is missing at the end"),
        ("walk 1 2 3 4 5", "'5' is too much"),
        ("prp 131074 1", "131074 is above 131073"),
        ("prp 131066 1", "there are 0 values from that place on"),
        ("prp 131064 1 2", "there are 1 values from that place on"),
        ("prps 131064 2 0 1", "2 is above 1"),
        (
            "prps 0 2 18446744073709551615 1",
            "the last of them is no number of 64 bits",
        ),
        ("command 8 1", "8 is above 7"),
        ("command 1 65536", "65536 is above 65535"),
        ("command 1 2 65536+1", "65536 is above 65535"),
        ("entry 1 64 1+1", "64 is above 63"),
        ("entries 1 65 0+1 1", "65 is above 64"),
        ("entries 1 64 65473+1 1", "65536 is above 65535"),
        ("words 1 129 1", "129 is above 128"),
        ("words 1 128 1 2", "there are 1 values from that place on"),
        ("map-begin 1", "'1' is too much"),
        ("map-fetch", "a word is missing at the end"),
        ("map-open 1 = 0", "only a call has an answer"),
        ("map-words 64 1", "64 is above 63"),
        ("map-words 63 1 1", "there are 1 values from that place on"),
        ("map-values 4096 1", "4096 is above 4095"),
        ("map-values 0 256", "256 is above 255"),
        (
            "map-runs 65 1+1 64",
            "the map does not have all of these addresses",
        ),
        (
            "map-runs 0 0+4097 1",
            "the map does not have all of these addresses",
        ),
        ("words 1 0", "a word is missing at the end"),
        ("lend store 1 = 0", "only a call has an answer"),
        ("begin 1 =", "there is no number behind '='"),
        ("= 1", "there is no call"),
        ("done", "there is no list to end"),
        ("try two", "there is no list 'two'"),
    ];

    #[test]
    fn a_bad_line_is_named_with_its_number() {
        for (line, why) in BAD {
            let text = format!("begin 1\n\n{line}\nend 1");
            assert_eq!(read(&text), Err(format!("line 3: {why}")));
        }
    }

    #[test]
    fn bad_lists_and_parts_are_named_with_their_lines() {
        for (text, error) in [
            ("list a\nbegin 1", "line 2: list 'a' has no end"),
            ("list a\nlist b", "line 2: a list in a list"),
            ("list a\npart b", "line 2: a part in a list"),
            ("list a\ntry a", "line 2: a list is tried in a list"),
            (
                "list a\ndone\nlist a",
                "line 3: there is a list 'a' already",
            ),
            ("list a\ndone\ntry a b", "line 3: 'b' is too much"),
            ("part", "line 1: 'part' is not known"),
        ] {
            assert_eq!(read(text), Err(error.to_string()));
        }
    }

    #[test]
    fn a_command_has_64_entries() {
        let most = format!("command 0 65{}", " 1+1".repeat(64));
        assert!(read(&most).is_ok());
        let error = "line 1: more than 64 entries".to_string();
        assert_eq!(read(&(most + " 1+1")), Err(error));
    }
}
