//! Walks in a scene. What is said of every walk is seen to with each of them.

use reference::walk::{walk, Lent, Transfer};
use sampling::generator::Generator;

use crate::scene::Scene;

/// What a walk is refused with before PRP1 is judged.
const BEFORE_PRP1: [u8; 7] = [31, 10, 6, 7, 8, 20, 21];

/// A scratch and two lists of any content.
#[derive(Clone, PartialEq, Eq)]
pub struct Desk {
    pub scratch: Vec<u8>,
    pub addresses: Vec<u64>,
    pub lengths: Vec<u32>,
}

impl Desk {
    /// So many bytes, and so many places of each list.
    pub fn of(scratch: usize, addresses: usize, lengths: usize) -> Desk {
        let mut generator = Generator::new((scratch + addresses + lengths) as u64);
        let below = |_| generator.below(1 << 32);
        let places: Vec<u64> = (0..addresses + lengths).map(below).collect();
        let (of_addresses, of_lengths) = places.split_at(addresses);
        Desk {
            scratch: vec![0x5a; scratch],
            addresses: of_addresses.to_vec(),
            lengths: of_lengths.iter().map(|length| *length as u32).collect(),
        }
    }

    /// Address and length in the first places.
    fn spans(&self, count: usize) -> Vec<(u64, u64)> {
        let lengths = self.lengths[..count].iter().map(|length| (*length).into());
        self.addresses[..count]
            .iter()
            .copied()
            .zip(lengths)
            .collect()
    }
}

impl Scene {
    /// Puts entries into the window, as the host does.
    pub fn put_entries(&mut self, address: u64, entries: &[u64]) {
        let places = self.window[address as usize..].chunks_exact_mut(8);
        assert!(places.len() >= entries.len(), "no room for the entries");
        for (place, entry) in places.zip(entries) {
            place.copy_from_slice(&entry.to_le_bytes());
        }
    }

    /// Walks with the shortest scratch and lists that are allowed, and answers
    /// address and length of each span.
    pub fn walk(&mut self, command: u64, transfer: Transfer) -> Result<Vec<(u64, u64)>, u8> {
        self.walk_at(&mut Desk::of(128, 17, 17), command, transfer)
    }

    /// The same with any scratch and lists.
    pub fn walk_at(
        &mut self,
        desk: &mut Desk,
        command: u64,
        transfer: Transfer,
    ) -> Result<Vec<(u64, u64)>, u8> {
        let walked = self.walked_at(desk, command, transfer);
        walked.map(|(spans, _)| spans)
    }

    /// The same call, with how many records were looked at.
    pub fn walked_at(
        &mut self,
        desk: &mut Desk,
        command: u64,
        transfer: Transfer,
    ) -> Result<(Vec<(u64, u64)>, u64), u8> {
        let (scene_before, desk_before) = (self.clone(), desk.clone());
        let lent = Lent {
            scratch: &mut desk.scratch,
            addresses: &mut desk.addresses,
            lengths: &mut desk.lengths,
        };
        let (book, store) = (&mut self.book, &mut self.store);
        let answer = walk(book, store, &self.window, command, transfer, lent);
        let answer = answer.map_err(|refusal| refusal.number());

        if answer.is_err_and(|number| BEFORE_PRP1.contains(&number)) {
            assert!(*self == scene_before && *desk == desk_before);
        } else {
            assert!(desk.scratch.iter().all(|byte| *byte == 0));
        }
        self.changed_only_what_is_of(command, scene_before);
        let count = answer.map_or(0, |walked| walked.spans as usize);
        assert!(desk.addresses[count..] == desk_before.addresses[count..]);
        assert!(desk.lengths[count..] == desk_before.lengths[count..]);
        answer.map(|walked| {
            let spans = desk.spans(count);
            let total: u64 = spans.iter().map(|span| span.1).sum();
            assert_eq!(total, transfer.length);
            (spans, walked.looked)
        })
    }

    /// Nothing is other than before but what the book and the store have of a
    /// command.
    fn changed_only_what_is_of(&self, command: u64, mut before: Scene) {
        if let Some(entry) = before.book.commands.get_mut(command as usize) {
            *entry = self.book.commands[command as usize];
            if before.store.len() == 32_768 {
                let part = 4_096 * command as usize..4_096 * (command as usize + 1);
                before.store[part.clone()].copy_from_slice(&self.store[part]);
            }
        }
        assert!(*self == before, "something else has changed");
    }
}

/// A transfer by its three numbers.
pub fn transfer(prp1: u64, prp2: u64, length: u64) -> Transfer {
    Transfer { prp1, prp2, length }
}
