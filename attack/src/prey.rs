//! What the device looks at twice, to check it and to use it, and what the host
//! changes of it in between.

use crate::device::{Device, COMMAND};
use crate::host::SharedWindow;
use crate::lists::{Changed, Spans, COUNT, LIST, LIST_LENGTH, PAGE_ENTRY};

pub trait Prey {
    /// What is seen at a look.
    type Look: Copy + PartialEq;

    const CHANGED: Changed;
    const WORDS: Words;

    /// A look by plain reads of the window.
    fn read(window: SharedWindow) -> Self::Look;

    /// The first look of a command, and the second.
    fn check(device: &mut Device) -> Self::Look;
    fn take(device: &mut Device) -> Self::Look;

    /// Which value of the changed byte was seen.
    fn value(look: Self::Look) -> u8;
}

/// How to tell of it.
#[derive(Clone, Copy)]
pub struct Words {
    /// What the host writes, and what is compared.
    pub written: &'static str,
    pub compared: &'static str,
    /// What is seen of it.
    pub values: [&'static str; 2],
    /// The three ways of two looks.
    pub ways: [&'static str; 3],
}

/// The count of a retire list. The check fetches it alone, and the use fetches it
/// with the whole list.
pub struct Count;

impl Prey for Count {
    type Look = u8;

    const CHANGED: Changed = COUNT;
    const WORDS: Words = Words {
        written: "count",
        compared: "count",
        values: ["the count 4", "40"],
        ways: [
            "two plain reads",
            "fetched by two commands",
            "fetched by one command",
        ],
    };

    fn read(window: SharedWindow) -> u8 {
        window.read(LIST)
    }

    fn check(device: &mut Device) -> u8 {
        device.fetch(COMMAND, 1)
    }

    fn take(device: &mut Device) -> u8 {
        device.fetch(COMMAND, LIST_LENGTH)
    }

    fn value(count: u8) -> u8 {
        count
    }
}

/// The spans of a transfer. The page list is walked to check them, and again to use
/// them.
pub struct Pages;

impl Prey for Pages {
    type Look = Spans;

    const CHANGED: Changed = PAGE_ENTRY;
    const WORDS: Words = Words {
        written: "page entry",
        compared: "spans",
        values: ["the page 0x108000", "0x708000"],
        ways: [
            "two plain walks",
            "walked by two commands",
            "walked by one command",
        ],
    };

    fn read(window: SharedWindow) -> Spans {
        Spans::walked(|address| window.read_entry(address))
    }

    fn check(device: &mut Device) -> Spans {
        device.walk(COMMAND)
    }

    fn take(device: &mut Device) -> Spans {
        device.walk(COMMAND)
    }

    fn value(spans: Spans) -> u8 {
        spans.changed()
    }
}
