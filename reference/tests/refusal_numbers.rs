//! Each named case has the number that 01 (the agreed scope; docs/RULES.md has
//! its rules) or 02 (the agreed changes) gives it.

use reference::refusal::Refusal;

#[test]
fn every_case_has_its_number() {
    let numbers = [
        (Refusal::FrameTooShort, 1),
        (Refusal::KindNotAllowed, 2),
        (Refusal::MustBeZero, 3),
        (Refusal::LengthTooLong, 4),
        (Refusal::DataMismatch, 5),
        (Refusal::NoSuchCommand, 6),
        (Refusal::WindowTooLong, 7),
        (Refusal::StoreLength, 8),
        (Refusal::PastWindow, 9),
        (Refusal::OutputTooShort, 10),
        (Refusal::AddressTooHigh, 11),
        (Refusal::BrokenBook, 20),
        (Refusal::NotOpen, 21),
        (Refusal::AlreadyOpen, 22),
        (Refusal::TooManyBytes, 23),
        (Refusal::TooManyRecords, 24),
        (Refusal::NoSuchRecord, 25),
        (Refusal::WindowBeyondMap, 30),
        (Refusal::TransferOutOfRange, 31),
        (Refusal::EntryMisaligned, 32),
    ];
    for (refusal, number) in numbers {
        assert_eq!(refusal.number(), number);
    }
}
