//! Document 01's sixteen refusals: number, word, and what was wrong. Those of document 02 are about journals, and no
//! tape that is played without one meets them.

pub struct Refusal {
    pub number: u8,
    pub word: &'static str,
    pub wrong: &'static str,
}

const fn refusal(number: u8, word: &'static str, wrong: &'static str) -> Refusal {
    Refusal { number, word, wrong }
}

/// By rising numbers, from 1 on.
pub const REFUSALS: [Refusal; 16] = [
    refusal(
        1,
        "wrong size",
        "the table's words are no multiple of 4 or more than 16,384, or the tape has more than 65,536 bytes",
    ),
    refusal(2, "bent table", "the words of the table are no plan"),
    refusal(3, "off the table", "a tab number is 0 or above the table's capacity"),
    refusal(4, "no tab", "a tab is absent that must be present"),
    refusal(5, "tab taken", "the tab to be put is present"),
    refusal(6, "tab held", "the tab to be taken out hangs with others"),
    refusal(7, "together", "the two tabs to be joined are in one tie (cell) already"),
    refusal(8, "apart", "the two tabs to be cut, or of a crossing, are in different ties (cells)"),
    refusal(9, "same tab", "a tab is to be cut, or crossed, with itself"),
    refusal(10, "no list", "the ring's list is empty, odd, or has more than 4,096 words"),
    refusal(11, "tie twice", "the ring crosses one tie twice"),
    refusal(12, "gap twice", "the ring starts two crossings in one gap"),
    refusal(13, "path broken", "a crossing does not end in the gap where the next one starts"),
    refusal(14, "short room", "the buffer is shorter than what is to be written"),
    refusal(15, "unknown command", "a byte of the tape is no command"),
    refusal(16, "torn command", "the tape ends inside a command"),
];

/// The refusal of a number; nothing where the number is none.
pub fn numbered(number: u8) -> Option<&'static Refusal> {
    REFUSALS.iter().find(|refusal| refusal.number == number)
}
