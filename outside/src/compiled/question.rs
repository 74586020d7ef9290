//! One shape for every call of the library: a question lends memory and runs
//! of bytes, a reply has all numbers and all lent bytes as they are after.

/// The calls of the library, each by its number in a frame.
#[derive(Clone, Copy, Debug, PartialEq, Eq)]
pub enum Symbol {
    Judge,
    Ground,
    Rows,
    Citation,
    Metadata,
    KeyBlock,
    ReadBlock,
}

/// The bytes of a key row in lent memory: five numbers of four.
pub const ROW: usize = 20;

/// What one call is asked, and everything that it is lent.
#[derive(Clone, Debug)]
pub struct Question<'a> {
    pub symbol: Symbol,
    /// The key whose citation is asked for, or the number of the metadata text.
    pub asked: u32,
    /// The memory for rows or for a block, with the margins at both its ends
    /// that are not lent.
    pub memory: Vec<u8>,
    pub margin: usize,
    /// The file, with the outside text; or the three runs of a block.
    pub runs: [&'a [u8]; 3],
}

impl<'a> Question<'a> {
    /// A question on one file, with nothing else lent.
    pub fn on(symbol: Symbol, file: &'a [u8]) -> Self {
        Question { symbol, asked: 0, memory: Vec::new(), margin: 0, runs: [file, &[], &[]] }
    }

    /// With this memory lent, less its margins.
    pub fn lending(mut self, memory: Vec<u8>, margin: usize) -> Self {
        (self.memory, self.margin) = (memory, margin);
        self
    }

    /// All lent bytes: the memory, then the runs.
    pub fn bytes(&self) -> Vec<u8> {
        [&self.memory[..], self.runs[0], self.runs[1], self.runs[2]].concat()
    }

    /// How many they are.
    pub fn length(&self) -> usize {
        self.memory.len() + self.runs.iter().map(|run| run.len()).sum::<usize>()
    }

    /// The bytes of the memory that the call may write.
    pub fn room(&self) -> std::ops::Range<usize> {
        self.margin..self.memory.len() - self.margin
    }
}

/// What a number is that a call has not written.
pub const UNWRITTEN: u32 = 0xA5A5_A5A5;
const UNWRITTEN_WIDE: u64 = 0xA5A5_A5A5_A5A5_A5A5;

/// The numbers that a call gives. A call leaves those that it does not have.
#[derive(Clone, Copy, Debug, PartialEq, Eq)]
#[repr(C)]
pub struct Numbers {
    pub verdict: u32,
    pub place: u32,
    /// The form, the number of keys, or where a text is from.
    pub third: u32,
    /// The minor revision of a key block.
    pub fourth: u32,
    /// Six doubles and four corners by their bits; start and length of a
    /// text; or the three lengths of a block.
    pub wide: [u64; 10],
}

impl Default for Numbers {
    fn default() -> Self {
        let [verdict, place, third, fourth] = [UNWRITTEN; 4];
        Numbers { verdict, place, third, fourth, wide: [UNWRITTEN_WIDE; 10] }
    }
}

impl Numbers {
    /// Their size in a frame.
    pub const SIZE: usize = size_of::<Numbers>();

    /// The numbers of a frame, each the lowest byte first.
    pub fn read(record: &[u8; Numbers::SIZE]) -> Self {
        let word = |at: usize| u32::from_le_bytes(record[at..at + 4].try_into().expect("four"));
        let wide = |at: usize| u64::from_le_bytes(record[at..at + 8].try_into().expect("eight"));
        Numbers {
            verdict: word(0),
            place: word(4),
            third: word(8),
            fourth: word(12),
            wide: std::array::from_fn(|i| wide(16 + 8 * i)),
        }
    }
}

/// What a call gives, and all lent bytes as they are after it.
#[derive(Clone, Debug, PartialEq, Eq)]
pub struct Reply {
    pub numbers: Numbers,
    pub bytes: Vec<u8>,
}

impl Reply {
    /// How this reply differs from the one it must be.
    pub fn fault(&self, question: &Question, want: &Reply) -> Option<String> {
        if self == want {
            return None;
        }
        let (got, must) = (self.numbers, want.numbers);
        let byte = (0..want.bytes.len()).find(|&at| self.bytes[at] != want.bytes[at]);
        let byte = byte.map(|at| (at, self.bytes[at], want.bytes[at]));
        let (asked, room) = (question.asked, question.room());
        let about = format!("{:?} of {asked} with {room:?} lent", question.symbol);
        Some(format!(
            "{about} gives {got:?}\n  not {must:?}\n  first wrong byte {byte:?}\n  on {:02X?}",
            question.runs
        ))
    }
}
