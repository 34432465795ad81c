//! The trace file, read as document 01 describes it: a header of eight bytes, then events of twelve.

/// The largest file: a header and 4,096 events.
pub const MAX_SIZE: usize = 49_160;

/// Codes that are named elsewhere. All but the re-entry are outcomes.
pub const FAILED: u8 = 2;
pub const NO_SAFE: u8 = 4;
pub const MESSAGE: u8 = 5;
pub const RE_ENTRY: u8 = 11;

/// The flag of the setting "standard".
const STANDARD: u8 = 8;

/// What the header says.
#[derive(Debug, Clone, Copy, PartialEq, Eq, Hash, PartialOrd, Ord)]
pub struct Header {
    pub flags: u8,
    pub hard_limit: u8,
    pub caps_limit: u8,
}

impl Header {
    /// The header in a file, or none if it is bad.
    pub fn read(file: &[u8]) -> Option<Self> {
        if file.len() > MAX_SIZE || file.len() < 8 || file[..3] != *b"PES" || file[3..5] != [1, 0] || file[5] > 15 {
            return None;
        }
        Some(Self { flags: file[5], hard_limit: file[6], caps_limit: file[7] })
    }

    pub fn dual_role(&self) -> bool {
        self.flags & 1 != 0
    }

    pub fn role_swapped(&self) -> bool {
        self.flags & 2 != 0
    }

    pub fn vconn_source(&self) -> bool {
        self.flags & 4 != 0
    }

    /// Whether the setting is "standard"; it is "crate" otherwise.
    pub fn standard(&self) -> bool {
        self.flags & STANDARD != 0
    }

    /// The same port under "standard".
    pub fn under_standard(self) -> Self {
        Self { flags: self.flags | STANDARD, ..self }
    }

    /// Whether these are the crate's own limits and VCONN source, as document 01's domain has them.
    pub fn in_domain(&self) -> bool {
        self.vconn_source() && self.hard_limit == 3 && self.caps_limit == 50
    }

    /// Whether creation is refused with R7.
    pub fn is_refused(&self) -> bool {
        self.hard_limit == 0 || self.caps_limit == 0 || (self.role_swapped() && !self.dual_role())
    }
}

/// An event: an outcome or a re-entry.
#[derive(Debug, Clone, Copy, PartialEq, Eq, Default)]
pub struct Event {
    pub code: u8,
    pub a: u8,
    pub b: u16,
    pub words: [u32; 2],
}

impl Event {
    pub const fn new(code: u8, a: u8, b: u16) -> Self {
        Self { code, a, b, words: [0, 0] }
    }

    /// A request of a class (0 Request, 1 EprRequest) and kind.
    pub fn request(class: u8, kind: u16, words: [u32; 2]) -> Self {
        let second = if kind == 5 { words[1] } else { 0 };
        Self { code: 5, a: class, b: kind + 1, words: [words[0], second] }
    }

    /// A message of class 2 or 4 with a good payload.
    pub fn with_word(class: u8, word: u32) -> Self {
        Self { code: 5, a: class, b: 1, words: [word, 0] }
    }

    /// The event in twelve bytes, or none if it is bad.
    pub fn read(bytes: &[u8]) -> Option<Self> {
        let word = |at: usize| u32::from_le_bytes([bytes[at], bytes[at + 1], bytes[at + 2], bytes[at + 3]]);
        let b = u16::from_le_bytes([bytes[2], bytes[3]]);
        let event = Self { code: bytes[0], a: bytes[1], b, words: [word(4), word(8)] };
        event.is_good().then_some(event)
    }

    pub fn bytes(&self) -> [u8; 12] {
        let mut bytes = [0; 12];
        bytes[0] = self.code;
        bytes[1] = self.a;
        bytes[2..4].copy_from_slice(&self.b.to_le_bytes());
        bytes[4..8].copy_from_slice(&self.words[0].to_le_bytes());
        bytes[8..].copy_from_slice(&self.words[1].to_le_bytes());
        bytes
    }

    fn is_good(&self) -> bool {
        let no_words = self.words == [0, 0];
        match self.code {
            1 | 3 | 4 => self.a == 0 && self.b == 0 && no_words,
            2 => self.b == 0 && no_words,
            5 => self.is_good_message(),
            6 => self.a <= 5 && self.b == 0 && no_words,
            7 => self.a <= 2 && self.b == 0 && no_words,
            8 => self.a <= 1 && self.b == 0 && no_words,
            9 => self.a <= 8 && self.b == 0 && no_words,
            10 => (1..=3).contains(&self.a) && self.b == 0 && no_words,
            RE_ENTRY => no_words,
            _ => false,
        }
    }

    fn is_good_message(&self) -> bool {
        let [first, second] = self.words;
        let no_words = self.words == [0, 0];
        match (self.a, self.b) {
            (0 | 1, 0) => no_words,
            (0 | 1, 1..=5) => second == 0,
            (0 | 1, 6) => true,
            (2 | 4, 0) => no_words,
            (2, 1) => second == 0,
            (3, 0..=31) => no_words,
            (4, 1) => first <= 255 && second == 0,
            (5, 0) => no_words,
            (6 | 7, 0 | 1) => no_words,
            _ => false,
        }
    }
}

/// The bytes of a trace.
pub fn file(header: Header, events: &[Event]) -> Vec<u8> {
    let mut file = b"PES\x01\x00".to_vec();
    file.extend([header.flags, header.hard_limit, header.caps_limit]);
    for event in events {
        file.extend(event.bytes());
    }
    file
}
