//! A value is a truth value, a whole number or a real.

/// The kind of a cell and of every value that it takes.
#[derive(Clone, Copy, Debug, PartialEq, Eq)]
pub enum Kind {
    /// Kind 1.
    Truth = 1,
    /// Kind 2.
    Whole = 2,
    /// Kind 3.
    Real = 3,
}

impl Kind {
    /// All kinds, in the order of their numbers.
    pub const ALL: [Kind; 3] = [Kind::Truth, Kind::Whole, Kind::Real];

    /// The kind with this number.
    pub fn numbered(number: u8) -> Option<Kind> {
        Kind::ALL.into_iter().find(|kind| kind.number() == number)
    }

    /// The kind with this name in the text form.
    pub fn named(name: &str) -> Option<Kind> {
        Kind::ALL.into_iter().find(|kind| kind.name() == name)
    }

    /// Its number, 1 to 3.
    pub fn number(self) -> u8 {
        self as u8
    }

    /// Its name in the text form.
    pub fn name(self) -> &'static str {
        match self {
            Kind::Truth => "truth",
            Kind::Whole => "whole",
            Kind::Real => "real",
        }
    }
}

/// A value with its kind.
#[derive(Clone, Copy, Debug)]
pub enum Value {
    /// Word 0 or 1.
    Truth(bool),
    /// A 32-bit two's complement word.
    Whole(i32),
    /// The bits of a finite binary32 number.
    Real(f32),
}

impl Value {
    /// The value that this word stands for in a cell of this kind, if the word
    /// is legal there.
    pub fn from_word(kind: Kind, word: u32) -> Option<Value> {
        match (kind, word) {
            (Kind::Truth, 0) => Some(Value::Truth(false)),
            (Kind::Truth, 1) => Some(Value::Truth(true)),
            (Kind::Truth, _) => None,
            (Kind::Whole, _) => Some(Value::Whole(word as i32)),
            (Kind::Real, _) => {
                let real = f32::from_bits(word);
                real.is_finite().then_some(Value::Real(real))
            }
        }
    }

    /// The value that a kind number and a word describe, if both are legal.
    pub fn described(kind: u8, word: u32) -> Option<Value> {
        Value::from_word(Kind::numbered(kind)?, word)
    }

    /// Its kind.
    pub fn kind(self) -> Kind {
        match self {
            Value::Truth(_) => Kind::Truth,
            Value::Whole(_) => Kind::Whole,
            Value::Real(_) => Kind::Real,
        }
    }

    /// Its word.
    pub fn word(self) -> u32 {
        match self {
            Value::Truth(truth) => u32::from(truth),
            Value::Whole(whole) => whole as u32,
            Value::Real(real) => real.to_bits(),
        }
    }

    /// Whether a cell may have it. Only a real that is not finite is illegal.
    pub fn is_legal(self) -> bool {
        Value::from_word(self.kind(), self.word()).is_some()
    }
}

/// Values are equal if their words are: the two zeros of the reals are kept
/// apart, which the comparison of floating-point numbers would not do.
impl PartialEq for Value {
    fn eq(&self, other: &Value) -> bool {
        (self.kind(), self.word()) == (other.kind(), other.word())
    }
}

impl Eq for Value {}
