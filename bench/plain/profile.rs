//! The profile of TimeML: the known tags, and for each the attributes that mean something with the rules of their values.

#![cfg_attr(rustfmt, rustfmt_skip)]

use crate::source::{Source, Span};

#[derive(Clone, Copy, PartialEq, PartialOrd)]
pub enum Kind { Event, Instance, Time, Signal, TimeLink, AspectLink, SubordinationLink, Root, Wrapper }

impl Kind {
    /// The kind of a tag by its name, the first eight bytes of which are known.
    #[inline(always)]
    pub fn named(source: Source, name: Span, word: u64) -> Option<Kind> {
        let (text, kind) = &NAMES[slot(word)];
        text.is(source, name, word).then_some(*kind)
    }

    /// Whether it holds neither tags nor text.
    #[inline(always)]
    pub fn is_link(self) -> bool {
        matches!(self, Kind::Instance | Kind::TimeLink | Kind::AspectLink | Kind::SubordinationLink)
    }

    pub const fn bit(self) -> u16 {
        1 << self as u16
    }

    #[inline(always)]
    pub fn profile(self) -> &'static Profile {
        &PROFILES[self as usize]
    }
}

/// The place of a name in the table by its first eight bytes, which tell all known names apart: the factor was tried out.
#[inline(always)]
const fn slot(word: u64) -> usize {
    (word.wrapping_mul(0x202cc8284c717095) >> 58) as usize
}

static NAMES: [(Text, Kind); 64] = {
    let mut table = [const { (Text::new(""), Kind::Wrapper) }; 64];
    let mut index = 0;
    while index < KNOWN.len() {
        let (name, kind) = KNOWN[index];
        let text = Text::new(name);
        let slot = slot(text.word);
        assert!(table[slot].0.text.is_empty());
        table[slot] = (text, kind);
        index += 1;
    }
    table
};

const KNOWN: [(&str, Kind); 25] = [
    ("EVENT", Kind::Event), ("MAKEINSTANCE", Kind::Instance), ("TIMEX3", Kind::Time), ("SIGNAL", Kind::Signal), ("TLINK", Kind::TimeLink),
    ("ALINK", Kind::AspectLink), ("SLINK", Kind::SubordinationLink), ("TimeML", Kind::Root), ("s", Kind::Wrapper), ("S", Kind::Wrapper),
    ("p", Kind::Wrapper), ("P", Kind::Wrapper), ("DOC", Kind::Wrapper), ("DCT", Kind::Wrapper), ("TEXT", Kind::Wrapper),
    ("BODY", Kind::Wrapper), ("DOCID", Kind::Wrapper), ("DOCNO", Kind::Wrapper), ("TITLE", Kind::Wrapper), ("NUMEX", Kind::Wrapper),
    ("ENAMEX", Kind::Wrapper), ("HEADLINE", Kind::Wrapper), ("EXTRAINFO", Kind::Wrapper), ("CONFIDENCE", Kind::Wrapper),
    ("TIMEX3INTERVAL", Kind::Wrapper),
];

/// A word of the profile, with its first eight bytes.
#[derive(Clone, Copy)]
pub struct Text {
    pub word: u64,
    pub text: &'static str,
}

impl Text {
    pub const fn new(text: &'static str) -> Text {
        let (mut word, mut index, bytes) = (0, 0, text.as_bytes());
        while index < bytes.len() && index < 8 {
            word |= (bytes[index] as u64) << (8 * index);
            index += 1;
        }
        Text { word, text }
    }

    /// Whether a name is this one, the first eight bytes of which are known.
    #[inline(always)]
    pub fn is(&self, source: Source, name: Span, word: u64) -> bool {
        self.word == word && self.text.len() == name.len as usize && (name.len <= 8 || self.text.as_bytes()[8..] == source.text(name)[8..])
    }
}

/// What the value of an attribute may be.
pub enum Rule {
    Identifier,
    Reference(Kind),
    OneOf(&'static [Text]),
    Any,
}

pub struct Field {
    pub name: Text,
    pub rule: Rule,
}

/// The attributes of a tag that mean something, as bits those that are required, and the pairs of which one is.
pub struct Profile {
    pub fields: &'static [Field],
    pub required: u32,
    pub pairs: &'static [u32],
}

pub const MOST_FIELDS: usize = 9;

/// A list of fields: the name of each, and its rule.
macro_rules! fields {
    ($($name:literal $rule:expr),* $(,)?) => {
        &[$(Field { name: Text::new($name), rule: $rule }),*]
    };
}

macro_rules! one_of {
    ($($text:literal)*) => {
        Rule::OneOf(&[$(Text::new($text)),*])
    };
}

use Rule::{Any, Identifier, Reference};

static PROFILES: [Profile; 9] = [
    Profile { fields: EVENT, required: 0b11, pairs: &[] },
    Profile { fields: INSTANCE, required: 0b11, pairs: &[] },
    Profile { fields: TIME, required: 0b11, pairs: &[] },
    Profile { fields: SIGNAL, required: 0b1, pairs: &[] },
    Profile { fields: TIME_LINK, required: 0b1, pairs: &[0b110, 0b11000] },
    Profile { fields: ASPECT_LINK, required: 0b111, pairs: &[] },
    Profile { fields: SUBORDINATION_LINK, required: 0b11, pairs: &[] },
    Profile { fields: &[], required: 0, pairs: &[] },
    Profile { fields: &[], required: 0, pairs: &[] },
];

static EVENT: &[Field] = fields! {
    "eid" Identifier,
    "class" one_of!("OCCURRENCE" "PERCEPTION" "REPORTING" "ASPECTUAL" "STATE" "I_STATE" "I_ACTION"),
};

static INSTANCE: &[Field] = fields! {
    "eiid" Identifier,
    "eventID" Reference(Kind::Event),
    "tense" one_of!("PAST" "PRESENT" "FUTURE" "INFINITIVE" "PRESPART" "PASTPART" "NONE"),
    "aspect" one_of!("PROGRESSIVE" "PERFECTIVE" "PERFECTIVE_PROGRESSIVE" "NONE"),
    "pos" one_of!("ADJECTIVE" "NOUN" "VERB" "PREPOSITION" "OTHER" "PREP" "UNKNOWN"),
    "polarity" one_of!("POS" "NEG"),
    "signalID" Reference(Kind::Signal),
};

static TIME: &[Field] = fields! {
    "tid" Identifier,
    "type" one_of!("DATE" "TIME" "DURATION" "SET"),
    "value" Any,
    "mod" one_of!(
        "BEFORE" "AFTER" "ON_OR_BEFORE" "ON_OR_AFTER" "LESS_THAN" "MORE_THAN" "EQUAL_OR_LESS" "EQUAL_OR_MORE" "START" "MID"
        "END" "APPROX"
    ),
    "functionInDocument" one_of!(
        "CREATION_TIME" "EXPIRATION_TIME" "MODIFICATION_TIME" "PUBLICATION_TIME" "RELEASE_TIME" "RECEPTION_TIME" "NONE"
    ),
    "temporalFunction" one_of!("true" "false"),
    "anchorTimeID" Reference(Kind::Time),
    "beginPoint" Reference(Kind::Time),
    "endPoint" Reference(Kind::Time),
};

static SIGNAL: &[Field] = fields! { "sid" Identifier };

/// The relations of TLINK, in the order of their table.
pub static RELATIONS: [Text; 16] = [
    Text::new("BEFORE"), Text::new("AFTER"), Text::new("INCLUDES"), Text::new("IS_INCLUDED"), Text::new("DURING"),
    Text::new("DURING_INV"), Text::new("SIMULTANEOUS"), Text::new("IDENTITY"), Text::new("IBEFORE"), Text::new("IAFTER"),
    Text::new("BEGINS"), Text::new("BEGUN_BY"), Text::new("ENDS"), Text::new("ENDED_BY"), Text::new("OVERLAPS"),
    Text::new("OVERLAPPED_BY"),
];

static TIME_LINK: &[Field] = fields! {
    "relType" Rule::OneOf(&RELATIONS),
    "eventInstanceID" Reference(Kind::Instance),
    "timeID" Reference(Kind::Time),
    "relatedToEventInstance" Reference(Kind::Instance),
    "relatedToTime" Reference(Kind::Time),
    "lid" Identifier,
    "signalID" Reference(Kind::Signal),
};

static ASPECT_LINK: &[Field] = fields! {
    "eventInstanceID" Reference(Kind::Instance),
    "relatedToEventInstance" Reference(Kind::Instance),
    "relType" one_of!("INITIATES" "CULMINATES" "TERMINATES" "CONTINUES" "REINITIATES"),
    "lid" Identifier,
    "signalID" Reference(Kind::Signal),
};

static SUBORDINATION_LINK: &[Field] = fields! {
    "subordinatedEventInstance" Reference(Kind::Instance),
    "relType" one_of!("MODAL" "EVIDENTIAL" "NEG_EVIDENTIAL" "FACTIVE" "COUNTER_FACTIVE" "CONDITIONAL" "INTENSIONAL"),
    "eventInstanceID" Reference(Kind::Instance),
    "lid" Identifier,
    "signalID" Reference(Kind::Signal),
};
