//! A stream against the description of what it was made from: every header element by its offset,
//! every flag, every part, and the counters as a search finds them.

use crate::description::{checksum, number, Described, Description, Fact, Member};
use crate::readers::{Library, Part, Reader, SecondReader};
use crate::tables;
use second_reader::{Field, Kind, Layout, Mask, Type};

/// What was compared, for the line that a passed check prints.
#[derive(Clone, Copy, Debug, Default, PartialEq, Eq)]
pub struct Compared {
    pub records: usize,
    pub elements: usize,
    pub flags: usize,
    pub parts: usize,
}

impl Compared {
    /// Adds what was compared in another stream.
    pub fn add(&mut self, other: Compared) {
        self.records += other.records;
        self.elements += other.elements;
        self.flags += other.flags;
        self.parts += other.parts;
    }
}

/// Judges the proved library and the second reader under one layout. They must give the same places.
pub fn check_both(
    layout: Layout,
    stream: &[u8],
    described: &Description,
) -> Result<Compared, String> {
    let (library, second) = (Library(layout), SecondReader(layout));
    let mut compared = vec![];
    for reader in [&library as &dyn Reader, &second] {
        let of_reader = check(reader, stream, described);
        compared.push(of_reader.map_err(|difference| format!("{}: {difference}", reader.name()))?);
    }
    let (library, second) = (library.places(stream), second.places(stream));
    if library != second {
        return Err(format!("the places differ: {library:?} and {second:?}"));
    }
    Ok(compared[0])
}

/// Checks the description's tables, then the stream through one reader. The first difference ends it.
pub fn check(
    reader: &dyn Reader,
    stream: &[u8],
    described: &Description,
) -> Result<Compared, String> {
    if let Some(difference) = tables::differences(described)?.first() {
        return Err(difference.clone());
    }
    let places = reader
        .places(stream)
        .map_err(|refusal| format!("the stream is refused with {refusal}"))?;
    let ids: Vec<u16> = places.iter().map(|place| place.id).collect();
    let described_ids: Vec<u16> = described.records.iter().map(|record| record.id).collect();
    if ids != described_ids {
        return Err(format!("the kinds are {ids:?}, not {described_ids:?}"));
    }
    let mut compared = Compared::default();
    for (n, record) in described.records.iter().enumerate() {
        let kind = Kind::of_id(record.id).ok_or("a kind that document 01 lacks")?;
        let members = tables::stream_members(described, kind, reader.layout())?;
        let question = Question {
            reader,
            stream,
            n: n as u64,
            kind,
            members: &members,
        };
        question
            .record(record, &mut compared)
            .map_err(|difference| format!("record {n}: {difference}"))?;
    }
    Ok(compared)
}

/// One record, asked about through a reader.
struct Question<'a> {
    reader: &'a dyn Reader,
    stream: &'a [u8],
    n: u64,
    kind: Kind,
    members: &'a [Member],
}

impl Question<'_> {
    fn record(&self, described: &Described, compared: &mut Compared) -> Result<(), String> {
        let (mut members, mut flags, mut masks, mut parts) = (0, 0, 0, 0);
        for fact in &described.facts {
            if let Some(member) = self.members.iter().find(|member| member.name == fact.name) {
                compared.elements += self.member(member, fact)?;
                members += 1;
            } else if fact.name == "flags_set" {
                flags += self.flags(fact)?;
            } else if fact.name == "mask_channels" {
                self.mask(fact)?;
                masks += 1;
            } else {
                self.part(fact)?;
                parts += 1;
            }
        }
        let acquisition = self.kind == Kind::Acquisition;
        let due = (
            self.members.len(),
            if acquisition { 64 } else { 0 },
            usize::from(acquisition),
            self.parts_due()?,
        );
        if (members, flags, masks, parts) != due {
            let described = (members, flags, masks, parts);
            return Err(format!(
                "{described:?} members, flags, masks and parts are described, {due:?} are due"
            ));
        }
        if acquisition {
            self.found_by_counters()?;
        }
        compared.flags += flags;
        compared.parts += parts;
        compared.records += 1;
        Ok(())
    }

    fn field(&self, offset: usize) -> Result<Field, String> {
        self.reader
            .field(self.stream, self.n, offset as u64)
            .map_err(|refusal| format!("offset {offset} is refused with {refusal}"))
    }

    /// Each element of a member; gives their number.
    fn member(&self, member: &Member, fact: &Fact) -> Result<usize, String> {
        if fact.words.len() != member.count {
            return Err(format!("{} has {} elements", fact.name, fact.words.len()));
        }
        for (i, word) in fact.words.iter().enumerate() {
            let offset = member.offset + i * member.element.size();
            let (read, held) = (self.field(offset)?, value(member.element, word)?);
            if read != held {
                return Err(format!(
                    "{}[{i}] at {offset} is {read:?}, not {held:?}",
                    fact.name
                ));
            }
        }
        Ok(member.count)
    }

    /// The flags that the library finds set are those that the reader finds, and no others.
    fn flags(&self, fact: &Fact) -> Result<usize, String> {
        let offset = self.offset_of("flags")?;
        let Field::Whole(flags) = self.field(offset)? else {
            return Err("the flags are no whole number".to_string());
        };
        let described: Result<Vec<u32>, String> =
            fact.words.iter().map(|word| number(word)).collect();
        let read: Vec<u32> = (0..=66).filter(|&n| self.reader.flag(flags, n)).collect();
        if described? == read {
            Ok(64)
        } else {
            Err(format!("the flags set are {read:?}, not {:?}", fact.words))
        }
    }

    /// The channels that the library finds named in the mask are those that are read, and what the mask says goes by
    /// their number.
    fn mask(&self, fact: &Fact) -> Result<(), String> {
        let described: Result<Vec<usize>, String> =
            fact.words.iter().map(|word| number(word)).collect();
        let (described, read) = (described?, self.mask_channels()?);
        if described != read {
            return Err(format!("the mask names {read:?}, not {described:?}"));
        }
        let ones = described.len() as u32;
        let held = match ones {
            0 => Mask::NotStated,
            _ if u64::from(ones) == self.active_channels()? => Mask::Agrees { ones },
            _ => Mask::Differs { ones },
        };
        match self.reader.mask(self.stream, self.n) {
            Ok(Some(read)) if read == held => Ok(()),
            other => Err(format!("its mask is {other:?}, not {held:?}")),
        }
    }

    fn mask_channels(&self) -> Result<Vec<usize>, String> {
        let at = self.offset_of("channel_mask")?;
        let mut channels = vec![];
        for word in 0..16 {
            let Field::Whole(bits) = self.field(at + 8 * word)? else {
                return Err("the mask is no whole number".to_string());
            };
            let set = (0..64).filter(|bit| bits >> bit & 1 == 1);
            channels.extend(set.map(|bit| 64 * word + bit));
        }
        Ok(channels)
    }

    fn active_channels(&self) -> Result<u64, String> {
        match self.field(self.offset_of("active_channels")?)? {
            Field::Whole(channels) => Ok(channels),
            other => Err(format!("the active channels are {other:?}")),
        }
    }

    fn offset_of(&self, name: &str) -> Result<usize, String> {
        let member = self.members.iter().find(|member| member.name == name);
        member
            .map(|member| member.offset)
            .ok_or_else(|| format!("the header has no {name}"))
    }

    /// A part's length and checksum: `NAME LENGTH SUM`, or `channel NUMBER LENGTH SUM`.
    fn part(&self, fact: &Fact) -> Result<(), String> {
        let words: Vec<&str> = fact.words.iter().map(String::as_str).collect();
        let (part, length, sum) = match (fact.name.as_str(), &words[..]) {
            ("channel", [channel, length, sum]) => (Part::Channel(number(channel)?), length, sum),
            ("text", [length, sum]) => (Part::Text, length, sum),
            ("attributes", [length, sum]) => (Part::Attributes, length, sum),
            ("trajectory", [length, sum]) => (Part::Trajectory, length, sum),
            ("pixels", [length, sum]) => (Part::Pixels, length, sum),
            ("waveform", [length, sum]) => (Part::Waveform, length, sum),
            _ => return Err(format!("the description has '{}' of it", fact.name)),
        };
        let view = self
            .reader
            .view(self.stream, self.n, part)
            .map_err(|refusal| format!("{part:?} is refused with {refusal}"))?;
        let held = (number::<usize>(length)?, sum.to_string());
        let read = (view.len(), format!("{:016x}", checksum(view)));
        if read == held {
            Ok(())
        } else {
            Err(format!(
                "{part:?} has length and checksum {read:?}, not {held:?}"
            ))
        }
    }

    /// How many parts the description has to tell: the trajectory and each active channel of an
    /// acquisition, after which there is no further channel.
    fn parts_due(&self) -> Result<usize, String> {
        match self.kind {
            Kind::Close => Ok(0),
            Kind::Acquisition => {
                let channels = self.active_channels()?;
                match self
                    .reader
                    .view(self.stream, self.n, Part::Channel(channels))
                {
                    Err(17) => Ok(1 + channels as usize),
                    other => Err(format!("a channel past the last: {other:?}")),
                }
            }
            Kind::Image => Ok(2),
            _ => Ok(1),
        }
    }

    /// A search from this record on for its own counters stops at it.
    fn found_by_counters(&self) -> Result<(), String> {
        let mut counters = [0; 17];
        let at = self.offset_of("kspace_encode_step_1")?;
        for (i, counter) in counters.iter_mut().enumerate() {
            match self.field(at + 2 * i)? {
                Field::Whole(number) => *counter = number as u16,
                other => return Err(format!("counter {i} is {other:?}")),
            }
        }
        match self.reader.find(self.stream, self.n, counters) {
            Ok(found) if found == self.n => Ok(()),
            other => Err(format!("the search for its counters gives {other:?}")),
        }
    }
}

/// A header element as the description writes it: floats by their bits in hex.
fn value(element: Type, word: &str) -> Result<Field, String> {
    match element {
        Type::U16 | Type::U32 | Type::U64 => number(word).map(Field::Whole),
        Type::I32 => number(word).map(Field::Signed),
        Type::F32 => u32::from_str_radix(word, 16)
            .map(Field::Float)
            .map_err(|_| format!("'{word}' are no float's bits")),
    }
}
