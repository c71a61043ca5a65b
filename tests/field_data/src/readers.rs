//! The two readers that are judged by the description: the proved library by its C functions, and the
//! second reader. Each reads under one layout of waveform headers, and both answer in the second
//! reader's types.

use cotterleaf::{Kind, Refusal, Stream};
use second_reader::{Detail, Field, GivenIndex, Layout, Mask, Rules};

/// Number, first byte, size with the id, and id of a record.
#[derive(Clone, Copy, Debug, PartialEq, Eq)]
pub struct Place {
    pub number: u64,
    pub start: u64,
    pub size: u64,
    pub id: u16,
}

#[derive(Clone, Copy, Debug, PartialEq, Eq)]
pub enum Part {
    Text,
    Attributes,
    Trajectory,
    Channel(u64),
    Pixels,
    Waveform,
}

/// The questions that the check asks; a refusal is its number.
pub trait Reader {
    fn name(&self) -> &'static str;
    fn layout(&self) -> Layout;
    fn places(&self, stream: &[u8]) -> Result<Vec<Place>, u32>;
    fn field(&self, stream: &[u8], n: u64, offset: u64) -> Result<Field, u32>;
    fn view<'a>(&self, stream: &'a [u8], n: u64, part: Part) -> Result<&'a [u8], u32>;
    fn find(&self, stream: &[u8], n: u64, counters: [u16; 17]) -> Result<u64, u32>;
    /// What the mask of record n says; none where it is no acquisition.
    fn mask(&self, stream: &[u8], n: u64) -> Result<Option<Mask>, u32>;
    fn flag(&self, flags: u64, n: u32) -> bool;
}

/// The proved library.
pub struct Library(pub Layout);

impl Library {
    fn stream<'a>(&self, bytes: &'a [u8]) -> Stream<'a> {
        let rules = match self.0 {
            Layout::Packed => cotterleaf::Rules::packed(),
            Layout::Aligned => cotterleaf::Rules::aligned(),
        };
        Stream::new(rules, bytes)
    }
}

fn number_of(refusal: Refusal) -> u32 {
    refusal.number
}

impl Reader for Library {
    fn name(&self) -> &'static str {
        "library"
    }

    fn layout(&self) -> Layout {
        self.0
    }

    /// The check's answer and the walk's records, which must agree in number.
    fn places(&self, stream: &[u8]) -> Result<Vec<Place>, u32> {
        let stream = self.stream(stream);
        let count = stream.check().map_err(number_of)?;
        let mut places = Vec::new();
        for record in stream.records() {
            let record = record.map_err(number_of)?;
            places.push(Place {
                number: record.number as u64,
                start: record.start as u64,
                size: record.size as u64,
                id: record.kind.id(),
            });
        }
        assert_eq!(
            places.len(),
            count,
            "the walk's records and the check's count"
        );
        Ok(places)
    }

    fn field(&self, stream: &[u8], n: u64, offset: u64) -> Result<Field, u32> {
        match self.stream(stream).field(n as usize, offset as usize) {
            Ok(cotterleaf::Field::Whole(number)) => Ok(Field::Whole(number)),
            Ok(cotterleaf::Field::Signed(number)) => Ok(Field::Signed(number)),
            Ok(cotterleaf::Field::Float { bits }) => Ok(Field::Float(bits)),
            Err(refusal) => Err(refusal.number),
        }
    }

    fn view<'a>(&self, stream: &'a [u8], n: u64, part: Part) -> Result<&'a [u8], u32> {
        let part = match part {
            Part::Text => cotterleaf::Part::Text,
            Part::Attributes => cotterleaf::Part::Attributes,
            Part::Trajectory => cotterleaf::Part::Trajectory,
            Part::Channel(channel) => cotterleaf::Part::Channel(channel as usize),
            Part::Pixels => cotterleaf::Part::Pixels,
            Part::Waveform => cotterleaf::Part::Waveform,
        };
        self.stream(stream)
            .view(n as usize, part)
            .map_err(number_of)
    }

    fn find(&self, stream: &[u8], n: u64, counters: [u16; 17]) -> Result<u64, u32> {
        let found = self.stream(stream).find(n as usize, &counters);
        found.map(|number| number as u64).map_err(number_of)
    }

    fn mask(&self, stream: &[u8], n: u64) -> Result<Option<Mask>, u32> {
        let record = self.stream(stream).place(n as usize).map_err(number_of)?;
        Ok(match record.kind {
            Kind::Acquisition { mask, .. } => Some(match mask {
                cotterleaf::Mask::NotStated => Mask::NotStated,
                cotterleaf::Mask::Agrees { ones } => Mask::Agrees { ones: ones.into() },
                cotterleaf::Mask::Differs { ones } => Mask::Differs { ones: ones.into() },
            }),
            _ => None,
        })
    }

    fn flag(&self, flags: u64, n: u32) -> bool {
        cotterleaf::flag_test(flags, n)
    }
}

pub struct SecondReader(pub Layout);

impl SecondReader {
    fn rules(&self) -> Rules {
        Rules {
            layout: self.0,
            ..Rules::default()
        }
    }
}

impl Reader for SecondReader {
    fn name(&self) -> &'static str {
        "second reader"
    }

    fn layout(&self) -> Layout {
        self.0
    }

    fn places(&self, stream: &[u8]) -> Result<Vec<Place>, u32> {
        let records =
            second_reader::records(self.rules(), stream).map_err(|refusal| refusal.number)?;
        Ok(records
            .iter()
            .map(|record| Place {
                number: record.number,
                start: record.start,
                size: record.size,
                id: record.detail.kind().id(),
            })
            .collect())
    }

    fn field(&self, stream: &[u8], n: u64, offset: u64) -> Result<Field, u32> {
        second_reader::field(self.rules(), stream, GivenIndex::NONE, n, offset)
            .map_err(|refused| refused.number())
    }

    fn view<'a>(&self, stream: &'a [u8], n: u64, part: Part) -> Result<&'a [u8], u32> {
        let (rules, given) = (self.rules(), GivenIndex::NONE);
        let answer = match part {
            Part::Text => second_reader::text(rules, stream, given, n),
            Part::Attributes => second_reader::attributes(rules, stream, given, n),
            Part::Trajectory => second_reader::trajectory(rules, stream, given, n),
            Part::Channel(channel) => second_reader::channel(rules, stream, given, n, channel),
            Part::Pixels => second_reader::pixels(rules, stream, given, n),
            Part::Waveform => second_reader::waveform(rules, stream, given, n),
        };
        answer
            .map(|part| second_reader::bytes_of(stream, part))
            .map_err(|refused| refused.number())
    }

    fn find(&self, stream: &[u8], n: u64, counters: [u16; 17]) -> Result<u64, u32> {
        second_reader::find(self.rules(), stream, GivenIndex::NONE, n, &counters)
            .map_err(|refused| refused.number())
    }

    fn mask(&self, stream: &[u8], n: u64) -> Result<Option<Mask>, u32> {
        match second_reader::kind_and_place(self.rules(), stream, GivenIndex::NONE, n) {
            Ok(record) => Ok(match record.detail {
                Detail::Acquisition { mask, .. } => Some(mask),
                _ => None,
            }),
            Err(refused) => Err(refused.number()),
        }
    }

    fn flag(&self, flags: u64, n: u32) -> bool {
        second_reader::flag_is_set(flags, u64::from(n))
    }
}
