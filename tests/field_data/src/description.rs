//! The description that field_data/convert.cpp writes of what the ISMRMRD library holds: its header
//! tables, and for each record the header's members and checksums of the parts. One fact to a line,
//! words parted by single spaces.

use second_reader::Type;

/// A struct member of the library: `count` elements from `offset` on.
#[derive(Clone, Debug)]
pub struct Member {
    pub name: String,
    pub element: Type,
    pub count: usize,
    pub offset: usize,
}

/// One of the library's structs, with its size in the library's memory.
#[derive(Clone, Debug)]
pub struct Table {
    pub name: String,
    pub size: usize,
    pub members: Vec<Member>,
}

/// A line about a record: a name and the words after it.
#[derive(Clone, Debug)]
pub struct Fact {
    pub name: String,
    pub words: Vec<String>,
}

#[derive(Clone, Debug)]
pub struct Described {
    pub id: u16,
    pub facts: Vec<Fact>,
}

#[derive(Clone, Debug, Default)]
pub struct Description {
    pub tables: Vec<Table>,
    /// Where the encoding counters lie in the acquisition header.
    pub counters_at: usize,
    pub records: Vec<Described>,
}

impl Description {
    pub fn table(&self, name: &str) -> Result<&Table, String> {
        self.tables
            .iter()
            .find(|table| table.name == name)
            .ok_or_else(|| format!("the description has no table {name}"))
    }

    /// Reads a description. Its last line, `records N`, shows that none is missing.
    pub fn parse(text: &str) -> Result<Description, String> {
        let mut description = Description::default();
        let mut ended = false;
        for (i, line) in text.lines().enumerate() {
            let at_line = |fault| format!("line {} of the description, '{line}': {fault}", i + 1);
            if ended {
                return Err(at_line("after the end".to_string()));
            }
            ended = description.take(line).map_err(at_line)?;
        }
        if ended {
            Ok(description)
        } else {
            Err("the description has no end".to_string())
        }
    }

    /// Takes one line; true when it is the last.
    fn take(&mut self, line: &str) -> Result<bool, String> {
        let words: Vec<&str> = line.split(' ').collect();
        match words[..] {
            ["library", ..] => {}
            ["table", name, size] => self.tables.push(Table {
                name: name.to_string(),
                size: number(size)?,
                members: vec![],
            }),
            ["member", name, element, count, offset] => {
                let table = self.tables.last_mut().ok_or("no table yet")?;
                table.members.push(Member {
                    name: name.to_string(),
                    element: element_type(element)?,
                    count: number(count)?,
                    offset: number(offset)?,
                });
            }
            ["counters_at", offset] => self.counters_at = number(offset)?,
            ["record", n, id] => {
                if number::<usize>(n)? != self.records.len() {
                    return Err("not the next record".to_string());
                }
                let (id, facts) = (number(id)?, vec![]);
                self.records.push(Described { id, facts });
            }
            ["records", count] if number::<usize>(count)? == self.records.len() => return Ok(true),
            [name, ref words @ ..] => {
                let described = self.records.last_mut().ok_or("no record yet")?;
                described.facts.push(Fact {
                    name: name.to_string(),
                    words: words.iter().map(|word| word.to_string()).collect(),
                });
            }
            [] => return Err("an empty line".to_string()),
        }
        Ok(false)
    }
}

pub fn number<T: std::str::FromStr>(word: &str) -> Result<T, String> {
    word.parse()
        .map_err(|_| format!("'{word}' is no number here"))
}

fn element_type(word: &str) -> Result<Type, String> {
    match word {
        "u16" => Ok(Type::U16),
        "u32" => Ok(Type::U32),
        "u64" => Ok(Type::U64),
        "i32" => Ok(Type::I32),
        "f32" => Ok(Type::F32),
        _ => Err(format!("'{word}' is no type")),
    }
}

/// FNV-1a, as convert.cpp has it.
pub fn checksum(bytes: &[u8]) -> u64 {
    bytes.iter().fold(0xcbf2_9ce4_8422_2325, |sum, &byte| {
        (sum ^ u64::from(byte)).wrapping_mul(0x100_0000_01b3)
    })
}
