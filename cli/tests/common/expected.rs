//! The answer that each command ought to give with `--json`, from what the second reader says of the stream.

use super::json::Object;
use super::members::{
    counters_object, element_name, field_value, kind_name, mask_words, missing, object,
    part_object, put, refusal_object,
};
use super::pages;
use second_reader::headers::{read_element, Entry};
use second_reader::utf8::is_well_formed;
use second_reader::{
    counter_step, parts_of, Detail, Field, HeaderByte, Kind, Mask, MessagePart, Part, Record,
    Refusal, Refused, Rules, Saved, StreamParts,
};
use serde_json::{json, Value};

/// What standard output and the exit status ought to be.
pub struct Answer {
    pub objects: Vec<Value>,
    pub status: i32,
}

/// A stream in a file, and what the second reader says of it under the rules of a call.
pub struct Told<'a> {
    pub rules: Rules,
    pub file: &'a str,
    pub stream: &'a [u8],
    pub records: Vec<Record>,
    pub refusal: Option<Refusal>,
}

/// What `list` and `find` are asked to show.
#[derive(Clone, Copy)]
pub struct Shown {
    pub from: u64,
    pub limit: usize,
}

impl Shown {
    pub const ALL: Shown = Shown {
        from: 0,
        limit: usize::MAX,
    };
}

impl<'a> Told<'a> {
    pub fn new(rules: Rules, file: &'a str, stream: &'a [u8]) -> Told<'a> {
        let (records, refusal) = second_reader::records_before_fault(rules, stream);
        Told {
            rules,
            file,
            stream,
            records,
            refusal,
        }
    }

    pub fn accepted(&self) -> bool {
        self.refusal.is_none()
    }

    pub fn status(&self) -> i32 {
        i32::from(!self.accepted())
    }

    /// The members that the answer of every command has.
    fn judged(&self, command: &str) -> Object {
        object(json!({
            "command": command,
            "file": self.file,
            "accepted": self.accepted(),
            "bytes": self.stream.len(),
        }))
    }

    /// The same with the number of records, or the refusal.
    pub fn verdict(&self, command: &str) -> Object {
        let mut answer = self.judged(command);
        match self.refusal {
            None => put(&mut answer, "records", self.records.len()),
            Some(refusal) => put(&mut answer, "refusal", refusal_object(refusal.into())),
        }
        answer
    }

    /// The verdict, with a refused stream the other layout's too.
    pub fn verdict_of_layouts(&self, command: &str) -> Object {
        let mut answer = self.verdict(command);
        if !self.accepted() {
            let other = second_reader::check(self.rules.with_other_layout(), self.stream);
            put(&mut answer, "other_layout_accepted", other.is_ok());
        }
        answer
    }

    pub fn check(&self) -> Answer {
        self.one(self.verdict_of_layouts("check"))
    }

    fn one(&self, answer: Object) -> Answer {
        Answer {
            objects: vec![answer.into()],
            status: self.status(),
        }
    }

    /// The answer to a question about one record or byte. One that has none tells of the stream and the refusal alone.
    fn question(&self, command: &str, asked: Result<Object, Refused>) -> Answer {
        let mut answer = self.judged(command);
        let status = i32::from(asked.is_err());
        match asked {
            Ok(members) => answer.extend(members),
            Err(refused) => put(&mut answer, "refusal", refusal_object(refused)),
        }
        Answer {
            objects: vec![answer.into()],
            status,
        }
    }

    /// The header element of that name.
    pub fn whole(&self, record: &Record, name: &str, i: usize) -> u64 {
        let table = record.detail.kind().table(self.rules);
        let header = &self.stream[record.start as usize + 2..];
        table.expect("a header").whole(header, name, i)
    }

    pub fn readouts(&self) -> impl Iterator<Item = &Record> {
        let is_readout = |record: &&Record| record.detail.kind() == Kind::Acquisition;
        self.records.iter().filter(is_readout)
    }

    pub fn list(&self, shown: Shown, kinds: &[Kind]) -> Answer {
        let wanted = |record: &&Record| {
            record.number >= shown.from
                && (kinds.is_empty() || kinds.contains(&record.detail.kind()))
        };
        let listed = self.records.iter().filter(wanted).take(shown.limit);
        let mut objects: Vec<Value> = listed.map(|record| self.numbers(record).into()).collect();
        let mut last = self.verdict("list");
        put(&mut last, "listed", objects.len());
        objects.push(last.into());
        Answer {
            objects,
            status: self.status(),
        }
    }

    /// A record with its kind's numbers.
    fn numbers(&self, record: &Record) -> Object {
        let kind = record.detail.kind();
        let mut numbers = object(json!({
            "record": record.number,
            "kind": kind_name(kind),
            "id": kind.id(),
            "start": record.start,
            "size": record.size,
        }));
        numbers.extend(self.numbers_of_kind(record));
        numbers
    }

    fn numbers_of_kind(&self, record: &Record) -> Object {
        object(match record.detail {
            Detail::Close => json!({}),
            Detail::ConfigurationName { length }
            | Detail::ConfigurationText { length }
            | Detail::HeaderText { length }
            | Detail::Text { length } => json!({ "length": length }),
            Detail::Acquisition {
                samples,
                active_channels,
                dimensions,
                mask,
            } => json!({
                "scan_counter": self.whole(record, "scan_counter", 0),
                "number_of_samples": samples,
                "active_channels": active_channels,
                "trajectory_dimensions": dimensions,
                "mask": mask_words(mask).0,
                "mask_ones": mask_words(mask).1,
            }),
            Detail::Image {
                matrix_size,
                channels,
                data_type,
                attribute_length,
            } => json!({
                "matrix_size": matrix_size,
                "channels": channels,
                "data_type": data_type,
                "attribute_length": attribute_length,
            }),
            Detail::Waveform { samples, channels } => json!({
                "scan_counter": self.whole(record, "scan_counter", 0),
                "waveform_id": self.whole(record, "waveform_id", 0),
                "number_of_samples": samples,
                "channels": channels,
            }),
        })
    }

    pub fn counters(&self, record: &Record) -> Vec<u64> {
        (0..17).map(|i| self.whole(record, "counters", i)).collect()
    }

    /// The readouts that pass `wanted`; of a refused stream the refusal alone.
    pub fn find(&self, shown: Shown, wanted: impl Fn(&Record) -> bool) -> Answer {
        let mut last = self.verdict("find");
        let mut objects = Vec::new();
        if self.accepted() {
            let met = |record: &&Record| record.number >= shown.from && wanted(record);
            let found = self.readouts().filter(met).take(shown.limit);
            objects.extend(found.map(|record| Value::from(self.found(record))));
            put(&mut last, "found", objects.len());
        }
        let status = i32::from(objects.is_empty());
        objects.push(last.into());
        Answer { objects, status }
    }

    fn found(&self, record: &Record) -> Object {
        let mut found = self.numbers(record);
        put(
            &mut found,
            "measurement_uid",
            self.whole(record, "measurement_uid", 0),
        );
        put(&mut found, "flags", self.flags(record));
        put(
            &mut found,
            "counters",
            counters_object(&self.counters(record)),
        );
        found
    }

    /// The flags that are set, by their names where the kind is one whose flags have names.
    fn flags(&self, record: &Record) -> Vec<String> {
        let set = pages::flags_set(self.whole(record, "flags", 0)).into_iter();
        match record.detail.kind() {
            Kind::Acquisition => set.map(pages::flag_name).collect(),
            _ => set.map(|n| format!("flag_{n}")).collect(),
        }
    }

    /// Each readout but the first with the one before it, and the step between their scan counters.
    pub fn steps<'t>(&'t self) -> Vec<(&'t Record, &'t Record, i32)> {
        let readouts: Vec<&'t Record> = self.readouts().collect();
        let counter = |record| self.whole(record, "scan_counter", 0) as u32;
        let step = |pair: &[&'t Record]| {
            let step = counter_step(counter(pair[0]), counter(pair[1]));
            (pair[0], pair[1], step)
        };
        readouts.windows(2).map(step).collect()
    }

    pub fn gaps(&self) -> Answer {
        let steps = self.steps();
        let off = steps.iter().filter(|step| step.2 != 1);
        let mut objects: Vec<Value> = off.map(|step| self.step_object(step)).collect();
        let count = |is: fn(i32) -> bool| steps.iter().filter(|step| is(step.2)).count();
        let missing: i64 = steps.iter().map(|step| missing(step.2)).sum();
        let mut last = self.verdict("gaps");
        put(&mut last, "readouts", self.readouts().count());
        put(&mut last, "gaps", count(|step| step > 1));
        put(&mut last, "missing", missing);
        put(&mut last, "repeats", count(|step| step == 0));
        put(&mut last, "steps_back", count(|step| step < 0));
        let status = i32::from(!objects.is_empty() || !self.accepted());
        objects.push(last.into());
        Answer { objects, status }
    }

    fn step_object(&self, &(from, to, step): &(&Record, &Record, i32)) -> Value {
        let readout = |record: &Record| {
            json!({
                "record": record.number,
                "scan_counter": self.whole(record, "scan_counter", 0),
                "measurement_uid": self.whole(record, "measurement_uid", 0),
            })
        };
        let word = match step {
            0 => "repeat",
            ..=-1 => "back",
            _ => "gap",
        };
        let mut told = object(json!({ "step": word, "counter_step": step }));
        if step > 1 {
            put(&mut told, "missing", missing(step));
        }
        put(&mut told, "from", readout(from));
        put(&mut told, "to", readout(to));
        told.into()
    }

    pub fn show(&self, number: u64) -> Answer {
        let record = self.record(number);
        let told = record.map(|record| self.everything(&record));
        self.question("show", told)
    }

    /// The record of that number: the stream's refusal, then 16.
    pub fn record(&self, number: u64) -> Result<Record, Refused> {
        match self.refusal {
            Some(refusal) => Err(refusal.into()),
            None => self
                .records
                .get(number as usize)
                .copied()
                .ok_or(Refused::Other(16)),
        }
    }

    fn everything(&self, record: &Record) -> Object {
        let mut told = self.numbers(record);
        if record.detail.kind().table(self.rules).is_some() {
            put(&mut told, "header", self.header(record));
            put(&mut told, "flags", self.flags(record));
        }
        let parts = parts_of(self.rules, record);
        let shown: Vec<Value> = parts.iter().map(|part| part_object(part).into()).collect();
        put(&mut told, "parts", shown);
        if let Some(text) = self.text(record) {
            put(&mut told, "text", String::from_utf8_lossy(text));
            put(&mut told, "utf8", is_well_formed(text));
        }
        told
    }

    /// The name, text or attributes of a record.
    pub fn text(&self, record: &Record) -> Option<&[u8]> {
        let name = second_reader::message::text_part(record.detail.kind())?;
        let (start, length) = record.detail.part(self.rules, name)?;
        Some(&self.stream[record.start as usize + start as usize..][..length as usize])
    }

    /// Every element of a header by its name.
    fn header(&self, record: &Record) -> Object {
        let table = record.detail.kind().table(self.rules).expect("a header");
        let mut header = Object::new();
        for entry in table.entries {
            let values = (0..entry.count).map(|i| self.element(record, entry, i));
            let value = match entry.count {
                1 => self.element(record, entry, 0),
                _ if entry.name == "counters" => counters_object(&self.counters(record)).into(),
                _ => values.collect(),
            };
            put(&mut header, entry.name, value);
        }
        header
    }

    fn element(&self, record: &Record, entry: &Entry, i: usize) -> Value {
        let header = &self.stream[record.start as usize + 2..];
        let offset = entry.offset + i * entry.element.size();
        field_value(read_element(header, offset, entry.element))
    }

    pub fn at(&self, byte: u64) -> Answer {
        let found = StreamParts::of(self.rules, self.stream).map_err(Refused::from);
        let told = found.and_then(|parts| parts.at(byte)).map(|at| {
            let kind = at.record.detail.kind();
            let mut told = object(json!({
                "byte": byte,
                "record": at.record.number,
                "kind": kind_name(kind),
                "id": kind.id(),
                "start": at.record.start,
                "size": at.record.size,
                "within": part_object(&(at.part, at.place)),
            }));
            match at.header_byte {
                None => {}
                Some(HeaderByte::Filler) => put(&mut told, "filler", true),
                Some(HeaderByte::Element { offset, .. }) => put(
                    &mut told,
                    "element",
                    self.element_at(&at.record, offset as usize),
                ),
            }
            told
        });
        self.question("at", told)
    }

    /// The element that starts at an offset of a header.
    fn element_at(&self, record: &Record, offset: usize) -> Value {
        let table = record.detail.kind().table(self.rules).expect("a header");
        let size = |entry: &Entry| entry.element.size();
        let holds = |entry: &&Entry| {
            (entry.offset..entry.offset + entry.count * size(entry)).contains(&offset)
        };
        let entry = table.entries.iter().find(holds).expect("an entry");
        let i = (offset - entry.offset) / size(entry);
        json!({
            "name": element_name(entry, i),
            "offset": offset,
            "size": size(entry),
            "value": self.element(record, entry, i),
        })
    }

    /// The answer of `index` or `normal` that wrote so many bytes, or of the refused stream.
    pub fn written(&self, command: &str, output: &str, bytes: usize) -> Answer {
        let mut answer = self.verdict(command);
        if self.accepted() {
            put(&mut answer, "output", output);
            put(&mut answer, "output_bytes", bytes);
        }
        self.one(answer)
    }

    pub fn salvage(&self, output: &str) -> Answer {
        let report = Saved::of(self.rules, self.stream).report;
        let mut answer = self.verdict("salvage");
        put(&mut answer, "messages_kept", report.messages_kept);
        put(&mut answer, "bytes_not_kept", report.bytes_not_kept);
        put(&mut answer, "close_added", report.close_added);
        put(&mut answer, "output", output);
        put(&mut answer, "output_bytes", report.length);
        Answer {
            objects: vec![answer.into()],
            status: 0,
        }
    }

    /// The answer of `verify` for an index file that holds `given`.
    pub fn verify(&self, index: &str, given: &[u8]) -> Answer {
        let mut answer = self.verdict("verify");
        put(&mut answer, "index", index);
        let mut status = self.status();
        if let Ok(own) = second_reader::index_bytes(self.rules, self.stream) {
            put(&mut answer, "matches", own == given);
            if own != given {
                let alike = own
                    .iter()
                    .zip(given)
                    .take_while(|(own, given)| own == given);
                put(&mut answer, "difference", json!({ "byte": alike.count() }));
                answer.remove("records");
                put(&mut answer, "refusal", refusal_object(Refused::Other(15)));
                status = 1;
            }
        }
        Answer {
            objects: vec![answer.into()],
            status,
        }
    }

    /// The answer of `extract` with an output, for the part that a question of the second reader gave.
    pub fn extract(&self, asked: &Extracted, part: Result<Part, Refused>) -> Answer {
        let told = part.map(|place| {
            let mut within = object(json!({
                "part": asked.part,
                "start": place.start,
                "size": place.length,
            }));
            if let Some(channel) = asked.channel {
                put(&mut within, "channel", channel);
            }
            object(json!({
                "record": asked.record,
                "within": within,
                "output": asked.output,
                "output_bytes": asked.output_bytes,
                "format": asked.format,
            }))
        });
        self.question("extract", told)
    }
}

/// What `extract` was asked for, and what it ought to have written.
pub struct Extracted<'a> {
    pub record: u64,
    pub part: &'a str,
    pub channel: Option<u64>,
    pub output: &'a str,
    pub output_bytes: usize,
    pub format: &'a str,
}
