//! The clear text encoding of the exchange structure (ISO 10303-21): an index of a file's instances. Values are read
//! from the bytes when they are asked for, so that the index is small.

use crate::fault::{fail, Fault, Result};
use std::collections::HashMap;

/// How deep lists may lie within one another.
const MOST_DEPTH: usize = 32;

/// One value of an instance.
#[derive(Clone, Debug, PartialEq)]
pub enum Value<'a> {
    /// `$` or `*`.
    Null,
    Number(f64),
    /// A text as it is spelled, with its apostrophes.
    Text(&'a [u8]),
    /// An enumeration without its points.
    Enumeration(&'a [u8]),
    Reference(u64),
    List(Vec<Value<'a>>),
    /// A keyword with values, such as `IFCLENGTHMEASURE(1.)`.
    Typed(&'a [u8], Vec<Value<'a>>),
    Binary,
}

const NULL: Value<'static> = Value::Null;

impl<'a> Value<'a> {
    /// The value within a typed one, else the value itself.
    pub fn inner(&self) -> &Value<'a> {
        match self {
            Value::Typed(_, values) => values.first().unwrap_or(&NULL),
            other => other,
        }
    }

    pub fn is_null(&self) -> bool {
        matches!(self, Value::Null)
    }

    pub fn number(&self) -> Result<f64> {
        match self.inner() {
            Value::Number(number) => Ok(*number),
            _ => fail("a number is missing"),
        }
    }

    /// A whole number that isn't negative; one that is too great counts nothing in any list.
    pub fn index(&self) -> Result<usize> {
        let number = self.number()?;
        if !(0.0..=4e9).contains(&number) {
            return fail("an index that counts nothing");
        }
        Ok(number as usize)
    }

    /// The number of the instance that is referred to, 0 if none is.
    pub fn reference(&self) -> u64 {
        match self.inner() {
            Value::Reference(id) => *id,
            _ => 0,
        }
    }

    /// The values of a list, of a typed list too; none of anything else.
    pub fn list(&self) -> &[Value<'a>] {
        match self.inner() {
            Value::List(values) => values,
            _ => &[],
        }
    }

    pub fn enumeration(&self) -> &'a [u8] {
        match self.inner() {
            Value::Enumeration(word) => word,
            _ => b"",
        }
    }

    /// Whether it is `.F.`; a logical that is missing or unknown counts as true.
    pub fn is_false(&self) -> bool {
        self.enumeration() == b"F"
    }

    pub fn text(&self) -> Option<&'a [u8]> {
        match self.inner() {
            Value::Text(text) => Some(text),
            _ => None,
        }
    }
}

/// The values of an instance. One that is missing is null.
#[derive(Debug)]
pub struct Arguments<'a>(Vec<Value<'a>>);

impl<'a> Arguments<'a> {
    pub fn len(&self) -> usize {
        self.0.len()
    }

    pub fn is_empty(&self) -> bool {
        self.0.is_empty()
    }

    pub fn get(&self, place: usize) -> &Value<'a> {
        self.0.get(place).unwrap_or(&NULL)
    }

    pub fn has(&self, place: usize) -> bool {
        !self.get(place).is_null()
    }

    pub fn number(&self, place: usize) -> Result<f64> {
        self.get(place).number()
    }

    pub fn number_or(&self, place: usize, other: f64) -> Result<f64> {
        if self.has(place) {
            self.number(place)
        } else {
            Ok(other)
        }
    }

    pub fn reference(&self, place: usize) -> u64 {
        self.get(place).reference()
    }

    pub fn list(&self, place: usize) -> &[Value<'a>] {
        self.get(place).list()
    }

    pub fn references(&self, place: usize) -> impl Iterator<Item = u64> + '_ {
        self.list(place).iter().map(|value| value.reference())
    }
}

/// Where an instance stands.
#[derive(Clone, Copy)]
struct Record {
    id: u64,
    /// The byte behind the keyword.
    place: u32,
    keyword: u32,
}

/// A file's bytes and the index over them.
pub struct File {
    bytes: Vec<u8>,
    records: Vec<Record>,
    keywords: Vec<String>,
    /// The first record of each bucket of numbers, so that a search is short.
    buckets: Vec<u32>,
    shift: u32,
    pub schema: String,
    /// Instances whose number is used more than once; the first one counts.
    pub doubled: usize,
}

/// The instance that `File::records` gives.
pub struct Instance<'f> {
    pub id: u64,
    pub keyword: &'f str,
}

impl File {
    /// Indexes a file. Fails where it is none, or ends too early.
    pub fn read(bytes: Vec<u8>) -> Result<File> {
        if bytes.len() >= u32::MAX as usize {
            return fail("the file has 4 GiB or more: split it in the office's program");
        }
        let mut file = File {
            bytes,
            records: Vec::new(),
            keywords: Vec::new(),
            buckets: Vec::new(),
            shift: 0,
            schema: String::new(),
            doubled: 0,
        };
        file.index()?;
        file.sort();
        Ok(file)
    }

    pub fn size(&self) -> usize {
        self.bytes.len()
    }

    pub fn count(&self) -> usize {
        self.records.len()
    }

    /// All instances by rising number.
    pub fn instances(&self) -> impl Iterator<Item = Instance<'_>> + '_ {
        self.records.iter().map(move |record| Instance {
            id: record.id,
            keyword: &self.keywords[record.keyword as usize],
        })
    }

    fn index(&mut self) -> Result<()> {
        let mut words = Words::default();
        let mut schema = None;
        let mut records = Vec::with_capacity(self.bytes.len() / 64);
        let mut scan = Scan::new(&self.bytes);
        if !scan.begins() {
            return fail("this is no IFC file: it doesn't begin with ISO-10303-21");
        }
        loop {
            scan.skip_blanks();
            match scan.peek() {
                None => return fail("the file ends before END-ISO-10303-21: it was cut off"),
                Some(b'#') => records.push(scan.instance(&mut words)?),
                Some(_) => {
                    let words = scan.statement().ok_or_else(|| cut_off("a statement"))?;
                    if words.starts_with(b"END-ISO-10303-21") {
                        break;
                    }
                    if schema.is_none() && words.starts_with(b"FILE_SCHEMA") {
                        schema = Some(schema_name(words));
                    }
                }
            }
        }
        self.records = records;
        self.keywords = words.names;
        self.schema = schema.unwrap_or_default();
        Ok(())
    }

    fn sort(&mut self) {
        if !self.records.windows(2).all(|pair| pair[0].id <= pair[1].id) {
            self.records.sort_by_key(|record| record.id); // a stable sort: the first one of a number stays first
        }
        let before = self.records.len();
        self.records.dedup_by_key(|record| record.id);
        self.doubled = before - self.records.len();
        self.records.shrink_to_fit();
        let last = self.records.last().map_or(0, |record| record.id);
        let wanted = (self.records.len() as u64 / 8).max(1);
        while self.shift < 60 && (last >> self.shift) > wanted {
            self.shift += 1;
        }
        let count = (last >> self.shift) as usize + 2;
        self.buckets = vec![0; count];
        let mut bucket = 0;
        for (place, record) in self.records.iter().enumerate() {
            let own = (record.id >> self.shift) as usize;
            while bucket < own {
                bucket += 1;
                self.buckets[bucket] = place as u32;
            }
        }
        for rest in &mut self.buckets[bucket + 1..] {
            *rest = self.records.len() as u32;
        }
    }

    fn find(&self, id: u64) -> Option<&Record> {
        let bucket = usize::try_from(id >> self.shift).ok()?;
        let (first, last) = (self.buckets.get(bucket)?, self.buckets.get(bucket + 1)?);
        let part = &self.records[*first as usize..*last as usize];
        let place = part.binary_search_by_key(&id, |record| record.id).ok()?;
        Some(&part[place])
    }

    /// The keyword of an instance in upper case; empty where there is no such instance, or a complex one.
    pub fn keyword(&self, id: u64) -> &str {
        match self.find(id) {
            Some(record) => &self.keywords[record.keyword as usize],
            None => "",
        }
    }

    /// The byte behind the keyword of an instance.
    pub fn place(&self, id: u64) -> Option<usize> {
        self.find(id).map(|record| record.place as usize)
    }

    /// The values of an instance.
    pub fn arguments(&self, id: u64) -> Result<Arguments<'_>> {
        let mut scan = self.scan_at(id)?;
        match scan.list(0) {
            Ok(values) => Ok(Arguments(values)),
            Err(fault) => Err(fault.at(id)),
        }
    }

    fn scan_at(&self, id: u64) -> Result<Scan<'_>> {
        let record = match self.find(id) {
            Some(record) => record,
            None if id == 0 => return fail("a reference is missing"),
            None => return fail(format!("#{id} isn't there")),
        };
        let mut scan = Scan::new(&self.bytes);
        scan.at = record.place as usize;
        scan.skip_blanks();
        if scan.peek() != Some(b'(') {
            return Err(Fault::new("an instance of several entities").at(id));
        }
        Ok(scan)
    }

    /// The numbers of an instance whose first value is a list of up to three: a point or a direction.
    pub fn coordinates(&self, id: u64) -> Result<[f64; 3]> {
        let mut scan = self.scan_at(id)?;
        scan.at += 1;
        scan.skip_blanks();
        scan.row().map(|row| row.0).map_err(|fault| fault.at(id))
    }

    /// The rows of an instance whose first value is a list of rows of numbers: a list of points.
    pub fn rows(&self, id: u64) -> Result<Vec<[f64; 3]>> {
        self.rows_of(id, 0)
    }

    /// The rows of the value at a place that is a list of rows of up to three numbers.
    pub fn rows_of(&self, id: u64, place: usize) -> Result<Vec<[f64; 3]>> {
        let mut scan = self.scan_at(id)?;
        scan.at += 1;
        scan.rows_at(place).map_err(|fault| fault.at(id))
    }
}

fn cut_off(what: &str) -> Fault {
    Fault::new(format!("the file ends within {what}: it was cut off"))
}

fn schema_name(statement: &[u8]) -> String {
    let text = statement.split(|&byte| byte == b'\'').nth(1);
    String::from_utf8_lossy(text.unwrap_or(b"")).to_uppercase()
}

/// Keywords, each with a number.
#[derive(Default)]
struct Words {
    names: Vec<String>,
    numbers: HashMap<Vec<u8>, u32>,
}

impl Words {
    fn number(&mut self, spelled: &[u8]) -> u32 {
        if let Some(&number) = self.numbers.get(spelled) {
            return number;
        }
        let upper = String::from_utf8_lossy(spelled).to_ascii_uppercase();
        let number = match self.names.iter().position(|name| *name == upper) {
            Some(place) => place as u32,
            None => {
                self.names.push(upper);
                (self.names.len() - 1) as u32
            }
        };
        self.numbers.insert(spelled.to_vec(), number);
        number
    }
}

/// A place within the bytes that moves on.
struct Scan<'a> {
    bytes: &'a [u8],
    at: usize,
}

fn is_word(byte: u8) -> bool {
    byte.is_ascii_alphanumeric() || byte == b'_'
}

impl<'a> Scan<'a> {
    fn new(bytes: &'a [u8]) -> Scan<'a> {
        Scan { bytes, at: 0 }
    }

    fn peek(&self) -> Option<u8> {
        self.bytes.get(self.at).copied()
    }

    fn begins(&mut self) -> bool {
        if self.bytes.starts_with(b"\xEF\xBB\xBF") {
            self.at = 3;
        }
        self.skip_blanks();
        self.bytes[self.at..].starts_with(b"ISO-10303-21")
    }

    fn is_comment(&self) -> bool {
        self.bytes[self.at..].starts_with(b"/*")
    }

    /// To the next byte that is neither a blank nor within a comment. A comment without an end is none.
    fn skip_blanks(&mut self) {
        loop {
            while let Some(b' ' | 9..=13) = self.peek() {
                self.at += 1;
            }
            if self.peek() != Some(b'/') || !self.is_comment() || !self.skip_comment() {
                return;
            }
        }
    }

    fn skip_comment(&mut self) -> bool {
        let inside = &self.bytes[self.at + 2..];
        match inside.windows(2).position(|pair| pair == b"*/") {
            Some(length) => {
                self.at += length + 4;
                true
            }
            None => false,
        }
    }

    fn skip_text(&mut self) {
        self.at += 1;
        while let Some(byte) = self.peek() {
            self.at += 1;
            if byte == b'\'' {
                if self.peek() != Some(b'\'') {
                    return;
                }
                self.at += 1;
            }
        }
    }

    /// The bytes up to a semicolon outside of texts and comments, which is passed too.
    fn statement(&mut self) -> Option<&'a [u8]> {
        let start = self.at;
        while let Some(byte) = self.peek() {
            match byte {
                b';' => {
                    self.at += 1;
                    return Some(&self.bytes[start..self.at]);
                }
                b'\'' => self.skip_text(),
                b'/' if self.is_comment() => {
                    if !self.skip_comment() {
                        self.at += 1;
                    }
                }
                _ => self.at += 1,
            }
        }
        None
    }

    fn whole(&mut self) -> u64 {
        let mut number: u64 = 0;
        while let Some(digit @ b'0'..=b'9') = self.peek() {
            number = number
                .saturating_mul(10)
                .saturating_add(u64::from(digit - b'0'));
            self.at += 1;
        }
        number
    }

    fn word(&mut self) -> &'a [u8] {
        let start = self.at;
        while self.peek().map_or(false, is_word) {
            self.at += 1;
        }
        &self.bytes[start..self.at]
    }

    fn instance(&mut self, words: &mut Words) -> Result<Record> {
        self.at += 1;
        let id = self.whole();
        self.skip_blanks();
        if self.peek() != Some(b'=') {
            return fail(format!("#{id} has no = at byte {}", self.at));
        }
        self.at += 1;
        self.skip_blanks();
        let keyword = words.number(self.word());
        let place = self.at as u32;
        match self.statement() {
            Some(_) => Ok(Record { id, place, keyword }),
            None => Err(cut_off(&format!("#{id}"))),
        }
    }

    fn list(&mut self, depth: usize) -> Result<Vec<Value<'a>>> {
        let mut values = Vec::new();
        self.at += 1;
        self.skip_blanks();
        if self.peek() == Some(b')') {
            self.at += 1;
            return Ok(values);
        }
        loop {
            values.push(self.value(depth)?);
            self.skip_blanks();
            match self.peek() {
                Some(b',') => self.at += 1,
                Some(b')') => {
                    self.at += 1;
                    return Ok(values);
                }
                _ => return fail("a list isn't closed"),
            }
        }
    }

    fn value(&mut self, depth: usize) -> Result<Value<'a>> {
        if depth > MOST_DEPTH {
            return fail("lists lie too deep within one another");
        }
        self.skip_blanks();
        let start = self.at;
        let byte = match self.peek() {
            Some(byte) => byte,
            None => return fail("a value is missing"),
        };
        match byte {
            b'$' | b'*' => {
                self.at += 1;
                Ok(Value::Null)
            }
            b'#' => {
                self.at += 1;
                Ok(Value::Reference(self.whole()))
            }
            b'(' => Ok(Value::List(self.list(depth + 1)?)),
            b'\'' => {
                self.skip_text();
                Ok(Value::Text(&self.bytes[start..self.at]))
            }
            b'"' => {
                self.pass_behind(b'"');
                Ok(Value::Binary)
            }
            b'.' if !self.bytes.get(start + 1).map_or(false, u8::is_ascii_digit) => {
                self.pass_behind(b'.');
                let end = self.at.saturating_sub(1).max(start + 1);
                Ok(Value::Enumeration(
                    self.bytes.get(start + 1..end).unwrap_or(b""),
                ))
            }
            byte if is_word(byte) && !byte.is_ascii_digit() => self.typed(depth),
            _ => Ok(Value::Number(self.number()?)),
        }
    }

    /// Behind the next byte of this kind.
    fn pass_behind(&mut self, mark: u8) {
        self.at += 1;
        while self.peek().map_or(false, |byte| byte != mark) {
            self.at += 1;
        }
        self.at = (self.at + 1).min(self.bytes.len());
    }

    fn typed(&mut self, depth: usize) -> Result<Value<'a>> {
        let word = self.word();
        self.skip_blanks();
        let values = if self.peek() == Some(b'(') {
            self.list(depth + 1)?
        } else {
            Vec::new()
        };
        Ok(Value::Typed(word, values))
    }

    fn number(&mut self) -> Result<f64> {
        let start = self.at;
        while let Some(b'0'..=b'9' | b'+' | b'-' | b'.' | b'e' | b'E') = self.peek() {
            self.at += 1;
        }
        let spelled = std::str::from_utf8(&self.bytes[start..self.at]).unwrap_or("");
        match spelled.parse::<f64>() {
            Ok(number) if number.is_finite() => Ok(number),
            _ => fail("a value that is no number"),
        }
    }

    /// Up to three numbers in parentheses, and how many there are; further ones are passed over.
    fn row(&mut self) -> Result<([f64; 3], usize)> {
        let (mut row, mut count) = ([0.0; 3], 0);
        if self.peek() != Some(b'(') {
            return fail("coordinates are missing");
        }
        self.at += 1;
        loop {
            self.skip_blanks();
            match self.peek() {
                Some(b')') => {
                    self.at += 1;
                    return Ok((row, count));
                }
                Some(b',') => self.at += 1,
                Some(byte) if is_word(byte) && !byte.is_ascii_digit() => {
                    let number = self.typed(0)?.number()?;
                    add_to(&mut row, &mut count, number);
                }
                _ => {
                    let number = self.number()?;
                    add_to(&mut row, &mut count, number);
                }
            }
        }
    }

    fn rows_at(&mut self, place: usize) -> Result<Vec<[f64; 3]>> {
        for _ in 0..place {
            self.value(0)?;
            self.skip_blanks();
            if self.peek() != Some(b',') {
                return fail("a list is missing");
            }
            self.at += 1;
        }
        self.skip_blanks();
        let mut rows = Vec::new();
        if self.peek() != Some(b'(') {
            return fail("a list of coordinates is missing");
        }
        self.at += 1;
        loop {
            self.skip_blanks();
            match self.peek() {
                Some(b'(') => rows.push(self.row()?.0),
                Some(b',') => self.at += 1,
                Some(b')') => return Ok(rows),
                _ => return fail("a list isn't closed"),
            }
        }
    }
}

fn add_to(row: &mut [f64; 3], count: &mut usize, number: f64) {
    if let Some(place) = row.get_mut(*count) {
        *place = number;
    }
    *count += 1;
}

#[cfg(test)]
mod tests {
    use super::*;

    fn file(data: &str) -> Result<File> {
        let text = format!(
            "ISO-10303-21;\nHEADER;\nFILE_SCHEMA(('ifc4'));\nENDSEC;\nDATA;\n{data}ENDSEC;\nEND-ISO-10303-21;\n"
        );
        File::read(text.into_bytes())
    }

    #[test]
    fn values_of_every_kind() {
        let file =
            file("#7=ifcwall('a''b;',$,*,.T.,#12,(1.,-2.E1),IFCLABEL('x'),\"0A\",/* ; */3);\n")
                .unwrap();
        assert_eq!(file.schema, "IFC4");
        assert_eq!(file.keyword(7), "IFCWALL");
        let values = file.arguments(7).unwrap();
        assert_eq!(values.len(), 9);
        assert_eq!(values.get(0).text(), Some(&b"'a''b;'"[..]));
        assert!(!values.has(1) && !values.has(2));
        assert_eq!(values.get(3).enumeration(), b"T");
        assert_eq!(values.reference(4), 12);
        assert_eq!(values.list(5)[1], Value::Number(-20.0));
        assert_eq!(values.get(6).text(), Some(&b"'x'"[..]));
        assert_eq!(values.get(7), &Value::Binary);
        assert_eq!(values.number(8), Ok(3.0));
        assert!(!values.has(9));
    }

    #[test]
    fn instances_in_any_order_are_found() {
        let file = file("#900000000=A(1);\n#3=B(2);\n#5=C(3);\n#3=D(4);\n").unwrap();
        assert_eq!(file.count(), 3);
        assert_eq!(file.doubled, 1);
        assert_eq!(file.keyword(900000000), "A");
        assert_eq!(file.keyword(3), "B");
        assert_eq!(file.keyword(5), "C");
        assert_eq!(file.keyword(4), "");
        assert!(file.arguments(4).is_err());
    }

    #[test]
    fn rows_of_numbers() {
        let file = file("#1=P((1.,2.));\n#2=L(((1.,2.,3.),(4.,5.,6.)));\n#3=T(#2,$,((7,8,9)));\n")
            .unwrap();
        assert_eq!(file.coordinates(1), Ok([1.0, 2.0, 0.0]));
        assert_eq!(file.rows(2).unwrap()[1], [4.0, 5.0, 6.0]);
        assert_eq!(file.rows_of(3, 2).unwrap(), vec![[7.0, 8.0, 9.0]]);
        assert!(file.rows(1).is_err());
    }

    #[test]
    fn files_that_are_none() {
        for text in [
            "",
            "x",
            "ISO-10303-21;",
            "ISO-10303-21;DATA;#1=A('",
            "ISO-10303-21;#1 A();",
        ] {
            assert!(File::read(text.as_bytes().to_vec()).is_err(), "{text}");
        }
        let nested = format!("#1=A({}1{});\n", "(".repeat(99), ")".repeat(99));
        assert!(file(&nested).unwrap().arguments(1).is_err());
        assert!(file("#1=A(1.E400);\n").unwrap().arguments(1).is_err());
    }
}
