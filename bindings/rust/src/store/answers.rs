//! Answers as bytes, which `docs/CALLS.md` specifies. What is not as specified is `None`.

use std::str;

use super::calls::{BLOB, INTEGER, KEY, MOST, NOT_NULL, NULL, TEXT};
use super::error::StoreError;
use super::parts::{
    Choice, Column, Conflict, ConflictKind, OwnedValue, Page, Report, ResolvedConflict,
};
use crate::Code;

/// The number of the answer that a call is refused.
const REFUSED: u8 = 11;

/// An answer that is expected: its number, and what reads its parts.
pub(super) struct Answer<T> {
    number: u8,
    parts: fn(&mut Reader<'_>) -> Option<T>,
}

pub(super) const DONE: Answer<()> = Answer {
    number: 0,
    parts: |_| Some(()),
};
pub(super) const NAMES: Answer<Vec<String>> = Answer {
    number: 1,
    parts: |it| it.list(Reader::text),
};
pub(super) const SCHEMA: Answer<Vec<Column>> = Answer {
    number: 2,
    parts: |it| it.list(Reader::column),
};
pub(super) const ROW: Answer<Option<Vec<OwnedValue>>> = Answer {
    number: 3,
    parts: |it| it.optional(Reader::values),
};
pub(super) const ROWS: Answer<Page> = Answer {
    number: 4,
    parts: |it| it.page(),
};
pub(super) const NUMBER: Answer<u64> = Answer {
    number: 5,
    parts: |it| it.number(),
};
pub(super) const REPORT: Answer<Report> = Answer {
    number: 6,
    parts: |it| it.report(),
};
pub(super) const CONFLICTS: Answer<Vec<Conflict>> = Answer {
    number: 7,
    parts: |it| it.list(Reader::conflict),
};
pub(super) const CHANGESET: Answer<Vec<u8>> = Answer {
    number: 8,
    parts: |it| it.file().map(<[u8]>::to_vec),
};
pub(super) const YES_OR_NO: Answer<bool> = Answer {
    number: 9,
    parts: |it| it.yes_or_no(),
};

impl<T> Answer<T> {
    /// Reads the answer, or that the call is refused.
    pub(super) fn read(&self, bytes: &[u8]) -> Option<Result<T, StoreError>> {
        let mut reader = Reader { left: bytes };
        let read = match reader.byte()? {
            REFUSED => Err(reader.refusal()?),
            number if number == self.number => Ok((self.parts)(&mut reader)?),
            _ => return None,
        };
        reader.left.is_empty().then(|| read)
    }
}

/// The bytes of an answer that are not read.
struct Reader<'a> {
    left: &'a [u8],
}

impl<'a> Reader<'a> {
    fn take(&mut self, count: usize) -> Option<&'a [u8]> {
        let taken = self.left.get(..count)?;
        self.left = &self.left[count..];
        Some(taken)
    }

    fn byte(&mut self) -> Option<u8> {
        self.take(1).map(|bytes| bytes[0])
    }

    fn number(&mut self) -> Option<u64> {
        let bytes = self.take(8)?.try_into().ok()?;
        Some(u64::from_be_bytes(bytes))
    }

    /// Reads a count in its shortest form.
    fn count(&mut self) -> Option<usize> {
        let mut count = 0;
        for place in 0..5 {
            let byte = self.byte()?;
            if place == 0 && byte == 0x80 {
                return None;
            }
            count = count << 7 | usize::from(byte & 0x7f);
            if byte < 0x80 {
                return (count <= MOST).then(|| count);
            }
        }
        None
    }

    /// Reads a list, whose count allocates nothing.
    fn list<T>(&mut self, part: fn(&mut Self) -> Option<T>) -> Option<Vec<T>> {
        let count = self.count()?;
        (0..count).map(|_| part(self)).collect()
    }

    fn optional<T>(&mut self, part: fn(&mut Self) -> Option<T>) -> Option<Option<T>> {
        if self.yes_or_no()? {
            part(self).map(Some)
        } else {
            Some(None)
        }
    }

    fn yes_or_no(&mut self) -> Option<bool> {
        match self.byte()? {
            0 => Some(false),
            1 => Some(true),
            _ => None,
        }
    }

    fn file(&mut self) -> Option<&'a [u8]> {
        let count = self.count()?;
        self.take(count)
    }

    fn text(&mut self) -> Option<String> {
        str::from_utf8(self.file()?).ok().map(str::to_string)
    }

    fn value(&mut self) -> Option<OwnedValue> {
        match self.byte()? {
            INTEGER => {
                let bytes = self.take(8)?.try_into().ok()?;
                Some(OwnedValue::Integer(i64::from_be_bytes(bytes)))
            }
            TEXT => self.text().map(OwnedValue::Text),
            BLOB => self.file().map(|bytes| OwnedValue::Blob(bytes.to_vec())),
            NULL => Some(OwnedValue::Null),
            _ => None,
        }
    }

    /// Reads a key or a row.
    fn values(&mut self) -> Option<Vec<OwnedValue>> {
        self.list(Self::value)
    }

    fn column(&mut self) -> Option<Column> {
        let name = self.text()?;
        let marks = self.byte()?;
        (marks <= KEY | NOT_NULL).then(|| Column {
            name,
            is_key: marks & KEY != 0,
            not_null: marks & NOT_NULL != 0,
        })
    }

    fn page(&mut self) -> Option<Page> {
        Some(Page {
            rows: self.list(Self::values)?,
            more: self.yes_or_no()?,
        })
    }

    fn kind(&mut self) -> Option<ConflictKind> {
        let byte = self.byte()?;
        let mut kinds = ConflictKind::ALL.into_iter();
        kinds.find(|kind| *kind as u8 == byte)
    }

    fn choice(&mut self) -> Option<Choice> {
        let byte = self.byte()?;
        let mut choices = Choice::ALL.into_iter();
        choices.find(|choice| *choice as u8 == byte)
    }

    fn conflict(&mut self) -> Option<Conflict> {
        Some(Conflict {
            change: self.number()?,
            kind: self.kind()?,
            table: self.text()?,
            key: self.values()?,
            current: self.optional(Self::values)?,
        })
    }

    fn resolved(&mut self) -> Option<ResolvedConflict> {
        Some(ResolvedConflict {
            kind: self.kind()?,
            choice: self.choice()?,
            table: self.text()?,
            key: self.values()?,
        })
    }

    fn report(&mut self) -> Option<Report> {
        Some(Report {
            written: self.number()?,
            ignored: self.number()?,
            skipped: self.list(Self::text)?,
            conflicts: self.list(Self::resolved)?,
        })
    }

    fn refusal(&mut self) -> Option<StoreError> {
        let number = self.number()?.try_into().ok()?;
        Some(StoreError {
            code: Code::of(number)?,
            table: self.optional(Self::text)?,
            column: self.optional(Self::text)?,
            key: self.optional(Self::values)?,
            detail: self.optional(Self::number)?,
        })
    }
}

#[cfg(test)]
mod tests {
    use super::*;

    use std::fmt::Debug;

    const REFUSAL: &[u8] = b"\x0b\0\0\0\0\0\0\0\x29\x01\x01t\x00\x01\x01\x05\x01\0\0\0\0\0\0\0\x02";

    fn text(text: &str) -> OwnedValue {
        OwnedValue::Text(text.to_string())
    }

    /// Expects what is read. No front is read, and neither is another byte at the end. Other bytes
    /// do not make it panic.
    fn assert_read<T: Debug + PartialEq>(answer: &Answer<T>, bytes: &[u8], expected: T) {
        assert_eq!(answer.read(bytes), Some(Ok(expected)));
        assert_only(answer, bytes);
        assert_only(answer, REFUSAL);
    }

    fn assert_only<T: Debug + PartialEq>(answer: &Answer<T>, bytes: &[u8]) {
        for end in 0..bytes.len() {
            assert_eq!(answer.read(&bytes[..end]), None, "{bytes:?} up to {end}");
        }
        assert_eq!(answer.read(&[bytes, b"\0"].concat()), None);
        for place in 0..bytes.len() {
            for byte in 0..=u8::MAX {
                let mut changed = bytes.to_vec();
                changed[place] = byte;
                let _ = answer.read(&changed);
            }
        }
    }

    #[test]
    fn answer_of_the_documentation() {
        assert_read(&NAMES, b"\x01\x01\x05notes", vec!["notes".to_string()]);
    }

    #[test]
    fn plain_answers() {
        assert_read(&DONE, b"\x00", ());
        assert_read(&NUMBER, b"\x05\0\0\0\0\0\0\x01\x02", 258);
        assert_read(&CHANGESET, b"\x08\x02\x00\xff", vec![0, 255]);
        assert_read(&YES_OR_NO, b"\x09\x01", true);
        assert_read(&YES_OR_NO, b"\x09\x00", false);
    }

    #[test]
    fn columns_and_rows() {
        let columns = vec![Column::key("id"), Column::new("n").not_null()];
        assert_read(&SCHEMA, b"\x02\x02\x02id\x03\x01n\x02", columns);
        assert_read(&ROW, b"\x03\x00", None);
        let bytes = b"\x03\x01\x04\x01\xff\xff\xff\xff\xff\xff\xff\xfe\x03\x01a\x04\x01\xff\x05";
        let row = vec![
            OwnedValue::Integer(-2),
            text("a"),
            OwnedValue::Blob(vec![255]),
            OwnedValue::Null,
        ];
        assert_read(&ROW, bytes, Some(row));
        let page = Page {
            rows: vec![vec![text("a")], vec![]],
            more: true,
        };
        assert_read(&ROWS, b"\x04\x02\x01\x03\x01a\x00\x01", page);
    }

    #[test]
    fn reports_and_conflicts() {
        let report = Report {
            written: 1,
            ignored: 2,
            skipped: vec!["s".to_string()],
            conflicts: vec![ResolvedConflict {
                kind: ConflictKind::Constraint,
                choice: Choice::Replace,
                table: "t".to_string(),
                key: vec![text("k")],
            }],
        };
        let bytes =
            b"\x06\0\0\0\0\0\0\0\x01\0\0\0\0\0\0\0\x02\x01\x01s\x01\x04\x01\x01t\x01\x03\x01k";
        assert_read(&REPORT, bytes, report);
        let conflict = Conflict {
            change: 3,
            kind: ConflictKind::Data,
            table: "t".to_string(),
            key: vec![text("k")],
            current: Some(vec![OwnedValue::Null]),
        };
        let bytes = b"\x07\x01\0\0\0\0\0\0\0\x03\x01\x01t\x01\x03\x01k\x01\x01\x05";
        assert_read(&CONFLICTS, bytes, vec![conflict]);
    }

    #[test]
    fn refusals() {
        let error = StoreError {
            code: Code::Abort,
            table: Some("t".to_string()),
            column: None,
            key: Some(vec![OwnedValue::Null]),
            detail: Some(2),
        };
        assert_eq!(DONE.read(REFUSAL), Some(Err(error)));
        let memory = b"\x0b\0\0\0\0\0\0\0\x3c\0\0\0\0";
        let error = StoreError::of(Code::NoMemory);
        assert_eq!(NUMBER.read(memory), Some(Err(error)));
        assert_eq!(DONE.read(b"\x0b\0\0\0\0\0\0\0\x3d\0\0\0\0"), None);
        assert_eq!(DONE.read(b"\x0b\0\0\0\x01\0\0\0\x3c\0\0\0\0"), None);
    }

    #[test]
    fn other_answers() {
        for bytes in [
            &b"\x01\x00"[..],                            // names
            b"\x0c\0\0\0\0\0\0\0\x01\0\0\0\0\0\0\0\x00", // unread
            b"\x0d",                                     // unknown
        ] {
            assert_eq!(DONE.read(bytes), None);
        }
        for bytes in [
            &b"\x01\x80\x00"[..],        // a count is not in the shortest form
            b"\x01\x88\x80\x80\x80\x00", // a count is too great
            b"\x01\x87\xff\xff\xff\x7f", // parts are missing
            b"\x01\x01\x01\xff",         // a text is not UTF-8
        ] {
            assert_eq!(NAMES.read(bytes), None);
        }
    }
}
