//! Records by class (RFC 2136), with names in their data.

use dns_names_wire::{Error, Field, RData, Record, RecordBuf};

/// Returns the octets of a record of the name `a.` after the name `b.`
fn record(code: u16, class: u16, data: &[u8]) -> Vec<u8> {
    let mut message = b"\x01b\0\x01a\0".to_vec();
    message.extend_from_slice(&code.to_be_bytes());
    message.extend_from_slice(&class.to_be_bytes());
    message.extend_from_slice(&60u32.to_be_bytes());
    message.extend_from_slice(&(data.len() as u16).to_be_bytes());
    message.extend_from_slice(data);
    message
}

/// Returns the data of an owned copy.
fn copied(message: &[u8]) -> Result<Vec<u8>, Error> {
    let copy = RecordBuf::try_from(Record::read(message, 3)?)?;
    Ok(copy.as_record().raw_data().to_vec())
}

#[test]
fn names_in_data_are_copied_whole() -> Result<(), Error> {
    let address = record(38, 1, b"\x40\0\0\0\0\0\0\0\0\xC0\0");
    assert_eq!(copied(&address)?, b"\x40\0\0\0\0\0\0\0\0\x01b\0");
    let chaos = record(1, 3, b"\xC0\0\x01\x02");
    assert_eq!(copied(&chaos)?, b"\x01b\0\x01\x02");
    Ok(())
}

#[test]
fn data_may_be_left_out() -> Result<(), Error> {
    for class in [254, 255] {
        for code in [1, 2, 15, 46, 65280] {
            let message = record(code, class, b"");
            let empty = Record::read(&message, 3)?;
            assert!(empty.fields().next().is_none());
            let line = empty.to_string();
            assert_eq!(line.parse::<RecordBuf>()?, RecordBuf::try_from(empty)?, "{line}");
        }
    }
    Ok(())
}

#[test]
fn types_of_in_are_octets_elsewhere() -> Result<(), Error> {
    let message = record(28, 3, b"\x01\x02");
    let mut fields = Record::read(&message, 3)?.fields();
    assert!(matches!(fields.next(), Some(Ok(Field::Octets(b"\x01\x02")))));
    assert!(fields.next().is_none());
    Ok(())
}

/// The type of the data is that of the class: what only IN has is octets elsewhere, and data that are left out are no data of
/// their type.
#[test]
fn data_have_the_type_of_their_class() -> Result<(), Error> {
    let is_typed = |code, class, data| {
        let message = record(code, class, data);
        let is_typed = !matches!(Record::read(&message, 3)?.data()?, RData::Unknown { .. });
        Ok::<_, Error>(is_typed)
    };
    for class in [1, 254, 255] {
        assert!(is_typed(1, class, b"\xC0\0\x02\x01")? && is_typed(2, class, b"\xC0\0")?);
    }
    for class in [3, 4, 7] {
        assert!(!is_typed(28, class, b"\x01\x02")? && is_typed(2, class, b"\xC0\0")?);
        assert!(!is_typed(33, class, b"\0\x01\0\x02\0\x03\0")? && is_typed(16, class, b"\x01a")?);
    }
    // Chaosnet has addresses of its own, of a name and a number (RFC 1035, section 3.3).
    assert!(!is_typed(1, 3, b"\xC0\0\x01\x02")?);
    for class in [254, 255] {
        assert!(!is_typed(1, class, b"")? && !is_typed(16, class, b"")?);
    }
    assert!(is_typed(1, 254, b"\xC0\0\x02").is_err() && is_typed(1, 1, b"").is_err());
    Ok(())
}
