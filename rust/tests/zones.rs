//! Zone files: their records, the places of what is not valid, and files that include others. Each file in the folder `zones`
//! says where its records come from.
use dns_names_wire::{check_zone, Name, RecordBuf, ZoneError, ZoneItem, ZoneReader, ZoneWriter};

/// The text and the records of a zone of all kinds of entries.
const EXAMPLE: &[u8] = include_bytes!("zones/example.zone");
const INCLUDED: &[u8] = include_bytes!("zones/included.zone");
const RECORDS: &str = include_str!("zones/example.records");

/// A zone with errors in it, in the lines in which `named-checkzone` of BIND 9.18 reports errors if each is the only one.
const WRONG: &[u8] = b"$TTL 1h
@ SOA ns root 1 2 3 4 5
 NS ns
ns A 192.0.2.256
 A 192.0.2.1 x
www NOTYPE 1
www A 192.0.2.2
 TXT \"never closed
$FOO
a..b A 192.0.2.3
 AAAA 2001:db8::1
";

fn name(text: &str) -> Name {
    text.parse().unwrap()
}

fn hex(octets: &[u8]) -> String {
    octets.iter().map(|octet| format!("{octet:02x}")).collect()
}

/// The records of `example.zone` in hexadecimal, in order.
fn wanted() -> Vec<&'static str> {
    RECORDS.lines().filter(|line| !line.starts_with('#')).collect()
}

/// A record in a line, or an error.
fn line(record: Result<RecordBuf, ZoneError>) -> String {
    record.map_or_else(|error| error.to_string(), |record| record.to_string())
}

/// An item in a line, or an error.
fn item(item: Result<ZoneItem, ZoneError>) -> String {
    match item {
        Ok(ZoneItem::Include(it)) => format!("$INCLUDE {} {}", String::from_utf8_lossy(it.file()), it.origin()),
        Ok(ZoneItem::Record(record)) => line(Ok(record)),
        Err(error) => error.to_string(),
    }
}

fn items(text: &[u8]) -> Vec<String> {
    ZoneReader::new(text, &name("o.")).map(item).collect()
}

/// Appends the records of a zone whose files are all `included.zone`.
fn read_all(mut zone: ZoneReader<'_>, records: &mut Vec<String>) {
    while let Some(item) = zone.next() {
        match item.unwrap() {
            ZoneItem::Record(record) => records.push(hex(record.as_wire())),
            ZoneItem::Include(it) => {
                assert_eq!(it.file(), b"included.zone");
                read_all(zone.include(INCLUDED, it.origin()), records);
            }
        }
    }
}

#[test]
fn records_are_those_of_other_implementations() {
    let mut records = Vec::new();
    read_all(ZoneReader::new(EXAMPLE, &name("example.")), &mut records);
    assert_eq!(records, wanted());
    // The ends of lines may have a carriage return.
    let text = String::from_utf8(EXAMPLE.to_vec()).unwrap().replace('\n', "\r\n");
    records.clear();
    read_all(ZoneReader::new(text.as_bytes(), &name("example.")), &mut records);
    assert_eq!(records, wanted());
}

#[test]
fn texts_without_records() {
    for text in ["", "\n", ";", "; c\n\n ; c\n", "(\n)", " \t ", "$TTL 1", "$ORIGIN a.\n"] {
        assert!(items(text.as_bytes()).is_empty(), "{text:?}");
    }
}

#[test]
fn errors_have_places_and_reading_goes_on() {
    let lines: Vec<String> = items(WRONG).into_iter().map(|it| it.split(": ").next().unwrap().into()).collect();
    let read = ["o. 3600 IN SOA ns.o. root.o. 1 2 3 4 5", "o. 3600 IN NS ns.o."];
    let wrong = ["4:6", "5:14", "6:5"];
    assert_eq!(lines[..5], [&read[..], &wrong[..]].concat());
    assert_eq!(lines[5..], ["www.o. 3600 IN A 192.0.2.2", "8:6", "9:1", "10:1", "www.o. 3600 IN AAAA 2001:db8::1"]);
    let errors: Vec<ZoneError> = ZoneReader::new(WRONG, &name("o.")).filter_map(Result::err).collect();
    assert_eq!((errors[0].line(), errors[0].column(), errors[0].offset()), (4, 6, 44));
    assert_eq!((errors[0].sentence(), errors[0].text()), ("wanted an IPv4 address (field 0)", "ns A 192.0.2.256"));
    assert_eq!(errors[3].text(), " TXT \"never closed");
    assert_eq!(format!("{:?}", errors[0]), "ZoneError(4:6: wanted an IPv4 address (field 0))");
}

/// Errors of names and zones go through `?` as any error, to another thread too, and are the same there, with where they are.
#[test]
fn errors_are_those_of_std() {
    type Any = Box<dyn std::error::Error + Send + Sync>;
    fn parsed(text: &str) -> Result<Name, Any> {
        Ok(text.parse::<Name>()?)
    }
    fn first(text: &[u8]) -> Result<Option<ZoneItem>, Any> {
        Ok(ZoneReader::new(text, &name("o.")).next().transpose()?)
    }
    let error = parsed("a..b").unwrap_err();
    assert_eq!(error.downcast_ref::<dns_names_wire::Error>().and_then(|own| own.offset()), Some(2));
    assert_eq!(error.to_string(), parsed("a..b").unwrap_err().to_string());
    let error = std::thread::spawn(|| first(b"x 1 A 1.2.3").unwrap_err()).join().unwrap();
    let own = error.downcast_ref::<ZoneError>().unwrap();
    assert_eq!((own.line(), own.column()), (1, 7));
    assert!(std::error::Error::source(own).is_none());
    assert_eq!(first(b"x 1 A 192.0.2.1\n").unwrap().iter().count(), 1);
}

#[test]
fn lines_of_errors_are_shown_as_ascii() {
    let text = |text: &[u8]| ZoneReader::new(text, &name("o.")).next().unwrap().unwrap_err().text().to_string();
    assert_eq!(text(b"\xFF\x1B\tA\t1 ; \xC3\xA9\r\nnext"), "\\255\\027\tA\t1 ; \\195\\169");
    assert_eq!(text(b"a 1 A ( ; c\n 192.0.2\n) ; d\n"), " 192.0.2");
    let long = [&b"a A 1 ;"[..], &[b'x'; 9999]].concat();
    assert_eq!(text(&long).len(), "a A ".len() + 500);
}

#[test]
fn hostile_texts() {
    for octet in [b'(', b')', b'"', 0, b'\r', b'\\', b'\n', b'a', b'$', 255] {
        assert!(items(&vec![octet; 1 << 20]).len() <= 1, "{octet}");
    }
    let lines = items(&b"$FOO\n".repeat(20_000));
    assert_eq!((lines.len(), lines[19_999].starts_with("20000:1: ")), (20_000, true));
}

#[cfg(feature = "std")]
mod files {
    use super::*;
    use dns_names_wire::{ZoneFile, ZoneStream};
    use std::error::Error as _;
    use std::fs;
    use std::io::{self, Read};
    use std::path::{Path, PathBuf};

    /// A reader that returns a few octets at a time, and then fails if it should.
    struct Slow<'a>(&'a [u8], usize, Option<io::ErrorKind>);

    impl Read for Slow<'_> {
        fn read(&mut self, room: &mut [u8]) -> io::Result<usize> {
            let len = self.1.min(self.0.len()).min(room.len());
            match self.2 {
                Some(kind) if len == 0 => return Err(kind.into()),
                _ => {}
            }
            room[..len].copy_from_slice(&self.0[..len]);
            self.0 = &self.0[len..];
            Ok(len)
        }
    }

    #[test]
    fn parts_give_the_same() {
        for text in [EXAMPLE, INCLUDED, WRONG, b"", b"\n", b"a 1 A 192.0.2.1"] {
            let whole: Vec<_> = ZoneReader::new(text, &name("o.")).map(item).collect();
            for size in 1..text.len() + 2 {
                let parts: Vec<_> = ZoneStream::new(Slow(text, size, None), &name("o.")).map(item).collect();
                assert_eq!(parts, whole);
            }
            let places = |error: ZoneError| (error.offset(), error.text().to_string());
            let whole = ZoneReader::new(text, &name("o.")).filter_map(Result::err).map(places);
            let parts = ZoneStream::new(Slow(text, 1, None), &name("o.")).filter_map(Result::err).map(places);
            assert!(whole.eq(parts));
        }
    }

    #[test]
    fn long_files_are_read_in_parts() {
        let mut text = Vec::new();
        for n in 0..3000 {
            let (words, comment) = (" x".repeat(1 + n % 97), "c".repeat(n * 31 % 999));
            text.extend(format!("a{n} 1 TXT ({words}\n) ; {comment}\n").bytes());
        }
        text.extend(format!("long 1 TXT ({} x )\n", " ; a comment\n".repeat(1 << 15)).bytes());
        let sizes: Vec<usize> = ZoneStream::new(&text[..], &name("."))
            .map(|item| match item.unwrap() {
                ZoneItem::Record(record) => record.raw_data().len(),
                ZoneItem::Include(_) => 0,
            })
            .collect();
        let wanted: Vec<usize> = (0..3000).map(|n| 2 + n % 97 * 2).chain([2]).collect();
        assert_eq!(sizes, wanted);
    }

    #[test]
    fn readers_that_fail() {
        let text = b"a 1 A 192.0.2.1\nb 1 A 192";
        for size in [1, 7, 16, 99] {
            let mut zone = ZoneStream::new(Slow(text, size, Some(io::ErrorKind::BrokenPipe)), &name("o."));
            assert_eq!(item(zone.next().unwrap()), "a.o. 1 IN A 192.0.2.1");
            let error = zone.next().unwrap().unwrap_err();
            assert_eq!((error.line(), error.column(), error.text()), (2, 1, "b 1 A 192"));
            let source = error.source().unwrap().downcast_ref::<io::Error>().unwrap();
            assert_eq!(source.kind(), io::ErrorKind::BrokenPipe);
            assert_eq!(error.to_string(), format!("2:1: the file cannot be read: {source}"));
            assert_eq!(io::Error::from(error).kind(), io::ErrorKind::BrokenPipe);
            assert!(zone.next().is_none() && zone.next().is_none());
        }
        // An interrupted call is made again.
        let interrupted = Slow(b"", 1, Some(io::ErrorKind::Interrupted));
        let text = interrupted.take(0).chain(&text[..16]);
        assert_eq!(ZoneStream::new(text, &name("o.")).map(item).collect::<Vec<_>>(), ["a.o. 1 IN A 192.0.2.1"]);
    }

    #[test]
    fn entries_that_never_end() {
        let mut zone = ZoneStream::new(io::repeat(b'('), &name("o."));
        assert!(zone.next().unwrap().is_err());
        let mut zone = ZoneStream::new(io::repeat(b'x'), &name("o."));
        let most = ZoneStream::<io::Repeat>::MAX_ENTRY;
        let error = zone.next().unwrap().unwrap_err();
        assert_eq!(error.to_string(), format!("1:1: an entry has more than {most} octets"));
        assert!(zone.next().is_none());
        // As long as an entry may be, and one octet more
        for (len, is_ok) in [(most, true), (most + 1, false)] {
            let mut text = b"a 1 A 192.0.2.1 ;".to_vec();
            text.resize(len - 1, b'x');
            text.extend(*b"\nb 1 A 192.0.2.2");
            let items: Vec<bool> = ZoneStream::new(&text[..], &name("o.")).map(|item| item.is_ok()).collect();
            assert_eq!(items, if is_ok { vec![true, true] } else { vec![false] });
        }
    }

    #[test]
    fn files_in_streams_include_others() {
        let mut outer = ZoneStream::new(&b"$TTL 7\na A 192.0.2.1\n$INCLUDE f sub\n A 192.0.2.3\n"[..], &name("o."));
        assert_eq!(item(outer.next().unwrap()), "a.o. 7 IN A 192.0.2.1");
        let include = match outer.next().unwrap().unwrap() {
            ZoneItem::Include(include) => include,
            ZoneItem::Record(record) => panic!("{record}"),
        };
        assert_eq!((include.path(), include.origin()), (Path::new("f"), &name("sub.o.")));
        assert_eq!(format!("{include:?}"), r#"ZoneInclude { file: "f", origin: Name("sub.o.") }"#);
        let inner = outer.include(&b" A 192.0.2.2\nb A 192.0.2.4\n$TTL 8\n"[..], include.origin());
        let inner: Vec<String> = inner.map(item).collect();
        assert_eq!(inner, ["a.o. 7 IN A 192.0.2.2", "b.sub.o. 7 IN A 192.0.2.4"]);
        assert_eq!(outer.map(item).collect::<Vec<_>>(), ["a.o. 7 IN A 192.0.2.3"]);
    }

    /// A folder for a test, which is removed after it.
    struct Folder(PathBuf);

    impl Folder {
        fn new(test: &str) -> Self {
            let path = std::env::temp_dir().join(format!("dnw-zones-{test}-{}", std::process::id()));
            fs::create_dir_all(path.join("sub")).unwrap();
            Folder(path)
        }

        fn write(&self, file: &str, text: &str) -> PathBuf {
            let path = self.0.join(file);
            fs::write(&path, text).unwrap();
            path
        }
    }

    impl Drop for Folder {
        fn drop(&mut self) {
            let _ = fs::remove_dir_all(&self.0);
        }
    }

    fn records_of(path: &Path) -> Vec<String> {
        ZoneFile::open(path, &name("o.")).unwrap().map(line).collect()
    }

    #[test]
    fn records_of_files_are_those_of_other_implementations() {
        let path = Path::new(env!("CARGO_MANIFEST_DIR")).join("tests/zones/example.zone");
        let records = ZoneFile::open(path, &name("example.")).unwrap().map(|record| hex(record.unwrap().as_wire()));
        assert!(records.eq(wanted().iter().copied()));
        assert_eq!(ZoneFile::open("none", &name("o.")).unwrap_err().kind(), io::ErrorKind::NotFound);
    }

    /// The records of a zone in the folder `sub` that includes a file, with these folders given, and what its errors say.
    fn including(folder: &Folder, file: &str, given: &[&str]) -> Vec<String> {
        let zone = folder.write("sub/zone", &format!("$TTL 7\n$INCLUDE \"{file}\"\n"));
        let zone = ZoneFile::open(zone, &name("o.")).unwrap();
        let zone = given.iter().fold(zone, |zone, given| zone.include_from(folder.0.join(given)));
        zone.map(|record| record.map_or_else(|error| error.sentence().into(), |record| record.to_string())).collect()
    }

    #[test]
    fn files_are_below_the_folder_of_the_zone_or_one_that_is_given() {
        let folder = Folder::new("below");
        fs::create_dir(folder.0.join("sub/deep")).unwrap();
        folder.write("sub/deep/f", "$INCLUDE g\n");
        for (file, owner) in [("g", "out"), ("sub/g", "near"), ("sub/deep/g", "deep")] {
            folder.write(file, &format!("{owner} TXT x"));
        }
        for (link, target) in [("sub/out", "../g"), ("sub/lost", "../none"), ("in", "sub/g"), ("sub/up", "..")] {
            std::os::unix::fs::symlink(target, folder.0.join(link)).unwrap();
        }
        let whole = |file: &str| folder.0.join(file).display().to_string();
        let record = |owner: &str| [format!("{owner}.o. 7 IN TXT \"x\"")];
        assert_eq!(including(&folder, "deep/f", &[]), record("deep"));
        for file in ["g", "./g", "../sub/g", "deep/../g", "../in", "up/sub/g", &whole("sub/g"), &whole("in")] {
            assert_eq!(including(&folder, file, &[]), record("near"), "{file}");
        }
        // The same error, whether the file is there or not
        let outside =
            ["../g", "../none", "../none/g", "out", "lost", "up/g", "up/none", "/etc/passwd", "/etc/none", "/", ".."];
        for file in outside.into_iter().chain([&*whole("g"), &*whole("none")]) {
            let wanted = [format!("\"{file}\" is outside the folders to include from")];
            assert_eq!(including(&folder, file, &["sub", "sub/deep", "lost", "s"]), wanted, "{file}");
        }
        for file in ["../g", "out", "up/g", &whole("g")] {
            assert_eq!(including(&folder, file, &["sub/deep", "."]), record("out"), "{file}");
        }
        assert!(including(&folder, "g/", &[])[0].starts_with("\"g/\" cannot be read: "));
        // A folder that is given is not where relative paths begin.
        assert_eq!(including(&folder, "g", &["."]), record("near"));
    }

    #[test]
    fn pipes_include_files_of_a_folder_that_is_given() {
        let folder = Folder::new("pipe");
        folder.write("f", "a 1 A 192.0.2.1\n");
        let pipe = folder.0.join("pipe");
        assert!(std::process::Command::new("mkfifo").arg(&pipe).status().unwrap().success());
        let zone = || {
            let to = pipe.clone();
            let writer = std::thread::spawn(move || fs::write(to, "$INCLUDE f\n").unwrap());
            let zone = ZoneFile::open(&pipe, &name("o.")).unwrap();
            writer.join().unwrap();
            zone
        };
        let wanted = format!("{}:1:1: $INCLUDE is not followed here: no folder is given", pipe.display());
        assert_eq!(zone().map(line).collect::<Vec<_>>(), [wanted]);
        assert_eq!(zone().include_from(&folder.0).map(line).collect::<Vec<_>>(), ["a.o. 1 IN A 192.0.2.1"]);
        assert_eq!(including(&folder, "../pipe", &["."]), ["\"../pipe\" is not a file"]);
    }

    #[test]
    fn lines_of_files_without_a_record_are_not_shown() {
        let folder = Folder::new("lines");
        let secret = "root:x:0\n$INCLUDE none\n\"\na 1 A 192.0.2.1\nroot:x:0\n$INCLUDE none\n";
        folder.write("secret", secret);
        let zone = folder.write("zone", "$INCLUDE secret\nx:\n");
        let texts =
            |zone| ZoneFile::open(zone, &name("o.")).unwrap().map(|it| it.map_or_else(|it| it.text().into(), line_of));
        fn line_of(record: RecordBuf) -> String {
            record.to_string()
        }
        let wanted = ["", "", "", "a.o. 1 IN A 192.0.2.1", "root:x:0", "$INCLUDE none", "x:"];
        assert_eq!(texts(zone).collect::<Vec<_>>(), wanted);
    }

    #[test]
    fn names_of_files_are_escaped() {
        let folder = Folder::new("escaped");
        let escaped = r"x\027[31m\010\009\195\169";
        let cause = "No such file or directory (os error 2)";
        assert_eq!(including(&folder, escaped, &[]), [format!("\"{escaped}\" cannot be read: {cause}")]);
        folder.write("sub/x\x1b[31m\n\té", "x");
        let zone = folder.write("sub/zone", &format!("$INCLUDE \"{escaped}\""));
        let shown = records_of(&zone);
        assert!(shown[0].starts_with(&format!("{}/{escaped}:1:2: ", folder.0.join("sub").display())), "{shown:?}");
    }

    #[test]
    fn errors_of_files_have_their_path() {
        let folder = Folder::new("errors");
        let zone = folder.write("zone", "$TTL 1\n\n  $INCLUDE x\n$INCLUDE sub/f\nb A 192.0.2.1\n");
        let inner = folder.write("sub/f", "a A 192.0.2.1\na A 192.0.2\n");
        let errors: Vec<_> = ZoneFile::open(&zone, &name("o.")).unwrap().filter_map(Result::err).collect();
        assert_eq!((errors[0].path(), errors[0].line()), (Some(&*zone), 3));
        let at = (errors[1].path().unwrap(), errors[1].line(), errors[1].column(), errors[1].text());
        assert_eq!(at, (&*inner, 2, 5, "a A 192.0.2"));
        let wanted = format!("{}:2:5: wanted an IPv4 address (field 0)", inner.display());
        assert_eq!(errors[1].to_string(), wanted);
        assert!(errors[1].source().is_none());
    }

    #[test]
    fn files_that_cannot_be_included() {
        let folder = Folder::new("refuse");
        std::os::unix::fs::symlink("zone", folder.0.join("link")).unwrap();
        let text = "$INCLUDE none\n$INCLUDE sub\n$INCLUDE /dev/zero\n ; c\n$INCLUDE ./zone\n$INCLUDE link\n$TTL 1\na A 192.0.2.1\n";
        let zone = folder.write("zone", text);
        let path = zone.display();
        let wanted = [
            format!("{path}:1:1: \"none\" cannot be read: No such file or directory (os error 2)"),
            format!("{path}:2:1: \"sub\" is not a file"),
            format!("{path}:3:1: \"/dev/zero\" is not a file"),
            format!("{path}:5:1: \"./zone\" includes itself"),
            format!("{path}:6:1: \"link\" includes itself"),
            "a.o. 1 IN A 192.0.2.1".to_string(),
        ];
        let items = ZoneFile::open(&zone, &name("o.")).unwrap().include_from("/dev");
        assert_eq!(items.map(line).collect::<Vec<_>>(), wanted);
        let error = ZoneFile::open(&zone, &name("o.")).unwrap().next().unwrap().unwrap_err();
        assert_eq!(error.text(), "$INCLUDE none");
        let source = error.source().unwrap().downcast_ref::<io::Error>().unwrap();
        assert_eq!(source.kind(), io::ErrorKind::NotFound);
    }

    #[test]
    fn files_include_one_another_up_to_a_depth() {
        let folder = Folder::new("depth");
        let last = ZoneFile::MAX_DEPTH;
        for n in 0..=last {
            folder.write(&format!("f{n}"), &format!("f{n} 1 A 192.0.2.1\n$INCLUDE f{}\n", n + 1));
        }
        let (first, deepest) = (folder.0.join("f0"), folder.0.join(format!("f{}", last - 1)));
        let records = records_of(&first);
        assert_eq!(records[..last], (0..last).map(|n| format!("f{n}.o. 1 IN A 192.0.2.1")).collect::<Vec<_>>());
        assert_eq!(records[last..], [format!("{}:2:1: {last} files include one another already", deepest.display())]);
        // A file that includes one that includes it
        folder.write("f1", "$INCLUDE f0\n");
        assert_eq!(records_of(&first)[1], format!("{}:1:1: \"f0\" includes itself", folder.0.join("f1").display()));
        // Nothing forbids to include a file twice.
        folder.write("f1", "x 1 A 192.0.2.1\n");
        let twice = folder.write("twice", "$INCLUDE f1\n$INCLUDE f1\n");
        assert_eq!(records_of(&twice), ["x.o. 1 IN A 192.0.2.1"; 2]);
        let most = ZoneFile::MAX_FILES;
        let many = records_of(&folder.write("many", &"$INCLUDE f1\n".repeat(most + 1)));
        assert!(many[..most].iter().all(|it| it == "x.o. 1 IN A 192.0.2.1"));
        assert_eq!(
            many[most..],
            [format!("{}:1001:1: 1000 files are included already", folder.0.join("many").display())]
        );
    }
}

#[test]
fn what_is_written_is_read() {
    let mut records = Vec::new();
    read_all(ZoneReader::new(EXAMPLE, &name("example.")), &mut records);
    let mut writer = ZoneWriter::new(&name("example.")).unwrap();
    writer.push_ttl(3600).unwrap();
    let octets = |hex: &String| -> Vec<u8> {
        (0..hex.len() / 2).map(|at| u8::from_str_radix(&hex[2 * at..2 * at + 2], 16).unwrap()).collect()
    };
    for record in &records {
        let octets = octets(record);
        writer.push(dns_names_wire::Record::read(&octets, 0).unwrap()).unwrap();
    }
    let text = writer.take_text();
    assert!(text.starts_with("$ORIGIN example.\n$TTL 3600\n@ IN SOA ns1.example. host\\.master.example. "), "{text}");
    assert!(text.contains("\n IN NS ns1.example.\n IN NS ns2.example.\n"), "{text}");
    let mut again = Vec::new();
    read_all(ZoneReader::new(text.as_bytes(), &name("other.")), &mut again);
    assert_eq!(again, records);
    let large = format!("a. 60 IN TXT{}", " x".repeat(30000)).parse::<RecordBuf>().unwrap();
    writer.push(&large).unwrap();
    assert_eq!(writer.text(), format!("a. 60 IN TXT{}\n", " \"x\"".repeat(30000)));
}

/// Lines of a zone in no order, and the numbers of the checks and of the records of what is found, worked by hand.
#[test]
fn zones_are_checked() {
    let lines = [
        "ns.a. 60 A 192.0.2.1",
        "ns.a. 61 A 192.0.2.2",
        "a. 60 SOA ns.a. h.a. 1 2 3 4 5",
        "a. 60 NS ns.a.",
        "b. 60 TXT x",
        "A. 60 NS lost.a.",
        "c.a. 60 CNAME ns.a.",
        "m.a. 60 MX 5 c.a.",
        "c.a. 60 TXT x",
    ];
    let zone: Vec<RecordBuf> = lines.iter().map(|line| line.parse().unwrap()).collect();
    let found = check_zone(&"A.".parse::<Name>().unwrap(), &zone).unwrap();
    let numbers: Vec<_> = found.iter().map(|it| (it.check(), it.is_error(), it.record(), it.other())).collect();
    let wanted = [
        (14, true, Some(5), None),
        (8, true, Some(6), Some(8)),
        (13, true, Some(7), Some(6)),
        (7, false, Some(1), Some(0)),
        (3, true, Some(4), None),
    ];
    assert_eq!(numbers, wanted);
    assert_eq!(found[3].to_string(), "warning: the time to live is not that of the set's first record");
    let none: [RecordBuf; 0] = [];
    let lacks = check_zone(&Name::root(), &none).unwrap();
    assert_eq!(lacks.iter().map(|it| it.check()).collect::<Vec<_>>(), [1, 2]);
}

/// A zone with servers, wildcards, digests and tags that are wrong, and some that are right, worked by hand.
#[test]
fn servers_and_data_are_checked() {
    let lines = [
        "a. 60 SOA ns.a. h.a. 1 2 3 4 5",
        "A. 60 SOA NS.a. h.A. 1 2 3 4 5",
        "a. 60 NS ns.a.",
        "a. 60 MX 1 192.0.2.9.",
        "a. 60 MX 1 any.deep.w.a.",
        "a. 60 MX 1 w.a.",
        "c.a. 60 CAA \\# 6 0003612d6278",
        "d.a. 60 DNAME b.",
        "d.a. 60 NS ns.a.",
        "ns.a. 60 A 192.0.2.1",
        "s.a. 60 NS ns.t.a.",
        "s.a. 60 DS 1 13 2 aa",
        "t.a. 60 NS ns.t.a.",
        "*.w.a. 60 A 192.0.2.2",
        "*.x.a. 60 NS ns.a.",
    ];
    let zone: Vec<RecordBuf> = lines.iter().map(|line| line.parse().unwrap()).collect();
    let found = check_zone(&"a.".parse::<Name>().unwrap(), &zone).unwrap();
    let numbers: Vec<_> = found.iter().map(|it| (it.check(), it.is_error(), it.record(), it.other())).collect();
    let wanted = [
        (19, false, Some(3), None),
        (21, false, Some(5), None),
        (18, true, Some(6), None),
        (15, true, Some(7), Some(8)),
        (20, false, Some(10), None),
        (17, true, Some(11), None),
        (14, true, Some(12), None),
        (16, false, Some(14), None),
    ];
    assert_eq!(numbers, wanted);
    assert_eq!(found[0].to_string(), "warning: the name of a server is the text of an address");
}
