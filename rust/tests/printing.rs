//! Messages as text and as JSON: those of `diff/dnw.txt`, which has what the program prints, and of `diff/servers/replies.txt`, which has
//! what `dig` does.
use dns_names_wire::Message;
use std::{fs, path::Path};

/// The rows of a file of the repository, or none in a package, which has no such files.
fn lines(file: &str) -> Vec<String> {
    let folder = Path::new(env!("CARGO_MANIFEST_DIR")).join("../diff");
    if !folder.is_dir() {
        return Vec::new();
    }
    let text = fs::read_to_string(folder.join(file)).unwrap();
    text.lines().filter(|line| !line.is_empty() && !line.starts_with('#')).map(String::from).collect()
}

/// The octets of hexadecimal digits, or `None` if there is something else.
fn octets(digits: &str) -> Option<Vec<u8>> {
    let is_digits = digits.len() % 2 == 0 && digits.bytes().all(|it| it.is_ascii_hexdigit());
    is_digits
        .then(|| (0..digits.len()).step_by(2).map(|at| u8::from_str_radix(&digits[at..at + 2], 16).unwrap()).collect())
}

/// No text has a character for control but line feed and tab, nor one that turns its direction.
fn is_plain(text: &str) -> bool {
    let turns = ['\u{61C}', '\u{200E}', '\u{200F}', '\u{2028}', '\u{2029}'];
    let is_turn =
        |it| turns.contains(&it) || ('\u{202A}'..='\u{202E}').contains(&it) || ('\u{2066}'..='\u{2069}').contains(&it);
    text.chars().all(|it| !is_turn(it) && (!it.is_control() || it == '\n' || it == '\t'))
}

/// The octets of a row of the command `message`, whether it has `--json`, and what is printed.
fn row_of(line: &str) -> Option<(Vec<u8>, bool, String)> {
    let (words, text) = line.strip_prefix("message ")?.split_once(" = 0 ")?;
    let (flags, given): (Vec<&str>, Vec<&str>) = words.split(' ').partition(|word| *word == "--json");
    match given[..] {
        [digits] => Some((octets(digits)?, !flags.is_empty(), text.replace("//", "\n"))),
        _ => None,
    }
}

#[test]
fn messages_are_printed_as_the_program_prints_them() {
    let lines = lines("dnw.txt");
    let rows: Vec<_> = lines.iter().filter_map(|line| row_of(line)).collect();
    assert!(lines.is_empty() || rows.len() >= 10, "{}", rows.len());
    for (message, is_json, text) in rows {
        let message = Message::read(&message).unwrap();
        let printed = if is_json { message.to_json().unwrap() } else { message.to_string() };
        assert_eq!(printed, text);
        assert!(is_plain(&printed), "{}", text);
    }
}

#[test]
fn replies_are_printed_as_dig_prints_them() {
    for line in lines("servers/replies.txt") {
        let (digits, text) = line.split_once(' ').and_then(|(_, rest)| rest.split_once(' ')).unwrap();
        assert_eq!(Message::read(&octets(digits).unwrap()).unwrap().to_string(), text.replace('|', "\n"), "{line}");
    }
}

/// Names, options and texts of errors that have any octets.
#[test]
fn what_is_printed_has_no_control_characters() {
    let texts = [
        "\u{202E}",
        "\u{61C}",
        "\u{200E}\u{200F}",
        "\u{2028}\u{2029}\u{202A}",
        "\u{2066}\u{2069}",
        "\x1B[31m\r\n\t\x7F\u{9B}",
    ];
    for text in texts {
        let name: Vec<u8> = (1..=49).chain(127..=140).collect();
        let option = [&[0, 15][..], &[0, 2 + text.len() as u8, 0, 6], text.as_bytes(), &[0, 3, 0, 63], &name].concat();
        let opt = [&[0, 0, 0x29, 2, 0, 0, 0, 0, 0, 0, option.len() as u8][..], &option].concat();
        let question = [&[63][..], &name, &[0, 0, 16, 0, 1]].concat();
        let record = [&[0xC0, 12, 0, 16, 0, 1, 0, 0, 0, 0, 0, 64, 63][..], &name].concat();
        let octets = [&[0, 7, 0x84, 0, 0, 1, 0, 1, 0, 0, 0, 1][..], &question, &record, &opt].concat();
        let message = Message::read(&octets).unwrap();
        let (printed, json) = (message.to_string(), message.to_json().unwrap());
        assert!(is_plain(&printed) && is_plain(&json), "{printed}\n{json}");
        assert!(printed.contains("\n; EDE: 6 (DNSSEC Bogus): (.") && json.contains("\"EDE: 6 (DNSSEC Bogus): (."));
    }
}
