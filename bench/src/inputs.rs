//! What is measured: the same inputs in every run, from a generator with a fixed seed.
#[path = "families.rs"] // `bindings` has this file by its path
mod families;

#[derive(Clone, Copy)]
pub enum Kind {
    Read,
    ReadOver,
    Emit,
    EmitLower,
    Parse,
    Print,
    Clone,
    CopyOver,
    Collect,
    Compare,
    Sort,
    Hash,
    Find,
    List,
    TableBuild,
    TableFind,
    TableList,
    ReadRecords,
    EmitRecords,
    ReadMessage,
    ReadFields,
    WriteMessage,
}

pub struct Task {
    pub name: &'static str,
    pub what: &'static str,
    pub kind: Kind,
    pub bytes: Vec<u8>,
    pub starts: Vec<u32>,
    /// How many names or records are worked on each time.
    pub operations: u64,
    /// How often the task is done if its instructions are counted.
    pub few: u64,
}

/// Octets, and where the names begin that are read from them.
type Input = (Vec<u8>, Vec<u32>);

/// How many names are many, as those of a large zone.
const MANY: usize = 1_000_000;

/// A linear congruential generator.
struct Random(u64);

impl Random {
    fn below(&mut self, n: usize) -> usize {
        self.0 = self.0.wrapping_mul(6364136223846793005).wrapping_add(1442695040888963407);
        (self.0 >> 33) as usize % n
    }

    fn pick(&mut self, words: &str) -> String {
        let words: Vec<&str> = words.split(' ').collect();
        words[self.below(words.len())].to_string()
    }
}

const ZONES: &str = "example.com example.net alibabadns.com hickory-dns.org cloudfront.net bbc.co.uk in-addr.arpa";

/// A host of some zone, one in five in capitals.
fn text(random: &mut Random) -> String {
    let mut text = random.pick("www mail smtp ns1 ns2 api cdn static img db auth vpn _sip._tcp _443._tcp autodiscover");
    if random.below(3) == 0 {
        text += &random.below(100).to_string();
    }
    if random.below(2) == 0 {
        text += ".";
        text += &random.pick("eu us-east-1 ap-south internal prod staging k8s dc2");
    }
    text += ".";
    text += &random.pick(ZONES);
    text += ".";
    if random.below(5) == 0 {
        text.make_ascii_uppercase();
    }
    text
}

/// A name's wire form.
fn form(text: &str) -> Vec<u8> {
    let mut form = vec![];
    for label in text.split_terminator('.') {
        form.push(label.len() as u8);
        form.extend(label.bytes());
    }
    form.push(0);
    form
}

fn texts(count: usize, seed: u64) -> Vec<String> {
    let mut random = Random(seed);
    (0..count).map(|_| text(&mut random)).collect()
}

fn forms(texts: &[String]) -> Vec<u8> {
    texts.iter().flat_map(|text| form(text)).collect()
}

/// A pointer has 14 bits (RFC 1035, section 4.1.4).
const POINTERS_REACH: usize = 0x4000;

/// A message whose names share their suffixes by pointers.
struct Message {
    bytes: Vec<u8>,
    /// The suffixes that are there, and their offsets.
    known: Vec<(Vec<u8>, usize)>,
}

impl Message {
    fn new() -> Self {
        Message { bytes: vec![0u8; 12], known: vec![] }
    }

    fn name(&mut self, text: &str) {
        let mut rest = form(text);
        while rest[0] != 0 {
            if let Some((_, place)) = self.known.iter().find(|(suffix, _)| *suffix == rest) {
                self.bytes.extend((0xC000 | *place as u16).to_be_bytes());
                return;
            }
            if self.bytes.len() < POINTERS_REACH {
                self.known.push((rest.clone(), self.bytes.len()));
            }
            let label = rest[0] as usize + 1;
            self.bytes.extend(rest.drain(..label));
        }
        self.bytes.push(0);
    }

    /// A record of class IN with this type, whose data are a name.
    fn record_of_name(&mut self, owner: &str, kind: u8, data: &str) {
        self.name(owner);
        self.bytes.extend([0, kind, 0, 1, 0, 0, 1, 44, 0, 0]);
        let start = self.bytes.len();
        self.name(data);
        let len = (self.bytes.len() - start) as u16;
        self.bytes[start - 2..start].copy_from_slice(&len.to_be_bytes());
    }

    /// An address of this owner (type A, RFC 1035, section 3.4.1).
    fn address(&mut self, owner: &str, last: u8) {
        self.name(owner);
        self.bytes.extend([0, 1, 0, 1, 0, 0, 1, 44, 0, 4, 192, 0, 2, last]);
    }

    /// 30 records: an alias and its six addresses, then twelve name servers of the zone and eleven of their addresses.
    fn records(&mut self) {
        self.record_of_name("www.example.com.", 5, "www.eu.cdn.example.net.");
        (0..6).for_each(|i| self.address("www.eu.cdn.example.net.", i));
        let servers: Vec<String> = (0..12).map(|i| format!("ns{i}.dns.example.org.")).collect();
        servers.iter().for_each(|server| self.record_of_name("example.net.", 2, server));
        servers.iter().take(11).for_each(|server| self.address(server, 7));
    }
}

/// A response of the addresses of these names, which share their suffixes by pointers, and where the names start.
fn owners(texts: &[String]) -> Input {
    let (mut message, mut starts) = (Message::new(), vec![]);
    for text in texts {
        starts.push(message.bytes.len() as u32);
        message.address(text, 1);
    }
    (message.bytes, starts)
}

/// The 30 records of a response, after a header that is not looked into.
fn records() -> Input {
    let mut message = Message::new();
    message.records();
    (message.bytes, vec![])
}

/// A response of the same 30 records: the alias and its addresses answer the question, the name servers are authority records,
/// and their addresses additional ones.
fn response() -> Input {
    let mut message = Message::new();
    let header: Vec<u8> = [0x1234u16, 0x8180, 1, 7, 12, 11].iter().flat_map(|word| word.to_be_bytes()).collect();
    message.bytes.copy_from_slice(&header);
    message.name("www.example.com.");
    message.bytes.extend([0, 1, 0, 1]);
    message.records();
    (message.bytes, vec![])
}

/// A message of 65,535 octets with as many records as there is room for, whose owners have 127 labels and follow 12 pointers,
/// which is what 65,536 pointers in all allow. The data are empty, of a type that is not known.
fn many_labels() -> Input {
    let mut bytes = vec![0u8; 12];
    bytes.extend(b"\x01a".repeat(127));
    bytes.extend([0, 0, 1, 0, 1]);
    let (mut target, mut records) = (12, 0u16);
    while bytes.len() + 12 <= 65535 {
        let start = bytes.len() as u16;
        bytes.extend((0xC000u16 | target).to_be_bytes());
        bytes.extend([0xFF, 0, 0, 1, 0, 0, 0, 0, 0, 0]);
        records += 1;
        if records < 12 {
            target = start;
        }
    }
    bytes[5] = 1;
    bytes[6..8].copy_from_slice(&records.to_be_bytes());
    (bytes, vec![])
}

/// A message of 65,535 octets whose first record has a chain of 8,000 pointers for data, and each other record (of type NS) a
/// pointer to its end.
fn many_pointers() -> Input {
    let mut bytes = vec![0u8; 12];
    bytes.extend([0, 0xFF, 0, 0, 1, 0, 0, 0, 0]);
    bytes.extend((1u16 + 2 * 8000).to_be_bytes());
    let mut last = bytes.len() as u16;
    bytes.push(0);
    for _ in 0..8000 {
        let start = bytes.len() as u16;
        bytes.extend((0xC000 | last).to_be_bytes());
        last = start;
    }
    let mut records = 1u16;
    while bytes.len() + 13 <= 65535 {
        bytes.extend([0, 0, 2, 0, 1, 0, 0, 0, 0, 0, 2]);
        bytes.extend((0xC000 | last).to_be_bytes());
        records += 1;
    }
    bytes[6..8].copy_from_slice(&records.to_be_bytes());
    (bytes, vec![])
}

/// A response that was recorded, in hexadecimal.
fn recorded(hex: &str) -> Input {
    let digits: Vec<char> = hex.chars().filter(|c| !c.is_whitespace()).collect();
    let two = |digits: &[char]| u8::from_str_radix(&digits.iter().collect::<String>(), 16).expect("hexadecimal digits");
    (digits.chunks(2).map(two).collect(), vec![])
}

/// A root after as many pointers, each to the one before.
fn chain(pointers: usize) -> Input {
    let (mut bytes, mut last) = (vec![0u8], 0);
    for _ in 0..pointers {
        let place = last as u16;
        last = bytes.len();
        bytes.extend((0xC000 | place).to_be_bytes());
    }
    (bytes, vec![last as u32])
}

/// 127 labels of a byte, each but the first before a pointer to the label before.
fn deep() -> Input {
    let (mut bytes, mut last) = (b"\x01a\0".to_vec(), 0);
    for _ in 1..127 {
        let place = last as u16;
        last = bytes.len();
        bytes.extend(b"\x01a");
        bytes.extend((0xC000 | place).to_be_bytes());
    }
    (bytes, vec![last as u32])
}

/// Names that differ only in a number, so that most suffixes look alike.
fn numbered(count: usize, pattern: impl Fn(usize) -> String) -> Input {
    (forms(&(0..count).map(pattern).collect::<Vec<_>>()), vec![])
}

/// Names of 127 labels of one octet, none of which is a suffix of another: what the search for a suffix likes least.
fn one_octet_labels(i: usize) -> String {
    let letter = |n: usize| (b'a' + (n % 26) as u8) as char;
    let labels = (0..127).map(|k| if k < 126 { 'a' } else { letter(i) });
    labels.map(|label| format!("{label}.")).collect()
}

/// Texts with an escape in front, in the middle and everywhere.
fn escaped() -> Input {
    let lines = (0..200).map(|i| format!("\\_a{i}.example.com.\nhost{i}.ex\\-ample.com.\n\\x\\y\\z{i}.\\e\\x.com.\n"));
    (lines.collect::<String>().into_bytes(), vec![])
}

/// A name that lives as long as the program.
fn leaked(name: String) -> &'static str {
    Box::leak(name.into_boxed_str())
}

/// The tasks that are asked for. The inputs of others are not made.
struct Tasks<'a> {
    wanted: &'a dyn Fn(&str) -> bool,
    made: Vec<Task>,
}

impl Tasks<'_> {
    fn add(
        &mut self,
        name: &'static str,
        what: &'static str,
        kind: Kind,
        input: impl FnOnce() -> Input,
        operations: u64,
        few: u64,
    ) {
        if (self.wanted)(name) {
            let (bytes, starts) = input();
            self.made.push(Task { name, what, kind, bytes, starts, operations, few });
        }
    }

    fn readings(&mut self) {
        let plain = || (form("mail.eu.example.com."), vec![0]);
        self.add("read-plain", "a name of four labels, whole", Kind::Read, plain, 1, 2000);
        self.add("read-message", "20 names of a compressed message", Kind::Read, || owners(&texts(20, 1)), 20, 100);
        let message = || owners(&texts(20, 1));
        self.add("read-over", "the same, each in the place of the one before", Kind::ReadOver, message, 20, 100);
        self.add("read-chain", "a root after 7999 pointers", Kind::Read, || chain(7999), 1, 5);
        self.add("read-deep", "127 labels over 126 pointers", Kind::Read, deep, 1, 100);
    }

    fn writings(&mut self) {
        let one = || (form("mail.eu.example.com."), vec![]);
        self.add("emit-1", "a name of four labels into a new message", Kind::Emit, one, 1, 2000);
        self.add("emit-20", "20 names into a new message", Kind::Emit, || (forms(&texts(20, 2)), vec![]), 20, 50);
        self.add("emit-100", "100 names into a new message", Kind::Emit, || (forms(&texts(100, 3)), vec![]), 100, 20);
        let host = |i| format!("host{i:04}.example.com.");
        self.add("emit-hosts", "120 numbered hosts of one zone", Kind::Emit, || numbered(120, host), 120, 10);
        let www = |i| format!("www.host{i:04}.example.com.");
        self.add("emit-www", "120 names www.host0000.example.com. and on", Kind::Emit, || numbered(120, www), 120, 10);
        let ptr = |i| format!("{i:04}.2.0.192.in-addr.arpa.");
        self.add("emit-ptr", "120 reverse names of one network", Kind::Emit, || numbered(120, ptr), 120, 10);
        let full = |i| format!("{}{i:04}.{}.{}.{}.", "a".repeat(59), "b".repeat(63), "c".repeat(63), "d".repeat(61));
        let full = || numbered(120, full);
        self.add("emit-255", "120 names of 255 octets that differ in front", Kind::Emit, full, 120, 5);
        let alike = || numbered(20, one_octet_labels);
        self.add("emit-127", "20 names of 127 labels, most of which are alike", Kind::Emit, alike, 20, 5);
        let lower = || (forms(&texts(20, 6)), vec![]);
        self.add("emit-lower", "20 names into a new message, in lower case", Kind::EmitLower, lower, 20, 50);
        let long = |i| format!("{}{i:04}.example.com.", "x".repeat(59));
        let long = || numbered(120, long);
        self.add("emit-63", "120 labels of 63 octets that end in a number", Kind::Emit, long, 120, 10);
    }

    fn texts(&mut self) {
        let lines = || ((texts(1000, 4).join("\n") + "\n").into_bytes(), vec![]);
        self.add("parse", "1000 texts of names", Kind::Parse, lines, 1000, 5);
        self.add("parse-escaped", "600 texts with escapes", Kind::Parse, escaped, 600, 5);
        let long = || (("a".repeat(60_000) + ".\n").into_bytes(), vec![]);
        self.add("parse-long", "a label of 60,000 characters, which is too long", Kind::Parse, long, 1, 20);
    }

    fn names(&mut self) {
        let names = || (forms(&texts(1000, 4)), vec![]);
        self.add("print", "1000 names", Kind::Print, names, 1000, 5);
        self.add("clone", "1000 names into a vector with room", Kind::Clone, names, 1000, 5);
        self.add("copy-over", "1000 names, each in the place of the one before", Kind::CopyOver, names, 1000, 5);
        self.add("collect", "1000 names read into a growing vector", Kind::Collect, names, 1000, 5);
        self.add("compare", "1000 names, each with the next", Kind::Compare, names, 1000, 5);
        self.add("sort", "1000 names", Kind::Sort, names, 1000, 5);
        self.add("hash", "1000 names by SipHash 1-3", Kind::Hash, names, 1000, 5);
    }

    /// Each family is written into a new message, and read as the owners of a compressed one.
    fn families(&mut self) {
        for family in families::all() {
            let (write, read) = (format!("emit-{}", family.name), format!("owners-{}", family.name));
            let (count, few) = (family.count as u64, 1000 / family.count as u64);
            let names: Vec<String> = (0..family.count).map(family.pattern).collect();
            self.add(leaked(write), family.what, Kind::Emit, || (forms(&names), vec![]), count, few);
            self.add(leaked(read), family.what, Kind::Read, || owners(&names), count, few);
        }
    }

    /// In canonical order, since the numbers are.
    fn bulk(&mut self) {
        let many = || numbered(MANY, |i| format!("host{i:06}.example.com."));
        let each = MANY as u64;
        self.add("bulk-build", "a million names copied into a vector with room", Kind::Clone, many, each, 1);
        self.add("bulk-find", "each of a million names looked up in a vector", Kind::Find, many, each, 1);
        self.add("bulk-list", "a million names of a vector, in order", Kind::List, many, each, 1);
        self.add("table-build", "a million names put into a table of wire forms", Kind::TableBuild, many, each, 1);
        self.add("table-find", "each of a million names looked up in a table", Kind::TableFind, many, each, 1);
        self.add("table-list", "a million names of a table, in order", Kind::TableList, many, each, 1);
    }

    fn messages(&mut self) {
        self.add("read-records", "30 records of a response, with their names", Kind::ReadRecords, records, 30, 100);
        self.add("emit-records", "30 records into a new message", Kind::EmitRecords, records, 30, 100);
        let what = "the data of 30 records of a response, by their fields";
        self.add("read-fields", what, Kind::ReadFields, response, 30, 200);
        self.add("read-labels", "65,535 octets, owners of 127 labels", Kind::ReadMessage, many_labels, 1, 2);
        self.add("read-pointers", "65,535 octets, data of 8,000 pointers", Kind::ReadMessage, many_pointers, 1, 1);
        let responses = [
            ("30-records", response()),
            ("mail", recorded(include_str!("../messages/mail.hex"))),
            ("root", recorded(include_str!("../messages/root.hex"))),
            ("www", recorded(include_str!("../messages/www.hex"))),
            ("texts", recorded(include_str!("../messages/texts.hex"))),
            ("nxdomain", recorded(include_str!("../messages/nxdomain.hex"))),
        ];
        for (name, message) in responses {
            let (read, write) = (format!("read-{name}"), format!("write-{name}"));
            let input = || message.clone();
            self.add(leaked(read), "a response, with all its names and data", Kind::ReadMessage, input, 1, 200);
            self.add(leaked(write), "a response, of its questions and records", Kind::WriteMessage, input, 1, 200);
        }
    }
}

/// The tasks of these names.
pub fn tasks(wanted: &dyn Fn(&str) -> bool) -> Vec<Task> {
    let mut tasks = Tasks { wanted, made: vec![] };
    tasks.readings();
    tasks.writings();
    tasks.texts();
    tasks.families();
    tasks.names();
    tasks.bulk();
    tasks.messages();
    tasks.made
}
