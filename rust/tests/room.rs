//! How much memory names take, and messages that are written into a buffer.
use dns_names_wire::{
    Class, Edns, Header, MessageWriter, Name, NameRef, Need, RData, RecordBuf, RecordSet, RecordType, Section,
};
use std::alloc::{GlobalAlloc, Layout, System};
use std::sync::atomic::{AtomicUsize, Ordering};
use std::sync::Mutex;

/// The system's allocator, which counts the bytes that are taken.
struct Counted;

static TAKEN: AtomicUsize = AtomicUsize::new(0);
static CALLS: AtomicUsize = AtomicUsize::new(0);

/// One test at a time counts.
static COUNTS: Mutex<()> = Mutex::new(());

// SAFETY: each call is passed on.
unsafe impl GlobalAlloc for Counted {
    unsafe fn alloc(&self, layout: Layout) -> *mut u8 {
        TAKEN.fetch_add(layout.size(), Ordering::Relaxed);
        CALLS.fetch_add(1, Ordering::Relaxed);
        System.alloc(layout)
    }

    unsafe fn dealloc(&self, place: *mut u8, layout: Layout) {
        TAKEN.fetch_sub(layout.size(), Ordering::Relaxed);
        System.dealloc(place, layout);
    }
}

#[global_allocator]
static COUNTED: Counted = Counted;

const MILLION: usize = 1_000_000;
const MEGABYTE: usize = 1_000_000;

/// Returns the bytes that a million names take, of which each has a number in its first label.
fn room(zone: &str) -> usize {
    let before = TAKEN.load(Ordering::Relaxed);
    let mut names = Vec::with_capacity(MILLION);
    names.extend((0..MILLION).map(|number| format!("host{number}.{zone}").parse::<Name>().unwrap()));
    let room = TAKEN.load(Ordering::Relaxed) - before;
    assert_eq!(names[MILLION - 1].labels().next(), Some(&b"host999999"[..]));
    room
}

#[test]
fn a_million_names_take_at_most_100_mb() {
    let _counts = COUNTS.lock();
    assert_eq!((std::mem::size_of::<Name>(), std::mem::size_of::<NameRef>()), (40, 32));
    // In the names themselves; and what the test's own thread takes
    assert!(room("department.example.com.") < 40 * MILLION + MEGABYTE);
    // In boxes of up to 54 octets
    assert!(room("some.department.at.the.example.university.") < 100 * MEGABYTE);
}

/// Other threads of the tests may allocate, so one of many runs has to have no allocation.
#[test]
fn messages_are_written_without_an_allocation() {
    let _counts = COUNTS.lock();
    let (name, host): (Name, Name) = ("example.com.".parse().unwrap(), "ns.example.com.".parse().unwrap());
    let record: RecordBuf = "example.com. 60 MX 10 mail.example.com.".parse().unwrap();
    let long: RecordBuf = format!("a. 60 TXT {}", "\"aaaaaaaaaaaaaaa\" ".repeat(40)).parse().unwrap();
    let sets = RecordSet::group(&["a. 60 A 192.0.2.1".parse::<RecordBuf>().unwrap()]).unwrap();
    let mut room = [0; 2048];
    let mut write = |extra: Option<&RecordBuf>| {
        let before = CALLS.load(Ordering::Relaxed);
        let mut writer = MessageWriter::new(&mut room, 2048, &Header::default()).unwrap();
        writer.question(&name, RecordType::NS, Class::IN).unwrap();
        writer.data(Section::Answers, &name, 60, RData::NS((&host).into())).unwrap();
        writer.record(Section::Answers, &record).unwrap();
        writer.set(Section::Authorities, Need::Required, &sets[0]).unwrap();
        if let Some(record) = extra {
            writer.record(Section::Additionals, record).unwrap();
        }
        writer.padded_edns(&Edns::new(1232), 128).unwrap();
        CALLS.load(Ordering::Relaxed) - before
    };
    assert_eq!((0..100).map(|_| write(None)).min(), Some(0));
    assert!(write(Some(&long)) > 0);
}
