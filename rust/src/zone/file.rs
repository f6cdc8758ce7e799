//! Zone files with the files that they include.
use super::{error::shown_path, ZoneError, ZoneInclude, ZoneItem, ZoneStream};
use crate::{Name, RecordBuf};
use std::fs::File;
use std::io;
use std::iter::FusedIterator;
use std::path::{Path, PathBuf};

/// The records of a zone file and of the files that it includes: an iterator that goes on at the next entry after one that is
/// not valid.
///
/// A relative path of an `$INCLUDE` begins in the folder of the file that has it, as in Knot DNS. (In BIND, NSD and dnspython it
/// begins in their working directory.) A zone file from strangers can name any file, so these alone are included: plain files in
/// the folder of the zone file or below it, or below one that [`include_from`](ZoneFile::include_from) gives. Links are followed
/// first. An absolute path, and one with `..`, has to lead to such a file too.
///
/// What an included file says of owners, TTLs and the origin ends with it. (In BIND and NSD, its last `$TTL` goes on.) Its first
/// entry may leave out what an entry may leave out at the `$INCLUDE`.
///
/// A file that may not be included is an error at the `$INCLUDE`, after which the iterator goes on: the same error whether it is
/// there or not. So is one that cannot be read, one that includes itself, directly or through others, and one with which more than
/// [`MAX_DEPTH`](ZoneFile::MAX_DEPTH) files would be open or more than [`MAX_FILES`](ZoneFile::MAX_FILES) be included.
///
/// An error in an included file has an empty [`text`](ZoneError::text) before the first record of that file, so that no line of a
/// file is shown that is no zone file.
///
/// The files are read in parts, as [`ZoneStream`] does.
///
/// ```no_run
/// use dns_names_wire::ZoneFile;
///
/// for record in ZoneFile::open("example.zone", &"example.".parse()?)? {
///     match record {
///         Ok(record) => println!("{record}"),
///         // example.zone:3:6: wanted an IPv4 address (field 0)
///         Err(error) => eprintln!("{error}"),
///     }
/// }
/// # Ok::<(), Box<dyn std::error::Error>>(())
/// ```
#[derive(Debug)]
pub struct ZoneFile {
    /// The files that are open, each included by the one before it.
    files: Vec<OpenFile>,
    /// The folders below which files may be included, after links are followed.
    folders: Vec<PathBuf>,
    /// How many files were included.
    count: usize,
}

#[derive(Debug)]
struct OpenFile {
    path: PathBuf,
    /// Where the file is after links are followed. It is empty if this is no plain file.
    place: PathBuf,
    entries: ZoneStream<File>,
    /// Whether errors have their line: in an included file only after a record of it.
    shows_lines: bool,
}

impl ZoneFile {
    /// The most files that are open at once: the first one, one that it includes, one that this includes, and so on.
    pub const MAX_DEPTH: usize = 10;

    /// The most files that are included in all.
    pub const MAX_FILES: usize = 1000;

    /// Opens a zone file. The origin is the name of the zone: it is appended to names without a last dot, until an `$ORIGIN`
    /// changes it.
    ///
    /// # Errors
    ///
    /// Those of [`File::open`]; or one of kind `InvalidData` if the origin is not fully qualified.
    ///
    /// ```
    /// use dns_names_wire::ZoneFile;
    ///
    /// let error = ZoneFile::open("there is no such file", &"example.".parse()?).unwrap_err();
    /// assert_eq!(error.kind(), std::io::ErrorKind::NotFound);
    /// # Ok::<(), dns_names_wire::Error>(())
    /// ```
    pub fn open(path: impl AsRef<Path>, origin: &Name) -> io::Result<Self> {
        let path = path.as_ref().to_path_buf();
        origin.whole_wire()?;
        let file = File::open(&path)?;
        let is_plain = file.metadata()?.is_file();
        let place = if is_plain { path.canonicalize()? } else { PathBuf::new() };
        let folders = path.parent().filter(|_| is_plain).map(canonical).into_iter().collect::<io::Result<_>>()?;
        let first = OpenFile { path, place, entries: ZoneStream::new(file, origin), shows_lines: true };
        Ok(ZoneFile { files: vec![first], folders, count: 0 })
    }

    /// Sets the TTL of records for which the files state none, as
    /// [`ZoneReader::default_ttl`](crate::ZoneReader::default_ttl) does. It is called before the first record is taken.
    ///
    /// ```no_run
    /// use dns_names_wire::ZoneFile;
    ///
    /// let zone = ZoneFile::open("example.zone", &"example.".parse()?)?.default_ttl(3600);
    /// # Ok::<(), Box<dyn std::error::Error>>(())
    /// ```
    pub fn default_ttl(self, ttl: u32) -> Self {
        let first = |file: OpenFile| OpenFile { entries: file.entries.default_ttl(ttl), ..file };
        ZoneFile { files: self.files.into_iter().map(first).collect(), ..self }
    }

    /// Sets how many records a `$GENERATE` may stand for, as
    /// [`ZoneReader::generate_limit`](crate::ZoneReader::generate_limit) does. It is called before the first record is taken.
    pub fn generate_limit(self, limit: u32) -> Self {
        let first = |file: OpenFile| OpenFile { entries: file.entries.generate_limit(limit), ..file };
        ZoneFile { files: self.files.into_iter().map(first).collect(), ..self }
    }

    /// Lets files of `$INCLUDE` be below this folder too. An empty path is the working directory; below a folder that is not there
    /// no file is found. If the zone file is no plain file but a pipe, as `/dev/stdin` may be, it includes no file without a call,
    /// and its relative paths begin in the folder of the first one.
    ///
    /// ```no_run
    /// use dns_names_wire::ZoneFile;
    ///
    /// let zone = ZoneFile::open("/etc/bind/example.zone", &"example.".parse()?)?.include_from("/var/cache/bind");
    /// # Ok::<(), Box<dyn std::error::Error>>(())
    /// ```
    pub fn include_from(mut self, folder: impl Into<PathBuf>) -> Self {
        self.folders.extend(canonical(&folder.into()));
        self
    }

    /// Opens the file of the `$INCLUDE` that the last file has.
    fn open_included(&mut self, include: &ZoneInclude) -> Result<(), ZoneError> {
        let outer = &self.files[self.files.len() - 1];
        let error = |why: String| outer.entries.error(why).in_file(&outer.path, outer.shows_lines);
        let named = |why: &str| format!("\"{}\" {why}", shown_path(include.path()));
        let unread = |cause: io::Error| error(named(&format!("cannot be read: {cause}"))).caused_by(cause);
        let ensure = |is_right: bool, why: String| if is_right { Ok(()) } else { Err(error(why)) };
        ensure(!self.folders.is_empty(), "$INCLUDE is not followed here: no folder is given".into())?;
        ensure(self.files.len() < Self::MAX_DEPTH, format!("{} files include one another already", Self::MAX_DEPTH))?;
        ensure(self.count < Self::MAX_FILES, format!("{} files are included already", Self::MAX_FILES))?;
        let path = outer.place.parent().and(outer.path.parent()).unwrap_or(&self.folders[0]).join(include.path());
        let place = self.place_of(&path).ok_or_else(|| error(named("is outside the folders to include from")))?;
        ensure(self.files.iter().all(|open| open.place != place), named("includes itself"))?;
        ensure(path.metadata().map_err(unread)?.is_file(), named("is not a file"))?;
        let entries = outer.entries.include(File::open(&place).map_err(unread)?, include.origin());
        self.files.push(OpenFile { path, place, entries, shows_lines: false });
        self.count += 1;
        Ok(())
    }

    /// Returns where a file is after links are followed, if it may be included, whether it is there or not.
    fn place_of(&self, path: &Path) -> Option<PathBuf> {
        let place = canonical(path.parent()?).ok()?.join(path.file_name()?);
        let place = if place.is_symlink() { place.canonicalize().ok()? } else { place };
        self.folders.iter().any(|folder| place.starts_with(folder)).then_some(place)
    }
}

/// Returns where a folder is after links are followed.
fn canonical(folder: &Path) -> io::Result<PathBuf> {
    Path::new(".").join(folder).canonicalize()
}

impl Iterator for ZoneFile {
    type Item = Result<RecordBuf, ZoneError>;

    fn next(&mut self) -> Option<Self::Item> {
        while let Some(file) = self.files.last_mut() {
            match file.entries.next() {
                Some(Ok(ZoneItem::Record(record))) => {
                    file.shows_lines = true;
                    return Some(Ok(record));
                }
                Some(Ok(ZoneItem::Include(include))) => match self.open_included(&include) {
                    Ok(()) => {}
                    Err(error) => return Some(Err(error)),
                },
                Some(Err(error)) => return Some(Err(error.in_file(&file.path, file.shows_lines))),
                None => {
                    self.files.pop();
                }
            }
        }
        None
    }
}

impl FusedIterator for ZoneFile {}
