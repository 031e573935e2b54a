//! Keeps copies in the file system. Written by hand, not proved.
use crate::ending::Ending;
use crate::ether_files::Copies;
use crate::ether_files::units::WholeParts;
use crate::ether_files::{Form, WriteFault};
use crate::streams;
use std::fs::{self, File, Metadata, OpenOptions};
use std::io::{self, Error, ErrorKind, Write};
use std::os::unix::fs::{FileTypeExt, MetadataExt, fchown};
use std::path::{Path, PathBuf};

/// How many names are tried for a part: each run that was killed may have left one.
const MOST_PARTS: usize = 100;

/// How many symbolic links are followed from one to the next, as many as Linux follows.
const MOST_LINKS: usize = 40;

/// The name of standard input among those of files, and its name for the system.
const INPUT_WORD: &str = "-";

const STANDARD_INPUT: &str = "/dev/stdin";

/// Files that get copies.
pub struct CopyFiles<'a> {
    ending: &'a Ending,
    form: Form,
    keeps_input: bool,
    lost: Option<(String, WriteFault)>,
}

impl<'a> CopyFiles<'a> {
    /// Files that get copies of this form, also that of a run that a signal ends. Standard input that is a regular file can be
    /// read again.
    pub fn new(ending: &'a Ending, form: Form) -> Self {
        let is_file = streams::input().and_then(|input| input.metadata()).is_ok_and(|found| found.is_file());
        CopyFiles { ending, form, keeps_input: !is_file, lost: None }
    }

    /// The file that can't get the copy of a run that a signal has ended, and why, if there is one.
    pub fn lost(&self) -> Option<(&str, WriteFault)> {
        self.lost.as_ref().map(|(name, fault)| (name.as_str(), *fault))
    }

    /// Leaves the file as it was, also in a run that a signal has ended.
    pub fn discard(&self, part: PartFile) {
        part.remove();
    }

    /// Tests that what is written of a copy is kept after a fault.
    fn keeps(&self, part: &PartFile, is_kept: bool) -> bool {
        (is_kept || self.ending.has_cut()) && !part.parts.is_empty()
    }
}

/// A copy that is being written: to a new file in the folder of the file that gets it. Or directly to what the name is
/// of, if that is not a regular file, as `/dev/null`, or if no file can be made in its folder.
pub struct PartFile {
    file: File,
    is_regular: bool,
    beside: Option<PathBuf>,
    parts: WholeParts,
    error: Option<Error>,
}

impl PartFile {
    /// A copy without a byte.
    fn new(file: File, is_regular: bool, beside: Option<PathBuf>, form: Form) -> Self {
        PartFile { file, is_regular, beside, parts: WholeParts::new(form), error: None }
    }

    /// Tests that a whole packet, block or line was written.
    pub fn has_frames(&self) -> bool {
        self.parts.has_frames()
    }

    /// Keeps the error of a call, if it has failed.
    fn note<V>(&mut self, answer: io::Result<V>) -> io::Result<V> {
        answer.map_err(|error| {
            let kind = error.kind();
            self.error = Some(error);
            kind.into()
        })
    }

    /// Waits until a regular file is on the disk.
    fn sync(&self) -> io::Result<()> {
        if self.is_regular { self.file.sync_all() } else { Ok(()) }
    }

    /// Cuts a regular file after what was written whole.
    fn cut(&self) {
        if self.is_regular {
            let _ = self.file.set_len(self.parts.len());
        }
    }

    /// Gives a part, if it is beside its file, the name of that, and waits until the folder is on the disk.
    fn rename(&self, name: &str) -> io::Result<()> {
        let Some(beside) = &self.beside else {
            return Ok(());
        };
        let path = followed(name).unwrap_or(name.into());
        fs::rename(beside, &path)?;
        sync_folder(&path);
        Ok(())
    }

    /// Removes the file of a part beside another file, if that can be done.
    fn remove(&self) {
        if let Some(beside) = &self.beside {
            let _ = fs::remove_file(beside);
        }
    }
}

impl Write for PartFile {
    fn write(&mut self, buf: &[u8]) -> io::Result<usize> {
        let answer = self.file.write(buf);
        if let Ok(count) = &answer {
            self.parts.take(&buf[..*count]);
        }
        self.note(answer)
    }

    fn flush(&mut self) -> io::Result<()> {
        let answer = self.file.flush();
        self.note(answer)
    }
}

impl Copies for CopyFiles<'_> {
    type Part = PartFile;

    fn keeps_input(&self) -> bool {
        self.keeps_input
    }

    fn begin(&mut self, name: &str, inputs: &[&str]) -> Result<PartFile, WriteFault> {
        if name.is_empty() {
            return Err(WriteFault::NoName);
        }
        let Ok(found) = fs::metadata(name) else {
            return beside(followed(name)?, self.form);
        };
        if found.is_dir() {
            return Err(WriteFault::IsADirectory);
        }
        let open = || OpenOptions::new().write(true).open(name);
        let opened = if found.file_type().is_fifo() { self.ending.unwatched(open) } else { open() };
        let file = opened.map_err(|error| WriteFault::of(&error))?;
        if !found.is_file() {
            return Ok(PartFile::new(file, false, None, self.form));
        }
        match beside(followed(name)?, self.form) {
            Err(WriteFault::PermissionDenied) => in_place(file, &found, inputs, self.form),
            answer => answer.inspect(|part| resemble(&part.file, &found)),
        }
    }

    fn finish(&mut self, name: &str, part: PartFile) -> Result<(), WriteFault> {
        part.sync().and_then(|()| part.rename(name)).map_err(|error| {
            part.remove();
            WriteFault::of(&error)
        })
    }

    /// If a signal has ended the run, what is whole before that is kept, too.
    fn break_off(&mut self, name: &str, part: PartFile, is_kept: bool) -> Result<(), WriteFault> {
        if !self.keeps(&part, is_kept) {
            part.remove();
            return Ok(());
        }
        part.cut();
        let kept = self.finish(name, part);
        if self.ending.has_cut() {
            self.lost = kept.err().map(|fault| (name.to_owned(), fault));
            return Ok(());
        }
        kept
    }

    fn give_up(&mut self, name: &str, part: PartFile, is_kept: bool) -> WriteFault {
        if self.keeps(&part, is_kept) {
            part.cut();
            let _ = part.sync();
            let _ = part.rename(name);
        } else {
            part.remove();
        }
        part.error.as_ref().map_or(WriteFault::Other, WriteFault::of)
    }
}

/// Gives a part the owner, the group and the permissions of the file that gets it, as far as the system lets it.
fn resemble(part: &File, found: &Metadata) {
    if fchown(part, Some(found.uid()), Some(found.gid())).is_err() {
        let _ = fchown(part, None, Some(found.gid()));
    }
    let _ = part.set_permissions(found.permissions());
}

/// Waits until the folder of a file is on the disk, if the system lets it be opened.
fn sync_folder(path: &Path) {
    let folder = path.parent().filter(|folder| !folder.as_os_str().is_empty());
    if let Ok(folder) = File::open(folder.unwrap_or(Path::new("."))) {
        let _ = folder.sync_all();
    }
}

/// The name of the file to which symbolic links lead, also if that is not there. A name that is no link is returned as it
/// is.
fn followed(name: &str) -> Result<PathBuf, WriteFault> {
    let mut path = PathBuf::from(name);
    for _ in 0..MOST_LINKS {
        match fs::read_link(&path) {
            Ok(next) => path = path.with_file_name(next),
            Err(_) => return Ok(path),
        }
    }
    Err(WriteFault::Other)
}

/// Empties a file that gets a copy, unless it is among what is copied.
fn in_place(file: File, found: &Metadata, inputs: &[&str], form: Form) -> Result<PartFile, WriteFault> {
    if !inputs.iter().all(|input| is_other(input, found)) {
        return Err(WriteFault::PermissionDenied);
    }
    file.set_len(0).map_err(|error| WriteFault::of(&error))?;
    Ok(PartFile::new(file, true, None, form))
}

/// Tests that an input is another file than this one.
fn is_other(input: &str, found: &Metadata) -> bool {
    let name = if input == INPUT_WORD { STANDARD_INPUT } else { input };
    fs::metadata(name).is_ok_and(|read| (read.dev(), read.ino()) != (found.dev(), found.ino()))
}

/// Creates a part in the folder of a file.
fn beside(path: PathBuf, form: Form) -> Result<PartFile, WriteFault> {
    for number in 0..MOST_PARTS {
        let mut part = path.clone().into_os_string();
        part.push(if number == 0 { ".part".to_owned() } else { format!(".{number}.part") });
        match File::create_new(&part) {
            Ok(file) => return Ok(PartFile::new(file, true, Some(part.into()), form)),
            Err(error) if error.kind() == ErrorKind::AlreadyExists => (),
            Err(error) => return Err(WriteFault::of(&error)),
        }
    }
    Err(WriteFault::Other)
}
