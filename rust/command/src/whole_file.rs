//! An output file that is written whole or not at all.

use std::ffi::OsStr;
use std::fs::{self, File, Metadata, OpenOptions};
use std::io::{self, BufWriter, ErrorKind, Write};
use std::os::unix::ffi::OsStrExt;
use std::os::unix::fs::{MetadataExt, OpenOptionsExt};
use std::path::{Path, PathBuf};
use std::process;

use crate::arguments::{wrong, Arguments, Call};
use crate::output::Stop;
use crate::words::shown;

pub struct WholeFile {
    name: String,
    path: PathBuf,
    /// The file that is there and will be replaced.
    old: Option<Metadata>,
    force: bool,
}

impl WholeFile {
    /// The file that `-o` names; none for standard output. It is looked at before the work is done.
    pub fn asked(call: &Call, arguments: &Arguments, from: &OsStr) -> Result<Option<WholeFile>, Stop> {
        let force = arguments.flag("--force");
        match arguments.value("-o") {
            None if force => Err(wrong(call, "--force goes with -o".into())),
            Some(name) if name != "-" => WholeFile::new(name, from, force).map(Some),
            _ => Ok(None),
        }
    }

    /// A file to write. Refused where something is there that may not be replaced; `from` is the file that is read.
    pub fn new(name: &OsStr, from: &OsStr, force: bool) -> Result<WholeFile, Stop> {
        let path = Path::new(name);
        let no = |why: &str| Err(Stop::failed(format!("{}: cannot be written: {why}", shown(name))));
        if name.is_empty() || name.as_bytes().ends_with(b"/") {
            return no("it is no file name");
        }
        let old = match fs::metadata(path) {
            Ok(old) => old,
            Err(error) if fs::symlink_metadata(path).is_ok() => {
                return no(&format!("it is a link that leads nowhere: {error}"));
            }
            Err(_) => return Ok(WholeFile { name: shown(name), path: path.into(), old: None, force }),
        };
        if !old.is_file() {
            return no("it is no regular file");
        }
        let from = if from == "-" { OsStr::new("/dev/stdin") } else { from };
        if fs::metadata(from).is_ok_and(|from| (from.dev(), from.ino()) == (old.dev(), old.ino())) {
            return no("it is the file that is read");
        }
        if !force {
            return no("it exists: --force replaces it");
        }
        // Of a link the file that it leads to is replaced.
        let path = path.canonicalize().map_err(|error| failed(&shown(name), error))?;
        Ok(WholeFile { name: shown(name), path, old: Some(old), force })
    }

    /// Writes a temporary file in the same folder, then gives it its name.
    pub fn write(self, write: impl FnOnce(&mut dyn Write) -> io::Result<()>) -> Result<(), Stop> {
        let failed = |error| failed(&self.name, error);
        let temporary = Temporary::beside(&self.path, self.old.as_ref()).map_err(failed)?;
        temporary.fill(write, self.old.as_ref()).map_err(failed)?;
        if self.force {
            return temporary.rename(&self.path).map_err(failed);
        }
        temporary.name_new(&self.path).map_err(|error| match error.kind() {
            ErrorKind::AlreadyExists => Stop::failed(format!("{}: cannot be written: it exists now", self.name)),
            _ => failed(error),
        })
    }
}

/// How many names are tried for a temporary file.
const NAMES_TRIED: u32 = 100;

/// A new file that goes when it is no longer used.
struct Temporary {
    file: File,
    path: PathBuf,
    /// Whether it still has that name.
    there: bool,
}

impl Temporary {
    /// Made in the folder of `path`, readable to nobody else where a file is replaced, which may be secret. A file that
    /// has the name already, of a run that was killed or of one in another container, is left alone.
    fn beside(path: &Path, old: Option<&Metadata>) -> io::Result<Temporary> {
        let mode = if old.is_some() { 0o600 } else { 0o666 };
        let mut count = 1;
        loop {
            let path = path.with_file_name(format!(".puddockle-{}-{count}.tmp", process::id()));
            match OpenOptions::new().write(true).create_new(true).mode(mode).open(&path) {
                Ok(file) => return Ok(Temporary { file, path, there: true }),
                Err(error) if error.kind() == ErrorKind::AlreadyExists && count < NAMES_TRIED => count += 1,
                Err(error) => return Err(error),
            }
        }
    }

    /// Its bytes, on the disk, and the permissions of the file that it replaces.
    fn fill(&self, write: impl FnOnce(&mut dyn Write) -> io::Result<()>, old: Option<&Metadata>) -> io::Result<()> {
        let mut buffered = BufWriter::with_capacity(1 << 16, &self.file);
        write(&mut buffered)?;
        buffered.flush()?;
        if let Some(old) = old {
            self.file.set_permissions(old.permissions())?;
        }
        self.file.sync_all()
    }

    fn rename(mut self, path: &Path) -> io::Result<()> {
        fs::rename(&self.path, path)?;
        self.there = false;
        Ok(())
    }

    /// Gives it a name that nothing has.
    fn name_new(self, path: &Path) -> io::Result<()> {
        match fs::hard_link(&self.path, path) {
            Err(error) if error.kind() != ErrorKind::AlreadyExists => {
                // A file system without hard links: an empty file takes the name first.
                File::create_new(path)?;
                self.rename(path).inspect_err(|_| drop(fs::remove_file(path)))
            }
            linked => linked,
        }
    }
}

impl Drop for Temporary {
    fn drop(&mut self) {
        if self.there {
            let _ = fs::remove_file(&self.path);
        }
    }
}

fn failed(name: &str, error: io::Error) -> Stop {
    Stop::failed(format!("{name}: cannot be written: {error}"))
}

#[cfg(test)]
mod tests {
    use std::os::unix::fs::PermissionsExt;

    use super::*;

    /// A name that something took while the file was written is left to it, and the temporary file goes.
    #[test]
    fn what_exists_by_then_stays() {
        let folder = std::env::temp_dir().join(format!("puddockle-whole-file-{}", process::id()));
        fs::create_dir(&folder).unwrap();
        let path = folder.join("out");
        let file = WholeFile::new(path.as_os_str(), OsStr::new("-"), false).unwrap();
        let written = file.write(|to| {
            fs::write(&path, "theirs")?;
            to.write_all(b"ours")
        });
        assert!(matches!(written, Err(Stop::Failed(message)) if message.ends_with("it exists now")));
        assert_eq!(fs::read(&path).unwrap(), b"theirs");
        assert_eq!(fs::read_dir(&folder).unwrap().count(), 1);
        fs::remove_dir_all(&folder).unwrap();
    }

    /// A temporary file that another run has left or still writes is neither used nor removed.
    #[test]
    fn temporary_files_of_others_stay() {
        let folder = std::env::temp_dir().join(format!("puddockle-temporary-{}", process::id()));
        fs::create_dir(&folder).unwrap();
        let theirs = folder.join(format!(".puddockle-{}-1.tmp", process::id()));
        fs::write(&theirs, "theirs").unwrap();
        for force in [false, true] {
            let path = folder.join(format!("out-{force}"));
            let file = WholeFile::new(path.as_os_str(), OsStr::new("-"), force).unwrap();
            assert!(file.write(|to| to.write_all(b"ours")).is_ok());
            assert_eq!(fs::read(&path).unwrap(), b"ours");
        }
        assert_eq!(fs::read(&theirs).unwrap(), b"theirs");
        assert_eq!(fs::read_dir(&folder).unwrap().count(), 3);
        fs::remove_dir_all(&folder).unwrap();
    }

    /// What replaces a file that only its owner reads is never to be read by others.
    #[test]
    fn what_is_secret_stays_so() {
        let folder = std::env::temp_dir().join(format!("puddockle-secret-{}", process::id()));
        fs::create_dir(&folder).unwrap();
        let path = folder.join("out");
        fs::write(&path, "old").unwrap();
        fs::set_permissions(&path, fs::Permissions::from_mode(0o600)).unwrap();
        let file = WholeFile::new(path.as_os_str(), OsStr::new("-"), true).unwrap();
        let written = file.write(|to| {
            for entry in fs::read_dir(&folder)? {
                assert_eq!(entry?.metadata()?.mode() & 0o077, 0);
            }
            to.write_all(b"new")
        });
        assert!(written.is_ok());
        assert_eq!(fs::read(&path).unwrap(), b"new");
        assert_eq!(fs::metadata(&path).unwrap().mode() & 0o777, 0o600);
        fs::remove_dir_all(&folder).unwrap();
    }
}
