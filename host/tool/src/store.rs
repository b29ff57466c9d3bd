//! Files are written beside their target and then take its name: what stands
//! there is the old file or the new one, never half of it.

use crate::names::shown;
use crate::place::leads_nowhere;
use crate::screen::counted;
use std::fs::{self, File, OpenOptions};
use std::io::{self, ErrorKind, Write};
use std::path::{Path, PathBuf};

pub fn write(path: &Path, bytes: &[u8]) -> Result<(), String> {
    put(path, |file| file.write_all(bytes)).map_err(|error| cannot(path, error))
}

/// A file by its name, and what is to stand in it.
pub type Wanted<'a> = (PathBuf, &'a [u8]);

/// Writes files under these very names: no link is followed. Each name is looked
/// at before the first file is made, and every file is on the disk before the
/// first takes its name.
pub fn write_all(files: &[Wanted], overwrite: bool) -> Result<(), String> {
    each(files, |path, _| may_take(path, overwrite))?;
    let laid = each(files, |path, bytes| {
        lay(path.to_path_buf(), |file| file.write_all(bytes))
    })?;
    let named = |(before, file): (usize, Laid)| {
        let went = file.named(overwrite);
        went.map_err(|why| with_those_before(why, before))
    };
    laid.into_iter().enumerate().try_for_each(named)
}

/// A name that was free may be taken meanwhile, when others have theirs.
fn with_those_before(why: String, before: usize) -> String {
    match before {
        0 => why,
        _ => format!("{why}; written before it: {}", counted(before, "file")),
    }
}

/// Does this with each file, up to the first with which it can't be done.
fn each<T>(
    files: &[Wanted],
    act: impl Fn(&Path, &[u8]) -> io::Result<T>,
) -> Result<Vec<T>, String> {
    let one = |(path, bytes): &Wanted| act(path, bytes).map_err(|error| cannot(path, error));
    files.iter().map(one).collect()
}

/// What is said of a file that may not be written over.
pub fn taken(path: &Path) -> String {
    cannot(path, io::Error::from(ErrorKind::AlreadyExists))
}

fn cannot(path: &Path, error: io::Error) -> String {
    let why = match error.kind() {
        ErrorKind::AlreadyExists => {
            "a file stands there already (--overwrite writes over it)".to_string()
        }
        _ => error.to_string(),
    };
    format!("can't write {}: {why}", shown(path))
}

/// Whether a file may take this name. What else may be in its way, such as a
/// folder that is not there, is found out when it is made.
fn may_take(path: &Path, overwrite: bool) -> io::Result<()> {
    match path.symlink_metadata() {
        Err(_) => Ok(()),
        Ok(found) if found.is_symlink() => Err(io::Error::other("a link stands there already")),
        Ok(found) if !found.is_file() => Err(io::Error::other("what stands there is no file")),
        Ok(_) if !overwrite => Err(io::Error::from(ErrorKind::AlreadyExists)),
        Ok(_) => writable(path).map(drop),
    }
}

fn put(path: &Path, fill: impl FnOnce(&mut File) -> io::Result<()>) -> io::Result<()> {
    if leads_nowhere(path) {
        return Err(io::Error::other("it is a link that leads nowhere"));
    }
    let target = match path.metadata() {
        // A device or a pipe holds nothing to lose, and must stay what it is.
        Ok(found) if !found.is_file() => return fill(&mut writable(path)?),
        Ok(_) => {
            // A file that may not be written stays, though its folder may be.
            writable(path)?;
            path.canonicalize()?
        }
        Err(_) => path.to_path_buf(),
    };
    lay(target, fill)?.over()
}

fn writable(path: &Path) -> io::Result<File> {
    OpenOptions::new().write(true).open(path)
}

/// A file that is whole, beside the target whose name it is to take. Where it
/// never does it is of no use, and goes.
struct Laid {
    beside: PathBuf,
    target: PathBuf,
    moved: bool,
}

impl Drop for Laid {
    fn drop(&mut self) {
        if !self.moved {
            // Where it can't be removed, there is an error before it to tell.
            let _ = fs::remove_file(&self.beside);
        }
    }
}

impl Laid {
    fn named(self, overwrite: bool) -> Result<(), String> {
        let target = self.target.clone();
        let went = match overwrite {
            true => self.over(),
            false => self.at_free_name(|from, to| fs::hard_link(from, to)),
        };
        went.map_err(|error| cannot(&target, error))
    }

    /// Takes the name, whatever file or link has it.
    fn over(mut self) -> io::Result<()> {
        fs::rename(&self.beside, &self.target)?;
        self.moved = true;
        Ok(())
    }

    /// Takes the name unless something has it, also something that came there
    /// this very moment: `link` gives a file a second name, and none that is
    /// taken.
    fn at_free_name(self, link: impl Fn(&Path, &Path) -> io::Result<()>) -> io::Result<()> {
        match link(&self.beside, &self.target) {
            Err(error) if error.kind() != ErrorKind::AlreadyExists => self.claiming(),
            went => went,
        }
    }

    /// Where files have no second names, as on most USB sticks, an empty file
    /// keeps the name for the moment.
    fn claiming(self) -> io::Result<()> {
        let target = self.target.clone();
        File::create_new(&target)?;
        self.over().inspect_err(|_| drop(fs::remove_file(&target)))
    }
}

fn lay(target: PathBuf, fill: impl FnOnce(&mut File) -> io::Result<()>) -> io::Result<Laid> {
    let (file, beside) = create_beside(&target)?;
    let laid = Laid {
        beside,
        target,
        moved: false,
    };
    finish(file, &laid.target, fill)?;
    Ok(laid)
}

/// A new file in the target's folder. Its name is short, so that it fits
/// wherever the target's does.
fn create_beside(target: &Path) -> io::Result<(File, PathBuf)> {
    let mut number = 0;
    loop {
        let name = format!(".mullirim-{}-{number}.part", std::process::id());
        let beside = target.with_file_name(name);
        match File::create_new(&beside) {
            Err(error) if error.kind() == ErrorKind::AlreadyExists => number += 1,
            opened => return Ok((opened?, beside)),
        }
    }
}

/// All of it is on the disk before the name is taken, for some disks tell only
/// then that they are full.
fn finish(
    mut file: File,
    target: &Path,
    fill: impl FnOnce(&mut File) -> io::Result<()>,
) -> io::Result<()> {
    fill(&mut file)?;
    if let Ok(old) = target.metadata() {
        file.set_permissions(old.permissions())?;
    }
    file.sync_all()
}

#[cfg(test)]
mod tests {
    use super::*;
    use std::io::Read;
    use std::os::unix::fs::{symlink, FileTypeExt, OpenOptionsExt, PermissionsExt};
    use std::process::Command;

    /// Linux's number for it.
    const O_NONBLOCK: i32 = 0o4000;

    /// A folder of this test's own, gone with it.
    struct Folder(PathBuf);

    impl Folder {
        fn new(name: &str) -> Folder {
            let name = format!("mullirim-store-{name}-{}", std::process::id());
            let path = std::env::temp_dir().join(name);
            fs::create_dir_all(&path).unwrap();
            Folder(path)
        }

        fn names(&self) -> Vec<String> {
            let name = |entry: io::Result<fs::DirEntry>| entry.unwrap().file_name();
            let mut names: Vec<_> = fs::read_dir(&self.0).unwrap().map(name).collect();
            names.sort();
            names
                .into_iter()
                .map(|name| name.into_string().unwrap())
                .collect()
        }
    }

    impl Drop for Folder {
        fn drop(&mut self) {
            let _ = fs::remove_dir_all(&self.0);
        }
    }

    fn full_after_a_byte(file: &mut File) -> io::Result<()> {
        file.write_all(b"h")?;
        Err(io::Error::from(ErrorKind::StorageFull))
    }

    #[test]
    fn a_file_is_written_and_nothing_else_stays() {
        let folder = Folder::new("plain");
        let path = folder.0.join("file");
        write(&path, b"first").unwrap();
        assert_eq!(fs::read(&path).unwrap(), b"first");
        fs::set_permissions(&path, fs::Permissions::from_mode(0o640)).unwrap();
        write(&path, b"second").unwrap();
        assert_eq!(fs::read(&path).unwrap(), b"second");
        let mode = path.metadata().unwrap().permissions().mode();
        assert_eq!(mode & 0o777, 0o640);
        assert_eq!(folder.names(), ["file"]);
    }

    #[test]
    fn a_failing_write_leaves_the_old_file_or_none() {
        let folder = Folder::new("full");
        let path = folder.0.join("file");
        let went = put(&path, full_after_a_byte);
        assert_eq!(went.unwrap_err().kind(), ErrorKind::StorageFull);
        assert_eq!(folder.names(), [""; 0]);
        fs::write(&path, "old").unwrap();
        assert!(put(&path, full_after_a_byte).is_err());
        assert_eq!(fs::read(&path).unwrap(), b"old");
        assert_eq!(folder.names(), ["file"]);
    }

    /// The name is taken at the end, and not before.
    #[test]
    fn the_old_file_stands_while_the_new_one_is_written() {
        let folder = Folder::new("meanwhile");
        let path = folder.0.join("file");
        fs::write(&path, "old").unwrap();
        put(&path, |file| {
            file.write_all(b"new")?;
            assert_eq!(fs::read(&path)?, b"old");
            assert_eq!(folder.names().len(), 2);
            Ok(())
        })
        .unwrap();
        assert_eq!(fs::read(&path).unwrap(), b"new");
    }

    #[test]
    fn a_name_that_is_taken_beside_is_left_alone() {
        let folder = Folder::new("taken");
        let taken = format!(".mullirim-{}-0.part", std::process::id());
        fs::write(folder.0.join(&taken), "theirs").unwrap();
        write(&folder.0.join("file"), b"ours").unwrap();
        assert_eq!(fs::read(folder.0.join(&taken)).unwrap(), b"theirs");
        assert_eq!(folder.names(), [&taken, "file"]);
    }

    #[test]
    fn a_link_stays_one_and_its_file_is_written() {
        let folder = Folder::new("link");
        let (file, link) = (folder.0.join("file"), folder.0.join("link"));
        fs::write(&file, "old").unwrap();
        symlink(&file, &link).unwrap();
        write(&link, b"new").unwrap();
        assert!(link.is_symlink());
        assert_eq!(fs::read(&file).unwrap(), b"new");
        fs::remove_file(&file).unwrap();
        let why = format!(
            "can't write {}: it is a link that leads nowhere",
            link.display()
        );
        assert_eq!(write(&link, b"new"), Err(why));
        assert_eq!(folder.names(), ["link"]);
    }

    /// A pipe of this test's own stands for the machine's devices, which no
    /// slip of ours may replace.
    #[test]
    fn what_is_no_plain_file_is_written_to_and_stays_what_it_is() {
        let folder = Folder::new("pipe");
        let pipe = folder.0.join("pipe");
        let made = Command::new("mkfifo").arg(&pipe).status().unwrap();
        assert!(made.success());
        // So that opening it doesn't wait for a writer.
        let mut options = OpenOptions::new();
        let mut reader = options
            .read(true)
            .custom_flags(O_NONBLOCK)
            .open(&pipe)
            .unwrap();
        assert_eq!(write(&pipe, b"through"), Ok(()));
        let mut came = Vec::new();
        reader.read_to_end(&mut came).unwrap();
        assert_eq!(came, b"through");
        assert!(pipe.metadata().unwrap().file_type().is_fifo());
        assert_eq!(folder.names(), ["pipe"]);
    }

    #[test]
    fn where_nothing_can_be_written_the_path_is_named() {
        let folder = Folder::new("nowhere");
        let inside = folder.0.join("none/file");
        let why = format!("can't write {}: ", inside.display());
        assert!(write(&inside, b"x").unwrap_err().starts_with(&why));
        let why = format!("can't write {}: Is a directory", folder.0.display());
        assert!(write(&folder.0, b"x").unwrap_err().starts_with(&why));
        // A folder in which nobody can make a file, whoever runs this.
        let why = "can't write /proc/self/new: ";
        assert!(write(Path::new("/proc/self/new"), b"x")
            .unwrap_err()
            .starts_with(why));
        assert_eq!(folder.names(), [""; 0]);
    }

    /// Whoever may write everywhere can't see this refused.
    #[test]
    fn a_file_kept_from_writing_stays() {
        let folder = Folder::new("kept");
        let path = folder.0.join("file");
        fs::write(&path, "old").unwrap();
        fs::set_permissions(&path, fs::Permissions::from_mode(0o444)).unwrap();
        let may = writable(&path).is_ok();
        assert_eq!(write(&path, b"new").is_ok(), may);
        let left: &[u8] = if may { b"new" } else { b"old" };
        assert_eq!(fs::read(&path).unwrap(), left);
    }

    fn all<'a>(folder: &Folder, files: &[(&str, &'a str)]) -> Vec<Wanted<'a>> {
        let file = |(name, text): &(&str, &'a str)| (folder.0.join(name), text.as_bytes());
        files.iter().map(file).collect()
    }

    /// Neither with leave nor without are these files written, and it is told
    /// which of them can't be.
    fn none_written(folder: &Folder, files: &[(&str, &str)], which: &str, why: &str) {
        let before = folder.names();
        let path = folder.0.join(which);
        for overwrite in [false, true] {
            let went = write_all(&all(folder, files), overwrite);
            let why = format!("can't write {}: {why}", path.display());
            assert_eq!(went, Err(why), "{overwrite}");
            assert_eq!(folder.names(), before);
        }
    }

    #[test]
    fn all_are_written_and_nothing_else_stays() {
        let folder = Folder::new("all");
        write_all(&all(&folder, &[("a", "one"), ("b", "two")]), false).unwrap();
        write_all(&all(&folder, &[("c", "three")]), true).unwrap();
        let read = |name: &str| fs::read_to_string(folder.0.join(name)).unwrap();
        assert_eq!(["a", "b", "c"].map(read), ["one", "two", "three"]);
        assert_eq!(folder.names(), ["a", "b", "c"]);
    }

    #[test]
    fn of_all_none_is_written_where_one_stands_already() {
        let folder = Folder::new("stands");
        let path = folder.0.join("b");
        fs::write(&path, "old").unwrap();
        let files = [("a", "one"), ("b", "two"), ("c", "three")];
        assert_eq!(write_all(&all(&folder, &files), false), Err(taken(&path)));
        let why = "a file stands there already (--overwrite writes over it)";
        assert_eq!(
            taken(&path),
            format!("can't write {}: {why}", path.display())
        );
        assert_eq!(fs::read(&path).unwrap(), b"old");
        assert_eq!(folder.names(), ["b"]);
    }

    /// The name is given to another file: a second name of the old one keeps it.
    #[test]
    fn with_leave_a_file_is_replaced_and_its_second_name_is_not() {
        let folder = Folder::new("leave");
        let [path, second] = ["b", "second"].map(|name| folder.0.join(name));
        fs::write(&path, "old").unwrap();
        fs::set_permissions(&path, fs::Permissions::from_mode(0o640)).unwrap();
        fs::hard_link(&path, &second).unwrap();
        write_all(&all(&folder, &[("a", "one"), ("b", "two")]), true).unwrap();
        assert_eq!(fs::read(&path).unwrap(), b"two");
        assert_eq!(fs::read(&second).unwrap(), b"old");
        let mode = path.metadata().unwrap().permissions().mode();
        assert_eq!(mode & 0o777, 0o640);
        assert_eq!(folder.names(), ["a", "b", "second"]);
    }

    #[test]
    fn of_all_none_follows_a_link_or_takes_its_name() {
        let folder = Folder::new("links");
        fs::write(folder.0.join("far"), "old").unwrap();
        symlink("far", folder.0.join("link")).unwrap();
        symlink("nowhere", folder.0.join("loose")).unwrap();
        for link in ["link", "loose"] {
            let files = [("a", "one"), (link, "two")];
            none_written(&folder, &files, link, "a link stands there already");
            assert!(folder.0.join(link).is_symlink());
        }
        assert_eq!(fs::read(folder.0.join("far")).unwrap(), b"old");
    }

    #[test]
    fn of_all_none_takes_the_name_of_a_folder_or_a_pipe() {
        let folder = Folder::new("others");
        fs::create_dir(folder.0.join("below")).unwrap();
        let made = Command::new("mkfifo").arg(folder.0.join("pipe")).status();
        assert!(made.unwrap().success());
        for other in ["below", "pipe"] {
            let files = [("a", "one"), (other, "two")];
            none_written(&folder, &files, other, "what stands there is no file");
        }
    }

    #[test]
    fn of_all_none_is_written_where_one_cannot_be_made() {
        let folder = Folder::new("unmade");
        let files = [("a", "one"), ("none/b", "two")];
        let why = "No such file or directory (os error 2)";
        none_written(&folder, &files, "none/b", why);
    }

    /// Whoever may write everywhere can't see this refused.
    #[test]
    fn with_leave_a_file_kept_from_writing_stays() {
        let folder = Folder::new("leave-kept");
        let path = folder.0.join("b");
        fs::write(&path, "old").unwrap();
        fs::set_permissions(&path, fs::Permissions::from_mode(0o444)).unwrap();
        let may = writable(&path).is_ok();
        let went = write_all(&all(&folder, &[("a", "one"), ("b", "two")]), true);
        assert_eq!(went.is_ok(), may);
        let (left, names): (&[u8], &[&str]) = match may {
            true => (b"two", &["a", "b"]),
            false => (b"old", &["b"]),
        };
        assert_eq!(fs::read(&path).unwrap(), left);
        assert_eq!(folder.names(), names);
    }

    /// The first file itself comes to stand there meanwhile.
    #[test]
    fn a_name_that_is_taken_meanwhile_is_left_and_told() {
        let folder = Folder::new("meantime");
        let path = folder.0.join("a");
        let went = write_all(&all(&folder, &[("a", "one"), ("a", "two")]), false);
        let why = format!("{}; written before it: 1 file", taken(&path));
        assert_eq!(went, Err(why));
        assert_eq!(fs::read(&path).unwrap(), b"one");
        assert_eq!(folder.names(), ["a"]);
    }

    /// As a disk has it on which a file has one name.
    fn no_links(_: &Path, _: &Path) -> io::Result<()> {
        Err(io::Error::from(ErrorKind::PermissionDenied))
    }

    fn laid(folder: &Folder, name: &str) -> Laid {
        lay(folder.0.join(name), |file| file.write_all(b"new")).unwrap()
    }

    #[test]
    fn where_a_file_has_one_name_a_free_one_is_taken_all_the_same() {
        let folder = Folder::new("one-name");
        laid(&folder, "file").at_free_name(no_links).unwrap();
        assert_eq!(fs::read(folder.0.join("file")).unwrap(), b"new");
        fs::write(folder.0.join("old"), "old").unwrap();
        symlink("nowhere", folder.0.join("loose")).unwrap();
        for name in ["old", "loose"] {
            let went = laid(&folder, name).at_free_name(no_links);
            assert_eq!(went.unwrap_err().kind(), ErrorKind::AlreadyExists);
        }
        assert_eq!(fs::read(folder.0.join("old")).unwrap(), b"old");
        assert_eq!(folder.names(), ["file", "loose", "old"]);
    }

    #[test]
    fn a_name_that_was_kept_in_vain_is_free_again() {
        let folder = Folder::new("vain");
        let laid = laid(&folder, "file");
        fs::remove_file(&laid.beside).unwrap();
        let went = laid.at_free_name(no_links);
        assert_eq!(went.unwrap_err().kind(), ErrorKind::NotFound);
        assert_eq!(folder.names(), [""; 0]);
    }
}
