//! `hollupaq pack` and `hollupaq unpack`, and that a file which was there is replaced whole or not at all.
mod run;

use run::{complaint, folder, names, pack, printed, run, run_words, shell, PROGRAM, TEXT};
use std::fs;
use std::path::{Path, PathBuf};

const OLD: &[u8] = b"what was there";

/// A folder with the sample's text and a file that a book is to replace.
fn beside_old(name: &str) -> (PathBuf, PathBuf) {
    let folder = folder(name);
    fs::write(folder.join("a.txt"), TEXT).unwrap();
    let book = folder.join("a.book");
    fs::write(&book, OLD).unwrap();
    (folder, book)
}

/// What was there is there, and nothing else.
fn is_as_before(folder: &Path) {
    assert_eq!(names(folder), ["a.book", "a.txt"]);
    assert_eq!(fs::read(folder.join("a.book")).unwrap(), OLD);
    assert_eq!(fs::read(folder.join("a.txt")).unwrap(), TEXT);
}

#[test]
fn a_text_is_packed_and_unpacked() {
    let packed = pack(TEXT);
    assert_eq!(packed.len(), 16 + 4 * 16);
    assert_eq!(printed(run("unpack -", &packed)).as_bytes(), TEXT);
    assert_eq!(printed(run("unpack - -", &packed)).as_bytes(), TEXT);
}

#[test]
fn dates_and_both_words_make_the_same_book() {
    let text = "account\n2000-04-10 bill 10000\n2000-05-10 bill 5000\n2000-05-11 payment 4,000\n\
        2000-05-11 disconnection # with a remark\n";
    assert_eq!(pack(text.as_bytes()), pack(TEXT));
    let words = "account\n1 notice\n1 close\n1 certificate 5\n1 deposit-asked 5\n";
    let others = "account\n1 final notice\n1 closing\n1 medical certificate 5\n1 deposit asked 5\n";
    assert_eq!(pack(others.as_bytes()), pack(words.as_bytes()));
}

#[test]
fn a_till_is_told_by_its_name() {
    let text =
        "account # 0\n  131 payment 4000\n  131 payment 4000 till=3\n  140 returned 2 till=4\n  \
        141 payment 7 till=255\n  141 bill 7 option=3\n";
    let book = pack(text.as_bytes());
    assert_eq!(printed(run("unpack -", &book)), text);
    // As texts from before have it.
    let before = text.replace("till=", "option=");
    assert_eq!(pack(before.as_bytes()), book);
    let told = complaint(&run("pack -", b"account\n5 payment 7 till=1 option=1\n"), 1);
    assert_eq!(
        told,
        "hollupaq pack: line 2: `payment` has its till twice\n"
    );
}

#[test]
fn a_wrong_text_or_book_is_told_in_words() {
    let told = complaint(&run("pack -", b"account\n5 bil 7\n"), 1);
    assert!(told.starts_with("hollupaq pack: line 2: `bil` is no event; the events are bill, "));
    let told = complaint(&run("unpack -", b"1234567"), 1);
    assert!(told.starts_with("hollupaq unpack: book refused 20: "));
    let told = complaint(&run("unpack no-such-file", b""), 1);
    assert!(told.starts_with("hollupaq unpack: can't read no-such-file: "));
    let many = "account\n".repeat(1_025);
    let told = complaint(&run("pack -", many.as_bytes()), 1);
    assert!(told.starts_with("hollupaq pack: book refused 20: more than 1,024 accounts"));
}

#[test]
fn control_bytes_of_a_text_are_named() {
    let (folder, _) = beside_old("control");
    for (text, byte, line) in [
        (&b"account\n5 \x1b[2Jcall\n"[..], "\\u{1b}", 2),
        (b"account # \x07\n", "\\u{7}", 1),
        (b"account\r5 call\r", "\\r", 1),
        (&pack(TEXT), "\\u{1}", 1),
    ] {
        let told = complaint(&shell("hollupaq pack - a.book", &folder, text), 1);
        assert_eq!(
            told,
            format!("hollupaq pack: line {line}: the control byte {byte} has no place in a text\n")
        );
    }
    is_as_before(&folder);
}

#[test]
fn a_book_takes_the_place_of_the_old_one() {
    let (folder, book) = beside_old("replaced");
    // Another name of the old file: it is not written to, another takes its place.
    fs::hard_link(&book, folder.join("kept")).unwrap();
    assert_eq!(
        printed(shell("hollupaq pack a.txt a.book", &folder, b"")),
        ""
    );
    assert_eq!(fs::read(&book).unwrap(), pack(TEXT));
    assert_eq!(fs::read(folder.join("kept")).unwrap(), OLD);
    assert_eq!(
        printed(shell("hollupaq unpack a.book a.txt", &folder, b"")),
        ""
    );
    assert_eq!(fs::read(folder.join("a.txt")).unwrap(), TEXT);
    assert_eq!(names(&folder), ["a.book", "a.txt", "kept"]);
}

#[test]
fn a_book_is_made_where_there_was_none() {
    let folder = folder("none");
    assert_eq!(
        printed(shell("hollupaq pack - new.book", &folder, TEXT)),
        ""
    );
    assert_eq!(fs::read(folder.join("new.book")).unwrap(), pack(TEXT));
    let told = complaint(&shell("hollupaq pack - no/new.book", &folder, TEXT), 1);
    assert_eq!(
        told,
        "hollupaq pack: can't write no/new.book: No such file or directory\n"
    );
    assert_eq!(names(&folder), ["new.book"]);
}

#[test]
fn a_folder_is_no_file() {
    let (folder, _) = beside_old("directory");
    let told = complaint(&run_words(&["why", folder.to_str().unwrap()], b""), 1);
    assert!(told.starts_with("hollupaq why: can't read "));
    assert!(told.ends_with("directory: Is a directory\n"), "{told}");
    let told = complaint(&shell("hollupaq pack .", &folder, b""), 1);
    assert_eq!(told, "hollupaq pack: can't read .: Is a directory\n");
    let told = complaint(&shell("hollupaq pack a.txt .", &folder, b""), 1);
    assert_eq!(told, "hollupaq pack: can't write .: Is a directory\n");
    is_as_before(&folder);
}

#[test]
fn what_is_read_is_not_written_over() {
    let (folder, _) = beside_old("same");
    let told = complaint(&shell("hollupaq pack a.txt ./a.txt", &folder, b""), 1);
    assert_eq!(
        told,
        "hollupaq pack: can't write ./a.txt: it is the file that is read\n"
    );
    is_as_before(&folder);
}

#[cfg(target_os = "linux")]
mod on_linux {
    use super::*;
    use std::fs::Permissions;
    use std::os::unix::fs::{symlink, MetadataExt, PermissionsExt};
    use std::process::Command;

    #[test]
    fn a_closed_input_is_no_empty_text() {
        let (folder, _) = beside_old("closed");
        for words in ["pack - a.book", "unpack - a.txt", "why -", "standing -"] {
            let told = complaint(&shell(&format!("hollupaq {words} <&-"), &folder, b""), 1);
            let command = words.split(' ').next().unwrap();
            assert_eq!(
                told,
                format!("hollupaq {command}: can't read standard input: it is closed\n"),
            );
        }
        is_as_before(&folder);
    }

    /// A file that may not become longer fails as one does on a full disk, after it was made.
    #[test]
    fn a_disk_that_is_full_leaves_the_old_book() {
        let (folder, _) = beside_old("full");
        let line = format!("trap '' XFSZ; ulimit -f 0; exec \"{PROGRAM}\" pack a.txt a.book");
        let told = complaint(&shell(&line, &folder, b""), 1);
        assert_eq!(told, "hollupaq pack: can't write a.book: File too large\n");
        is_as_before(&folder);
        let line = line.replace("a.book", "new.book");
        complaint(&shell(&line, &folder, b""), 1);
        is_as_before(&folder);
    }

    /// Pipes only: were a device of the machine named here, a mistake in the command could take its place.
    #[test]
    fn a_pipe_is_written_to_and_not_replaced() {
        let piped = shell("hollupaq pack - /dev/stdout | cat", Path::new("."), TEXT);
        assert_eq!(piped.stdout, pack(TEXT));
        let folder = folder("pipe");
        let fifo = "mkfifo pipe && { timeout 10 cat pipe & } && hollupaq pack - pipe && wait";
        assert_eq!(shell(fifo, &folder, TEXT).stdout, pack(TEXT));
        assert_eq!(names(&folder), ["pipe"]);
    }

    /// In /sys nobody can make a file, whoever runs the tests.
    #[test]
    fn a_folder_that_takes_no_file_is_told() {
        let told = complaint(&run("pack - /sys/new.book", TEXT), 1);
        assert!(told.starts_with("hollupaq pack: can't write /sys/new.book: "));
        assert_eq!(told.lines().count(), 1);
    }

    #[test]
    fn a_read_only_book_stays() {
        let (folder, book) = beside_old("read-only");
        fs::set_permissions(&book, Permissions::from_mode(0o444)).unwrap();
        let told = complaint(&shell("hollupaq pack a.txt a.book", &folder, b""), 1);
        assert_eq!(told, "hollupaq pack: can't write a.book: it is read-only\n");
        is_as_before(&folder);
    }

    #[test]
    fn permissions_are_kept() {
        let (folder, book) = beside_old("permissions");
        for mode in [0o600, 0o640, 0o666] {
            fs::set_permissions(&book, Permissions::from_mode(mode)).unwrap();
            let before = fs::metadata(&book).unwrap();
            printed(shell("hollupaq pack a.txt a.book", &folder, b""));
            let after = fs::metadata(&book).unwrap();
            assert_eq!(after.mode(), before.mode(), "{mode:o}");
            assert_eq!((after.uid(), after.gid()), (before.uid(), before.gid()));
            assert_ne!(after.ino(), before.ino());
        }
    }

    #[test]
    fn a_link_stays_a_link() {
        let (folder, _) = beside_old("link");
        fs::create_dir(folder.join("other")).unwrap();
        let link = folder.join("other/link.book");
        symlink("../a.book", &link).unwrap();
        printed(shell("hollupaq pack a.txt other/link.book", &folder, b""));
        assert!(fs::symlink_metadata(&link).unwrap().is_symlink());
        assert_eq!(fs::read(folder.join("a.book")).unwrap(), pack(TEXT));
        assert_eq!(names(&folder.join("other")), ["link.book"]);
    }

    #[test]
    fn a_name_may_be_any_bytes() {
        use std::ffi::OsStr;
        use std::os::unix::ffi::OsStrExt;
        let folder = folder("names");
        let path = folder.join(OsStr::from_bytes(b"m\xfcller.book"));
        fs::write(&path, pack(TEXT)).unwrap();
        let unpacked = Command::new(PROGRAM).arg("unpack").arg(&path).output();
        assert_eq!(unpacked.unwrap().stdout, TEXT);
    }
}
