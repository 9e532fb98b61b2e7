//! Files that are read and written: any of them, with a clear message and status.

mod common;

use std::ffi::OsStr;
use std::fs;
use std::os::unix::ffi::OsStrExt;
use std::os::unix::fs::{symlink, PermissionsExt};

use common::*;

fn bench() -> Vec<u8> {
    fs::read(root().join("examples/bench.bin")).unwrap()
}

/// What sample 2 of examples/bench.bin delivers.
const UNITS: &[u8] = &[0, 0, 0, 2, 0x65, 0x88];

#[test]
fn what_cannot_be_read() {
    let folder = Folder::new();
    for call in [
        &["names", "FILE", "1"][..],
        &["units", "FILE", "1"],
        &["units", "FILE", "-o", "/no/such"],
        &["stream", "FILE"],
        &["unstream", "FILE", "--length-size", "4"],
        &["salvage", "FILE", "-o", "/no/such"],
        &["tracks", "FILE"],
        &["record", "FILE", "--kind", "avc"],
    ] {
        let on = |file: &str| run(call.iter().map(|word| word.replace("FILE", file)));
        fails(on("/no/such/file"), "cannot be read: No such file");
        fails(on("/tmp"), "/tmp: cannot be read: Is a directory");
        fails(on(""), "'': cannot be read");
        fails(on("examples/bench.bin/x"), "cannot be read: Not a directory");
    }
    let ran = run(["audit", "/tmp"]);
    assert_eq!((ran.status, ran.text()), (Some(2), ""));
    assert_eq!(ran.said, "puddockle: /tmp: cannot be read: Is a directory (os error 21)\n");
    // A descriptor that cannot be read is no empty file.
    fails(shell("$P tracks - 0>/dev/null", &folder.0), "standard input: cannot be read: Bad file descriptor");
}

#[test]
fn empty_and_closed_input() {
    let folder = Folder::new();
    let empty = folder.file("empty", b"");
    let line = "bundle refused 2 at 0 - bundle ends inside a count, an entry or the sample bytes\n";
    let ran = run([OsStr::new("audit"), empty.as_os_str()]);
    assert_eq!((ran.status, ran.text()), (Some(1), line));
    assert!(ran.said.ends_with("empty is empty\n"), "{}", ran.said);
    for closed in ["<&-", "</dev/null"] {
        let ran = shell(&format!("$P audit - {closed}"), &folder.0);
        assert_eq!((ran.status, ran.text()), (Some(1), line), "{closed}");
        assert_eq!(ran.said, "puddockle: standard input is empty or closed\n", "{closed}");
    }
}

/// Endless input is read as far as the refusal needs.
#[test]
fn too_long() {
    let ran = run(["audit", "/dev/zero"]);
    assert_eq!((ran.status, ran.text()), (Some(1), "bundle refused 1 at 0 - bundle too long\n"));
    let folder = Folder::new();
    let ran = shell("{ head -c 16777217 /dev/zero; cat; } </dev/zero | $P tracks -", &folder.0);
    assert_eq!((ran.status, ran.text()), (Some(1), ""));
    assert_eq!(ran.said, "puddockle: standard input: bundle refused 1 at 0 - bundle too long\n");
    let ran = run(["record", "/dev/zero", "--kind", "svc"]);
    assert_eq!(ran.status, Some(1));
    assert!(ran.said.contains("record refused 9 at 0"), "{}", ran.said);
}

#[test]
fn odd_names() {
    let folder = Folder::new();
    for name in [&b"\xFF\xFE.bin"[..], b"-", b"--json", b"a b\n\x1B[31m.bin", "\u{e9}\"\\.bin".as_bytes()] {
        let path = folder.0.join(OsStr::from_bytes(name));
        fs::write(&path, bench()).unwrap();
        let ran: Ran = command()
            .current_dir(&folder.0)
            .args(["names", "--json", "--"])
            .arg(&path)
            .arg("1")
            .output()
            .unwrap()
            .into();
        assert_eq!(ran.status, Some(0), "{}", ran.said);
        assert_eq!(ran.document()["file"].text(), path.to_string_lossy());
        let ran = run([OsStr::new("units"), path.as_os_str(), OsStr::new("3")]);
        assert_eq!(ran.status, Some(1));
        assert!(!ran.said.trim_end().contains(|one: char| one.is_control()), "{:?}", ran.said);
    }
    // After -- a name that looks like an option is a name; - is standard input everywhere.
    let ran: Ran = command().current_dir(&folder.0).args(["audit", "--", "--json"]).output().unwrap().into();
    assert_eq!((ran.status, ran.text()), (Some(0), "1 passed 1\n2 passed 1\npassed 2 empty 0 refused 0\n"));
    let ran = run_on(&bench(), ["audit", "--", "-"]);
    assert_eq!(ran.status, Some(0));
    // An argument that is no text.
    let ran: Ran =
        command().arg("names").arg("examples/bench.bin").arg(OsStr::from_bytes(b"\xFF")).output().unwrap().into();
    fails(ran, "SAMPLE is no number");
    let ran: Ran = command().arg(OsStr::from_bytes(b"--\xFF")).output().unwrap().into();
    fails(ran, "no call");
}

/// Standard output that cannot be written, or that nobody reads.
#[test]
fn output_that_cannot_be_written() {
    let root = root();
    for call in [
        "audit examples/damaged.bin",
        "audit --json examples/damaged.bin",
        "units examples/bench.bin 2 -o -",
        "stream examples/bench.bin --track 2",
        "stream examples/bench.bin --track 2 | $P unstream - --length-size 4",
        "tracks examples/bench.bin",
        "--help",
        "explain 1",
    ] {
        let ran = shell(&format!("$P {call} >/dev/full"), &root);
        assert_eq!(ran.status, Some(2), "{call}");
        assert_eq!(ran.said, "puddockle: standard output cannot be written: No space left on device (os error 28)\n");
        // A descriptor for reading only.
        let ran = shell(&format!("$P {call} 1</dev/null"), &root);
        assert_eq!(ran.status, Some(2), "{call}");
        // Nobody reads any more: no message, and the status that a shell gives for SIGPIPE.
        let ran = shell(&format!("{{ sleep 0.3; $P {call}; echo $? >&2; }} | true"), &root);
        assert_eq!(ran.said, "141\n", "{call}");
    }
    // Where messages cannot be written either, the status is left.
    for to in ["/dev/full", "&-"] {
        let ran = shell(&format!("$P tracks /no/such 2>{to}"), &root);
        assert_eq!((ran.status, ran.said.as_str()), (Some(2), ""), "{to}");
    }
}

#[test]
fn output_files() {
    let folder = Folder::new();
    let bench = folder.file("bench.bin", &bench());
    let out = folder.0.join("out");
    let units = |words: &[&str]| -> Ran {
        command().current_dir(&folder.0).arg("units").arg(&bench).arg("2").args(words).output().unwrap().into()
    };
    // Written, then not replaced without --force.
    assert_eq!(units(&["-o", "out"]).status, Some(0));
    assert_eq!(fs::read(&out).unwrap(), UNITS);
    fs::write(&out, "mine").unwrap();
    fails(units(&["-o", "out"]), "out: cannot be written: it exists: --force replaces it");
    assert_eq!(fs::read(&out).unwrap(), b"mine");
    fs::set_permissions(&out, fs::Permissions::from_mode(0o640)).unwrap();
    assert_eq!(units(&["-oout", "--force", "--unit", "1"]).status, Some(0));
    assert_eq!(fs::read(&out).unwrap(), UNITS[4..]);
    assert_eq!(fs::metadata(&out).unwrap().permissions().mode() & 0o777, 0o640);
    // With --force to a name that nothing has; with --json the table is printed too.
    let ran = units(&["-o", "new", "--force", "--json"]);
    assert_eq!((ran.status, ran.document()["units"].list().len()), (Some(0), 1));
    assert_eq!(fs::read(folder.0.join("new")).unwrap(), UNITS);
    // Through a link the file that it leads to.
    symlink("out", folder.0.join("link")).unwrap();
    fails(units(&["-o", "link"]), "it exists");
    assert_eq!(units(&["-o", "link", "--force"]).status, Some(0));
    assert_eq!((fs::read(&out).unwrap(), fs::read_link(folder.0.join("link")).unwrap()), (UNITS.into(), "out".into()));
    // What may not be replaced, or cannot be written.
    symlink("nowhere", folder.0.join("dangling")).unwrap();
    for force in [&[][..], &["--force"]] {
        let units = |out: &str| units(&[&["-o", out], force].concat());
        fails(units("bench.bin"), "it is the file that is read");
        fails(units("./bench.bin"), "it is the file that is read");
        fails(units("."), "it is no regular file");
        fails(units("/dev/full"), "it is no regular file");
        fails(units("/dev/null"), "it is no regular file");
        fails(units("dangling"), "it is a link that leads nowhere: No such file");
        fails(units("folder/"), "it is no file name");
        fails(units(""), "it is no file name");
        fails(units("no/such/folder"), "cannot be written: No such file");
        fails(units("bench.bin/out"), "cannot be written: Not a directory");
    }
    let ran = shell("$P units - 2 -o bench.bin --force <bench.bin", &folder.0);
    fails(ran, "it is the file that is read");
    assert_eq!(folder.names(), ["bench.bin", "dangling", "link", "new", "out"]);
}

/// Refused or not written whole: nothing is left, and what was there stays.
#[test]
fn whole_or_not_at_all() {
    let folder = Folder::new();
    let damaged = root().join("examples/damaged.bin");
    let ran: Ran =
        command().current_dir(&folder.0).arg("units").arg(damaged).args(["9", "-o", "out"]).output().unwrap().into();
    assert_eq!(ran.status, Some(1));
    assert!(folder.names().is_empty());
    // A limit on the size of files stands for a full disk.
    folder.file("old", b"old");
    let unit = vec![0x65; 1 << 20];
    let sample = [&(unit.len() as u32).to_be_bytes()[..], &unit].concat();
    folder.file("long.bin", &bundle(&[(0, AVC_L4)], &[], &[(1, 0, sample)]));
    for out in ["new", "old --force"] {
        let ran = shell(&format!("trap '' XFSZ; ulimit -f 64; $P units long.bin 1 -o {out}"), &folder.0);
        assert_eq!(ran.status, Some(2), "{}", ran.said);
        assert!(ran.said.contains("cannot be written: File too large"), "{}", ran.said);
    }
    assert_eq!(folder.names(), ["long.bin", "old"]);
    assert_eq!(fs::read(folder.0.join("old")).unwrap(), b"old");
}
