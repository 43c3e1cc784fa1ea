//! Standard output that is closed.

mod place;

use place::Place;

fn recorded(name: &str) -> Place {
    let place = Place::new(name);
    place.directory("out");
    place.write("file", b"x");
    place.adr(&["format", "a.adr"]).succeeded();
    place.adr(&["record", "a.adr", "file"]).succeeded();
    place
}

#[test]
fn what_nobody_gets() {
    let place = recorded("closed");
    for line in [
        "restore a.adr 1",
        "restore a.adr 1 --output -",
        "list a.adr",
        "check a.adr",
        "map a.adr",
        "map a.adr --svg -",
        "sheet a.adr",
        "dump a.adr",
        "salvage a.adr --into out --overwrite",
        "plan --blocks 1 --errors 1",
        "--version",
    ] {
        for closed in [">&-", "1</dev/null", "1<file"] {
            let refused = place.shell(&format!("$ADR {line} {closed}")).failed();
            let told = "adr: standard output is closed or opened for reading: ";
            assert!(refused.error.starts_with(told), "{line}: {}", refused.error);
        }
        // Nobody gets the first two of these either, but that is asked for.
        for open in [">/dev/null", "1<>/dev/null", ">new", "1<>new", "| cat"] {
            place.shell(&format!("$ADR {line} {open}")).succeeded();
        }
    }
}

#[test]
fn what_nobody_needs() {
    let place = recorded("needless");
    for line in [
        "restore a.adr 1 --output again",
        "restore a.adr --into out",
        "record --overwrite a.adr file",
        "format b.adr",
    ] {
        let ran = place.shell(&format!("$ADR {line} >&-")).succeeded();
        let usual = |line: &str| line.contains("capacity") || line.contains("sent of at most");
        let error = ran.error.lines().find(|line| !usual(line));
        assert_eq!(error, None, "{line}");
    }
    assert_eq!(place.read("again"), b"x");
    assert_eq!(place.read("out/file"), b"x");
}
