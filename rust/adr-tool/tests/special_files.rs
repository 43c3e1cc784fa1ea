//! Pipes, sockets, devices and directories where an image is asked for.

mod place;

use std::os::unix::net::UnixListener;

use place::{bytes, Place};

/// Every command that takes an image; `$NAME` is the image, and none may
/// wait for anything.
const COMMANDS: [&str; 11] = [
    "format $NAME",
    "format --overwrite $NAME",
    "record $NAME file",
    "record --overwrite $NAME file",
    "list $NAME",
    "restore $NAME 1",
    "check $NAME",
    "map $NAME",
    "sheet $NAME",
    "dump $NAME",
    "salvage $NAME --into .",
];

#[test]
fn images_that_are_no_regular_files() {
    let place = Place::new("special");
    place.write("file", b"x");
    place.directory("directory");
    place.shell("mkfifo pipe && ln -s pipe link").succeeded();
    let _socket = UnixListener::bind(place.path("socket")).expect("a socket");
    for name in [
        "pipe",
        "link",
        "socket",
        "directory",
        "/dev/null",
        "/dev/zero",
    ] {
        for command in COMMANDS {
            let line = format!("NAME={name}; timeout 10 $ADR {command}");
            let refused = place.shell(&line).failed();
            let told = format!("adr: {name}: not a regular file\n");
            assert_eq!(refused.error, told, "{line}");
        }
    }
}

/// A file that is something else when its turn comes: a pipe, or the image.
#[test]
fn files_that_are_replaced_meanwhile() {
    for (replaced, why) in [
        ("mkfifo file", "file: not a regular file"),
        ("ln -s a.adr file", "file: is the cartridge image itself"),
    ] {
        let place = Place::new("replaced");
        place.write("file", &bytes(100, 1));
        place.adr(&["format", "a.adr"]).succeeded();
        let image = place.read("a.adr");
        // More than a pipe holds: when all is written the recording is under
        // way, and the file was looked at.
        let line = format!(
            "mkfifo first; {{ head -c 1000000 /dev/zero; rm file; {replaced}; }} > first & \
             timeout 60 $ADR record a.adr first file"
        );
        let refused = place.shell(&line).failed();
        assert!(refused.error.contains(why), "{}", refused.error);
        assert!(place.read("a.adr") == image);
    }
}
