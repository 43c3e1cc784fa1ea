//! What a terminal shows: progress is never mixed with what is printed.

mod place;

use place::{bytes, Place};

/// Runs a command line on a pseudo-terminal, and gives what was sent to it.
fn on_a_terminal(place: &Place, line: &str) -> String {
    let script = format!("script -qec \"$ADR {line}\" /dev/null");
    let ran = place.shell(&script);
    String::from_utf8(ran.output).expect("text")
}

/// What stands on the screen in the end.
fn screen(sent: &str) -> Vec<String> {
    const CLEAR_TO_THE_END: &str = "\x1b[K";
    let mut lines = vec![String::new()];
    let mut column = 0;
    let mut rest = sent;
    while let Some(letter) = rest.chars().next() {
        let line = lines.last_mut().expect("one at least");
        if let Some(behind) = rest.strip_prefix(CLEAR_TO_THE_END) {
            line.truncate(column);
            rest = behind;
            continue;
        }
        match letter {
            '\r' => column = 0,
            '\n' => lines.push(String::new()),
            letter => {
                assert!(letter.is_ascii() && !letter.is_control(), "{letter:?}");
                let end = line.len().min(column + 1);
                line.replace_range(column..end, letter.encode_utf8(&mut [0; 4]));
                column += 1;
            }
        }
        rest = &rest[letter.len_utf8()..];
    }
    lines
}

#[test]
fn progress_gives_way() {
    let place = Place::new("terminal");
    place.directory("out");
    place.write("large", &bytes(300_000, 1));
    place.write("small", b"x");
    place.adr(&["format", "a.adr"]).succeeded();
    place
        .adr(&["record", "a.adr", "large", "small"])
        .succeeded();
    place.write("out/large", b"kept");
    for line in [
        "list a.adr",
        "check a.adr",
        "restore --into out a.adr",
        "sheet a.adr",
    ] {
        // The same commands without a terminal have no progress.
        place.shell("rm -f out/small").succeeded();
        let plain = place.shell(&format!("$ADR {line} 2>&1"));
        place.shell("rm -f out/small").succeeded();
        let sent = on_a_terminal(&place, line);
        assert!(sent.contains("\rreading "), "no progress: {sent:?}");
        let mut expected: Vec<&str> = plain.output_text().lines().collect();
        assert!(!expected.is_empty(), "{line}");
        expected.push("");
        assert_eq!(screen(&sent), expected, "{line}: {sent:?}");
    }
    assert_eq!(on_a_terminal(&place, "restore a.adr 2 -o -"), "x");
    let refused = on_a_terminal(&place, "dump a.adr");
    let told = "adr: a dump's bytes are not for a terminal: ";
    assert!(refused.starts_with(told), "{refused}");
}

/// What is added to is read first.
#[test]
fn both_parts_of_an_addition() {
    let place = Place::recorded("terminal-append", 300_000, 200_000);
    let sent = on_a_terminal(&place, "record --append a.adr new");
    let reading = sent.find("\rreading ").expect("progress of the reading");
    let recording = sent
        .find("\rrecording ")
        .expect("progress of the recording");
    assert!(reading < recording, "{sent:?}");
    let screen = screen(&sent);
    let starts = [
        "adr: recorded 1 job in 9 blocks ",
        "adr: a.adr: capacity ",
        "adr: a.adr: 11 frames sent of at most 11, ",
        "adr: a.adr: 20 header frames sent of at most 20, ",
        "",
    ];
    assert_eq!(screen.len(), starts.len(), "{sent:?}");
    for (line, start) in screen.iter().zip(starts) {
        assert!(line.starts_with(start), "{line}");
    }
}
