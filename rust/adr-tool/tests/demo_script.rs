//! `scripts/demo` and `scripts/build` in a small repository of the test's own,
//! with stand-ins for the prover, for cargo and for the clock.

mod place;

use std::collections::BTreeSet;
use std::os::unix::fs::PermissionsExt;

use place::{Place, Ran};

const ROOT: &str = concat!(env!("CARGO_MANIFEST_DIR"), "/../..");

/// `rt lib` in a crate's folder: judges the crate, which takes a second, but
/// of the one named `$BROKEN` it takes two and comes to nothing; then writes the
/// library. With `$CHATTY` it tells of itself, too.
const RT: &str = r#"#!/bin/sh
[ "$*" = lib ] || exit 2
crate=${PWD##*/}
[ -z "$CHATTY" ] || echo "rt: chose --jobs 2 for $crate"
echo "fn $crate::it: judged"
took=1 status=0
[ "$crate" != "crate_$BROKEN" ] || took=2 status=1
echo "$(($(cat ../../clock) + took))" >../../clock
if [ "$crate" = adr ]; then
    [ -z "$BROKEN" ] || exit 1
    mkdir -p out && echo library >out/libadr.a
fi
exit "$status"
"#;

const DATE: &str = "#!/bin/sh\n[ \"$*\" = +%s ] && cat \"${0%/*}/../clock\"\n";

const CARGO: &str = "#!/bin/sh\necho \"cargo $*\"\n";

/// The crates that stand in one's line of the checkout's crates.txt.
fn takes(name: &str) -> Vec<String> {
    let list = std::fs::read_to_string(format!("{ROOT}/crates.txt")).expect("the crates");
    let mut lines = list.lines().filter_map(|line| line.split_once(':'));
    let (_, taken) = lines
        .find(|(named, _)| named.split(' ').next() == Some(name))
        .expect("a crate that is listed");
    taken.split_whitespace().map(String::from).collect()
}

/// The crates that one needs, itself among them.
fn crates_of(name: &str) -> BTreeSet<String> {
    let mut found = BTreeSet::new();
    let mut wanted = vec![name.to_string()];
    while let Some(name) = wanted.pop() {
        wanted.extend(takes(&name));
        found.insert(name);
    }
    found
}

/// A repository with both scripts and the stand-ins, of `adr` and so many
/// crates that it takes: `crate_1` and so on. Those named by `above` take
/// `crate_1`.
fn repository(name: &str, crates: usize, above: &[usize]) -> Place {
    let place = Place::new(name);
    for directory in ["bin", "scripts", "crates", "crates/adr"] {
        place.directory(directory);
    }
    for (name, program) in [("bin/rt", RT), ("bin/date", DATE), ("bin/cargo", CARGO)] {
        place.write(name, program.as_bytes());
        let runs = std::fs::Permissions::from_mode(0o755);
        std::fs::set_permissions(place.path(name), runs).expect("its mode");
    }
    place.write("clock", b"1000\n");
    for script in ["scripts/build", "scripts/demo"] {
        std::fs::copy(format!("{ROOT}/{script}"), place.path(script)).expect("a script");
    }
    let mut list = String::from("# a crate that nothing takes\nalone: crate_1\n\n");
    let mut all = String::from("adr staticlib:");
    for at in 1..crates {
        place.directory(&format!("crates/crate_{at}"));
        let taken = if above.contains(&at) { " crate_1" } else { "" };
        list.push_str(&format!("crate_{at}:{taken} # of the test\n"));
        all.push_str(&format!(" crate_{at}"));
    }
    place.write("crates.txt", format!("{list}{all}\n").as_bytes());
    place
}

/// Runs the demo's script, which finds the stand-ins first; on a terminal
/// what it prints is output alone.
fn demo(place: &Place, variables: &str, terminal: bool) -> Ran {
    let found = "PATH=\"$PWD/bin:$PATH\"";
    let line = format!("unset ADR_LIB_DIR; {variables} {found} sh scripts/demo --faults 3");
    if terminal {
        place.write("line", line.as_bytes());
        return place.shell("script -qec 'sh line' /dev/null");
    }
    place.shell(&line)
}

#[test]
fn plain_lines_where_there_is_no_terminal() {
    let place = repository("plain-lines", 4, &[]);
    let ran = demo(&place, "", false).succeeded();
    assert!(ran.output_text().starts_with("cargo run "));
    assert!(ran.output_text().ends_with(" -- demo --faults 3\n"));
    let (start, rest) = ran.error.split_once('\n').expect("lines");
    assert!(start.contains("about 11 minutes"), "{start}");
    let proved = |at| format!("fn crate_{at}::it: judged\nrt: crate_{at} proved (1 s)\n");
    let end = "fn adr::it: judged\nrt: target/staticlib/libadr.a has the functions of adr\n";
    let expected = [1, 2, 3].map(proved).concat() + end;
    assert_eq!(rest, expected);
    assert_eq!(place.read("target/staticlib/libadr.a"), b"library\n");

    let ran = demo(&place, "BROKEN=2", false);
    assert_eq!((ran.status, ran.output.as_slice()), (Some(1), &b""[..]));
    assert!(ran.error.contains("rt: crate_2 NOT PROVED"));
}

#[test]
fn one_line_on_a_terminal() {
    let all = crates_of("adr").len();
    let place = repository("one-line", all, &[]);
    let ran = demo(&place, "CHATTY=1", true).succeeded();
    let text = ran.output_text();
    assert!(text.contains("about 11 minutes"), "{text:?}");
    for number in 1..=all {
        let shown = format!("\r{number} of {all} proved\x1b[K");
        assert!(text.contains(&shown), "{text:?}");
    }
    assert!(text.contains(&format!("\r\x1b[K{all} of {all} proved\r\ncargo run ")));
    assert!(!text.contains("judged") && !text.contains("rt: "));
    assert_eq!(text.lines().count(), 3, "{text:?}");

    let ran = demo(&place, "BROKEN=5", true);
    assert_eq!(ran.status, Some(1));
    let text = ran.output_text();
    let told = "\r\x1b[Kfn crate_5::it: judged\r\nrt: crate_5 NOT PROVED (exit 1, 2 s)\r\n";
    assert!(text.contains(told), "{text:?}");
    assert!(!text.contains("crate_4") && !text.contains("cargo"));
    let end = format!("fn adr::it: judged\r\n{} of {all} proved\r\n", all - 2);
    assert!(text.ends_with(&end), "{text:?}");
}

/// What takes a crate that is not proved would come to nothing, too.
#[test]
fn above_a_crate_that_is_not_proved_only_the_library_is_tried() {
    let place = repository("above", 5, &[2, 4]);
    let ran = demo(&place, "BROKEN=1", false);
    assert_eq!((ran.status, ran.output.as_slice()), (Some(1), &b""[..]));
    let (_, rest) = ran.error.split_once('\n').expect("lines");
    let expected = "fn crate_1::it: judged\nrt: crate_1 NOT PROVED (exit 1, 2 s)\n\
                    fn crate_3::it: judged\nrt: crate_3 proved (1 s)\nfn adr::it: judged\n";
    assert_eq!(rest, expected);
    assert!(!place.path("target").exists());
}

#[test]
fn the_list_has_each_crate_behind_those_that_it_takes() {
    let place = Place::new("list");
    for name in ["adr", "shelf_sheet"] {
        let list = place.shell(&format!("sh {ROOT}/scripts/build --list {name}"));
        let list = list.succeeded();
        let mut before = BTreeSet::new();
        for listed in list.output_text().lines() {
            for taken in takes(listed) {
                assert!(before.contains(&taken), "{listed} takes {taken}");
            }
            assert!(before.insert(listed.to_string()), "{listed} is there twice");
        }
        assert!(list.output_text().ends_with(&format!("\n{name}\n")));
        assert_eq!(before, crates_of(name));
    }
}

#[test]
fn without_the_kit_it_is_told_what_to_install() {
    let place = repository("no-kit", 2, &[]);
    place.directory("tools");
    // All that the scripts need, but for rt.
    for tool in ["awk", "dirname", "sed", "sh"] {
        let link = format!("ln -s \"$(command -v {tool})\" tools/{tool}");
        place.shell(&link).succeeded();
    }
    place.shell("ln -s ../bin/cargo tools/cargo").succeeded();
    for script in ["scripts/build adr", "scripts/demo"] {
        let line = format!("unset ADR_LIB_DIR; PATH=\"$PWD/tools\" sh {script}");
        let ran = place.shell(&line);
        assert_eq!((ran.status, ran.output.as_slice()), (Some(2), &b""[..]));
        let told = "'rt' is not on the path: install the Rattle kit";
        assert!(ran.error.contains(told), "{}", ran.error);
    }
}
