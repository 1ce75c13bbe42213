//! `host/clocks` with an `rt` and a `gcc` of the test's own: what is proved and built, and when.

use std::path::Path;
use std::process::Output;

use testkit::command::assert_says;
use testkit::replica::Replica;

/// Writes an archive with the text of its crate.
const RT: &str = "#!/bin/sh
mkdir -p target/staticlib
cat crates/$2/src/lib.rt > target/staticlib/lib$2.a
echo \"$*\" >> \"$WORDS\"
echo \"rt: simulator proved (0 s)\"
echo \"rt: target/staticlib/lib$2.a has the functions\"
";
/// Copies the archive.
const GCC: &str = "#!/bin/sh\ncp \"$3\" \"$6\"\n";
/// Tells what the libraries of the folder hold.
const RUN: &str =
    "#!/bin/sh\n[ \"$1\" = clocks ] && cat \"$2/clockruns.so\" \"$2/quagmuffin.so\"\n";
const CRATES: &str = "simulator:\nclockruns: simulator\nquagmuffin: simulator\n";

fn replica(name: &str) -> Replica {
    let folder = Path::new(env!("CARGO_TARGET_TMPDIR")).join(name);
    let texts = [
        ("root/host/rt", RT),
        ("bin/gcc", GCC),
        ("root/crates.txt", CRATES),
        ("root/crates/simulator/src/lib.rt", "one clock\n"),
        ("root/crates/clockruns/src/lib.rt", "many clocks\n"),
        ("root/crates/quagmuffin/src/lib.rt", "all\n"),
        ("root/host/run", RUN),
    ];
    let copy = Replica::new(folder, &texts);
    copy.copy(&["host/clocks", "host/proved.sh"]);
    copy
}

fn clocks(copy: &Replica) -> Output {
    let mut command = copy.command("host/clocks", &[]);
    command.env("WORDS", copy.root().join("words"));
    command.output().expect("the script")
}

#[test]
fn both_are_proved_and_timed() {
    let copy = replica("clocks");
    let output = clocks(&copy);
    let said = String::from_utf8_lossy(&output.stderr);
    let proved =
        |name| format!("clocks: proved 1 of 2: simulator (0 s)\nclocks: proved 2 of 2: {name}\n");
    let first = "clocks: proving what is timed; from nothing that takes some minutes\n";
    let each = proved("clockruns") + &proved("quagmuffin");
    assert_eq!(said, format!("{first}{each}"));
    assert_eq!(
        String::from_utf8_lossy(&output.stdout),
        "many clocks\nall\n"
    );
    assert_eq!(output.status.code(), Some(0));
    assert_eq!(
        copy.left("words"),
        "staticlib clockruns\nstaticlib quagmuffin\n"
    );
}

#[test]
fn nothing_is_proved_again_until_the_sources_change() {
    let copy = replica("clocks again");
    clocks(&copy);
    let output = clocks(&copy);
    assert_eq!(String::from_utf8_lossy(&output.stderr), "");
    assert_eq!(copy.count("words"), 2);
    for (k, name) in ["simulator", "clockruns"].into_iter().enumerate() {
        copy.write(&format!("root/crates/{name}/src/lib.rt"), "otherwise\n");
        assert_eq!(clocks(&copy).status.code(), Some(0));
        assert_eq!(copy.count("words"), 4 + 2 * k);
    }
}

#[test]
fn fails_in_a_line() {
    for (tool, said) in [
        ("root/host/rt", "host/rt staticlib clockruns failed"),
        ("bin/gcc", "clockruns can't be linked"),
    ] {
        let copy = replica("clocks fails");
        copy.write(tool, "#!/bin/sh\nexit 1\n");
        let output = clocks(&copy);
        let text = String::from_utf8_lossy(&output.stderr).into_owned();
        assert_says(&output, 2, &text);
        let last = text.lines().last().expect("a line");
        assert!(last.starts_with(&format!("clocks: {said}")), "{text}");
    }
}
