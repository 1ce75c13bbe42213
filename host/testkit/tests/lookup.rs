//! `host/lookup` with an `rt` and a `gcc` of the test's own: what is proved and built for each way, and when.

use std::path::Path;
use std::process::Output;

use testkit::command::assert_says;
use testkit::replica::Replica;

/// Writes an archive with the text of the look-up that stands in the crates.
const RT: &str = "#!/bin/sh
mkdir -p target/rlib target/stamp target/log target/staticlib
cat crates/lookup/src/lib.rt crates.txt > target/staticlib/lib$2.a
echo \"$*\" >> \"$WORDS\"
echo \"rt: lookup proved (0 s)\"
echo \"rt: target/staticlib/lib$2.a has the functions\"
";
/// Copies the archive.
const GCC: &str = "#!/bin/sh\ncp \"$3\" \"$6\"\n";
/// Tells each way by its name and its first line.
const RUN: &str = "#!/bin/sh
[ \"$1\" = lookup ] && shift
for way; do
    cmp \"$way/lookuprows.so\" \"$way/quagmuffin.so\" && echo \"$(basename \"$way\"): $(cat \"$way/quagmuffin.so\")\"
done
";
const CRATES: &str = "lookup:\nlookupmask:\nlookuprows: lookup\nquagmuffin: lookup\n";

fn replica(name: &str) -> Replica {
    let folder = Path::new(env!("CARGO_TARGET_TMPDIR")).join(name);
    let texts = [
        ("root/host/rt", RT),
        ("bin/gcc", GCC),
        ("root/crates.txt", CRATES),
        ("root/crates/lookup/src/lib.rt", "lookup shifts\n"),
        ("root/crates/lookupmask/src/lib.rt", "lookupmask masks\n"),
        ("root/crates/lookuprows/src/lib.rt", "loops\n"),
        ("root/crates/quagmuffin/src/lib.rt", "all\n"),
        ("root/host/run", RUN),
    ];
    let copy = Replica::new(folder, &texts);
    copy.copy(&["host/lookup", "host/proved.sh"]);
    copy
}

fn lookup(copy: &Replica) -> Output {
    let mut command = copy.command("host/lookup", &[]);
    command.env("WORDS", copy.root().join("words"));
    command.output().expect("the script")
}

/// What is timed, by its way: the other one stands in the crates under the library's name.
const TIMED: &str = "lookup: lookup shifts
lookup:
lookupmask:
lookuprows: lookup
quagmuffin: lookup
lookupmask: lookup masks
lookup:
lookuprows: lookup
quagmuffin: lookup
";

#[test]
fn each_way_is_proved_in_its_place() {
    let copy = replica("lookup");
    let output = lookup(&copy);
    let said = String::from_utf8_lossy(&output.stderr);
    let proved =
        |crates| format!("lookup: proved 1 of 2: lookup (0 s)\nlookup: proved 2 of 2: {crates}\n");
    let each = proved("lookuprows") + &proved("quagmuffin");
    let first = "lookup: proving what is timed; from nothing that takes some minutes\n";
    let second = "lookup: proving it with lookupmask in the place of lookup\n";
    assert_eq!(said, format!("{first}{each}{second}{each}"));
    assert_eq!(String::from_utf8_lossy(&output.stdout), TIMED);
    assert_eq!(output.status.code(), Some(0));
    let words = "staticlib lookuprows\nstaticlib quagmuffin\n";
    assert_eq!(copy.left("words"), words.repeat(2));
}

#[test]
fn nothing_is_proved_again_until_the_sources_change() {
    let copy = replica("lookup again");
    lookup(&copy);
    let output = lookup(&copy);
    assert_eq!(String::from_utf8_lossy(&output.stderr), "");
    assert_eq!(String::from_utf8_lossy(&output.stdout), TIMED);
    assert_eq!(copy.count("words"), 4);
    for (k, way) in ["lookup", "lookupmask"].into_iter().enumerate() {
        copy.write(&format!("root/crates/{way}/src/lib.rt"), "otherwise\n");
        let output = lookup(&copy);
        assert_eq!(output.status.code(), Some(0));
        assert_eq!(copy.count("words"), 8 + 4 * k);
    }
}

#[test]
fn fails_in_a_line() {
    for (tool, text, said) in [
        (
            "root/host/rt",
            "#!/bin/sh\nexit 1\n",
            "host/rt staticlib lookuprows failed",
        ),
        (
            "bin/gcc",
            "#!/bin/sh\nexit 1\n",
            "lookuprows can't be linked",
        ),
    ] {
        let copy = replica("lookup fails");
        copy.write(tool, text);
        let output = lookup(&copy);
        let text = String::from_utf8_lossy(&output.stderr).into_owned();
        assert_says(&output, 2, &text);
        let last = text.lines().last().expect("a line");
        assert!(last.starts_with(&format!("lookup: {said}")), "{text}");
    }
}
