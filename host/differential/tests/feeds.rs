//! Files that come in runs: the library's answers, state and store against the model's, after every call.

use std::sync::LazyLock;

use calls::{Refused, Verdict, STATE, STORE};
use differential::calls::{by_library, Answer, Buffers, Call, Model};
use differential::columns::junk;
use differential::comparison::Sides;
use differential::feeds::{compare_all, compare_bytes, compare_cuts, is_free, scribbled};
use differential::saved::agreed;
use differential::Counts;
use model::reader::certain;
use model::Rules;
use testkit::column::{z, Column};
use testkit::prng::Prng;
use testkit::random::{files, seed, times};
use testkit::traps;

const SIDES: Sides = Sides {
    library: &by_library,
    model: &by_model,
};

fn by_model(call: Call, buffers: &mut Buffers) -> Answer {
    static MODEL: LazyLock<Model> = LazyLock::new(|| Model::of(&[]));
    MODEL.call(call, buffers)
}

/// A file of 64 slices, which has as many bytes as a store.
fn full_file() -> Vec<u8> {
    let file = Column::zeros(64, 3).pin(63, "A1", 258).bytes();
    assert_eq!(file.len(), STORE);
    file
}

fn print(counts: Counts) {
    println!("{counts:?}, {} calls", counts.calls());
}

#[test]
fn every_cut_of_z() {
    let longer = [z().bytes(), vec![1]].concat();
    let looped = z().pin(0, "A1", 4096).bytes();
    for file in [z().bytes(), longer, looped] {
        print(agreed(compare_cuts(&file, SIDES)));
    }
}

#[test]
fn every_cut_of_a_full_file() {
    print(agreed(compare_cuts(&full_file(), SIDES)));
}

#[test]
fn byte_by_byte_with_empty_runs_between() {
    let longer = [full_file(), vec![1]].concat();
    for empty in 0..3 {
        print(agreed(compare_bytes(&z().bytes(), empty, SIDES)));
    }
    print(agreed(compare_bytes(&full_file(), 0, SIDES)));
    print(agreed(compare_bytes(&longer, 1, SIDES)));
}

/// Every answer is given by many of the calls: more or accepted, and refusals 1 to 11.
#[test]
fn random_runs() {
    let seed = seed();
    let counts = agreed(compare_all(&files(seed, times()), SIDES, seed));
    print(counts);
    assert!(counts.answers.iter().all(|&count| count >= 100));
}

#[test]
fn random_runs_of_directed_files() {
    let files: Vec<_> = traps::all().into_iter().map(|case| case.file).collect();
    print(agreed(compare_all(&files, SIDES, 0)));
}

/// The answer at each byte up to the refusal, of short files that have one of 2 to 8, directed and random.
#[test]
fn answers_at_each_byte() {
    let mut counts = Counts::default();
    let directed = traps::all().into_iter().map(|case| case.file);
    let all = directed.chain(files(seed(), times()));
    let short = all.filter(|file| file.len() < 2_000);
    let refused = short.filter(|file| is_two_to_eight(calls::judge(file)));
    for file in refused {
        counts += agreed(compare_bytes(&file, 0, SIDES));
    }
    print(counts);
    assert!(counts.answers[2..=8].iter().all(|&count| count >= 50));
}

fn is_two_to_eight(verdict: Verdict) -> bool {
    matches!(verdict, Err(Refused { number: 2..=8, .. }))
}

/// How many bytes of a file a reader takes up to its refusal, if it gives one before the end.
fn certain_at(file: &[u8]) -> Option<(usize, Refused)> {
    let (mut state, mut store) = ([0; STATE], [0; STORE]);
    let mut bytes = file.iter().enumerate();
    bytes.find_map(|(at, byte)| {
        let heard = calls::feed(&mut state, &mut store, &[*byte], 0);
        heard.map(|verdict| (at + 1, verdict.expect_err("accepted before the end")))
    })
}

/// What certain means, by the judge: at the refusal's byte nothing that may follow changes it, and a byte before it, the end would make
/// the verdict another than 2 to 8. The model finds the same byte.
fn is_earliest(rng: &mut Prng, bytes: &[u8], refused: Refused) {
    let (rules, before) = (Rules::paper(), &bytes[..bytes.len() - 1]);
    assert!(is_two_to_eight(Err(refused)));
    assert!(!is_two_to_eight(calls::judge(before)));
    assert_eq!(certain(&rules, before), None);
    let model = certain(&rules, bytes).map(|verdict| verdict.to_string());
    assert_eq!(model, Some(refused.to_string()));
    for follows in [0, 1, 2, 130, 8_200] {
        let longer = [bytes, &junk(rng, follows)].concat();
        assert_eq!(calls::judge(&longer), Err(refused));
    }
}

#[test]
fn certain_at_the_earliest_byte() {
    let (mut rng, mut early) = (Prng::new(seed()), 0);
    for file in files(seed(), times()) {
        match certain_at(&file) {
            Some((length, refused)) => {
                is_earliest(&mut rng, &file[..length], refused);
                early += 1;
            }
            None => assert!(!is_two_to_eight(calls::judge(&file))),
        }
    }
    println!("{early} files");
    assert!(early >= 1_000);
}

/// Where the answer is free, on a state that no call left: the run and nothing else is put into the store, and a verdict is kept.
#[test]
fn scribbled_states() {
    let (mut rng, mut free) = (Prng::new(seed()), 0);
    for file in files(seed(), times()) {
        let before = scribbled(&mut rng, &file);
        if !is_free(&before) {
            continue;
        }
        free += 1;
        let mut after = before.clone();
        let answer = by_library(Call::Feed { last: 0 }, &mut after);
        let (kept, run) = (before.state.get()[0] as usize, before.run.get());
        let mut store = before.store.get().to_vec();
        store[kept..kept + run.len()].copy_from_slice(run);
        assert_eq!(after.store.get(), store);
        assert_eq!(after.run, before.run);
        assert_eq!(after.state.get()[0], (kept + run.len()) as u64);
        assert_eq!(after.state.get()[2] == 0, answer == Answer::More);
    }
    println!("{free} states");
    assert!(free >= 100);
}
