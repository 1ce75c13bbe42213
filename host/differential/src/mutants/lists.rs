//! Mistakes about lists of edits: how many there may be, what is tested and
//! when, and how those of one list go together.

use model::edits::{changed, edit, first_reached, make, passed, recompute, Change, Edit, Editable};
use model::simulate::{require, Answer};
use model::values::settled;
use model::{Design, Workings};

use super::Mutant;

pub fn all() -> Vec<Mutant> {
    let families = [lengths(), empty(), tests(), numbers(), order(), marks()];
    families.concat()
}

/// How many edits a list may have.
fn lengths() -> Vec<Mutant> {
    vec![
        ("256 edits are too many", |w| w.most_edits = 255),
        ("257 edits are taken", |w| w.most_edits = 257),
        ("the first 256 of more edits are made", |w| {
            w.edit = |w, design, lent, edits| edit(w, design, lent, &edits[..edits.len().min(256)])
        }),
        ("more than 256 edits are 10", |w| {
            w.edit = |w, design, lent, edits| {
                require(edits.len() <= 256, 10)?;
                edit(w, design, lent, edits)
            }
        }),
        ("more than 256 edits are 11 before any 10", |w| {
            w.edit = |w, design, lent, edits| {
                require(edits.len() <= 256, 11)?;
                edit(w, design, lent, edits)
            }
        }),
    ]
}

/// What an empty list does.
fn empty() -> Vec<Mutant> {
    vec![
        ("an empty list is refused", |w| {
            w.edit = |w, design, lent, edits| {
                passed(w, design, lent, edits)?;
                require(!edits.is_empty(), 11)?;
                edit(w, design, lent, edits)
            }
        }),
        ("an empty list settles anew", |w| {
            w.edit = |w, design, lent, edits| {
                edit(w, design, lent, edits)?;
                if edits.is_empty() {
                    settle(w, design, lent);
                }
                Ok(())
            }
        }),
        ("an empty list tests nothing", |w| {
            w.edit = |w, design, lent, edits| match edits {
                [] => Ok(()),
                _ => edit(w, design, lent, edits),
            }
        }),
    ]
}

/// What is done where an edit is bad.
fn tests() -> Vec<Mutant> {
    vec![
        ("edits are made as they are tested", |w| {
            w.edit = made_as_tested
        }),
        ("inputs and contents are set as edits are tested", |w| {
            w.edit = set_as_tested
        }),
        ("a bad edit is passed over", |w| {
            w.edit = |w, design, lent, edits| {
                edit_some(w, design, lent, edits, |one| {
                    changed(w, design, one).is_ok()
                })
            }
        }),
        ("edits after a bad one are left out", |w| {
            w.edit = |w, design, lent, edits| {
                tested_around(w, design, lent, edits)?;
                let good = |one: &&Edit| changed(w, design, one).is_ok();
                let count = edits.iter().take_while(good).count();
                edit(w, design, lent, &edits[..count])
            }
        }),
        ("a bad edit is 11 before any 10", |w| {
            w.edit = |w, design, lent, edits| {
                let mut changes = edits.iter().map(|one| changed(w, design, one));
                changes.try_for_each(|change| change.map(|_| ()))?;
                edit(w, design, lent, edits)
            }
        }),
        ("only the last edit of an input or a table is tested", |w| {
            w.edit = only_last_tested
        }),
    ]
}

/// What an edit's numbers are taken for.
fn numbers() -> Vec<Mutant> {
    vec![
        ("a kind above 1 is a table", |w| {
            w.edit = |w, design, lent, edits| {
                edit_as(w, design, lent, edits, |one| one.kind = one.kind.min(1))
            }
        }),
        ("a kind above 1 is an input", |w| {
            w.edit = |w, design, lent, edits| {
                edit_as(w, design, lent, edits, |one| {
                    one.kind *= u8::from(one.kind == 1)
                })
            }
        }),
        ("an edit of a kind above 1 is passed over", |w| {
            w.edit = |w, design, lent, edits| edit_some(w, design, lent, edits, |one| one.kind < 2)
        }),
        ("an input's value is cut to a byte", |w| {
            w.edit = |w, design, lent, edits| {
                edit_as(w, design, lent, edits, |one| {
                    if one.kind == 0 {
                        one.value &= 255
                    }
                })
            }
        }),
        ("a number is cut to 32 bits", |w| {
            w.edit = |w, design, lent, edits| {
                edit_as(w, design, lent, edits, |one| one.number &= 0xFFFF_FFFF)
            }
        }),
        ("a number is cut to a byte", |w| {
            w.edit =
                |w, design, lent, edits| edit_as(w, design, lent, edits, |one| one.number &= 255)
        }),
    ]
}

/// Which of the edits of one thing stays.
fn order() -> Vec<Mutant> {
    vec![
        ("the first edit of an input stays", |w| {
            w.edit = |w, design, lent, edits| first_stays(w, design, lent, edits, 0)
        }),
        ("the first edit of a table stays", |w| {
            w.edit = |w, design, lent, edits| first_stays(w, design, lent, edits, 1)
        }),
        ("the last edit is made first", |w| {
            w.edit = |w, design, lent, edits| {
                let turned: Vec<Edit> = edits.iter().rev().copied().collect();
                edit(w, design, lent, &turned)
            }
        }),
    ]
}

/// What is recomputed, and when.
fn marks() -> Vec<Mutant> {
    vec![
        ("only what depends on the last edit is recomputed", |w| {
            w.edit = |w, design, lent, edits| marks_of(w, design, lent, edits, |list| list.last())
        }),
        ("only what depends on the first edit is recomputed", |w| {
            w.edit = |w, design, lent, edits| marks_of(w, design, lent, edits, |list| list.first())
        }),
        ("the table is settled between edits", |w| {
            w.edit = settled_between
        }),
        ("setting what is there is no change", |w| w.edit = unchanged),
        ("an edit of a table recomputes for the input", |w| {
            w.edit = table_as_input
        }),
    ]
}

fn settle(w: &Workings, design: &Design, lent: &mut Editable) {
    let values = settled(w, design, lent.state());
    lent.values.copy_from_slice(&values);
}

/// All that is tested but the edits themselves.
fn tested_around(w: &Workings, design: &Design, lent: &Editable, edits: &[Edit]) -> Answer {
    passed(w, design, lent, &[])?;
    require(edits.len() <= w.most_edits, 11)
}

/// Makes the edits as a mistake takes them.
fn edit_as(
    w: &Workings,
    design: &Design,
    lent: &mut Editable,
    edits: &[Edit],
    mistake: fn(&mut Edit),
) -> Answer {
    let mut taken = edits.to_vec();
    taken.iter_mut().for_each(mistake);
    edit(w, design, lent, &taken)
}

/// Makes those edits that are not passed over.
fn edit_some(
    w: &Workings,
    design: &Design,
    lent: &mut Editable,
    edits: &[Edit],
    made: impl Fn(&Edit) -> bool,
) -> Answer {
    tested_around(w, design, lent, edits)?;
    let edits: Vec<Edit> = edits.iter().copied().filter(made).collect();
    edit(w, design, lent, &edits)
}

fn made_as_tested(w: &Workings, design: &Design, lent: &mut Editable, edits: &[Edit]) -> Answer {
    tested_around(w, design, lent, edits)?;
    for one in edits {
        edit(w, design, lent, &[*one])?;
    }
    Ok(())
}

/// Values are left alone up to the end, inputs and contents are not.
fn set_as_tested(w: &Workings, design: &Design, lent: &mut Editable, edits: &[Edit]) -> Answer {
    tested_around(w, design, lent, edits)?;
    for one in edits {
        lent.set(changed(w, design, one)?);
    }
    edit(w, design, lent, edits)
}

/// Leaves those out that a later one of the same input or table replaces.
fn only_last_tested(w: &Workings, design: &Design, lent: &mut Editable, edits: &[Edit]) -> Answer {
    tested_around(w, design, lent, edits)?;
    let same = |a: &Edit, b: &Edit| (a.kind, a.number) == (b.kind, b.number);
    let is_last = |&i: &usize| !edits[i + 1..].iter().any(|later| same(later, &edits[i]));
    let last: Vec<Edit> = (0..edits.len()).filter(is_last).map(|i| edits[i]).collect();
    edit(w, design, lent, &last)
}

/// Of edits of one kind only the first of a number is made.
fn first_stays(
    w: &Workings,
    design: &Design,
    lent: &mut Editable,
    edits: &[Edit],
    kind: u8,
) -> Answer {
    passed(w, design, lent, edits)?;
    let is_repeated = |i: usize| {
        edits[..i]
            .iter()
            .any(|one| one.number == edits[i].number && one.kind == kind)
    };
    let kept = (0..edits.len()).filter(|&i| edits[i].kind != kind || !is_repeated(i));
    let kept: Vec<Edit> = kept.map(|i| edits[i]).collect();
    edit(w, design, lent, &kept)
}

/// Sets all, and recomputes what depends on one of them.
fn marks_of(
    w: &Workings,
    design: &Design,
    lent: &mut Editable,
    edits: &[Edit],
    one: fn(&[Change]) -> Option<&Change>,
) -> Answer {
    let changes = passed(w, design, lent, edits)?;
    changes.iter().for_each(|&change| lent.set(change));
    if let Some(&change) = one(&changes) {
        recompute(w, design, lent, &first_reached(w, design, change));
    }
    Ok(())
}

/// Settles the whole table before each edit but the first.
fn settled_between(w: &Workings, design: &Design, lent: &mut Editable, edits: &[Edit]) -> Answer {
    for (i, change) in passed(w, design, lent, edits)?.into_iter().enumerate() {
        if i > 0 {
            settle(w, design, lent);
        }
        make(w, design, lent, change);
    }
    Ok(())
}

/// Passes over what is there already.
fn unchanged(w: &Workings, design: &Design, lent: &mut Editable, edits: &[Edit]) -> Answer {
    for change in passed(w, design, lent, edits)? {
        let is_there = match change {
            Change::Input { input, byte } => lent.inputs[input] == byte,
            Change::Table { table, word } => lent.contents[table] == word,
        };
        if !is_there {
            make(w, design, lent, change);
        }
    }
    Ok(())
}

/// Recomputes what depends on the input of a table's number.
fn table_as_input(w: &Workings, design: &Design, lent: &mut Editable, edits: &[Edit]) -> Answer {
    for change in passed(w, design, lent, edits)? {
        lent.set(change);
        let input = match change {
            Change::Input { input, .. } => input,
            Change::Table { table, .. } => table,
        };
        let first = first_reached(w, design, Change::Input { input, byte: 0 });
        recompute(w, design, lent, &first);
    }
    Ok(())
}
