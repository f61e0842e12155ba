//! Which cases tell that definitions may stand anywhere.

use crate::answer::{Reason, Refusal};
use crate::case::{Case, Outcome};
use crate::definitions::Definitions;
use crate::machine::{Finished, Machine};
use crate::tree::{Item, Tree};
use crate::types::Types;
use crate::watch::Nobody;

/// Whether the answer would be another if a definition counted only from where
/// it stands.
pub fn tells(case: &Case) -> bool {
    answers(case).is_some_and(|(now, formerly)| now != formerly)
}

/// The tag of the field that is the first to use a definition before it stands,
/// if one does. Where no name is defined again, nothing else tells the two rules
/// apart, and the former one refuses that use.
pub fn first_use(case: &Case) -> Option<u8> {
    let (now, formerly) = answers(case)?;
    let again = |refusal: &Refusal| refusal.reason == Reason::DefinedAgain;
    if now == formerly || now.as_ref().is_err_and(again) {
        return None;
    }
    let place = formerly.err()?.place;
    case.manifest.get(usize::from(place)).copied()
}

/// The answer, and the one of the former rule; nothing where nothing runs.
pub fn answers(case: &Case) -> Option<(Outcome, Outcome)> {
    let (types, tree) = case.read().ok()?;
    let formerly = case.outcome(|out| run_formerly(&tree, &types, case, out));
    Some((case.run(&tree, &types), formerly))
}

/// "A definition must run before it is used" (document 01), and is refused 8
/// where it stands.
fn run_formerly(tree: &Tree, types: &Types, case: &Case, out: &mut [u8]) -> Result<Finished, Refusal> {
    let none = Definitions::none(tree, types);
    let mut machine = Machine::new(tree, none, &case.device, case.limit, out, &Nobody);
    for (at, item) in tree.items.iter().enumerate() {
        match item {
            Item::Definition(definition) => machine.definitions.add(definition)?,
            _ => machine.item(at, item)?,
        }
    }
    Ok(machine.finished())
}
