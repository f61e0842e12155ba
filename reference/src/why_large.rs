//! Named questions whose answer takes long, for timing and for the limits.

use crate::assemble::*;
use crate::why_named::{asking, shown, told, Asking};

/// A manifest of 65,535 bytes, nearly all of them constants of one label: in a
/// body that is never run, then in conditions, of which the first is told.
pub fn large_one_label() -> Asking {
    let make = |ifs: usize, padding: usize| {
        let unmet = (0..1000).map(|_| assign("y", int(7, 1))).collect();
        let mut items = vec![class_definition("never", None, vec![], unmet)];
        items.push(if_else(told(boolean(7, true)), vec![], vec![]));
        items.extend((0..ifs).map(|_| if_else(boolean(7, true), vec![], vec![])));
        items.push(shown(int(7, 40)));
        let mut asking = asking(items);
        asking.manifest = asking.manifest.with("z".repeat(padding));
        asking
    };
    let room = 65_535 - make(0, 0).manifest.build().bytes.len();
    make(room / 14, room % 14)
}

/// How many types declare the next one twice.
const DOUBLINGS: usize = 14;

/// Exactly 65,535 steps: 32,767 declarations of types, an if in each of the
/// 16,383 first bodies, an assignment in each of the 16,384 last ones, and the
/// resource.
pub fn large_steps() -> Asking {
    let named = |at: usize| format!("t{at:02}");
    let mut items = vec![type_definition(
        named(DOUBLINGS),
        vec![],
        vec![assign("y", told(int(7, 1)))],
    )];
    for at in 0..DOUBLINGS {
        let next = || defined(named(at + 1), text(1, "b"), vec![]);
        let test = if_else(boolean(7, true), vec![], vec![]);
        items.push(type_definition(named(at), vec![], vec![test, next(), next()]));
    }
    items.push(defined(named(0), text(1, "b"), vec![]));
    items.push(shown(int(7, 40)));
    asking(items)
}
