//! Inputs at the schedule's limits, written to standard output: `limits NAME`. `tests/schedule/make` builds and runs this.

#![allow(dead_code)] // The assembler has more than is used here.

#[path = "../../reference/src/assemble.rs"]
mod assemble;

use assemble::*;
use std::io::{self, Write};

fn main() -> io::Result<()> {
    let name = std::env::args().nth(1).unwrap_or_default();
    let items = match name.as_str() {
        "steps_all" => all_steps(),
        "steps_one_more" => [all_steps(), vec![assign("more", int(3, 1))]].concat(),
        "catalog_full" => full_catalog(boolean(4, true)),
        "catalog_over" => full_catalog(text(4, "gym")),
        _ => return Err(io::Error::other("no input of that name")),
    };
    let mut out = io::stdout().lock();
    out.write_all(b"desk\n")?;
    out.write_all(&Manifest::new(items).build().bytes)
}

/// 65,535 steps: 16,383 declarations with 5 statements in each of the 8,192 last ones, 8,191 declarations, and a resource.
fn all_steps() -> Vec<Field> {
    let body = (0..5).map(|_| if_else(boolean(1, true), vec![], vec![])).collect();
    let resource = built_in("kiosk", text(2, "last"), vec![]);
    [twice_as_many("a", 13, body), twice_as_many("b", 12, vec![]), vec![resource]].concat()
}

/// Types of which each declares the next one twice, and a declaration of the first; the last one has this body.
fn twice_as_many(name: &str, levels: usize, body: Vec<Field>) -> Vec<Field> {
    let kind = |level: usize| format!("{name}{level}");
    let declare = |level: usize| defined(kind(level), text(1, "x"), vec![]);
    let twice = |level: usize| vec![declare(level + 1), declare(level + 1)];
    let mut items: Vec<Field> = (0..levels).map(|level| type_definition(kind(level), vec![], twice(level))).collect();
    items.push(type_definition(kind(levels), vec![], body));
    items.push(declare(0));
    items
}

/// 65,535 bytes: 15 resources of 39 bytes with 89 numbers of 48 bytes each, and one with 13 numbers, 2 strings of 42 bytes and
/// 3 booleans of 41. If the last value is a string, it is a byte more.
fn full_catalog(last: Field) -> Vec<Field> {
    let numbers = |count: usize| (0..count).map(|at| given(format!("n{at}"), int(at as u8, at as i64)));
    let each = built_in("kiosk", var("title"), numbers(89).collect());
    let mut items = vec![type_definition("desk", vec![], vec![each])];
    items.extend((0..15).map(|at| defined("desk", text(at, format!("d{at}")), vec![])));
    let mut rest: Vec<Field> = numbers(13).collect();
    rest.extend((0..2).map(|at| given(format!("s{at}"), text(3, "gym"))));
    rest.extend((0..2).map(|at| given(format!("b{at}"), boolean(4, true))));
    rest.push(given("last", last));
    items.push(built_in("screen", text(5, "rest"), rest));
    items
}
