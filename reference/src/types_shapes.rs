//! Random manifests shaped for lists of types: words of the eight and words near
//! them, some in the list, some defined, some neither; and the names of types in
//! any manifest changed.

use crate::arrange::arrange;
use crate::assemble::*;
use crate::random::Random;
use crate::text_trees::each;
use crate::types::MOST_NAMES;
use crate::types_lists::{fill, rising};
use crate::types_words::{any_word, near, one_of_eight, Used, Word, Words};

/// Exchanges names of types for words near them, others of the eight, or names
/// of other types. What a manifest means stays, if the list follows.
pub fn rename(random: &mut Random, manifest: &mut Manifest) {
    for _ in 0..random.between(1, 3) {
        let used = Used::by_manifest(&manifest.build().bytes);
        let types = [used.built_in, used.resources, used.read, used.defined];
        let types: Vec<Word> = types.into_iter().flatten().collect();
        if types.is_empty() {
            return;
        }
        let old = random.pick(&types);
        let new = match random.below(6) {
            0 | 1 => near(random, &old),
            2 => one_of_eight(random),
            3 | 4 => random.pick(&types),
            _ => any_word(random),
        };
        exchange(manifest, &old, &new);
    }
}

/// Each of two strings wherever the other stands.
pub fn exchange(manifest: &mut Manifest, one: &[u8], other: &[u8]) {
    let change = |string: &mut Word| {
        if string == one {
            *string = other.to_vec();
        } else if string == other {
            *string = one.to_vec();
        }
    };
    manifest.strings.iter_mut().for_each(change);
    each(&mut manifest.items, &mut |field| {
        for part in &mut field.parts {
            if let Part::Name(name) = part {
                change(name);
            }
        }
    });
}

/// A small manifest, and the names of the list it is made for: mostly accepted,
/// sometimes with one use of a type that the list makes wrong.
pub fn shaped(random: &mut Random) -> (Manifest, Vec<Word>) {
    let mut maker = Maker::new(random);
    let mut items = maker.definitions();
    for _ in 0..maker.random.between(1, 5) {
        items.push(maker.statement());
    }
    if maker.random.chance(400) {
        let wrong = maker.wrong_statement();
        let at = maker.random.below(items.len() + 1);
        items.insert(at, wrong);
    }
    if maker.random.chance(150) {
        items.push(maker.wrong_definition());
    }
    let mut names: Words = maker.listed.into_iter().collect();
    let mut manifest = Manifest::new(items).with("title");
    arrange(random, &mut manifest);
    lengthen(random, &mut names, &manifest);
    (manifest, rising(names))
}

/// Sometimes some names more, sometimes as many as may be.
fn lengthen(random: &mut Random, names: &mut Words, manifest: &Manifest) {
    let count = match random.weighted(&[60, 20, 20]) {
        0 => return,
        1 => names.len() + random.between(1, 5),
        _ => MOST_NAMES,
    };
    let mut used = Used::by_manifest(&manifest.build().bytes);
    // What is wrong under the list stays wrong.
    let unlisted = used.built_in.difference(names).cloned();
    used.defined
        .extend(unlisted.chain(used.read.difference(names).cloned()));
    fill(random, names, &used, count);
}

struct Maker<'r> {
    random: &'r mut Random,
    listed: Vec<Word>,
    /// Types and classes that the manifest defines.
    types: Vec<Word>,
    classes: Vec<Word>,
    /// Titles and classes used so far.
    titles: usize,
    included: usize,
    /// Resources surely in the catalog, by type and title.
    shown: Vec<(Word, String)>,
}

impl<'r> Maker<'r> {
    fn new(random: &'r mut Random) -> Maker<'r> {
        let mut listed = Words::new();
        for _ in 0..random.weighted(&[0, 4, 2, 2, 1]) {
            let word = one_of_eight(random);
            listed.insert(match random.below(4) {
                0 => word,
                1 | 2 => near(random, &word),
                _ => any_word(random),
            });
        }
        let mut maker = Maker {
            random,
            listed: rising(listed),
            types: Vec::new(),
            classes: Vec::new(),
            titles: 0,
            included: 0,
            shown: Vec::new(),
        };
        maker.types = maker.unlisted(0, 2);
        maker.classes = maker.unlisted(0, 1);
        maker
    }

    /// Words that neither the list nor a definition has, often some of the eight.
    fn unlisted(&mut self, least: usize, most: usize) -> Vec<Word> {
        let count = self.random.between(least, most);
        let mut words = Vec::new();
        while words.len() < count {
            let word = match self.random.below(6) {
                0..=3 => one_of_eight(self.random),
                4 => {
                    let word = self.random.pick(&self.listed);
                    near(self.random, &word)
                }
                _ => any_word(self.random),
            };
            let taken = [&self.listed, &self.types, &self.classes, &words];
            if !taken.into_iter().any(|taken| taken.contains(&word)) {
                words.push(word);
            }
        }
        words
    }

    fn title(&mut self) -> String {
        self.titles += 1;
        format!("t{}", self.titles)
    }

    fn label(&mut self) -> u8 {
        self.random.label()
    }

    fn listed_type(&mut self) -> Word {
        self.random.pick(&self.listed)
    }
}

/// Definitions.
impl Maker<'_> {
    fn definitions(&mut self) -> Vec<Field> {
        let mut definitions = Vec::new();
        for word in self.types.clone() {
            let entry = self.entry(var("title"));
            let fee = parameter("fee", Some(int(self.label(), 7)));
            definitions.push(type_definition(word, vec![fee], vec![entry]));
        }
        for word in self.classes.clone() {
            let title = text(self.label(), self.title());
            let body = vec![assign("rate", int(self.label(), 3)), self.entry(title)];
            definitions.push(class_definition(word, None, vec![], body));
        }
        definitions
    }

    /// A 25 of a listed type.
    fn entry(&mut self, title: Field) -> Field {
        let price = given("price", int(self.label(), 40));
        built_in(self.listed_type(), title, vec![price])
    }

    /// A definition of a listed type, or now and then of one that is defined.
    fn wrong_definition(&mut self) -> Field {
        let word = match self.types.is_empty() || self.random.chance(800) {
            true => self.listed_type(),
            false => self.random.pick(&self.types),
        };
        match self.random.chance(500) {
            true => class_definition(word, None, vec![], vec![]),
            false => type_definition(word, vec![], vec![]),
        }
    }
}

/// Statements.
impl Maker<'_> {
    fn statement(&mut self) -> Field {
        let defined_weight = 3 * usize::from(!self.types.is_empty());
        let class_weight = 2 * usize::from(self.included < self.classes.len());
        let read_weight = 3 * usize::from(!self.shown.is_empty());
        match self
            .random
            .weighted(&[4, defined_weight, class_weight, read_weight, 1])
        {
            0 => self.shown_entry(),
            1 => {
                let (kind, label) = (self.random.pick(&self.types), self.label());
                let fees = vec![given("fee", int(self.label(), 9)); self.random.below(2)];
                defined(kind, text(label, self.title()), fees)
            }
            2 => {
                self.included += 1;
                include(self.classes[self.included - 1].clone())
            }
            3 => {
                let (kind, title) = self.random.pick(&self.shown);
                let read = attribute_of(kind, "price", text(self.label(), title));
                assign(format!("x{}", self.title()), read)
            }
            _ => self.condition(),
        }
    }

    fn shown_entry(&mut self) -> Field {
        let (kind, title, label) = (self.listed_type(), self.title(), self.label());
        self.shown.push((kind.clone(), title.clone()));
        let price = given("price", int(self.label(), 40));
        built_in(kind, text(label, title), vec![price])
    }

    /// A wrong use in the branch that is not taken.
    fn condition(&mut self) -> Field {
        let (test, truth) = (self.label(), self.random.chance(500));
        let title = text(self.label(), self.title());
        let (taken, other) = (vec![self.entry(title)], vec![self.wrong_statement()]);
        match truth {
            true => if_else(boolean(test, true), taken, other),
            false => if_else(boolean(test, false), other, taken),
        }
    }

    /// A 25 or a read of a type that the list lacks, a 27 of one that it holds.
    fn wrong_statement(&mut self) -> Field {
        let title = text(self.label(), self.title());
        let lacking = self.unlisted(1, 1).remove(0);
        match self.random.below(10) {
            0..=2 => built_in(lacking, title, vec![]),
            3 if !self.types.is_empty() => built_in(self.random.pick(&self.types), title, vec![]),
            3 | 4 => defined(self.listed_type(), title, vec![]),
            5 => defined(lacking, title, vec![]),
            6..=8 => assign(format!("x{}", self.titles), attribute_of(lacking, "price", title)),
            _ => {
                let kind = self.listed_type();
                assign(format!("x{}", self.titles), attribute_of(kind, "price", title))
            }
        }
    }
}
