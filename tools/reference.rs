// The modules of the program made apart that the tools use, for `include!` at a program's root: they name each other
// by `crate::`.

#[path = "../reference/src/answer.rs"]
mod answer;
#[path = "../reference/src/any_case.rs"]
mod any_case;
#[path = "../reference/src/arrange.rs"]
mod arrange;
#[path = "../reference/src/assemble.rs"]
mod assemble;
#[path = "../reference/src/case.rs"]
mod case;
#[path = "../reference/src/catalog.rs"]
mod catalog;
#[path = "../reference/src/compile.rs"]
mod compile;
#[path = "../reference/src/converter.rs"]
mod converter;
#[path = "../reference/src/definitions.rs"]
mod definitions;
#[path = "../reference/src/generate.rs"]
mod generate;
#[path = "../reference/src/labels.rs"]
mod labels;
#[path = "../reference/src/lexer.rs"]
mod lexer;
#[path = "../reference/src/machine.rs"]
mod machine;
#[path = "../reference/src/named_definitions.rs"]
mod named_definitions;
#[path = "../reference/src/printer.rs"]
mod printer;
#[path = "../reference/src/program.rs"]
mod program;
#[path = "../reference/src/random.rs"]
mod random;
#[path = "../reference/src/reader.rs"]
mod reader;
#[path = "../reference/src/scopes.rs"]
mod scopes;
#[path = "../reference/src/shapes.rs"]
mod shapes;
#[path = "../reference/src/special.rs"]
mod special;
#[path = "../reference/src/text_answer.rs"]
mod text_answer;
#[path = "../reference/src/text_case.rs"]
mod text_case;
#[path = "../reference/src/text_generate.rs"]
mod text_generate;
#[path = "../reference/src/text_limits.rs"]
mod text_limits;
#[path = "../reference/src/text_named.rs"]
mod text_named;
#[path = "../reference/src/text_random.rs"]
mod text_random;
#[path = "../reference/src/text_trees.rs"]
mod text_trees;
#[path = "../reference/src/text_trips.rs"]
mod text_trips;
#[path = "../reference/src/tree.rs"]
mod tree;
#[path = "../reference/src/types.rs"]
mod types;
#[path = "../reference/src/types_faults.rs"]
mod types_faults;
#[path = "../reference/src/types_generate.rs"]
mod types_generate;
#[path = "../reference/src/types_lists.rs"]
mod types_lists;
#[path = "../reference/src/types_named.rs"]
mod types_named;
#[path = "../reference/src/types_shapes.rs"]
mod types_shapes;
#[path = "../reference/src/types_tally.rs"]
mod types_tally;
#[path = "../reference/src/types_words.rs"]
mod types_words;
#[path = "../reference/src/walk.rs"]
mod walk;
#[path = "../reference/src/watch.rs"]
mod watch;
#[path = "../reference/src/why.rs"]
mod why;
#[path = "../reference/src/why_case.rs"]
mod why_case;
#[path = "../reference/src/why_definitions.rs"]
mod why_definitions;
#[path = "../reference/src/why_generate.rs"]
mod why_generate;
#[path = "../reference/src/why_large.rs"]
mod why_large;
#[path = "../reference/src/why_named.rs"]
mod why_named;
#[path = "../reference/src/why_places.rs"]
mod why_places;
#[path = "../reference/src/why_shapes.rs"]
mod why_shapes;
#[path = "../reference/src/why_tally.rs"]
mod why_tally;
