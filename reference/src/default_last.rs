//! Which cases tell that a default is tried last.

use crate::case::Case;
use crate::tree::*;

/// Whether the answer would be another if a default matched where it is
/// reached, so that the patterns behind it were never tried.
pub fn tells(case: &Case) -> bool {
    let Ok((types, mut tree)) = case.read() else {
        return false;
    };
    let answer = case.run(&tree, &types);
    tree.items.iter_mut().for_each(cut_item);
    case.run(&tree, &types) != answer
}

/// Cuts off what stands behind a default. A condition keeps its effect, which
/// is of all branches, whatever is tried.
fn cut_arms<Chosen>(arms: &mut Vec<Arm<Chosen>>, cut_chosen: fn(&mut Chosen)) {
    let is_default = |arm: &Arm<Chosen>| matches!(arm.pattern, Pattern::Default);
    if let Some(at) = arms.iter().position(is_default) {
        arms.truncate(at + 1);
    }
    arms.iter_mut().for_each(|arm| cut_chosen(&mut arm.chosen));
}

fn cut_item(item: &mut Item) {
    match item {
        Item::Statement(statement) => cut_statement(statement),
        Item::Node(node) => cut_block(&mut node.block),
        Item::Definition(definition) => cut_block(&mut definition.block),
    }
}

fn cut_block(block: &mut Block) {
    block.iter_mut().for_each(cut_statement);
}

fn cut_statement(statement: &mut Statement) {
    match &mut statement.action {
        Action::Assign { value, .. } => cut_expression(value),
        Action::If {
            condition,
            then,
            otherwise,
            ..
        } => {
            cut_expression(condition);
            cut_block(then);
            cut_block(otherwise);
        }
        Action::Case { scrutinee, arms, .. } => {
            cut_expression(scrutinee);
            cut_arms(arms, cut_block);
        }
        Action::BuiltIn(resource) | Action::Defined(resource) => {
            cut_expression(&mut resource.title);
            cut_attributes(&mut resource.attributes);
        }
        Action::Class { attributes, .. } => cut_attributes(attributes),
        Action::Include { .. } => {}
    }
}

fn cut_attributes(attributes: &mut Attributes) {
    for attribute in &mut attributes.list {
        cut_expression(&mut attribute.value);
    }
}

fn cut_expression(expression: &mut Expression) {
    match &mut expression.form {
        Form::Constant(_) | Form::Variable(_) | Form::TopVariable(_) | Form::ClassVariable { .. } => {}
        Form::Binary { left, right, .. } => {
            cut_expression(left);
            cut_expression(right);
        }
        Form::Not(operand) => cut_expression(operand),
        Form::AttributeRead { title, .. } => cut_expression(title),
        Form::Selector { scrutinee, arms } => {
            cut_expression(scrutinee);
            cut_arms(arms, cut_expression);
        }
    }
}
