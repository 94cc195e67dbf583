//! The statements of a script in the order of the text.

use crate::script::tree::{
    Assignment, Expr, OutputSection, Script, SectionStatement, SectionsStatement, Span, Spanned, Statement,
};

/// Calls a function for each assignment, with the span of its statement.
pub(crate) fn for_each_assignment<'a>(script: &'a Script, act: &mut dyn FnMut(&'a Assignment, Span)) {
    for statement in &script.statements {
        match &statement.node {
            Statement::Assign(assignment) => act(assignment, statement.span),
            Statement::Sections(items) => {
                for item in items {
                    match &item.node {
                        SectionsStatement::Assign(assignment) => act(assignment, item.span),
                        SectionsStatement::Output(section) => of_section(section, act),
                        SectionsStatement::Overlay(overlay) => {
                            overlay.sections.node.iter().for_each(|section| of_section(&section.node, act));
                        }
                        SectionsStatement::Assert(_) | SectionsStatement::Entry(_) => {}
                    }
                }
            }
            _ => {}
        }
    }
}

fn of_section<'a>(section: &'a OutputSection, act: &mut dyn FnMut(&'a Assignment, Span)) {
    for statement in &section.body.node {
        if let SectionStatement::Assign(assignment) = &statement.node {
            act(assignment, statement.span);
        }
    }
}

/// All output sections but those of OVERLAYs, with their spans.
pub(super) fn sections(script: &Script) -> impl Iterator<Item = (&OutputSection, Span)> {
    let blocks = script.statements.iter().filter_map(|statement| match &statement.node {
        Statement::Sections(items) => Some(items),
        _ => None,
    });
    blocks.flatten().filter_map(|item| match &item.node {
        SectionsStatement::Output(section) => Some((&**section, item.span)),
        _ => None,
    })
}

/// Calls a function for each expression as a whole, with the place where its statement begins.
pub(crate) fn for_each_expression(script: &Script, act: &mut dyn FnMut(&Expr, u32)) {
    for statement in &script.statements {
        let at = statement.span.start;
        match &statement.node {
            Statement::Assign(assignment) => act(&assignment.value, at),
            Statement::Assert(assertion) => act(&assertion.condition, at),
            Statement::Memory(regions) => {
                for region in regions {
                    act(&region.node.origin, region.span.start);
                    act(&region.node.length, region.span.start);
                }
            }
            Statement::Sections(items) => items.iter().for_each(|item| of_item(item, act)),
            _ => {}
        }
    }
}

fn of_item(item: &Spanned<SectionsStatement>, act: &mut dyn FnMut(&Expr, u32)) {
    let at = item.span.start;
    match &item.node {
        SectionsStatement::Assign(assignment) => act(&assignment.value, at),
        SectionsStatement::Assert(assertion) => act(&assertion.condition, at),
        SectionsStatement::Output(section) => in_section(section, at, act),
        SectionsStatement::Overlay(overlay) => {
            let heads = [&overlay.address, &overlay.load_address, &overlay.subalign];
            heads.into_iter().flatten().for_each(|e| act(e, at));
            overlay.sections.node.iter().for_each(|section| in_section(&section.node, section.span.start, act));
        }
        SectionsStatement::Entry(_) => {}
    }
}

fn in_section(section: &OutputSection, at: u32, act: &mut dyn FnMut(&Expr, u32)) {
    let heads = [&section.address, &section.load_address, &section.align, &section.subalign];
    heads.into_iter().flatten().for_each(|e| act(e, at));
    for statement in &section.body.node {
        let at = statement.span.start;
        match &statement.node {
            SectionStatement::Assign(assignment) => act(&assignment.value, at),
            SectionStatement::Assert(assertion) => act(&assertion.condition, at),
            SectionStatement::Data(_, e) => act(e, at),
            _ => {}
        }
    }
}
