//! INSERT: the statements before it move next to an output section (ldlang.c, `process_insert_statements`).

use crate::layout::ids::{OutputId, StatementId};
use crate::layout::link::Link;
use crate::layout::orphans::end_of;
use crate::layout::program::StepKind;
use crate::layout::stop::{refused, RefusedReason, Stop};
use crate::script::tree::{InsertPlace, Name, Span};

impl Link<'_> {
    /// Moves the statements in front of each INSERT.
    pub fn insert_statements(&mut self) -> Result<(), Stop> {
        while let Some((at, place, name, span)) = self.next_insert() {
            let rest = self.program.top.split_off(at + 1);
            let mut moved = std::mem::replace(&mut self.program.top, rest);
            moved.pop();
            let outputs: Vec<OutputId> = moved.iter().filter_map(|id| self.output_of(*id)).collect();
            self.program.order.retain(|id| !outputs.contains(id));
            let beside = self.beside(place, &name, &outputs, span)?;
            let at = end_of(self, beside);
            self.program.top.splice(at..at, moved);
            let at = beside.and_then(|beside| self.program.order.iter().position(|id| *id == beside));
            let at = at.map_or(0, |at| at + 1);
            self.program.order.splice(at..at, outputs.iter().copied());
            self.move_made(&outputs, beside);
        }
        Ok(())
    }

    /// Moves sections that are made in the list of those, behind the last one that is made up to another.
    fn move_made(&mut self, moved: &[OutputId], beside: Option<OutputId>) {
        let made = &self.program.made;
        let own: Vec<OutputId> = moved.iter().copied().filter(|id| made.contains(id)).collect();
        let limit = beside.and_then(|beside| self.program.order.iter().position(|id| *id == beside));
        let until = limit.and_then(|limit| self.program.order.get(..=limit)).unwrap_or_default();
        let before = until.iter().rev().copied().find(|id| made.contains(id) && !own.contains(id));
        if let Some(before) = before {
            self.program.made.retain(|id| !own.contains(id));
            let at = self.program.made.iter().position(|id| *id == before).map_or(0, |at| at + 1);
            self.program.made.splice(at..at, own);
        }
    }

    fn next_insert(&self) -> Option<(usize, InsertPlace, Name, Option<Span>)> {
        self.program.top.iter().enumerate().find_map(|(at, id)| {
            let step = self.step(*id)?;
            match &step.kind {
                StepKind::Insert(place, name) => Some((at, *place, name.clone(), step.span)),
                _ => None,
            }
        })
    }

    fn output_of(&self, id: StatementId) -> Option<OutputId> {
        match self.step(id)?.kind {
            StepKind::Output(output) => Some(output),
            _ => None,
        }
    }

    /// The output section behind which they go; `None` in front of all.
    fn beside(
        &self,
        place: InsertPlace,
        name: &Name,
        moved: &[OutputId],
        span: Option<Span>,
    ) -> Result<Option<OutputId>, Stop> {
        let named = self.program.names.find(name).and_then(|name| self.program.outputs_of.get(&name));
        let counts = |id: &&OutputId| !moved.contains(id) && self.output(**id).map_or(false, |output| output.counts());
        let found = match named.into_iter().flatten().find(counts) {
            None => return refused(RefusedReason::Insert(name.clone()), span),
            Some(found) => *found,
        };
        match place {
            InsertPlace::After => Ok(Some(found)),
            InsertPlace::Before => {
                let at = self.program.order.iter().position(|id| *id == found).unwrap_or(0);
                Ok(self.program.order.get(..at).into_iter().flatten().rev().find(counts).copied())
            }
        }
    }
}
