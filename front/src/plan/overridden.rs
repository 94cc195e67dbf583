//! Names that objects define and to which the script gives other values (ldexp.c, `exp_fold_tree_1`: an assignment
//! defines a name whatever it was before). To `ldi` that is a fault, so the objects have them undefined.

use bstr::{BStr, ByteSlice};

use crate::layout::Evaluation;
use crate::objects::{without_names, Object, Rank};
use crate::session_client::SessionObject;

/// The names that the script overrides.
pub(super) fn names(evaluation: &Evaluation) -> Vec<&BStr> {
    evaluation.symbols.iter().filter(|symbol| symbol.is_overridden).map(|symbol| symbol.name.as_bstr()).collect()
}

/// Makes these names undefined in the objects that define them. A weak definition is no fault.
pub(super) fn undefine(held: &mut [SessionObject], objects: &[Object], names: &[&BStr]) {
    if names.is_empty() {
        return;
    }
    for (held, object) in held.iter_mut().zip(objects) {
        let is_defined = |name: &&BStr| object.globals_named(name).any(|symbol| symbol.rank() == Some(Rank::Strong));
        let own: Vec<&BStr> = names.iter().copied().filter(is_defined).collect();
        if let Some(data) = without_names(&held.data, &own) {
            held.data = data;
        }
    }
}
