//! The import expressions of modules in another order, some of them written more than once (document 02, Eleven). Nothing else of a
//! specification changes, and its sizes are kept.

use crate::cases::Case;
use crate::random::{shuffle, Random};
use crate::spelling::plain;
use reference::syntax::*;
use reference::{MODULES, TEXT_BYTES};

/// The most import expressions of a module ("The text", sizes).
const EXPRESSIONS: usize = 16;

/// The same case with its imports rearranged, and the modules of both.
pub struct Rearranged {
    pub case: Case,
    pub modules: Vec<Name>,
}

/// Rearranges the imports of every module, the library's and the customer's; none where the texts are not read, where no module imports
/// anything, or where a text would get too long.
pub fn rearranged(case: &Case, random: &mut Random) -> Option<Rearranged> {
    let mut changed = case.clone();
    let mut modules = Vec::new();
    let mut imports = false;
    for text in [&mut changed.library, &mut changed.text] {
        if text.is_empty() {
            continue;
        }
        let mut specification = reference::read(text).ok()?;
        for module in &mut specification.modules {
            imports |= !module.imports.is_empty();
            rearrange(&mut module.imports, random);
            modules.push(module.name.clone());
        }
        *text = plain(&specification);
        if text.len() > TEXT_BYTES {
            return None;
        }
    }
    let read = !case.text.is_empty() && modules.len() <= MODULES && all_different(&modules);
    (read && imports).then_some(Rearranged {
        case: changed,
        modules,
    })
}

fn all_different(names: &[Name]) -> bool {
    let mut sorted = names.to_vec();
    sorted.sort();
    sorted.dedup();
    sorted.len() == names.len()
}

/// Put in order by the modules' names, as people do, or the other way round, or anyhow; then, mostly, some of them once more.
fn rearrange(imports: &mut Vec<Expression>, random: &mut Random) {
    match random.below(5) {
        0 => imports.sort_by(|one, other| one.module.cmp(&other.module)),
        1 => imports.reverse(),
        _ => shuffle(imports, random),
    }
    let most = match random.below(10) {
        0..=3 => 0,
        4..=8 => random.between(1, 3),
        _ => EXPRESSIONS,
    };
    for _ in 0..most.min(EXPRESSIONS - imports.len()) {
        if let Some(again) = random.pick(imports).cloned() {
            imports.insert(random.below(imports.len() + 1), again);
        }
    }
}
