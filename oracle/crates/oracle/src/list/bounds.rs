//! Each refusal at its boundary, both sides, and inputs where two refusals hold at once.

mod calls;
mod spoilt;

use super::List;

pub fn add(list: &mut List) {
    calls::builds(list);
    calls::unites(list);
    calls::shrinks(list);
    calls::predicts(list);
    calls::explains(list);
}
