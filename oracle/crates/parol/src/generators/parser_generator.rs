//! Stand-in for `Dfa`, which the original tests print: the same wording of a row.

use crate::analysis::compiled_la_dfa::CompiledDFA;

/// Stand-in for `Dfa`.
pub(crate) struct Dfa(String);

impl Dfa {
    /// Words each row as the original does.
    pub(crate) fn from_compiled_dfa(dfa: CompiledDFA, index: usize, name: String) -> Dfa {
        let mut text = format!("/* {index} - \"{name}\" */\n");
        for t in &dfa.transitions {
            text += &format!(
                "Trans({}, {}, {}, {}),\n",
                t.from_state, t.term, t.to_state, t.prod_num
            );
        }
        Dfa(text)
    }
}

impl std::fmt::Display for Dfa {
    fn fmt(&self, f: &mut std::fmt::Formatter<'_>) -> std::fmt::Result {
        f.write_str(&self.0)
    }
}
