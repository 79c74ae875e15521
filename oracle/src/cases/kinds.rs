//! Kinds of case that must be met, as each operation's tests list them.

/// What a kind is called, and whether a case with its answer is of that kind.
pub type Kind<Met> = (&'static str, fn(&Met) -> bool);

/// Stops where none of the cases is of some kind.
pub fn assert_met<Met>(kinds: &[Kind<Met>], cases: &[Met], among: &str) {
    for (name, is_it) in kinds {
        assert!(cases.iter().any(is_it), "no case {among}: {name}");
    }
}
