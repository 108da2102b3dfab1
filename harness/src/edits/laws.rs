//! The text of a law: whether it is one that computing alone decides.

/// What may stand before a law's name.
const BEFORE: [&str; 3] = ["pub ", "abbrev ", "unfoldable "];

/// Whether a law of this text takes nothing and is proved by `refl` and by nothing else, so that it is refused only where it computes to something else
/// or does not compute.
pub fn by_computing(text: &str, law: &str) -> bool {
    let mut stated = None;
    let mut proof = None;
    for declaration in declarations(text) {
        let mut told = declaration.as_str();
        while let Some(rest) = BEFORE.iter().find_map(|before| told.strip_prefix(before)) {
            told = rest;
        }
        let Some(told) = told.strip_prefix(law) else { continue };
        if let Some(statement) = told.strip_prefix(" : ") {
            stated = Some(!statement.contains(['→', '∀']));
        } else if told.starts_with(' ') {
            proof = Some(proof.is_none() && told.strip_prefix(" =").is_some_and(of_refl_alone));
        }
    }
    stated == Some(true) && proof == Some(true)
}

/// Whether a proof is `refl`, or several of it in parentheses.
fn of_refl_alone(proof: &str) -> bool {
    proof.split(['(', ')', ',', ' ']).filter(|word| !word.is_empty()).all(|word| word == "refl") && proof.contains("refl")
}

/// The declarations of a text, each on one line: a line that is set in belongs to the one before.
fn declarations(text: &str) -> Vec<String> {
    let mut declarations: Vec<String> = Vec::new();
    for line in text.lines() {
        match declarations.last_mut() {
            Some(last) if line.starts_with(' ') => *last += &format!(" {}", line.trim()),
            _ => declarations.push(line.trim_end().into()),
        }
    }
    declarations
}

#[cfg(test)]
mod tests {
    use super::*;

    /// Laws of many sorts.
    const TEXT: &str = "\
-- a law
unfoldable pub two_ports : output (header 1 1 ++ events 0)
    ≡ line_of (0 ∷ 1 ∷ [])
unfolding number_then digits
two_ports = refl

both : (fits 84 ≡ true) × (fits 83 ≡ false)
both =
    (refl, refl)

pub taking : (n : ℕ) → share n ≡ n
taking n = refl

pub taking_inside : (n : ℕ) → n ≡ n
taking_inside = λ n. refl

pub cited : share 3 ≡ 0
cited = share_least 3

pub opened : share 3 ≡ 0
opened = let e : 1 ≡ 0 = refl in e

stated : share 3 ≡ 0
";

    #[test]
    fn a_law_by_refl_alone_is_decided_by_computing() {
        assert!(by_computing(TEXT, "two_ports") && by_computing(TEXT, "both"));
    }

    #[test]
    fn another_law_is_not() {
        for law in ["taking", "taking_inside", "cited", "opened", "stated", "two", "none"] {
            assert!(!by_computing(TEXT, law), "{law} is taken for a law that computing decides");
        }
    }
}
