//! Closed values as the prover prints them: numbers, truth values, lists, records and variants of these, and nothing that is still to be computed.

/// The marks that stand by themselves.
const MARKS: &str = "(){};,=";

/// Whether two printed terms are closed values, and other values.
pub fn differ(one: &str, other: &str) -> bool {
    match (value(one), value(other)) {
        (Some(one), Some(other)) => one != other,
        _ => false,
    }
}

/// Whether a printed path, `Path TYPE ONE OTHER`, joins two closed values that are other ones.
pub fn path_differs(path: &str) -> bool {
    match groups(path)[..] {
        ["Path", _, one, other] => differ(one, other),
        _ => false,
    }
}

/// The words and the terms in parentheses that a term is made of.
fn groups(term: &str) -> Vec<&str> {
    let (mut groups, mut depth, mut began) = (Vec::new(), 0usize, 0);
    for (at, mark) in term.char_indices() {
        match mark {
            '(' | '{' => depth += 1,
            ')' | '}' => depth = depth.saturating_sub(1),
            ' ' if depth == 0 => {
                groups.push(&term[began..at]);
                began = at + 1;
            }
            _ => (),
        }
    }
    groups.push(&term[began..]);
    groups
}

/// The words of a closed value, without its parentheses; nothing where the term is not one.
fn value(term: &str) -> Option<Vec<String>> {
    let words = words(term);
    match read_value(&words)? {
        [] => Some(words.into_iter().filter(|word| word != "(" && word != ")").collect()),
        _ => None,
    }
}

/// The words and marks of a term; of a name with its module the name alone.
fn words(term: &str) -> Vec<String> {
    let spaced: String = term.chars().map(|mark| if MARKS.contains(mark) { format!(" {mark} ") } else { mark.into() }).collect();
    spaced.split_whitespace().map(|word| word.rsplit_once('.').map_or(word, |(_, name)| name).into()).collect()
}

/// Reads one value, a list's rest with it; what is left after it.
fn read_value(words: &[String]) -> Option<&[String]> {
    let mut left = match words.first()?.as_str() {
        word if is_variant(word) => &words[1..],
        _ => read_part(words)?,
    };
    while is_variant(&words[0]) && left.first().is_some_and(|word| begins_part(word)) {
        left = read_part(left)?;
    }
    match left {
        [cons, rest @ ..] if cons == "∷" => read_value(rest),
        _ => Some(left),
    }
}

/// Whether a word can begin a part of a value.
fn begins_part(word: &str) -> bool {
    ["(", "[]", "record"].contains(&word) || is_literal(word) || is_variant(word)
}

/// Reads a number, a truth value, an empty list, a variant alone, a record, or values in parentheses.
fn read_part(words: &[String]) -> Option<&[String]> {
    match words {
        [word, rest @ ..] if is_literal(word) || is_variant(word) || word == "[]" => Some(rest),
        [record, open, rest @ ..] if record == "record" && open == "{" => read_fields(rest),
        [open, rest @ ..] if open == "(" => match read_value(rest)? {
            [comma, more @ ..] if comma == "," => read_part_after_comma(more),
            [close, left @ ..] if close == ")" => Some(left),
            _ => None,
        },
        _ => None,
    }
}

/// Reads the values of a tuple after its first comma, and the parenthesis.
fn read_part_after_comma(words: &[String]) -> Option<&[String]> {
    match read_value(words)? {
        [comma, more @ ..] if comma == "," => read_part_after_comma(more),
        [close, left @ ..] if close == ")" => Some(left),
        _ => None,
    }
}

/// Reads the fields of a record, and the brace.
fn read_fields(words: &[String]) -> Option<&[String]> {
    let [_, equals, rest @ ..] = words else { return None };
    match read_value(rest).filter(|_| equals == "=")? {
        [semicolon, more @ ..] if semicolon == ";" => read_fields(more),
        [close, left @ ..] if close == "}" => Some(left),
        _ => None,
    }
}

/// Whether a word is a number or a truth value.
fn is_literal(word: &str) -> bool {
    word == "true" || word == "false" || word.bytes().all(|octet| octet.is_ascii_digit())
}

/// Whether a word is the name of a variant, which alone begins with a capital letter among what has a value.
fn is_variant(word: &str) -> bool {
    word.chars().next().is_some_and(char::is_uppercase)
}

#[cfg(test)]
mod tests {
    use super::*;

    #[test]
    fn other_values_differ() {
        let pairs = [
            ("600", "601"),
            ("true", "mathlib.Core.Bool.false"),
            ("(600 ∷ 2142 ∷ [])", "(600 ∷ 2143 ∷ [])"),
            ("[]", "600 ∷ []"),
            ("record {refusal = 0; first = 1; second = 84}", "record {refusal = 0; first = 1; second = 85}"),
            ("Bound 5", "Rattle·binding.specs.declared.Lookup.the-variants.Unbound"),
            ("Joined 1 (record {left = 3; marked = true})", "Joined 1 (record {left = 3; marked = false})"),
            ("(1, true) ∷ []", "(1, false) ∷ []"),
        ];
        assert!(pairs.iter().all(|(one, other)| differ(one, other) && differ(other, one) && !differ(one, one)));
        assert!(!differ("mathlib.Core.Bool.true", "true") && !differ("(600)", "600"));
    }

    #[test]
    fn what_is_not_computed_is_no_value() {
        let terms =
            ["n", "hidden 3", "3 + n", "cond {0} true 3 4", "(c .before .args .number)", ".first", "n ∷ []", "hidden 2 ∷ []", "1 2", ""];
        assert!(terms.iter().all(|term| value(term).is_none()), "one of them is taken for a value");
        let terms =
            ["record {first = n}", "record {first = 1", "Bound n", "(1, n)", "1 ∷ n", "1 ∷ …[31 bytes]…", "‹out of steps›", "{0}", "suc 3"];
        assert!(terms.iter().all(|term| value(term).is_none()), "one of them is taken for a value");
        assert!(!differ("1", "n") && !differ("n", "m"));
    }

    #[test]
    fn a_path_between_other_values_differs() {
        assert!(path_differs("Path ℕ 600 601") && path_differs("Path Bool true false"));
        assert!(path_differs("Path (List ℕ) (600 ∷ 2142 ∷ []) []") && path_differs("Path Look (Some 4) None"));
        assert!(!path_differs("Path ℕ 600 600") && !path_differs("Path ℕ (hidden 2) (hidden 3)"));
        assert!(!path_differs("Path ℕ (e .reply .first) 2") && !path_differs("Path ℕ 1") && !path_differs("1 ≤ 0"));
        assert!(!path_differs("Path (List ℕ) (hidden 2 ∷ []) (hidden 3 ∷ [])"));
    }
}
