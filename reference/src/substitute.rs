//! What is changed in the Rust before it is compiled, each with the number of places where it must be found.

/// One change of the text.
pub struct Substitution {
    pub name: &'static str,
    pub from: &'static str,
    pub to: &'static str,
    pub times: usize,
}

/// Document 01's stand-ins, then what including and reading the file needs.
pub const SUBSTITUTIONS: &[Substitution] = &[
    Substitution {
        name: "logarithm",
        from: ".ln()",
        to: ".ln_by_document_01()",
        times: 2,
    },
    Substitution {
        name: "max",
        from: ".max(",
        to: ".max_by_document_01(",
        times: 5,
    },
    Substitution {
        name: "order of sorts and pivots",
        from: ".total_cmp(",
        to: ".order_by_document_01(",
        times: 3,
    },
    Substitution {
        name: "rotation limit",
        from: "64usize\n        .checked_mul(n)\n        .and_then(|count| count.checked_mul(n))\n        .ok_or(TomographyError::InvalidQubits)?;",
        to: "crate::hooks::rotation_limit();",
        times: 1,
    },
    Substitution {
        name: "count of evaluations",
        from: "check_tol(tolerance)?;\n        let mut ll = 0.0;",
        to: "crate::hooks::count_evaluation();\n        check_tol(tolerance)?;\n        let mut ll = 0.0;",
        times: 1,
    },
    Substitution {
        name: "pivots",
        from: "if l[pivot * n + k].abs() <= pivot_threshold {",
        to: "crate::hooks::note_pivot(&l, &r, n, k, pivot, pivot_threshold);\n        if l[pivot * n + k].abs() <= pivot_threshold {",
        times: 1,
    },
    Substitution {
        name: "rotations",
        from: "        if best <= tolerance * scale {",
        to: "        crate::hooks::note_turn(&a, n, best, tolerance * scale);\n        if best <= tolerance * scale {",
        times: 1,
    },
    Substitution {
        name: "eigenvalues",
        from: "            let mut order: Vec<_> = (0..n).collect();",
        to: "            crate::hooks::note_eigenvalues(&eigenvalues);\n            let mut order: Vec<_> = (0..n).collect();",
        times: 1,
    },
    Substitution {
        name: "probabilities",
        from: "            if probabilities.iter().any(|probability| {",
        to: "            crate::hooks::note_probabilities(&probabilities, tolerance);\n            if probabilities.iter().any(|probability| {",
        times: 1,
    },
    Substitution {
        name: "records without counts",
        from: "            if total_count == 0 {",
        to: "            if total_count == 0 {\n                crate::hooks::note_zero_total();",
        times: 1,
    },
    Substitution {
        name: "zeros that are counted",
        from: "                    if probability == 0.0 {",
        to: "                    if probability == 0.0 {\n                        crate::hooks::note_zero_counted();",
        times: 1,
    },
    Substitution {
        name: "gradients",
        from: "    let mut gradient = Vec::with_capacity(coordinates.len());",
        to: "    crate::hooks::note_fit(crate::hooks::Event::Gradient);\n    let mut gradient = Vec::with_capacity(coordinates.len());",
        times: 1,
    },
    Substitution {
        name: "probes",
        from: "        let derivative = match (positive, negative) {",
        to: "        crate::hooks::note_fit(crate::hooks::Event::Probes {\n            above: positive.as_ref().map(|probe| probe.0),\n            below: negative.as_ref().map(|probe| probe.0),\n        });\n        let derivative = match (positive, negative) {",
        times: 1,
    },
    Substitution {
        name: "norms",
        from: "        if gradient_norm <= config.gradient_tolerance {\n            termination",
        to: "        crate::hooks::note_fit(crate::hooks::Event::Norm(gradient_norm));\n        if gradient_norm <= config.gradient_tolerance {\n            termination",
        times: 1,
    },
    Substitution {
        name: "trials",
        from: "            if let Some(candidate) =\n                evaluate_coordinates(initial, records, parameters, &trial, &anchor, config)?\n            {",
        to: "            let tried = evaluate_coordinates(initial, records, parameters, &trial, &anchor, config)?;\n            crate::hooks::note_fit(crate::hooks::Event::Trial {\n                objective: tried.as_ref().map(|tried| tried.0),\n                present: objective,\n            });\n            if let Some(candidate) = tried {",
        times: 1,
    },
    // An included file may have no inner documentation or attributes.
    Substitution {
        name: "inner documentation",
        from: "//!",
        to: "//",
        times: 5,
    },
    Substitution {
        name: "attribute against unsafe code",
        from: "#![forbid(unsafe_code)]",
        to: "",
        times: 1,
    },
    Substitution {
        name: "attribute on missing documentation",
        from: "#![warn(missing_docs)]",
        to: "",
        times: 1,
    },
    // The sheets print a model, and refusal 14 asks which coordinate fails.
    Substitution {
        name: "access to a model's numbers",
        from: "pub struct GateSetModel {\n    dimension: usize,\n    state: Vec<f64>,\n    effects: Vec<Vec<f64>>,\n    gates: Vec<(String, Vec<f64>)>,",
        to: "pub struct GateSetModel {\n    dimension: usize,\n    pub(crate) state: Vec<f64>,\n    pub(crate) effects: Vec<Vec<f64>>,\n    pub(crate) gates: Vec<(String, Vec<f64>)>,",
        times: 1,
    },
    Substitution {
        name: "access to a coordinate's value",
        from: "\nfn parameter_value(",
        to: "\npub(crate) fn parameter_value(",
        times: 1,
    },
];

/// The text with every substitution made, or what did not match.
pub fn substitute(text: &str, list: &[Substitution]) -> Result<String, String> {
    let mut text = text.to_string();
    for s in list {
        let found = text.matches(s.from).count();
        if found != s.times {
            return Err(format!(
                "substitution '{}' is wanted at {} places and was found at {}",
                s.name, s.times, found
            ));
        }
        text = text.replace(s.from, s.to);
    }
    Ok(text)
}

#[cfg(test)]
mod tests {
    use super::*;

    const ONE: &[Substitution] = &[Substitution {
        name: "one",
        from: "a.b()",
        to: "a.c()",
        times: 2,
    }];

    #[test]
    fn replaces_all() {
        assert_eq!(substitute("x a.b() y a.b()", ONE), Ok("x a.c() y a.c()".to_string()));
    }

    #[test]
    fn too_few_or_too_many_is_an_error_that_names_it() {
        for text in ["", "a.b()", "a.b() a.b() a.b()"] {
            let error = substitute(text, ONE).unwrap_err();
            assert!(error.contains("'one'"), "{error}");
        }
    }

    #[test]
    fn every_substitution_is_loud_when_missing() {
        // The original text is not at hand here, so each is tried on a text that holds all but one of them.
        for (missing, left_out) in SUBSTITUTIONS.iter().enumerate() {
            let mut text = String::new();
            for (index, s) in SUBSTITUTIONS.iter().enumerate() {
                let times = if index == missing { s.times - 1 } else { s.times };
                text.push_str(&format!("{}\n", s.from).repeat(times));
            }
            let error = substitute(&text, SUBSTITUTIONS).unwrap_err();
            assert!(error.contains(left_out.name), "{error}");
        }
    }
}
