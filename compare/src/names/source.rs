//! The public names of the Rust's two modules, from their text.
use std::collections::{BTreeSet, HashMap};

const TEXTS: [&str; 2] = [
    include_str!(concat!(
        env!("CARGO_MANIFEST_DIR"),
        "/../target/compare/oracle/src/dss.rs"
    )),
    include_str!(concat!(
        env!("CARGO_MANIFEST_DIR"),
        "/../target/compare/oracle/src/ddm.rs"
    )),
];

/// What lattrugone leaves out.
const STRING_FORMS: [&str; 4] = [
    "DdmParam::as_utf8",
    "DdmParam::as_ebcdic",
    "DdmBuilder::add_string",
    "DdmBuilder::add_ebcdic_string",
];

/// Each public name was compared, or is left out; and no other was compared.
pub fn all_compared(times: &HashMap<&'static str, u64>) {
    let mut public: BTreeSet<String> = TEXTS.iter().flat_map(|text| names(text)).collect();
    for left_out in STRING_FORMS {
        assert!(public.remove(left_out), "{left_out} isn't a name");
    }
    let compared: BTreeSet<String> = times.keys().map(|name| name.to_string()).collect();
    let missing: Vec<_> = public.difference(&compared).collect();
    let strange: Vec<_> = compared.difference(&public).collect();
    if !missing.is_empty() || !strange.is_empty() {
        println!(
            "compare: names of db2-proto that aren't compared: {missing:?}; no names: {strange:?}"
        );
        std::process::exit(1);
    }
    println!(
        "compare: {} public names of db2-proto's dss and ddm, with the errors they give, all compared; {} string forms left out",
        public.len(),
        STRING_FORMS.len()
    );
}

/// The name that a line goes on with.
fn word(line: &str) -> String {
    let of_name = |c: &char| c.is_alphanumeric() || *c == '_';
    line.chars().take_while(of_name).collect()
}

/// The public names of a text: items, and a type's functions, fields and cases with the type's name before them; and the errors
/// that it gives.
fn names(text: &str) -> Vec<String> {
    let (mut names, mut owner, mut cases) = (Vec::new(), String::new(), false);
    for line in text.lines() {
        let inner = line.strip_prefix("    ").unwrap_or(line);
        if line == "}" {
            owner.clear();
            cases = false;
        } else if let Some(rest) = line.strip_prefix("impl ") {
            owner = word(rest);
        } else if let Some(rest) = inner.strip_prefix("pub ") {
            let (kind, name) = rest.split_once(' ').unwrap_or((rest, ""));
            match kind {
                "fn" | "const" => names.push(within(&owner, &word(name))),
                "struct" | "enum" => {
                    owner = word(name);
                    cases = kind == "enum";
                    names.push(owner.clone());
                }
                field => {
                    assert!(field.ends_with(':'), "a name of another kind: {line}");
                    names.push(within(&owner, &word(field)));
                }
            }
        } else {
            assert!(!line.trim_start().starts_with("pub"), "not read: {line}");
            if cases && inner.starts_with(char::is_uppercase) {
                names.push(within(&owner, &word(inner)));
            }
        }
        let errors = line.split("ProtoError::").skip(1);
        names.extend(errors.map(|rest| within("ProtoError", &word(rest))));
    }
    names
}

fn within(owner: &str, name: &str) -> String {
    match owner {
        "" => name.to_string(),
        owner => format!("{owner}::{name}"),
    }
}
