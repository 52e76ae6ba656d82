use cedar_formatter::{
    faults, format, is_formatted, place, same_layout, version, Config, Error, Place,
};

const PACKED: &str = "permit(principal,action,resource);";
const LAID_OUT: &str = "permit (principal, action, resource);\n";
const REFUSED: &str = "permit(principal,action,resource) when { context.a = 1 };";

#[test]
fn lays_out() {
    let config = Config::default();
    assert_eq!(format(PACKED, &config).as_deref(), Ok(LAID_OUT));
    assert_eq!(format("", &config).as_deref(), Ok("\n"));
    assert_eq!(is_formatted(PACKED, &config), Ok(false));
    assert_eq!(is_formatted(LAID_OUT, &config), Ok(true));
    assert_eq!(same_layout(PACKED, LAID_OUT), Ok(true));
    assert_eq!(same_layout(PACKED, ""), Ok(false));
}

#[test]
fn heeds_the_width() {
    let config = Config {
        line_width: 30,
        ..Config::default()
    };
    assert_eq!(
        format(PACKED, &config).as_deref(),
        Ok("permit\n(principal, action, resource);\n")
    );
}

#[test]
fn asks_again_for_a_longer_result() {
    let config = Config {
        indent_width: 40,
        ..Config::default()
    };
    let text = "permit(principal is A,action,resource);".repeat(40);
    let indent = " ".repeat(40);
    let policy =
        format!("permit (\n{indent}principal is A,\n{indent}action,\n{indent}resource\n);\n");
    let wanted = vec![policy; 40].join("\n");
    assert!(wanted.len() > 2 * text.len() + 64);
    assert_eq!(format(&text, &config), Ok(wanted));
}

#[test]
fn tells_why_and_where() {
    let error = format(REFUSED, &Config::default()).unwrap_err();
    assert_eq!(error, Error::UnknownCharacter { at: 51 });
    assert_eq!(error.at(), Some(51));
    assert_eq!(error.to_string(), "unknown character at byte 51");
    assert_eq!(is_formatted(REFUSED, &Config::default()), Err(error));
    assert_eq!(same_layout("", REFUSED), Err(error));
    assert_eq!(Error::OutOfMemory.to_string(), "out of memory");
    assert_eq!(Error::OutOfMemory.at(), None);
}

#[test]
fn counts_columns_in_characters() {
    let text = "// é\n\"é\" +";
    assert_eq!(place(text, 0), Place { line: 1, column: 1 });
    assert_eq!(place(text, 6), Place { line: 2, column: 1 });
    assert_eq!(place(text, 9), Place { line: 2, column: 3 });
    assert_eq!(place(text, 99).to_string(), "2:6");
}

#[test]
fn tells_its_version() {
    let number = concat!("noblesilk ", env!("CARGO_PKG_VERSION"), ", ");
    assert!(version().starts_with(number), "{}", version());
}

#[test]
fn tells_all_faults() {
    assert_eq!(faults(LAID_OUT).count(), 0);
    let text = format!(
        "{REFUSED}\npermt(principal, action, resource);\nforbid (principal, action, resource)"
    );
    let found: Vec<_> = faults(&text)
        .map(|it| it.expect("there is memory"))
        .collect();
    let marked: Vec<_> = found.iter().map(|it| &text[it.start..it.end]).collect();
    assert_eq!(marked, ["=", "permt", ")"]);
    let errors: Vec<_> = found.iter().map(|it| it.error).collect();
    let second = REFUSED.len() + 1;
    let wanted = [
        Error::UnknownCharacter { at: 51 },
        Error::Grammar { at: second },
        Error::Grammar { at: text.len() },
    ];
    assert_eq!(errors, wanted);
    assert!(found[0].message.ends_with("did you mean '=='?"));
    assert!(found[1].message.ends_with("did you mean 'permit'?"));
}

#[test]
fn tells_which_bracket_is_open() {
    let scope = "permit(principal,action,resource)";
    let first = format!("{scope} when {{ (1 ;");
    let text = format!("{first}\n{REFUSED}\n{scope} when {{ [1 }};");
    let found: Vec<_> = faults(&text)
        .map(|it| it.expect("there is memory"))
        .collect();
    let open: Vec<_> = found.iter().map(|it| it.unclosed.clone()).collect();
    let third = first.len() + REFUSED.len() + 2;
    let wanted = [
        Some(first.len() - 4..first.len() - 3),
        None,
        Some(third + scope.len() + 8..third + scope.len() + 9),
    ];
    assert_eq!(open, wanted);
    let brackets: Vec<_> = open.into_iter().flatten().map(|it| &text[it]).collect();
    assert_eq!(brackets, ["(", "["]);
}
