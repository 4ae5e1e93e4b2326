use super::*;

fn rows(text: &str) -> Result<Vec<(usize, Vec<String>)>, Fault> {
    let (mut rows, mut found) = (Rows::new(text.as_bytes()), Vec::new());
    while let Some(row) = rows.next()? {
        found.push((row.line, row.fields));
    }
    Ok(found)
}

#[test]
fn rows_have_their_lines() {
    let found = rows("a,b\r\n\"x,\n\"\"y\"\"\",2\n,\nlast").expect("rows");
    let expected: [(usize, &[&str]); 4] =
        [(1, &["a", "b"]), (2, &["x,\n\"y\"", "2"]), (4, &["", ""]), (5, &["last"])];
    assert_eq!(found.len(), expected.len());
    for ((line, fields), (at, texts)) in found.iter().zip(expected) {
        let texts: Vec<String> = texts.iter().map(|text| text.to_string()).collect();
        assert_eq!((*line, fields), (at, &texts));
    }
    assert_eq!(rows("").expect("rows"), []);
    let blank = rows("\u{feff}a\n\n").expect("rows");
    assert_eq!(blank, [(1, vec!["a".to_string()]), (2, vec![String::new()])]);
}

#[test]
fn what_is_written_is_read_back() {
    let fields: Vec<String> = ["", "a,b", "say \"x\"", "two\r\nlines", "plain"].map(String::from).into();
    assert_eq!(rows(&line(&fields)).expect("rows"), [(1, fields)]);
}

#[test]
fn mistakes_have_their_lines() {
    let long = format!("a\n\"{}", "x\n".repeat(LONGEST));
    for (text, at, words) in [
        ("a\n\"b", 2, "a quote is not closed"),
        ("a\nb\n\"c\"d", 3, "text follows a closing quote"),
        ("a\"b", 1, "a quote is inside a field that has no quotes around it"),
        (&long, 2, "the row has more than 1048576 bytes"),
    ] {
        assert!(matches!(rows(text), Err(Fault::Line(line, told)) if (line, told.as_str()) == (at, words)));
    }
    let mut binary = Rows::new(&b"a\n\xff\n"[..]);
    assert!(matches!(binary.next(), Ok(Some(_))));
    assert!(matches!(binary.next(), Err(Fault::Line(2, words)) if words.starts_with("is not UTF-8 text")));
}
