use reading::text::{bare, cells, hash, squeezed, words};

#[test]
fn comments_are_cut_out() {
    assert_eq!(squeezed(&bare("a // b\nc /* d /* e */ f */ g", true)), "a c g");
    assert_eq!(squeezed(&bare("a -- b\nc {- d {- e -} f -} g--h", false)), "a c g--h");
    assert_eq!(bare("x /* é */ y", true).len(), "x /* é */ y".len());
}

#[test]
fn quoted_texts_hold_no_comment() {
    let code = r#"f(b"a // \" /* b", '"', '\'', "c") // d"#;
    assert_eq!(squeezed(&bare(code, true)), r#"f(b"a // \" /* b", '"', '\'', "c")"#);
    assert_eq!(squeezed(&bare("fn f<'a>(x: &'a u8) // 'b", true)), "fn f<'a>(x: &'a u8)");
    assert_eq!(squeezed(&bare("x = \"{- -- -}\" -- y", false)), "x = \"{- -- -}\"");
}

#[test]
fn words_of_the_logic() {
    assert_eq!(words("buf.new ≡ (f g').«b c» \"d e\""), ["buf", ".new", "≡", "(", "f", "g'", ")", ".«b c»", "\"d e\""]);
}

#[test]
fn cells_of_a_row() {
    assert_eq!(cells("| a | b \\| c |"), ["a", "b \\| c"]);
    assert!(cells("a | b").is_empty());
}

#[test]
fn the_hash_is_sha_256() {
    assert_eq!(hash(b""), "e3b0c44298fc1c14");
    assert_eq!(hash(b"abc"), "ba7816bf8f01cfea");
    assert_eq!(hash(&[b'a'; 64]), "ffe054fe7ae0cb6d");
    assert_eq!(hash(&[b'a'; 119]), "31eba51c313a5c08");
}
