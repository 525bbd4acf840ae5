//! Cases that are counted off, not drawn: each item cut at each byte, each byte value at each place, short texts.

/// Items that may stand as a value, at least one of each rule.
pub const ITEMS: &[&str] = &[
    "null",
    "true",
    "false",
    "NaN",
    "-Infinity",
    "+NaN",
    "0",
    "-0",
    "+10",
    "12",
    "123",
    "1234",
    "12345",
    "1.",
    "1.50",
    ".5",
    "-.5e+07",
    "0e5",
    "0.0",
    "1E-3",
    "2e9999",
    "10e-10000",
    "0x1F",
    "-0X0a",
    "0xFFFFFFFFFFFFFFFF",
    "18446744073709551615",
    "18446744073709551616",
    "2021-03-04",
    "2000-02-29",
    "1900-02-29",
    "0000-01-01",
    "9999-12-31",
    "05:06:07",
    "23:59:59.999999999",
    "12:00:00.0000000009",
    "24:00:00",
    "2021-03-04 05:06:07",
    "2021-03-04T05:06:07.50",
    "2021-03-04T05:06:07Z",
    "2021-03-04t05:06:07z",
    "2021-03-04 05:06:07.5+23:59",
    "2021-03-04T05:06:07-00:00",
    "2021-03-04T05:06:07-00:01",
    "2021-13-04T05:06:07+24:00",
    "\"\"",
    "''",
    "\"a\"",
    "'b\"c'",
    "\"\\\"\\'\\\\\\/\\0\\b\\f\\n\\r\\t\\v\"",
    "\"\\u0041\\u00e9\\u20AC\"",
    "\"\\ud834\\udd1e\"",
    "\"\\ud834\"",
    "\"\\udd1e\"",
    "\"\\ud834\\ud834\\udd1e\"",
    "\"\\u{1D11E}\\u{0}\"",
    "\"\\u{110000}\"",
    "\"\\u{D800}\"",
    "'\\u{00000000041}'",
    "\"é€𝄞\"",
    "\"\"\"\"\"\"",
    "''''''",
    "\"\"\"a\"b\"\"c\"\"\"",
    "'''\n\n'''",
    "\"\"\"\r\nx\"\"\"",
    "'''\ra\\'''",
    "\"a\"+'b'",
    "\"a\" + \"\"\"b\"\"\"",
    "'' /* x */ + # y\n ''",
    "$",
    "$48",
    "$48.6C6c.00",
    "$\"\"",
    "$\"a\\x00\\xFf\"",
    "$'\\\"\\n'",
    "$+$",
    "$61 + $'b'+$",
    "[]",
    "{}",
    "[1,]",
    "[1,\"a\"]",
    "[[],{}]",
    "{a:1}",
    "{a:1,}",
    "{\"a\":[1],b:{}}",
    "{$:$}",
    "{'a'+\"b\":null}",
    "{true:false,_:2021-03-04}",
];

/// What may stand before and after a value.
pub const AROUND: &[(&str, &str)] = &[("", ""), ("[", "]"), ("{k:", "}"), ("[0,", ",]"), ("/**/", "#")];

/// Keys, for the place of a key.
pub const KEYS: &[&str] =
    &["a", "$", "_0", "NaN", "\"\"", "'k'", "\"\\n\"+'''x'''", "\"\"\"k\"\"\" + \"\\u{41}\"", "\"\\ud834\""];

/// Layout in all its forms.
pub const LAYOUT: &[&str] = &[
    " ",
    "\t\n\r",
    "#",
    "# é\n",
    "//\r",
    "// \u{2028}\r\n",
    "/**/",
    "/***/",
    "/* * / \t\n\r é*/",
    "/*/*/",
    "/**//**/#\n//\n",
];

/// Every prefix of the text, whole text included.
pub fn cuts(text: &[u8], mut each: impl FnMut(&[u8])) {
    (0..=text.len()).for_each(|n| each(&text[..n]));
}

/// Each byte value after each prefix; instead of each byte; before each byte.
pub fn bytes(text: &[u8], mut each: impl FnMut(&[u8])) {
    for at in 0..=text.len() {
        for b in 0..=255u8 {
            let prefix = [&text[..at], &[b]].concat();
            each(&prefix);
            if at < text.len() {
                each(&[&prefix, &text[at + 1..]].concat());
                each(&[&prefix, &text[at..]].concat());
            }
        }
    }
}

/// Every text of `length` letters out of `letters`.
pub fn words(letters: &[u8], length: u32, mut each: impl FnMut(&[u8])) {
    for n in 0..letters.len().pow(length) {
        let mut rest = n;
        let mut text = Vec::new();
        for _ in 0..length {
            text.push(letters[rest % letters.len()]);
            rest /= letters.len();
        }
        each(&text);
    }
}
