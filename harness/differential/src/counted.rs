//! Values counted off around their limits: numbers, times, characters, and long runs with one odd piece in them.

/// Decimal digits around powers of ten and of two, with the point at each place, zeros at both ends, and exponents around
/// the limits of the power.
pub fn numbers(mut each: impl FnMut(&[u8])) {
    let tens = (0..=21).map(|k| 10u128.pow(k)).flat_map(|n| [n - 1, n, n + 1]);
    let twos = [32, 53, 63, 64, 65].into_iter().flat_map(|k| [(1u128 << k) - 1, 1 << k, (1 << k) + 1]);
    let exponents = [
        "",
        "e0",
        "e9999",
        "e10000",
        "e-9999",
        "e-10000",
        "e9978",
        "e-9979",
        "e-10020",
        "e10020",
        "e99999999999999999999",
        "e-4294967296",
    ];
    for n in tens.chain(twos) {
        let digits = n.to_string();
        for zeros in ["", "0", "000"] {
            let digits = format!("{digits}{zeros}");
            for point in 0..=digits.len() {
                for exponent in exponents {
                    let (whole, fraction) = digits.split_at(point);
                    each(format!("{whole}.{fraction}{exponent}").as_bytes());
                    each(format!("-{digits}{exponent}").as_bytes());
                    each(format!("0.{:0>point$}{digits}{exponent}", "").as_bytes());
                }
            }
        }
        each(format!("0x{n:x}").as_bytes());
        each(format!("-0X000{n:X}").as_bytes());
    }
}

/// Coefficients of each number of digits with each power around those that are written without it, in the form of before
/// ticket 6 and in others that mean the same.
pub fn powers(mut each: impl FnMut(&[u8])) {
    for count in 1..=20u32 {
        let least = 10u128.pow(count - 1);
        let most = (10u128.pow(count) - 1).min(u128::from(u64::MAX));
        for n in [least, least + 1, least * 15 / 10, most - most % 10 + 1, most - 1, most] {
            for power in -24..=24 {
                each(format!("{n}e{power}").as_bytes());
                each(format!("[-{n}e{power},{n}0e{}]", power - 1).as_bytes());
                each(format!("{{a:.{n}e{}}}", power + n.to_string().len() as i32).as_bytes());
            }
        }
    }
}

/// Each two-digit value in each field of a time, and every month and day of some years.
pub fn times(mut each: impl FnMut(&[u8])) {
    for n in 0..100 {
        for m in 0..100 {
            for year in [0, 4, 1900, 2000, 2023, 2024, 9999] {
                each(format!("{year:04}-{n:02}-{m:02}").as_bytes());
            }
            each(format!("{n:02}:{m:02}:00").as_bytes());
            each(format!("[00:{n:02}:{m:02}.5]").as_bytes());
            each(format!("2000-02-29 {n:02}:{m:02}:59").as_bytes());
            each(format!("2000-02-29t{n:02}:{m:02}:59z").as_bytes());
            each(format!("2000-02-29T00:00:00+{n:02}:{m:02}").as_bytes());
            each(format!("2000-02-29T00:00:00.{n:02}{m:02}-{n:02}:{m:02}").as_bytes());
            each(format!("12:34:56.0000{n:02}{m:02}{n:02}").as_bytes());
        }
    }
}

/// Every unit as `\uXXXX`, alone and beside surrogates; every value up to past 10FFFF as `\u{X...}`; every character plain.
pub fn characters(mut each: impl FnMut(&[u8])) {
    for unit in 0..=0xFFFFu32 {
        each(format!("\"\\u{unit:04x}\"").as_bytes());
        each(format!("\"\\uD834\\u{unit:04X}\"").as_bytes());
        each(format!("'\\u{unit:04x}\\udd1e'").as_bytes());
    }
    for value in (0..0x11_0100u32).filter(|v| v % 7 == 0 || v & 0xFF < 2 || *v < 0x1000 || *v > 0x10_FF00) {
        each(format!("\"\\u{{{value:x}}}\"").as_bytes());
        if let Some(c) = char::from_u32(value) {
            each(format!("\"{c}\"").as_bytes());
            each(format!("#{c}\n1").as_bytes());
        }
    }
}

/// Runs of one filling of every length up to `longest`, with one odd piece at each place: readers and writers that go by
/// blocks of bytes meet it at each place of a block.
pub fn runs(longest: usize, mut each: impl FnMut(&[u8])) {
    let frames: [(&str, &str); 9] = [
        ("\"", "\""),
        ("'", "'"),
        ("\"\"\"", "\"\"\""),
        ("# ", "\n1"),
        ("/*", "*/1"),
        ("$\"", "\""),
        ("$", ""),
        ("[1", "]"),
        ("{", ":1}"),
    ];
    let pieces: [&[u8]; 29] = [
        b"",
        b"\\n",
        b"\\v",
        b"\\\"",
        b"\\u001f",
        b"\\u0041",
        b"\\u{1F525}",
        b"\\x41",
        b"\"",
        b"'",
        b"\\",
        b"\x00",
        b"\x1f",
        b"\x7f",
        b"\xc3\xa9",
        b"\xe2\x82\xac",
        b"\xf0\x9d\x84\x9e",
        b"\xff",
        b"\xed\xa0\x80",
        b"\xc3",
        b"*",
        b"*/",
        b"\n",
        b"\r",
        b"\t",
        b"0",
        b".",
        b",",
        b"\\ud834",
    ];
    for (before, after) in frames {
        for filling in if before == "[1" { ["1", " "] } else { ["a", "0"] } {
            for length in 0..=longest {
                for at in 0..=length {
                    for piece in pieces {
                        let run =
                            [filling.repeat(at).as_bytes(), piece, filling.repeat(length - at).as_bytes()].concat();
                        each(&[before.as_bytes(), &run, after.as_bytes()].concat());
                    }
                }
            }
        }
    }
}
