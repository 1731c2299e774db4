//! Cases of the scope document, of signatures, of strict reading, of reasons, of rows of sizes and of layouts, through the
//! wrapper.

use berzhotun::{
    parse, parse_signature, parse_start, parse_strict, Container, Difference, Entry, Layout,
    Reason, Refusal, Row, Tree, MAX_REASON, MAX_TEXT,
};

fn tree(text: &str) -> Tree {
    parse(text.as_bytes()).unwrap_or_else(|refusal| panic!("{text}: {refusal}"))
}

fn print(text: &str) -> String {
    String::from_utf8(tree(text).to_bytes()).expect("ASCII")
}

fn refusal(text: &str) -> Refusal {
    parse(text.as_bytes()).expect_err(text)
}

#[test]
fn a_record_becomes_a_sheet() {
    let record = tree("{R=i^v}");
    assert_eq!(
        record.words(),
        [4, 4, 1, 20, 29, 0, 1, 4, 2, 0, 0, 1, 26, 0, 0, 2, 17, 0, 0, 1]
    );
    assert_eq!(record.names(), b"R");
}

#[test]
fn prints() {
    for text in [
        "",
        "c",
        "jD",
        "@?",
        "b0i7",
        "[3]",
        "^^{R}",
        "(U=vi)",
        "{R=i^v}",
        "[18446744073709551615c]",
    ] {
        assert_eq!(print(text), text);
    }
    assert_eq!(print("rnc"), "c");
    assert_eq!(print("^^{R=i}"), "^^{R}");
    assert_eq!(print("{x}"), "{x=}");
    assert_eq!(print("b0i007"), "b0i7");
    assert_eq!(print("@\"Rate\""), "@");
}

#[test]
fn sizes() {
    let sizes = [
        ("{x=}", Some(0)),
        ("(x=)", None),
        ("(U=vi)", Some(4)),
        ("{R=i^v}", Some(12)),
        ("b0", Some(1)),
    ];
    for (text, size) in sizes {
        assert_eq!(tree(text).size(Row::AppleArm64), Ok(size), "{text}");
    }
    for (text, size) in [
        ("b255", Some(32)),
        ("b0i3", Some(4)),
        ("A{R=i}", None),
        ("[0v]", None),
    ] {
        assert_eq!(tree(text).size(Row::AppleArm64), Ok(size), "{text}");
    }
    assert_eq!(
        tree("[2[9223372036854775808c]]").size(Row::AppleArm64),
        Err(Refusal::SizeTooLarge)
    );
    assert_eq!(
        tree("[0[2[9223372036854775808c]]]").size(Row::AppleArm64),
        Ok(Some(0))
    );
}

/// The codes in the order of `Primitive`.
const CODES: [&str; 24] = [
    "c", "s", "i", "l", "q", "C", "S", "I", "L", "Q", "f", "d", "D", "jf", "jd", "jD", "B", "v",
    "*", "@", "@?", "#", ":", "?",
];

/// Their sizes in each row, 0 for none.
#[rustfmt::skip]
const SIZES: [[u64; 24]; 4] = [
    [1, 2, 4, 8, 8, 1, 2, 4, 8, 8, 4, 8, 8, 8, 16, 16, 1, 0, 8, 8, 8, 8, 8, 0],
    [1, 2, 4, 8, 8, 1, 2, 4, 8, 8, 4, 8, 16, 8, 16, 32, 1, 0, 8, 8, 8, 8, 8, 0],
    [1, 2, 4, 4, 8, 1, 2, 4, 4, 8, 4, 8, 8, 8, 16, 16, 1, 0, 4, 4, 4, 4, 4, 0],
    [1, 2, 4, 4, 8, 1, 2, 4, 8, 8, 4, 8, 8, 8, 16, 16, 1, 0, 8, 8, 8, 8, 8, 0],
];

#[test]
fn codes_in_each_row() {
    for (row, sizes) in Row::ALL.into_iter().zip(SIZES) {
        for (code, size) in CODES.into_iter().zip(sizes) {
            let size = (size != 0).then_some(size);
            assert_eq!(tree(code).size(row), Ok(size), "{code} {row:?}");
        }
    }
}

#[test]
fn sizes_in_each_row() {
    let sizes = [
        ("{R=i^v}", [Some(12), Some(12), Some(8), Some(12)]),
        ("{R=lL}", [Some(16), Some(16), Some(8), Some(12)]),
        ("{R=lLDjD}", [Some(40), Some(64), Some(32), Some(36)]),
        ("{R=^{S=l}l}", [Some(16), Some(16), Some(8), Some(12)]),
        ("(U=vD)", [Some(8), Some(16), Some(8), Some(8)]),
        ("(U=d^v)", [Some(8), Some(8), Some(8), Some(8)]),
        ("(U=li)", [Some(8), Some(8), Some(4), Some(4)]),
        ("(U=lL)", [Some(8), Some(8), Some(4), Some(8)]),
        ("[3^[9c]]", [Some(24), Some(24), Some(12), Some(24)]),
        ("^l", [Some(8), Some(8), Some(4), Some(8)]),
        ("A^{R}", [Some(8), Some(8), Some(4), Some(8)]),
        ("Al", [Some(8), Some(8), Some(4), Some(4)]),
        ("b0l3", [Some(8), Some(8), Some(4), Some(4)]),
        ("b0l33", [Some(8), Some(8), Some(8), Some(8)]),
        ("b0L3", [Some(8), Some(8), Some(4), Some(8)]),
        ("b33", [Some(8), Some(8), Some(8), Some(8)]),
        ("{x=}", [Some(0), Some(0), Some(0), Some(0)]),
        ("(x=)", [None, None, None, None]),
        ("{R=lv}", [None, None, None, None]),
        ("[0v]", [None, None, None, None]),
        ("", [None, None, None, None]),
    ];
    for (text, sizes) in sizes {
        for (row, size) in Row::ALL.into_iter().zip(sizes) {
            assert_eq!(tree(text).size(row), Ok(size), "{text} {row:?}");
        }
    }
}

#[test]
fn what_is_too_large_in_row_2_alone() {
    let sizes = [
        ("[4294967295c]", Some(4294967295)),
        ("[1073741823^v]", Some(4294967292)),
        ("[0[4294967296c]]", Some(0)),
        ("{R=v[4294967296c]}", None),
        ("{R=[4294967296c]v}", None),
        ("(U=v[4294967295c])", Some(4294967295)),
        ("^[4294967296c]", Some(4)),
    ];
    for (text, size) in sizes {
        assert_eq!(tree(text).size(Row::Arm32), Ok(size), "{text}");
    }
    let wide = [
        ("[4294967296c]", 4294967296),
        ("[1073741824^v]", 8589934592),
        ("{R=[4294967295c]c}", 4294967296),
        ("(U=c[4294967296c])", 4294967296),
        ("A[4294967296c]", 4294967296),
        ("[18446744073709551615c]", 18446744073709551615),
    ];
    for (text, size) in wide {
        let tree = tree(text);
        assert_eq!(tree.size(Row::Arm32), Err(Refusal::SizeTooLarge), "{text}");
        for row in [Row::AppleArm64, Row::X86_64, Row::Guide] {
            assert_eq!(tree.size(row), Ok(Some(size)), "{text} {row:?}");
        }
    }
}

#[test]
fn what_is_too_large_in_other_rows() {
    let too_large = tree("[2[9223372036854775808c]]");
    for row in Row::ALL {
        assert_eq!(too_large.size(row), Err(Refusal::SizeTooLarge), "{row:?}");
    }
    let long_doubles = tree("[1152921504606846976D]");
    for row in [Row::AppleArm64, Row::Guide] {
        let size = Ok(Some(9223372036854775808));
        assert_eq!(long_doubles.size(row), size, "{row:?}");
    }
    assert_eq!(long_doubles.size(Row::X86_64), Err(Refusal::SizeTooLarge));
    assert_eq!(long_doubles.size(Row::Arm32), Err(Refusal::SizeTooLarge));
}

/// Longs and unsigned longs about the largest sizes: what they have in each row, or nothing where it is too large.
#[rustfmt::skip]
const LONGS: [(&str, [Option<u64>; 4]); 10] = [
    ("[1073741823l]", [Some(8589934584), Some(8589934584), Some(4294967292), Some(4294967292)]),
    ("[1073741824l]", [Some(8589934592), Some(8589934592), None, Some(4294967296)]),
    ("[2305843009213693951l]", [Some(18446744073709551608), Some(18446744073709551608), None, Some(9223372036854775804)]),
    ("[2305843009213693951L]", [Some(18446744073709551608), Some(18446744073709551608), None, Some(18446744073709551608)]),
    ("[2305843009213693952L]", [None, None, None, None]),
    ("[4611686018427387903l]", [None, None, None, Some(18446744073709551612)]),
    ("[4611686018427387904l]", [None, None, None, None]),
    ("{R=[4611686018427387903l]sc}", [None, None, None, Some(18446744073709551615)]),
    ("{R=[4611686018427387903l]i}", [None, None, None, None]),
    ("[0[4611686018427387904l]]", [Some(0), Some(0), Some(0), Some(0)]),
];

#[test]
fn longs_with_a_size_about_the_largest() {
    for (text, sizes) in LONGS {
        for (row, size) in Row::ALL.into_iter().zip(sizes) {
            let size = size.map(Some).ok_or(Refusal::SizeTooLarge);
            assert_eq!(tree(text).size(row), size, "{text} {row:?}");
        }
    }
}

#[test]
fn a_long_in_row_3_counts_as_an_int_in_row_0() {
    let texts = [
        "l", "^l", "Al", "b0l3", "b0l33", "[3l]", "(U=lL)", "(U=lic)", "{R=l^lL}", "^{R=l}",
        "A{R=l}", "{R=lv}",
    ];
    for text in texts.into_iter().chain(LONGS.map(|(text, _)| text)) {
        let size = tree(&text.replace('l', "i")).size(Row::AppleArm64);
        assert_eq!(tree(text).size(Row::Guide), size, "{text}");
    }
}

/// The layout of a text that has one.
fn laid_out(text: &str, row: Row) -> Layout {
    let layout = tree(text).layout(row).expect(text);
    layout.unwrap_or_else(|| panic!("{text} has no layout"))
}

#[test]
fn layouts_in_each_row() {
    let layouts: [(&str, [(u64, u64, &[u64]); 4]); 6] = [
        (
            "{R=ci^v}",
            [
                (16, 8, &[0, 0, 4, 8, 0]),
                (16, 8, &[0, 0, 4, 8, 0]),
                (12, 4, &[0, 0, 4, 8, 0]),
                (16, 8, &[0, 0, 4, 8, 0]),
            ],
        ),
        (
            "{R=clLc}",
            [
                (32, 8, &[0, 0, 8, 16, 24]),
                (32, 8, &[0, 0, 8, 16, 24]),
                (16, 4, &[0, 0, 4, 8, 12]),
                (24, 8, &[0, 0, 4, 8, 16]),
            ],
        ),
        (
            "{R=cjD}",
            [
                (24, 8, &[0, 0, 8]),
                (48, 16, &[0, 0, 16]),
                (24, 8, &[0, 0, 8]),
                (24, 8, &[0, 0, 8]),
            ],
        ),
        ("[2{R=ic}]", [(16, 4, &[0, 0, 0, 4]); 4]),
        ("(U=c{S=cq}[17c])", [(24, 8, &[0, 0, 0, 0, 8, 0, 0]); 4]),
        ("[0[18446744073709551615q]]", [(0, 8, &[0, 0, 0]); 4]),
    ];
    for (text, rows) in layouts {
        for (row, (bytes, alignment, offsets)) in Row::ALL.into_iter().zip(rows) {
            let layout = laid_out(text, row);
            let numbers = (layout.bytes, layout.alignment, layout.offsets());
            assert_eq!(numbers, (bytes, alignment, offsets), "{text} {row:?}");
        }
    }
}

#[test]
fn fields_of_a_layout() {
    let layout = laid_out("{R=c{S=sq}^{T=b3}i}", Row::AppleArm64);
    assert_eq!(layout.fields(), [1, 2, 5, 8]);
    let fields: Vec<_> = (0..5).map(|number| layout.field(number)).collect();
    assert_eq!(fields, [Some(0), Some(8), Some(24), Some(32), None]);
    // The record inside has its own start; what is behind the pointer is not laid out.
    let nodes: Vec<_> = (0..10).map(|node| layout.offset(node)).collect();
    let offsets = [0, 0, 8, 0, 8, 24, 0, 0, 32].map(Some);
    assert_eq!(nodes, [&offsets[..], &[None]].concat());
    for text in ["i", "[2{R=ic}]", "^{R=ic}", "{E=}"] {
        let layout = laid_out(text, Row::AppleArm64);
        assert_eq!(
            (layout.fields(), layout.field(0)),
            (&[][..], None),
            "{text}"
        );
    }
}

#[test]
fn what_has_no_layout() {
    for text in [
        "v",
        "?",
        "",
        "(x=)",
        "(U=vi)",
        "[0v]",
        "[3]",
        "A{R=i}",
        "A{R=b3}",
        "{R=iA(U=i)}",
        "{R=i(V=)}",
    ] {
        for row in Row::ALL {
            assert_eq!(tree(text).layout(row), Ok(None), "{text}");
        }
    }
    for (text, node) in [
        ("b3", 0),
        ("b0i3", 0),
        ("[0b3]", 1),
        ("Ab3", 1),
        ("{R=^b3b3}", 3),
        ("{R=vb3}", 2),
        ("{R=[18446744073709551615q]ib3}", 4),
    ] {
        let refusal = Refusal::BitFieldInLayout { node };
        for row in Row::ALL {
            assert_eq!(tree(text).layout(row), Err(refusal), "{text}");
        }
        assert_eq!(refusal.number(), 21);
        assert_eq!(
            refusal.to_string(),
            format!("node {node} is a bitfield and cannot be laid out")
        );
    }
}

#[test]
fn layouts_that_are_too_large() {
    for text in [
        "[0{R=[18446744073709551615q]i}]",
        "{R=[18446744073709551615c]s}",
        "[18446744073709551615s]",
        "(U=[18446744073709551613c]i)",
    ] {
        for row in Row::ALL {
            assert_eq!(tree(text).layout(row), Err(Refusal::SizeTooLarge), "{text}");
        }
    }
    for text in [
        "{R=[4294967295c]c}",
        "[0{R=[4294967295c]s}]",
        "(U=[4294967293c]i)",
    ] {
        for row in Row::ALL {
            let refused = tree(text).layout(row) == Err(Refusal::SizeTooLarge);
            assert_eq!(refused, row == Row::Arm32, "{text} {row:?}");
        }
    }
    // The largest offset of each row.
    assert_eq!(
        laid_out("[0{R=[4294967295c]c}]", Row::Arm32).offset(4),
        Some(4294967295)
    );
    assert_eq!(
        laid_out("[0{R=[18446744073709551615c]c}]", Row::X86_64).offset(4),
        Some(u64::MAX)
    );
}

#[test]
fn comparisons() {
    assert!(!tree("i").equivalent_to(&tree("d")));
    assert!(tree("{R=i}").equivalent_to(&tree("{R}")));
    assert!(tree("@").equivalent_to(&tree("@?")) && tree("#").equivalent_to(&tree("@")));
    assert!(tree("^^{R=i}").equivalent_to(&tree("^^{R=d}")));
    assert!(
        tree("^^{R=i}").equivalent_to_box(&tree("^^{R=d}"))
            && !tree("i").equivalent_to_box(&tree("d"))
    );
    assert!(!tree("^^{R=i}").equal(&tree("^^{R=d}")));
    assert!(!tree("b3").equivalent_to(&tree("b0i3")));
    let record = tree("{R=i}");
    assert!(record.equivalent_to(&record) && record.equal(&record));
}

#[test]
fn matches() {
    let cases = [
        ("{R=i}", "{R=}", true),
        ("{R=i}", "{R}", false),
        ("^^{R=i}", "^^{R}", true),
        ("^^{R=i}", "^^{R=i}", false),
        ("@", "@\"Rate\"", true),
        ("@", "#\"Rate\"", true),
        ("@?", "@\"Rate\"", false),
        ("@?", "#", true),
        ("i", "no type", false),
    ];
    for (first, text, answer) in cases {
        assert_eq!(
            tree(first).matches(text.as_bytes()),
            Ok(answer),
            "{first} {text}"
        );
    }
    assert_eq!(
        tree("i").matches(&[b'i'; MAX_TEXT + 1]),
        Err(Refusal::TextTooLong)
    );
}

#[test]
fn refusals() {
    let container = Container::Struct;
    assert_eq!(refusal("j"), Refusal::UnexpectedEnd { place: 1 });
    assert_eq!(
        refusal("^rc"),
        Refusal::Unknown {
            place: 2,
            byte: b'r'
        }
    );
    assert_eq!(
        refusal("jx"),
        Refusal::UnknownAfterComplex {
            place: 1,
            byte: b'x'
        }
    );
    assert_eq!(refusal("bx"), Refusal::ExpectedInteger { place: 1 });
    assert_eq!(refusal("b256"), Refusal::IntegerTooLarge { place: 4 });
    assert_eq!(refusal("[3ii]"), Refusal::WrongEndArray { place: 3 });
    assert_eq!(
        refusal("{x)"),
        Refusal::WrongEndContainer {
            place: 3,
            container
        }
    );
    assert_eq!(
        refusal("{x)}"),
        Refusal::InvalidIdentifier {
            place: 3,
            container
        }
    );
    assert_eq!(
        refusal("(x"),
        Refusal::WrongEndContainer {
            place: 2,
            container: Container::Union
        }
    );
    assert_eq!(refusal("ii"), Refusal::NotAllConsumed { place: 1 });
    for text in ["j", "^rc", "jx", "bx", "b256", "[3ii]", "{x)", "{x)}", "ii"] {
        let refusal = refusal(text);
        assert!((7..=15).contains(&refusal.number()) && !refusal.to_string().is_empty());
    }
}

#[test]
fn any_bytes_are_read_or_refused() {
    assert_eq!(
        parse(b"\xff").unwrap_err(),
        Refusal::Unknown {
            place: 1,
            byte: 0xff
        }
    );
    assert_eq!(
        parse(b"\0").unwrap_err(),
        Refusal::Unknown { place: 1, byte: 0 }
    );
    assert_eq!(
        parse(&[b'^'; MAX_TEXT + 1]).unwrap_err(),
        Refusal::TextTooLong
    );
    assert_eq!(parse(&[b'^'; MAX_TEXT]).unwrap().words()[0], 2001);
}

#[test]
fn the_rest_is_the_callers_own_text() {
    let signature = b"i16@";
    let (int, rest) = parse_start(signature).unwrap();
    assert_eq!((int.to_bytes(), rest), (b"i".to_vec(), &signature[1..]));
    assert!(std::ptr::eq(rest, &signature[1..]));
    let (none, rest) = parse_start(b"16@").unwrap();
    assert_eq!((none.to_bytes(), rest), (vec![], &b"6@"[..]));
    let (none, rest) = parse_start(b"{x=5c").unwrap();
    assert_eq!((none.to_bytes(), rest), (vec![], &b"c"[..]));
    assert_eq!(
        parse_start(b"]").unwrap_err(),
        Refusal::Unknown {
            place: 1,
            byte: b']'
        }
    );
}

fn entry(start: usize, encoding: &[u8], offset: u32) -> Entry<'_> {
    Entry {
        start,
        encoding,
        offset,
    }
}

#[test]
fn signatures() {
    assert_eq!(
        parse_signature(b"v24@0:8@16"),
        Ok(vec![
            entry(0, b"v", 24),
            entry(3, b"@", 0),
            entry(5, b":", 8),
            entry(7, b"@", 16)
        ])
    );
    assert_eq!(
        parse_signature(b"Vv40rn*007@\"Rate\"4294967295{R=b0i3}0"),
        Ok(vec![
            entry(0, b"Vv", 40),
            entry(4, b"rn*", 7),
            entry(10, b"@\"Rate\"", 4294967295),
            entry(27, b"{R=b0i3}", 0)
        ])
    );
    let most = parse_signature(&b"i0".repeat(MAX_TEXT / 2)).map(|entries| entries.len());
    assert_eq!(most, Ok(MAX_TEXT / 2));
}

#[test]
fn signatures_whose_numbers_are_refused() {
    let cases: [(&[u8], Refusal); 7] = [
        (b"", Refusal::EmptySignature),
        (b"v", Refusal::ExpectedOffset { place: 1 }),
        (b"b168", Refusal::ExpectedOffset { place: 4 }),
        (b"v24r", Refusal::ExpectedOffset { place: 4 }),
        (b"v24@+8", Refusal::ExpectedOffset { place: 4 }),
        (b"v4294967296", Refusal::OffsetTooLarge { place: 11 }),
        (
            b"v18446744073709551616i",
            Refusal::OffsetTooLarge { place: 21 },
        ),
    ];
    for (text, refusal) in cases {
        assert_eq!(parse_signature(text), Err(refusal));
        assert!((16..=18).contains(&refusal.number()) && !refusal.to_string().is_empty());
    }
    assert_eq!(
        parse_signature(&[b'i'; MAX_TEXT + 1]),
        Err(Refusal::TextTooLong)
    );
}

#[test]
fn signatures_whose_types_are_refused() {
    let unknown = |place, byte| Refusal::Unknown { place, byte };
    let cases: [(&[u8], Refusal); 4] = [
        (b"v24{R=5}0", unknown(6, b'5')),
        (b"v24x", unknown(4, b'x')),
        (
            b"j5",
            Refusal::UnknownAfterComplex {
                place: 1,
                byte: b'5',
            },
        ),
        (b"[3i5]8", Refusal::WrongEndArray { place: 3 }),
    ];
    for (text, refusal) in cases {
        assert_eq!(parse_signature(text), Err(refusal));
    }
}

#[test]
fn a_signatures_types_are_the_callers_own_text() {
    let text = b"d36@0:8d16r^{Rate=id}24i32";
    let entries = parse_signature(text).unwrap();
    for entry in &entries {
        let end = entry.start + entry.encoding.len();
        assert!(std::ptr::eq(entry.encoding, &text[entry.start..end]));
        assert!(parse(entry.encoding).is_ok());
    }
    let table = tree("^{Rate=id}");
    assert_eq!(table.matches(entries[4].encoding), Ok(true));
}

#[test]
fn surplus_zeros_are_refused_strictly() {
    let cases: [(&str, usize); 14] = [
        ("[00c]", 1),
        ("[007c]", 1),
        ("b01", 1),
        ("b00", 1),
        ("b0i007", 3),
        ("b00i7", 1),
        ("b256i07", 5),
        ("rnb01", 3),
        ("{x=[7c]^(u=b01)}", 12),
        // Reading as the crate does refuses these too, by another number or further on.
        ("b00i256", 1),
        ("b0256", 1),
        ("[00x]", 1),
        ("[00", 1),
        ("{x=[007c", 4),
    ];
    for (text, place) in cases {
        let refusal = parse_strict(text.as_bytes()).expect_err(text);
        assert_eq!(refusal, Refusal::SurplusZero { place }, "{text}");
        assert_eq!(refusal.number(), 19);
        assert!(refusal.to_string().contains(&format!("at {place} ")));
    }
    assert_eq!(refusal("b0256"), Refusal::IntegerTooLarge { place: 5 });
    assert_eq!(refusal("{x=[007c"), Refusal::WrongEndArray { place: 8 });
    assert_eq!(print("[007c]"), "[7c]");
}

#[test]
fn strict_reading_is_otherwise_the_same() {
    let complex = Refusal::UnknownAfterComplex {
        place: 1,
        byte: b'[',
    };
    assert_eq!(parse_strict(b"j[007c]").unwrap_err(), complex);
    let behind = Refusal::NotAllConsumed { place: 4 };
    assert_eq!(parse_strict(b"[7c][007c]").unwrap_err(), behind);
    let too_large = Refusal::IntegerTooLarge { place: 21 };
    assert_eq!(
        parse_strict(b"b18446744073709551616i007").unwrap_err(),
        too_large
    );
    assert_eq!(
        parse_strict(&[b'0'; MAX_TEXT + 1]).unwrap_err(),
        Refusal::TextTooLong
    );
    for text in [
        "{b01=i}", "@\"[00\"", "[0c]", "b0", "b0i0", "b10i20", "", "r", "{R=i^v}",
    ] {
        let strict = parse_strict(text.as_bytes()).unwrap_or_else(|no| panic!("{text}: {no}"));
        let plain = tree(text);
        assert_eq!(
            (strict.words(), strict.names()),
            (plain.words(), plain.names()),
            "{text}"
        );
    }
}

/// The bytes of a reason, or nothing for a yes.
fn shown(reason: Option<Reason>) -> String {
    reason.map_or(String::new(), |reason| {
        String::from_utf8(reason.as_bytes().to_vec()).expect("ASCII")
    })
}

/// Both texts, and the reasons by levels and with all fields. A yes is an empty text.
#[rustfmt::skip]
const REASONS: [(&str, &str, &str, &str); 35] = [
    ("i", "d", ":kind 1:2 2:11", ":kind 1:2 2:11"),
    ("{R=i^v}", "{R=i^i}", "1.0:kind 2:17 1:2", "1.0:kind 2:17 1:2"),
    ("{R=i}", "{S=i}", ":name 1:R 1:S", ":name 1:R 1:S"),
    ("[3c]", "[12c]", ":length 1:3 2:12", ":length 1:3 2:12"),
    ("{R=ii}", "{R=i}", ":count 1:2 1:1", ":count 1:2 1:1"),
    ("^i", "^d", "0:kind 1:2 2:11", "0:kind 1:2 2:11"),
    ("i", "i", "", ""),
    ("@", "#", "", ""),
    ("@?", "@", "", ""),
    ("@", ":", ":kind 2:19 2:22", ":kind 2:19 2:22"),
    ("", "i", ":kind 2:31 1:2", ":kind 2:31 1:2"),
    ("", "", "", ""),
    ("b3", "b0i3", ":kind 2:24 2:25", ":kind 2:24 2:25"),
    ("b3", "b255", ":size 1:3 3:255", ":size 1:3 3:255"),
    ("b0i3", "b8i4", ":size 1:3 1:4", ":size 1:3 1:4"),
    ("b0i3", "b8q3", ":offset 1:0 1:8", ":offset 1:0 1:8"),
    ("b0i3", "b0q3", "0:kind 1:2 1:4", "0:kind 1:2 1:4"),
    ("^i", "Ai", ":kind 2:26 2:27", ":kind 2:26 2:27"),
    ("{R=i}", "(R=i)", ":kind 2:29 2:30", ":kind 2:29 2:30"),
    ("{R=i}", "{R}", "", ""),
    ("{R}", "{R=i}", "", ""),
    ("{R=i}", "{Rate}", ":name 1:R 4:Rate", ":name 1:R 4:Rate"),
    ("{?=i}", "{R=i}", ":name 1:? 1:R", ":name 1:? 1:R"),
    ("{R=ii}", "{R=d}", ":count 1:2 1:1", ":count 1:2 1:1"),
    ("{R=id}", "{R=qf}", "0:kind 1:2 1:4", "0:kind 1:2 1:4"),
    ("{R=iiiiiiiiiii}", "{R=iiiiiiiiiid}", "10:kind 1:2 2:11", "10:kind 1:2 2:11"),
    ("[2{R=i}]", "[2{R=d}]", "0.0:kind 1:2 2:11", "0.0:kind 1:2 2:11"),
    ("[3i]", "[4d]", ":length 1:3 1:4", ":length 1:3 1:4"),
    ("[18446744073709551615c]", "[0c]", ":length 20:18446744073709551615 1:0", ":length 20:18446744073709551615 1:0"),
    ("^{R=i}", "^{R=d}", "0.0:kind 1:2 2:11", "0.0:kind 1:2 2:11"),
    ("^^{R=i}", "^^{R=d}", "", "0.0.0:kind 1:2 2:11"),
    ("^^{R=i}", "^^{S=d}", "0.0:name 1:R 1:S", "0.0:name 1:R 1:S"),
    ("^^{R=i}", "^^{R=ii}", "", "0.0:count 1:1 1:2"),
    ("A{R=i}", "A{R=d}", "", "0.0:kind 1:2 2:11"),
    ("{R=^{S=i}d}", "{R=^{S=q}f}", "1:kind 2:11 2:10", "0.0.0:kind 1:2 1:4"),
];

#[test]
fn reasons() {
    for (first, second, by_levels, all_fields) in REASONS {
        let (a, b) = (tree(first), tree(second));
        assert_eq!(shown(a.reason(&b)), by_levels, "{first} {second}");
        assert_eq!(shown(a.reason_all(&b)), all_fields, "{first} {second}");
        assert_eq!(a.equivalent_to(&b), by_levels.is_empty());
        assert_eq!(a.equal(&b), all_fields.is_empty());
    }
}

#[test]
fn reasons_have_named_parts() {
    let cases = [
        (
            "{R=i^v}",
            "{R=i^i}",
            Difference::Kind {
                first: 17,
                second: 2,
            },
        ),
        (
            "{R=b3}",
            "{R=b4}",
            Difference::Size {
                first: 3,
                second: 4,
            },
        ),
        (
            "{R=b0i3}",
            "{R=b8i3}",
            Difference::Offset {
                first: 0,
                second: 8,
            },
        ),
        (
            "^[3i]",
            "^[4i]",
            Difference::Length {
                first: 3,
                second: 4,
            },
        ),
        (
            "{R}",
            "{S}",
            Difference::Name {
                first: "R".into(),
                second: "S".into(),
            },
        ),
        (
            "^{R=iii}",
            "^{R=d}",
            Difference::Count {
                first: 3,
                second: 1,
            },
        ),
    ];
    let paths: [&[usize]; 6] = [&[1, 0], &[0], &[0], &[0], &[], &[0]];
    let words = [
        "item 1.0 differs in kind: 17 and 2",
        "item 0 differs in size: 3 and 4",
        "item 0 differs in offset: 0 and 8",
        "item 0 differs in length: 3 and 4",
        "the trees differ in name: R and S",
        "item 0 differs in count: 3 and 1",
    ];
    for ((case, path), words) in cases.into_iter().zip(paths).zip(words) {
        let (first, second, differs) = case;
        let reason = tree(first).reason(&tree(second)).expect(first);
        assert_eq!((&reason.path[..], &reason.differs), (path, &differs));
        assert_eq!(reason.to_string(), words);
    }
}

#[test]
fn the_longest_reason() {
    let pointers = |name: u8| {
        let mut words = vec![2001, 4, 2000, 8008];
        for nodes in (2..=2001).rev() {
            words.extend([26, 0, 0, nodes]);
        }
        words.extend([29, 0, 2000, 1]);
        Tree::from_sheet(words, vec![name; 2000]).unwrap()
    };
    let reason = pointers(b'R').reason(&pointers(b'S')).unwrap();
    assert_eq!(reason.as_bytes().len(), MAX_REASON);
    assert_eq!(reason.path, [0; 2000]);
    assert_eq!(
        reason.differs,
        Difference::Name {
            first: "R".repeat(2000),
            second: "S".repeat(2000)
        }
    );
}

#[test]
fn foreign_sheets_are_tested() {
    let words = vec![1, 4, 3, 8, 29, 0, 3, 1];
    assert_eq!(
        Tree::from_sheet(words.clone(), b"abc".to_vec())
            .unwrap()
            .to_bytes(),
        b"{abc=}"
    );
    assert_eq!(
        Tree::from_sheet(words.clone(), b"a-b".to_vec()).unwrap_err(),
        Refusal::BadName
    );
    assert_eq!(
        Tree::from_sheet(words, b"ab".to_vec()).unwrap_err(),
        Refusal::BadSheet
    );
    assert_eq!(
        Tree::from_sheet(vec![], vec![]).unwrap_err(),
        Refusal::BadSheet
    );
}

#[test]
fn the_longest_print() {
    let mut words = vec![2001, 4, 2000, 8008];
    for nodes in (2..=2001).rev() {
        words.extend([25, u64::MAX, 255, nodes]);
    }
    words.extend([29, 0, 2000, 1]);
    let tree = Tree::from_sheet(words, vec![b'R'; 2000]).unwrap();
    assert_eq!(tree.to_bytes().len(), 50003);
    for row in Row::ALL {
        assert_eq!(tree.size(row), Ok(Some(32)));
    }
}
