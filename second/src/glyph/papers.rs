//! The messages of documents 003 and 000, and those that tell how each open
//! point was decided, with their answers at the highest limit of nesting and
//! in the largest table.

use crate::reader::Read;

const fn accepted(rows: usize, used: usize) -> Read {
    Read::Accepted { rows, used }
}

const fn refused(number: u8, place: usize) -> Read {
    Read::Refused { number, place }
}

/// Examples that are answered alike in both editions.
pub const EXAMPLES: &[(&[u8], Read)] = &[
    (b"i1;", accepted(1, 3)),
    (b"u5:hello;", accepted(1, 9)),
    (b"b3:123;", accepted(1, 7)),
    (b"Li1;i2;i3;;", accepted(4, 11)),
    (b"Si1;i2;i3;;", refused(3, 0)),
    (b"Di1;i2;i3;i4;;", refused(3, 1)),
    (b"Oi1;i2;i3;i4;;", refused(3, 1)),
    (b"N;", accepted(1, 2)),
    (b"T;", accepted(1, 2)),
    (b"F;", accepted(1, 2)),
    (b"f0x1.0p-1;", refused(3, 0)),
    (b"f0x1.0000000000000p-1;", refused(3, 0)),
    (b"f0.5;", refused(3, 0)),
    (b"finf;", refused(3, 0)),
    (b"f-0x1.0p-1;", refused(3, 0)),
    (b"d1970-01-01T00:00:00.000Z;", refused(3, 0)),
    (b"pP0Y0M3DT0H0M0S;", refused(3, 0)),
    (b"pP0Y0M3DT0H2M0S;", refused(3, 0)),
    (b"i123;", accepted(1, 5)),
    (b"i+000123;", accepted(1, 9)),
    (b"i-123;", accepted(1, 6)),
    (b"i0;", accepted(1, 3)),
    (b"i-0;", accepted(1, 4)),
    (b"i+0;", accepted(1, 4)),
    (b"u;", accepted(1, 2)),
    (b"u3:foo;", accepted(1, 7)),
    // Three letters, told to be four.
    (b"u4:bar;", refused(1, 0)),
    (b"u4:\xf0\x9f\x92\xa9;", accepted(1, 8)),
    (b"b;", accepted(1, 2)),
    // `n` is no letter; nil is `N`.
    (
        b"Xu4:link;Du6:method;u3:GET;u3:url;u4:/foo;;n;;",
        refused(3, 43),
    ),
    (
        b"Xu4:form;Du6:method;u4:POST;u3:url;u4:/foo;u6:values;Lu1:a;;;N;;",
        accepted(11, 64),
    ),
    (b"Ou4:name;u5:value;;", accepted(3, 19)),
    // The name lacks its `;`, and there is no content.
    (b"Xu3:xmlDu1:ai1;;", refused(3, 1)),
];

/// Examples that only glyph 0.5 begins to read. `d` begins a datetime; a dict
/// is `D`.
pub const OLD_EXAMPLES: &[(&[u8], Read)] = &[
    (
        b"Hu4:link;du6:method;u3:GET;u3:url;u4:/foo;;n;;",
        refused(3, 9),
    ),
    (
        b"Hu4:form;du6:method;u4:POST;u3:url;u4:/foo;u6:values;Lu1:a;;;N;;",
        refused(3, 9),
    ),
];

/// Decided, alike in both editions.
pub const DECIDED: &[(&[u8], Read)] = &[
    // Blanks, and where an object is due.
    (b"", refused(1, 0)),
    (b"  ", refused(1, 2)),
    (b" \t\x0b\r\n", refused(1, 5)),
    (b" T; ", accepted(1, 3)),
    (b" \t\x0b\r\nT;\n\r\x0b\t ", accepted(1, 7)),
    (b"\x0cT;", refused(3, 0)),
    (b"\0T;", refused(3, 0)),
    (b"T;\x0c", refused(3, 2)),
    (b"T;\0", refused(3, 2)),
    (b"T; T;", refused(3, 3)),
    (b"T;;", refused(3, 2)),
    (b"T; c1;", refused(3, 3)),
    (b";", refused(3, 0)),
    (b"x", refused(3, 0)),
    // Inside T, F and N.
    (b"T", refused(1, 0)),
    (b" T", refused(1, 1)),
    (b"Tx", refused(3, 0)),
    (b"T ;", refused(3, 0)),
    (b"N ;", refused(3, 0)),
    (b"LF", refused(1, 1)),
    // Integers.
    (b"i", refused(1, 0)),
    (b"i;", refused(3, 0)),
    (b"i-", refused(1, 0)),
    (b"i-;", refused(3, 0)),
    (b"i+-1;", refused(3, 0)),
    (b"i 1;", refused(3, 0)),
    (b"i1 ;", refused(3, 0)),
    (b"i1", refused(1, 0)),
    (b"Li1", refused(1, 1)),
    (b"Li;;", refused(3, 1)),
    (b"i000123;", accepted(1, 8)),
    (b"i2147483647;", accepted(1, 12)),
    (b"i2147483648;", refused(25, 0)),
    (b"i-2147483648;", accepted(1, 13)),
    (b"i-2147483649;", refused(25, 0)),
    (b"i+2147483648;", refused(25, 0)),
    (b"i-00000000000000000000002147483648;", accepted(1, 35)),
    (b"Li2147483648;;", refused(25, 1)),
    (b"Li2147483648", refused(1, 1)),
    (b"Li2147483648x", refused(3, 1)),
    (b"i99999999999", refused(1, 0)),
    (b"i99999999999x", refused(3, 0)),
    (b"i99999999999;", refused(25, 0)),
    (b"i18446744073709551616;", refused(25, 0)),
    (b"i-18446744073709551617;", refused(25, 0)),
    (b"i4294967296;", refused(25, 0)),
    // Texts.
    (b"u", refused(1, 0)),
    (b"u:;", refused(3, 0)),
    (b"u3;", refused(3, 0)),
    (b"u3", refused(1, 0)),
    (b"u+1:a;", refused(3, 0)),
    (b"u-0:;", refused(3, 0)),
    (b"u 1:a;", refused(3, 0)),
    (b"u1 :a;", refused(3, 0)),
    (b"u1:a ;", refused(3, 0)),
    (b"u0:;", accepted(1, 4)),
    (b"u000:;", accepted(1, 6)),
    (b"u0001:a;", accepted(1, 8)),
    (b"u0:", refused(1, 0)),
    (b"u1:", refused(1, 0)),
    (b"u1:a", refused(1, 0)),
    (b"u2:abc;", refused(3, 0)),
    (b"u2:abc", refused(3, 0)),
    (b"u1:\xffx", refused(3, 0)),
    (b"u1:\xff", refused(1, 0)),
    (b"u1:\xff;", refused(5, 0)),
    (b"b1:\xff;", accepted(1, 5)),
    (b"u3:\xed\xa0\x80;", refused(5, 0)),
    (b"u2:\xc0\x80;", refused(5, 0)),
    (b"u4294967296:;", refused(1, 0)),
    (b"u18446744073709551616:;", refused(1, 0)),
    (b"b99999999999999999999999999999999999999:;", refused(1, 0)),
    (b"u99999999999999999999999999999999999999;", refused(3, 0)),
    // Lists.
    (b"L;", accepted(1, 2)),
    (b"L T; L;i7; ; ", accepted(4, 12)),
    (b"LT; ", refused(1, 4)),
    (b"LT; x", refused(3, 4)),
    (b"L", refused(1, 1)),
    (b"L ", refused(1, 2)),
    // Dicts.
    (b"D;", accepted(1, 2)),
    (b"O \n;", accepted(1, 4)),
    (b"D u1:a; \t i1; ;", accepted(3, 15)),
    (b"Du1:a;;", refused(3, 6)),
    (b"Du1:a;", refused(1, 6)),
    (b"Du1:a; ", refused(1, 7)),
    (b"Du1:a;T;", refused(1, 8)),
    (b"Db1:a;T;;", refused(3, 1)),
    (b"DT;T;;", refused(3, 1)),
    (b"DL;T;;", refused(3, 1)),
    (b"Du1:a;T;u1:a;F;;", refused(20, 8)),
    (b"Ou1:a;T;u1:a;F;;", refused(20, 8)),
    (b"Du1:a;T; u01:a;x", refused(20, 9)),
    (b"Du;T;u0:;F;;", refused(20, 5)),
    (b"Du1:a;T;u1:a", refused(1, 8)),
    (b"Du1:a;T;u1:\xff;T;;", refused(5, 8)),
    (b"Du1:a;T;u2:ab;T;;", accepted(5, 17)),
    (b"Du1:a;Du1:a;T;;u1:b;u1:a;;", accepted(7, 26)),
    (b"Du1:a;Du1:b;T;;u1:b;T;;", accepted(7, 23)),
    // Those with three children, here with a name and a dict.
    (b"Xu1:a;D;N;;", accepted(4, 11)),
    (b"X u1:a; O; N; ;", accepted(4, 15)),
    (b"Xu1:a;D;;", refused(3, 8)),
    (b"Xu1:a;D;N;", refused(1, 10)),
    (b"Xu1:a;D;N; ", refused(1, 11)),
    (b"Xu1:a;D;N; N;;", refused(3, 11)),
    (b"Xu1:a;", refused(1, 6)),
    (b"X", refused(1, 1)),
    (b"X;", refused(3, 1)),
    (b"Xu7:integer;D;N;;", accepted(4, 17)),
    // Other letters.
    (b"n;", refused(3, 0)),
    (b"B1:D;;", refused(3, 0)),
    (b"LS;;", refused(3, 1)),
];

/// Decided otherwise for hyperglyph 1.0 than for glyph 0.5: both answers.
pub const DECIDED_APART: &[(&[u8], Read, Read)] = &[
    (b"Hu1:a;D;N;;", refused(3, 0), accepted(4, 11)),
    (b"LHu1:a;O;L;;;", refused(3, 1), accepted(5, 13)),
    (b"H T;", refused(3, 0), refused(3, 2)),
    (b"Hu1:a;L;N;;", refused(3, 0), refused(3, 6)),
    (b"Hu1:a;Du;T;;N;;", refused(3, 0), accepted(6, 15)),
    (b"XN;D;N;;", refused(3, 1), accepted(4, 8)),
    (b"XN;N;N;;", refused(3, 1), accepted(4, 8)),
    (b"Xu1:a;N;N;;", refused(3, 6), accepted(4, 11)),
    (b"Xb1:a;D;N;;", refused(3, 1), accepted(4, 11)),
    (b"Xu1:a;L;x", refused(3, 6), refused(3, 8)),
    (b"XL", refused(3, 1), refused(1, 2)),
];
