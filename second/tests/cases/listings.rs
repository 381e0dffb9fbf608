//! Document 01, "Listing program": files in hex, and the text that each prints.

/// Document 01's file.
pub const EXAMPLE: &str = "4F4D58 0001 04 01 00 00000001000000000000 FFFFFF88 0002 \
                           0004 01 000001F4 0004 02 000002BC";

pub const EXAMPLE_LISTING: &str = "0 0 -120\n1 0 -120\n2 0 -120\n3 1 -120\nbound held\n";

/// Document 01's file; then one card, who answers its own word; then one who answers E.
const LISTINGS: [(&str, &str); 10] = [
    (EXAMPLE, EXAMPLE_LISTING),
    ("4F4D58 0001 01 00 00 00000000000000000000 C4653601 0000", "0 0 -999999999\nbound held\n"),
    ("4F4D58 0001 01 00 00 00000000000000000000 FFFFFF88 0000", "0 0 -120\nbound held\n"),
    ("4F4D58 0001 01 00 00 00000000000000000000 FFFFFFFF 0000", "0 0 -1\nbound held\n"),
    ("4F4D58 0001 01 00 00 00000000000000000000 00000000 0000", "0 0 0\nbound held\n"),
    ("4F4D58 0001 01 00 00 00000000000000000000 00000001 0000", "0 0 1\nbound held\n"),
    ("4F4D58 0001 01 00 00 00000000000000000000 0000000A 0000", "0 0 10\nbound held\n"),
    ("4F4D58 0001 01 00 00 00000000000000000000 3B9AC9FF 0000", "0 0 999999999\nbound held\n"),
    ("4F4D58 0001 01 00 00 03000000000000000000 00000001 0000", "0 3 -\nbound not held\n"),
    ("4F4D58 0001 01 00 00 00000000000000000000 3B9ACA00 0000", "refused 6\n"),
];

pub fn bytes_of(digits: &str) -> Vec<u8> {
    let digits: Vec<u32> = digits.chars().filter_map(|digit| digit.to_digit(16)).collect();
    digits.chunks(2).map(|pair| (16 * pair[0] + pair[1]) as u8).collect()
}

/// Holds a program's listing to the table.
pub fn hold_listings(listing: impl Fn(&[u8]) -> String) {
    for (file, text) in LISTINGS {
        assert_eq!(listing(&bytes_of(file)), text, "{file}");
    }
}
