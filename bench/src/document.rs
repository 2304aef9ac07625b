//! The blocks of document 01, and of change request A2, and what these say of them.

/// Name, bytes and text: the whole listing, or where it starts with `..` its last lines.
pub const BLOCKS: &[(&str, &[u8], &str)] = &[
    ("P1", &[], "refused 8 0\n"),
    ("P2", &[0], "vars 0 nodes 0\nsettled clear\nglitch clear\n"),
    ("P3", &[0, 0], "refused 9 1\n"),
    ("P4", &[8], "refused 1 0\n"),
    ("P5", &[2, 1, 0, 0], "refused 6 0\n"),
    (
        "P6",
        &[2, 0, 0, 0],
        "vars 0 nodes 1\n0 in 1 1\nsettled clear\nglitch clear\n",
    ),
    ("P7", &[1, 3, 0], "refused 5 0\n"),
    ("P8", &[1, 0, 2, 1, 0, 3, 1, 0], "refused 7 5\n"),
    ("block A", BLOCK_A, BLOCK_A_LISTING),
    ("block B", BLOCK_B, BLOCK_B_LISTING),
    (
        "P11",
        &[1, 0, 1, 1, 2, 3, 0, 2, 2, 0, 5, 0, 1, 0],
        "..settled 2 1\nglitch 2 1\n",
    ),
    (
        "P12",
        &[1, 0, 1, 1, 2, 3, 0, 2, 2, 0, 3, 1, 5, 1, 2, 4, 0, 3, 0],
        "..settled 4 1\nglitch 4 1\n",
    ),
    (
        "P13",
        &[1, 0, 2, 1, 0, 0],
        "vars 1 nodes 1\n0 in 1 1\nsettled clear\nglitch clear\n",
    ),
    (
        "P13 with NOT",
        &[1, 0, 2, 1, 0, 3, 0, 0],
        "..settled 1 1\nglitch 1 1\n",
    ),
    (
        "P14",
        &[
            1, 0, 1, 0, 1, 1, 1, 1, 1, 1, 2, 5, 0, 2, 4, 0, 2, 10, 0, 2, 8, 0, 2, 16, 0, 5, 0, 3,
            4, 5, 4, 7, 6, 5, 1, 2, 4, 8, 4, 7, 9, 5, 0, 2, 4, 11, 7, 5, 1, 3, 4, 13, 10, 0,
        ],
        "..settled clear\nglitch clear\n",
    ),
    (
        "P14 without its registers",
        &[
            1, 0, 1, 0, 1, 1, 1, 1, 1, 1, 2, 5, 0, 2, 4, 0, 2, 10, 0, 2, 8, 0, 2, 16, 0, 5, 0, 3,
            4, 5, 4, 5, 1, 2, 4, 7, 4, 5, 0, 2, 4, 9, 6, 5, 1, 3, 4, 11, 8, 0,
        ],
        "..settled clear\nglitch 10 2\n",
    ),
    (
        "a variable after a node",
        &[2, 0, 0, 1, 0, 0],
        "refused 2 3\n",
    ),
    ("an AND cut short", &[5, 0], "refused 4 0\n"),
    (
        "A2's example",
        &[1, 0, 1, 2, 1, 0, 2, 3, 0, 2, 4, 0, 5, 0, 1, 0],
        "..settled 2 4\nglitch 2 4\n",
    ),
];

/// Variables secret, mask, mask; inputs 3, 2 and 4; 3 the XOR of 0 and 2; 4 the XOR of 3 and 1.
pub const BLOCK_A: &[u8] = &[
    1, 0, 1, 1, 1, 1, 2, 3, 0, 2, 2, 0, 2, 4, 0, 4, 0, 2, 4, 3, 1, 0,
];

const BLOCK_A_LISTING: &str = "\
vars 3 nodes 5
0 in 1 1
1 in 1 1
2 in 1 1
3 xor 1 4
4 xor 1 8
settled clear
glitch 4 1
";

/// As block A, but 4 is a register of 3, and 5 the XOR of 4 and 1.
const BLOCK_B: &[u8] = &[
    1, 0, 1, 1, 1, 1, 2, 3, 0, 2, 2, 0, 2, 4, 0, 4, 0, 2, 7, 3, 4, 4, 1, 0,
];

const BLOCK_B_LISTING: &str = "\
vars 3 nodes 6
0 in 1 1
1 in 1 1
2 in 1 1
3 xor 1 4
4 reg 1 1
5 xor 1 4
settled clear
glitch clear
";
