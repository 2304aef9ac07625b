//! Document 01 in plain Rust: the reader with its refusals, the two families of each node, and the
//! listing's text. It shares no code with the checker, and nothing of it is proved.

use std::fmt::Write;

const MOST_VARIABLES: usize = 10;
const MOST_NODES: usize = 200;

#[derive(Clone, Copy, PartialEq)]
pub enum Class {
    Secret,
    Mask,
    Public,
}

/// A node: an input has its set, a gate or register its operands.
pub enum Node {
    Input(u16),
    Not(usize),
    Xor(usize, usize),
    And(usize, usize),
    Or(usize, usize),
    Register(usize),
}

#[derive(Default)]
pub struct Netlist {
    variables: Vec<Class>,
    pub nodes: Vec<Node>,
}

impl Netlist {
    /// The variables of a class, as a set.
    fn variables_of(&self, class: Class) -> u16 {
        let all = self.variables.iter().enumerate();
        all.filter(|(_, c)| **c == class).map(|(v, _)| 1 << v).sum()
    }

    /// All suspect sets: those with a secret and no mask.
    pub fn suspects(&self) -> Family {
        let (secrets, masks) = (
            self.variables_of(Class::Secret),
            self.variables_of(Class::Mask),
        );
        let mut suspects = Family::default();
        for set in 0..1 << MOST_VARIABLES {
            if set & secrets != 0 && set & masks == 0 {
                suspects.insert(set);
            }
        }
        suspects
    }
}

impl Node {
    /// Whether the node is tested: all but inputs are.
    pub fn tested(&self) -> bool {
        !matches!(self, Node::Input(_))
    }
}

pub struct Refusal {
    pub number: usize,
    pub place: usize,
}

/// Reads a netlist; the checks of a record are in the order of document 01's table.
pub fn read(bytes: &[u8]) -> Result<Netlist, Refusal> {
    let mut netlist = Netlist::default();
    let mut here = 0;
    loop {
        let refused = |number| {
            Err(Refusal {
                number,
                place: here,
            })
        };
        let Some((&kind, rest)) = bytes[here..].split_first() else {
            return refused(8);
        };
        let length = match kind {
            0 if rest.is_empty() => return Ok(netlist),
            0 => {
                return Err(Refusal {
                    number: 9,
                    place: here + 1,
                })
            }
            1 | 3 | 7 => 1,
            2 | 4 | 5 | 6 => 2,
            _ => return refused(1),
        };
        let Netlist { variables, nodes } = &mut netlist;
        if kind == 1 && !nodes.is_empty() {
            return refused(2);
        }
        let full = match kind {
            1 => variables.len() == MOST_VARIABLES,
            _ => nodes.len() == MOST_NODES,
        };
        if full {
            return refused(3);
        }
        let Some(body) = rest.get(..length) else {
            return refused(4);
        };
        match kind {
            1 => variables.push(match body[0] {
                0 => Class::Secret,
                1 => Class::Mask,
                2 => Class::Public,
                _ => return refused(5),
            }),
            2 => {
                let set = u16::from_le_bytes([body[0], body[1]]);
                if set >> variables.len() != 0 {
                    return refused(6);
                }
                nodes.push(Node::Input(set));
            }
            _ => {
                if body
                    .iter()
                    .any(|&operand| usize::from(operand) >= nodes.len())
                {
                    return refused(7);
                }
                let operand = |k: usize| usize::from(body[k]);
                nodes.push(match kind {
                    3 => Node::Not(operand(0)),
                    4 => Node::Xor(operand(0), operand(1)),
                    5 => Node::And(operand(0), operand(1)),
                    6 => Node::Or(operand(0), operand(1)),
                    _ => Node::Register(operand(0)),
                });
            }
        }
        here += 1 + length;
    }
}

/// A family: set A is bit A mod 64 of word A / 64.
#[derive(Clone, Copy, Default)]
pub struct Family([u64; 16]);

impl Family {
    fn of(set: u16) -> Family {
        let mut family = Family::default();
        family.insert(set);
        family
    }

    pub fn insert(&mut self, set: u16) {
        self.0[usize::from(set / 64)] |= 1 << (set % 64);
    }

    pub fn has(&self, set: u16) -> bool {
        (self.0[usize::from(set / 64)] >> (set % 64)) & 1 == 1
    }

    pub fn len(&self) -> u32 {
        self.0.iter().map(|word| word.count_ones()).sum()
    }

    fn union(mut self, other: &Family) -> Family {
        for (word, more) in self.0.iter_mut().zip(other.0) {
            *word |= more;
        }
        self
    }

    /// The sets that both families hold.
    pub fn common(mut self, other: &Family) -> Family {
        for (word, more) in self.0.iter_mut().zip(other.0) {
            *word &= more;
        }
        self
    }

    /// Of a family of suspect sets the one to report: of those with fewest variables the
    /// lowest-numbered.
    pub fn reported(&self) -> Option<u16> {
        self.sets().min_by_key(|set| (set.count_ones(), *set))
    }

    /// Whether a lower-numbered set would be reported by its number alone.
    pub fn has_lower(&self) -> bool {
        self.sets().next() != self.reported()
    }

    /// The sets, from the lowest-numbered up.
    pub fn sets(&self) -> impl Iterator<Item = u16> {
        (0u16..).zip(self.0).flat_map(|(at, mut word)| {
            std::iter::from_fn(move || {
                let bit = word.trailing_zeros() as u16;
                (word != 0).then(|| {
                    word &= word - 1;
                    64 * at + bit
                })
            })
        })
    }
}

/// A way to form the product of two families.
pub type Product = fn(&Family, &Family) -> Family;

/// Pair by pair of the sets present.
pub fn by_pairs(first: &Family, second: &Family) -> Family {
    let others: Vec<u16> = second.sets().collect();
    let mut product = Family::default();
    for set in first.sets() {
        for other in &others {
            product.insert(set ^ other);
        }
    }
    product
}

/// For each set of the smaller family, the other one word by word: the set's high bits move whole
/// words, and its low six turn the bits within each.
pub fn by_words(first: &Family, second: &Family) -> Family {
    let (few, many) = if first.len() <= second.len() {
        (first, second)
    } else {
        (second, first)
    };
    let mut product = Family::default();
    for set in few.sets() {
        for (at, word) in product.0.iter_mut().enumerate() {
            *word |= turned(many.0[at ^ usize::from(set / 64)], set % 64);
        }
    }
    product
}

/// The word whose bit k is bit k xor `by` of the given one.
fn turned(mut word: u64, by: u16) -> u64 {
    const LOW: [u64; 6] = [
        0x5555_5555_5555_5555,
        0x3333_3333_3333_3333,
        0x0f0f_0f0f_0f0f_0f0f,
        0x00ff_00ff_00ff_00ff,
        0x0000_ffff_0000_ffff,
        0x0000_0000_ffff_ffff,
    ];
    for (k, low) in LOW.iter().enumerate() {
        if (by >> k) & 1 == 1 {
            word = ((word & low) << (1 << k)) | ((word >> (1 << k)) & low);
        }
    }
    word
}

/// Both families of a node.
#[derive(Clone, Copy)]
pub struct Families {
    pub settled: Family,
    pub glitch: Family,
}

/// The families of all nodes, in file order.
pub fn families(nodes: &[Node], product: Product) -> Vec<Families> {
    let spread = |f: &Family, g: &Family| product(f, g).union(f).union(g).union(&Family::of(0));
    let mut all: Vec<Families> = Vec::with_capacity(nodes.len());
    for node in nodes {
        all.push(match *node {
            Node::Input(set) => Families {
                settled: Family::of(set),
                glitch: Family::of(set),
            },
            Node::Not(a) => Families {
                settled: all[a].settled,
                glitch: all[a].glitch.union(&Family::of(0)),
            },
            Node::Xor(a, b) => Families {
                settled: product(&all[a].settled, &all[b].settled),
                glitch: spread(&all[a].glitch, &all[b].glitch),
            },
            Node::And(a, b) | Node::Or(a, b) => Families {
                settled: spread(&all[a].settled, &all[b].settled),
                glitch: spread(&all[a].glitch, &all[b].glitch),
            },
            Node::Register(a) => Families {
                settled: all[a].settled,
                glitch: all[a].settled,
            },
        });
    }
    all
}

/// The lowest tested node with a suspect set, and all its suspect sets.
pub fn first_suspect<'a>(
    netlist: &Netlist,
    layer: impl Iterator<Item = &'a Family>,
) -> Option<(usize, Family)> {
    let suspects = netlist.suspects();
    netlist
        .nodes
        .iter()
        .zip(layer)
        .enumerate()
        .filter(|(_, (node, _))| node.tested())
        .map(|(i, (_, family))| (i, family.common(&suspects)))
        .find(|(_, found)| found.len() != 0)
}

/// The listing's text for these netlist bytes.
pub fn listing(bytes: &[u8], product: Product) -> String {
    let netlist = match read(bytes) {
        Ok(netlist) => netlist,
        Err(Refusal { number, place }) => return format!("refused {number} {place}\n"),
    };
    let all = families(&netlist.nodes, product);
    let mut text = String::new();
    // Writing to a string does not fail.
    writeln!(
        text,
        "vars {} nodes {}",
        netlist.variables.len(),
        netlist.nodes.len()
    )
    .unwrap();
    for (i, (node, Families { settled, glitch })) in netlist.nodes.iter().zip(&all).enumerate() {
        let kind = match node {
            Node::Input(_) => "in",
            Node::Not(_) => "not",
            Node::Xor(..) => "xor",
            Node::And(..) => "and",
            Node::Or(..) => "or",
            Node::Register(_) => "reg",
        };
        writeln!(text, "{i} {kind} {} {}", settled.len(), glitch.len()).unwrap();
    }
    let halves = [
        (
            "settled",
            first_suspect(&netlist, all.iter().map(|f| &f.settled)),
        ),
        (
            "glitch",
            first_suspect(&netlist, all.iter().map(|f| &f.glitch)),
        ),
    ];
    for (half, found) in halves {
        match found {
            None => writeln!(text, "{half} clear").unwrap(),
            Some((node, sets)) => {
                let set = sets.reported().expect("a suspect node has a suspect set");
                writeln!(text, "{half} {node} {set}").unwrap()
            }
        }
    }
    text
}
