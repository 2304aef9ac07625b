//! Blocks to check, made from a seed: the same in every run.

use std::fmt;

pub const MOST_VARIABLES: usize = 10;
pub const MOST_NODES: usize = 200;

const NOT: u8 = 3;
const XOR: u8 = 4;
const AND: u8 = 5;
const OR: u8 = 6;
const REGISTER: u8 = 7;

/// A generator of numbers (splitmix64).
pub struct Random(pub u64);

impl Random {
    fn next(&mut self) -> u64 {
        self.0 = self.0.wrapping_add(0x9e37_79b9_7f4a_7c15);
        let mut z = self.0;
        z = (z ^ (z >> 30)).wrapping_mul(0xbf58_476d_1ce4_e5b9);
        z = (z ^ (z >> 27)).wrapping_mul(0x94d0_49bb_1331_11eb);
        z ^ (z >> 31)
    }

    /// A number below `bound`.
    pub fn below(&mut self, bound: usize) -> usize {
        (self.next() % bound as u64) as usize
    }

    fn byte(&mut self) -> u8 {
        self.next() as u8
    }

    fn one_of(&mut self, bytes: &[u8]) -> u8 {
        bytes[self.below(bytes.len())]
    }
}

/// The kinds of block whose time is measured.
#[derive(Clone, Copy, PartialEq)]
pub enum Kind {
    Sparse,
    Between,
    Dense,
    /// A hundred sets a glitch family, and no suspect pair.
    Wide,
    /// A block of the kind between, cut at any byte, and so refused.
    Cut,
}

impl fmt::Display for Kind {
    fn fmt(&self, f: &mut fmt::Formatter) -> fmt::Result {
        f.write_str(match self {
            Kind::Sparse => "sparse",
            Kind::Between => "between",
            Kind::Dense => "dense",
            Kind::Wide => "wide",
            Kind::Cut => "cut",
        })
    }
}

/// A block of a kind, with so many nodes and variables.
pub fn block(kind: Kind, nodes: usize, variables: usize, random: &mut Random) -> Vec<u8> {
    match kind {
        Kind::Sparse => sparse(nodes, variables, random),
        Kind::Between => between(nodes, variables, random),
        Kind::Dense => dense(nodes, variables, random),
        Kind::Wide => wide(nodes, variables, random),
        Kind::Cut => {
            let mut bytes = between(nodes, variables, random);
            bytes.truncate(random.below(bytes.len()));
            bytes
        }
    }
}

/// Records in file order.
#[derive(Default)]
struct Records {
    bytes: Vec<u8>,
    nodes: usize,
}

impl Records {
    /// One secret, and masks.
    fn one_secret(variables: usize) -> Records {
        let mut records = Records::default();
        for v in 0..variables {
            records.variable(u8::from(v > 0));
        }
        records
    }

    fn variable(&mut self, class: u8) {
        self.bytes.extend([1, class]);
    }

    // Each of the next three gives the node's number.

    fn input(&mut self, set: usize) -> usize {
        self.bytes.extend([2, set as u8, (set >> 8) as u8]);
        self.node()
    }

    fn unary(&mut self, kind: u8, operand: usize) -> usize {
        self.bytes.extend([kind, operand as u8]);
        self.node()
    }

    fn binary(&mut self, kind: u8, first: usize, second: usize) -> usize {
        self.bytes.extend([kind, first as u8, second as u8]);
        self.node()
    }

    fn node(&mut self) -> usize {
        self.nodes += 1;
        self.nodes - 1
    }

    fn end(mut self) -> Vec<u8> {
        self.bytes.push(0);
        self.bytes
    }
}

/// Many registers, few sets a family: a gate of two inputs, its XOR with a third, and two registers
/// behind one another; then anew from the inputs. Each input has a mask of its own, so every set of
/// every product is empty or has a mask: both halves are clear, and so is every pair.
fn sparse(nodes: usize, variables: usize, random: &mut Random) -> Vec<u8> {
    let mut records = Records::one_secret(variables);
    let inputs = (variables - 1).min(nodes / 2);
    for mask in 1..=inputs {
        records.input((1 << mask) + random.below(2));
    }
    let mut turn = 0;
    let mut last = 0;
    while records.nodes < nodes {
        last = match turn % 4 {
            0 => {
                let kind = random.one_of(&[XOR, AND, OR]);
                records.binary(kind, turn / 4 % inputs, (turn / 4 + 1) % inputs)
            }
            1 => records.binary(XOR, last, (turn / 4 + 2) % inputs),
            _ => records.unary(REGISTER, last),
        };
        turn += 1;
    }
    records.end()
}

/// Stages of sixteen gates: each takes the one before it and an input or a gate of its stage, in
/// either order; now and then it is a NOT. A register ends the stage, and the next one starts from
/// an input.
fn between(nodes: usize, variables: usize, random: &mut Random) -> Vec<u8> {
    let mut records = Records::one_secret(variables);
    let inputs = variables.min(nodes / 2);
    for v in 0..inputs {
        records.input((1 << v) | random.below(1 << variables));
    }
    while records.nodes < nodes {
        let stage = records.nodes;
        let mut last = random.below(inputs);
        for _ in 0..16.min(nodes - stage) {
            let gates = records.nodes - stage;
            let other = match random.below(3) {
                0 if gates > 0 => stage + random.below(gates),
                _ => random.below(inputs),
            };
            last = match random.one_of(&[NOT, XOR, XOR, XOR, AND, AND, OR, OR]) {
                NOT => records.unary(NOT, last),
                kind if random.below(2) == 0 => records.binary(kind, last, other),
                kind => records.binary(kind, other, last),
            };
        }
        if records.nodes < nodes {
            records.unary(REGISTER, last);
        }
    }
    records.end()
}

/// No register: an input for each variable, then gates that take in one input after the other,
/// which doubles the families up to all sets of the variables; then gates of any two gates from the
/// last of these on.
fn dense(nodes: usize, variables: usize, random: &mut Random) -> Vec<u8> {
    let mut records = Records::one_secret(variables);
    let inputs = variables.min(nodes / 2);
    for v in 0..inputs {
        records.input(1 << v);
    }
    let mut last = 0;
    for input in 1..inputs {
        last = records.binary(random.one_of(&[AND, OR]), last, input);
    }
    while records.nodes < nodes {
        let full = records.nodes - last;
        let (first, second) = (last + random.below(full), last + random.below(full));
        records.binary(random.one_of(&[XOR, AND, OR]), first, second);
    }
    records.end()
}

/// Inputs as in a sparse block, so that every pair is clear, and no register. Six gates take in seven
/// inputs, which doubles the families up to 128 sets, and sixteen more take the gate before and one
/// of these inputs; then anew from the next input on.
fn wide(nodes: usize, variables: usize, random: &mut Random) -> Vec<u8> {
    let mut records = Records::one_secret(variables);
    let inputs = (variables - 1).min(nodes / 2);
    for mask in 1..=inputs {
        records.input((1 << mask) + random.below(2));
    }
    let mut stage = 0;
    while records.nodes < nodes {
        let mut last = stage % inputs;
        for gate in 0..22.min(nodes - records.nodes) {
            let taken = if gate < 6 { gate + 1 } else { random.below(7) };
            let kind = random.one_of(&[XOR, AND, OR]);
            last = records.binary(kind, last, (stage + taken) % inputs);
        }
        stage += 1;
    }
    records.end()
}

/// A register behind every gate; a gate takes inputs or registers. Up to three variables are not
/// masks, and one at least of these is a secret. An input has one or two masks, and any of these.
pub fn registers(nodes: usize, variables: usize, random: &mut Random) -> Vec<u8> {
    let mut records = Records::default();
    let mut classes = vec![1; variables];
    for class in [0, 2, 0] {
        classes[random.below(variables)] = class;
    }
    let mut masks = Vec::new();
    let mut others = 0;
    for (v, class) in classes.into_iter().enumerate() {
        records.variable(class);
        match class {
            1 => masks.push(1 << v),
            _ => others |= 1 << v,
        }
    }
    let mut held = Vec::new();
    for _ in 0..1 + random.below(variables) {
        let [first, second] = [(); 2].map(|()| masks[random.below(masks.len())]);
        let set = first | second | (others & random.below(1 << variables));
        held.push(records.input(set));
    }
    while records.nodes + 1 < nodes {
        let [first, second] = [(); 2].map(|()| held[random.below(held.len())]);
        let gate = match random.one_of(&[NOT, XOR, XOR, AND, OR]) {
            NOT => records.unary(NOT, first),
            kind => records.binary(kind, first, second),
        };
        held.push(records.unary(REGISTER, gate));
    }
    records.end()
}

/// Gates and registers as in a sparse block, each over any three inputs. The last input, which is
/// taken from some node on only, has the masks of three or four others, and the XOR of these four or
/// five inputs is the secret. So no node is suspect by itself, and two are that hold all of these.
pub fn late(nodes: usize, variables: usize, random: &mut Random) -> Vec<u8> {
    let mut records = Records::one_secret(variables);
    let inputs = variables - 1;
    let others = 3 + random.below(2);
    let mut last = 1;
    for mask in 1..inputs {
        let set = (1 << mask) + random.below(2);
        records.input(set);
        if mask <= others {
            last ^= set;
        }
    }
    records.input(last);
    let from = random.below(nodes);
    while records.nodes + 4 <= nodes {
        let taken = inputs - usize::from(records.nodes < from);
        let [first, second, third] = [(); 3].map(|()| random.below(taken));
        let gate = records.binary(random.one_of(&[XOR, AND, OR]), first, second);
        let sum = records.binary(XOR, gate, third);
        let register = records.unary(REGISTER, sum);
        records.unary(REGISTER, register);
    }
    records.end()
}

/// Registers one behind the other over a mask, with one secret, so many masks and otherwise publics.
pub fn few_masks(nodes: usize, masks: usize) -> Vec<u8> {
    let mut records = Records::default();
    for v in 0..MOST_VARIABLES {
        records.variable(match v {
            0 => 0,
            v if v <= masks => 1,
            _ => 2,
        });
    }
    let mut last = records.input(2);
    while records.nodes < nodes {
        last = records.unary(REGISTER, last);
    }
    records.end()
}

/// Gates over two inputs each. The last variables are masks, so many, and the others secrets and
/// publics; of a gate's two inputs each has a mask, where there is one, and not the same, where
/// there are two. With two or three masks most gates are clear, and a pair has several suspect sets;
/// with none or one, a gate has.
pub fn open(gates: usize, variables: usize, masks: usize, random: &mut Random) -> Vec<u8> {
    let mut records = Records::default();
    let others = variables - masks;
    for v in 0..variables {
        let class = if v < others {
            random.one_of(&[0, 2])
        } else {
            1
        };
        records.variable(class);
    }
    for _ in 0..gates {
        let turn = random.below(masks.max(1));
        let [first, second] = [turn, turn + 1].map(|turn| {
            let mask = if masks > 0 {
                1 << (others + turn % masks)
            } else {
                0
            };
            records.input(random.below(1 << others) + mask)
        });
        records.binary(random.one_of(&[XOR, AND, OR]), first, second);
    }
    records.end()
}

/// Any classes, kinds, sets and operands.
pub fn any(nodes: usize, variables: usize, random: &mut Random) -> Vec<u8> {
    let mut records = Records::default();
    for _ in 0..variables {
        records.variable(random.one_of(&[0, 1, 2]));
    }
    for lower in 0..nodes {
        let kind = if lower == 0 {
            2
        } else {
            random.one_of(&[2, 2, 2, NOT, XOR, AND, OR, REGISTER, REGISTER])
        };
        match kind {
            2 => records.input(random.below(1 << variables)),
            NOT | REGISTER => records.unary(kind, random.below(lower)),
            _ => records.binary(kind, random.below(lower), random.below(lower)),
        };
    }
    records.end()
}

/// A block with one or two damages; a few are still read.
pub fn damaged(mut block: Vec<u8>, random: &mut Random) -> Vec<u8> {
    for _ in 0..1 + random.below(2) {
        let at = random.below(block.len() + 1);
        match random.below(5) {
            0 => block.truncate(at),
            1 => block.insert(at, random.one_of(&[0, 1, 2, REGISTER, 8, 200])),
            2 => block.push(random.byte()),
            3 => block.extend((0..random.below(1500)).map(|_| random.byte())),
            _ => {
                if let Some(byte) = block.get_mut(at) {
                    *byte = random.byte();
                }
            }
        }
    }
    block
}
