//! The nodes of a Merkle tree of arity 2 (SAFE, Algorithm 4). Leaves and nodes are eight elements each.

mod opening;

use tuilarder::{Call::*, Refusal};

type Node = [u32; 8];

fn parent(left: Node, right: Node) -> Result<Node, Refusal> {
    let mut session = opening::open(&[Absorb(8), Absorb(8), Squeeze(8)], b"node")?;
    session.absorb(&left)?;
    session.absorb(&right)?;
    let node = session.challenge()?;
    session.finish()?;
    Ok(node)
}

fn main() -> Result<(), Refusal> {
    let [a, b, c, d] = [[1; 8], [2; 8], [3; 8], [4; 8]];
    let root = parent(parent(a, b)?, parent(c, d)?)?;
    println!("root {root:?}");
    Ok(())
}
