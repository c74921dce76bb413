//! How an operation is cut into pieces.

use crate::machine::Machine;

/// `calculate_chunk_size`: the length of the next piece with so much left.
pub fn chunk_size(remaining: usize) -> usize {
    Machine::chunk_size(remaining)
}

/// The pieces of a write of n bytes (`VariableChunkIter`).
pub fn pieces(n: usize) -> Vec<usize> {
    Machine::chunks(&vec![0; n])
        .map(|piece| piece.len())
        .collect()
}

/// The pieces of a read of n bytes (`VariableChunkIterMut`).
pub fn pieces_mut(n: usize) -> Vec<usize> {
    Machine::chunks_mut(&mut vec![0; n])
        .map(|piece| piece.len())
        .collect()
}
