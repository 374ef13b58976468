//! Proofs that are known beforehand: of the vectors, of the limits, of shapes.

use crate::shapes::Shape;
use second::generate::limits::limits;
use second::reader::Second;
use second::vectors::{vectors, FILES};

/// A label, an obligation and a proof.
pub type Files = (String, Vec<u8>, Vec<u8>);

pub fn vector_proofs() -> Vec<Files> {
    FILES
        .into_iter()
        .flat_map(vectors)
        .filter(|v| v.kind == Second::Proof)
        .map(|v| (v.label, v.obligation, v.second))
        .collect()
}

pub fn limit_proofs() -> Vec<Files> {
    limits()
        .into_iter()
        .filter(|limit| limit.kind == Second::Proof)
        .map(|limit| (limit.case.label, limit.case.obligation, limit.case.second))
        .collect()
}

pub fn shape_proofs(shapes: Vec<Shape>) -> Vec<Files> {
    shapes
        .into_iter()
        .map(|shape| (shape.name, shape.obligation, shape.second))
        .collect()
}
