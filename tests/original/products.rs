//! Stand-in for gemmkit_ndarray, whose source is not at hand: the matrix product in an order that is chosen while it runs.

use ndarray::linalg::general_mat_mul;
use ndarray::{Array2, ArrayBase, Data, DataMut, Ix2, LinalgScalar};
use std::sync::atomic::{AtomicUsize, Ordering};

#[derive(Clone, Copy, Debug, PartialEq, Eq)]
pub enum Parallelism {
    Serial,
    Rayon(usize),
}

/// In which order a product is summed, and how it is rounded.
#[derive(Clone, Copy, Debug, PartialEq, Eq)]
pub enum Order {
    /// From +0.0 by rising inner index, product and addition rounded apart: the paper's rule.
    Rising,
    /// From +0.0 by rising inner index, product and addition rounded once.
    Fused,
    /// As ndarray's own product has it, by matrixmultiply: in blocks, by the machine's vector instructions.
    Blocks,
}

static ORDER: AtomicUsize = AtomicUsize::new(0);

/// Every product from here on goes by this order.
pub fn choose(order: Order) {
    ORDER.store(order as usize, Ordering::Relaxed);
}

pub trait GemmScalar: LinalgScalar + PartialEq {
    const ZERO: Self;
    const ONE: Self;
    fn fused(self, by: Self, onto: Self) -> Self;
}

impl GemmScalar for f64 {
    const ZERO: f64 = 0.0;
    const ONE: f64 = 1.0;
    fn fused(self, by: f64, onto: f64) -> f64 {
        self.mul_add(by, onto)
    }
}

impl GemmScalar for f32 {
    const ZERO: f32 = 0.0;
    const ONE: f32 = 1.0;
    fn fused(self, by: f32, onto: f32) -> f32 {
        self.mul_add(by, onto)
    }
}

pub fn gemm<T, S1, S2, S3>(
    alpha: T,
    a: &ArrayBase<S1, Ix2>,
    b: &ArrayBase<S2, Ix2>,
    beta: T,
    c: &mut ArrayBase<S3, Ix2>,
    _par: Parallelism,
) where
    T: GemmScalar,
    S1: Data<Elem = T>,
    S2: Data<Elem = T>,
    S3: DataMut<Elem = T>,
{
    assert!(alpha == T::ONE && beta == T::ZERO, "the text has plain products only");
    let order = ORDER.load(Ordering::Relaxed);
    if order == Order::Blocks as usize {
        return general_mat_mul(alpha, a, b, beta, c);
    }
    let fused = order == Order::Fused as usize;
    let next = |sum: T, x: T, y: T| if fused { x.fused(y, sum) } else { sum + x * y };
    for ((i, j), cell) in c.indexed_iter_mut() {
        *cell = (0..a.ncols()).fold(T::ZERO, |sum, l| next(sum, a[[i, l]], b[[l, j]]));
    }
}

pub fn dot<T, S1, S2>(a: &ArrayBase<S1, Ix2>, b: &ArrayBase<S2, Ix2>) -> Array2<T>
where
    T: GemmScalar,
    S1: Data<Elem = T>,
    S2: Data<Elem = T>,
{
    let mut c = Array2::from_elem((a.nrows(), b.ncols()), T::ZERO);
    gemm(T::ONE, a, b, T::ZERO, &mut c, Parallelism::Serial);
    c
}
