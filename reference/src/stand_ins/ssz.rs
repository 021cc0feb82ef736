//! Stand-in for `ssz_rs`: lists and vectors over `Vec`, bits over `bool`. Serialization is not carried.

pub mod prelude {
    use std::ops::{Deref, DerefMut, Index, Range, RangeTo};

    #[derive(Debug, Clone, PartialEq, Eq)]
    pub struct MerkleizationError;

    /// Why a `Vec` is not a list or vector of that bound.
    #[derive(Debug, Clone, PartialEq, Eq)]
    pub struct BoundError;

    /// The real one hashes; here every root is zero. Nothing in scope reads it.
    pub trait HashTreeRoot {
        fn hash_tree_root(&self) -> Result<Node, MerkleizationError> {
            Ok(Node::default())
        }
    }

    impl<T> HashTreeRoot for T {}

    /// 32 bytes, copied by value.
    #[derive(Debug, Clone, Copy, Default, PartialEq, Eq)]
    pub struct Node(pub [u8; 32]);

    impl AsRef<[u8]> for Node {
        fn as_ref(&self) -> &[u8] {
            &self.0
        }
    }

    impl Index<RangeTo<usize>> for Node {
        type Output = [u8];
        fn index(&self, range: RangeTo<usize>) -> &[u8] {
            &self.0[range]
        }
    }

    #[derive(Debug, Clone, PartialEq, Eq)]
    pub struct ByteVector<const N: usize>(pub [u8; N]);

    impl<const N: usize> Default for ByteVector<N> {
        fn default() -> Self {
            ByteVector([0; N])
        }
    }

    impl<const N: usize> AsRef<[u8]> for ByteVector<N> {
        fn as_ref(&self) -> &[u8] {
            &self.0
        }
    }

    impl<const N: usize> Index<usize> for ByteVector<N> {
        type Output = u8;
        fn index(&self, i: usize) -> &u8 {
            &self.0[i]
        }
    }

    /// At most `N` items.
    #[derive(Debug, Clone, PartialEq, Eq)]
    pub struct List<T, const N: usize>(Vec<T>);

    impl<T, const N: usize> Default for List<T, N> {
        fn default() -> Self {
            List(Vec::new())
        }
    }

    impl<T, const N: usize> TryFrom<Vec<T>> for List<T, N> {
        type Error = (Vec<T>, BoundError);
        fn try_from(items: Vec<T>) -> Result<Self, Self::Error> {
            if items.len() > N {
                return Err((items, BoundError));
            }
            Ok(List(items))
        }
    }

    impl<T, const N: usize> Deref for List<T, N> {
        type Target = Vec<T>;
        fn deref(&self) -> &Vec<T> {
            &self.0
        }
    }

    impl<T, const N: usize> DerefMut for List<T, N> {
        fn deref_mut(&mut self) -> &mut Vec<T> {
            &mut self.0
        }
    }

    /// Exactly `N` items.
    #[derive(Debug, Clone, PartialEq, Eq)]
    pub struct Vector<T, const N: usize>(Vec<T>);

    impl<T, const N: usize> TryFrom<Vec<T>> for Vector<T, N> {
        type Error = (Vec<T>, BoundError);
        fn try_from(items: Vec<T>) -> Result<Self, Self::Error> {
            if items.len() != N {
                return Err((items, BoundError));
            }
            Ok(Vector(items))
        }
    }

    impl<T, const N: usize> Deref for Vector<T, N> {
        type Target = [T];
        fn deref(&self) -> &[T] {
            &self.0
        }
    }

    impl<T, const N: usize> DerefMut for Vector<T, N> {
        fn deref_mut(&mut self) -> &mut [T] {
            &mut self.0
        }
    }

    /// `N` bits; bit 0 is the newest epoch's in `justification_bits`.
    #[derive(Debug, Clone, PartialEq, Eq)]
    pub struct Bitvector<const N: usize>(pub [bool; N]);

    impl<const N: usize> Bitvector<N> {
        pub fn set(&mut self, i: usize, bit: bool) {
            self.0[i] = bit;
        }

        pub fn copy_within(&mut self, from: RangeTo<usize>, to: usize) {
            self.0.copy_within(from, to);
        }
    }

    impl<const N: usize> Index<Range<usize>> for Bitvector<N> {
        type Output = [bool];
        fn index(&self, range: Range<usize>) -> &[bool] {
            &self.0[range]
        }
    }

    /// `all()` on a slice of bits.
    pub trait All {
        fn all(&self) -> bool;
    }

    impl All for [bool] {
        fn all(&self) -> bool {
            self.iter().all(|&bit| bit)
        }
    }

    pub type Bitlist<const N: usize> = List<bool, N>;
}
