//! A stand-in for the package `vec_like`: types that wrap a `Vec` and act like it.
//!
//! This is the one stand-in on the path of an answer. Every method hands its arguments to the `Vec`, or to its slice,
//! and hands back what that answers.

use std::ops::{Index, IndexMut};

/// A type that wraps a `Vec`.
pub trait VecLike: Sized + From<Vec<Self::VecItem>> + Index<usize, Output = Self::VecItem> + IndexMut<usize> {
    /// What the `Vec` holds.
    type VecItem;

    /// The `Vec` inside, lent.
    fn inner(&self) -> &Vec<Self::VecItem>;

    /// The `Vec` inside, lent to be changed.
    fn inner_mut(&mut self) -> &mut Vec<Self::VecItem>;

    /// The `Vec` inside.
    fn into_inner(self) -> Vec<Self::VecItem>;

    fn new() -> Self {
        Vec::new().into()
    }

    fn with_capacity(capacity: usize) -> Self {
        Vec::with_capacity(capacity).into()
    }

    fn reserve(&mut self, additional: usize) {
        self.inner_mut().reserve(additional)
    }

    fn len(&self) -> usize {
        self.inner().len()
    }

    fn is_empty(&self) -> bool {
        self.inner().is_empty()
    }

    fn get(&self, at: usize) -> Option<&Self::VecItem> {
        self.inner().get(at)
    }

    fn get_mut(&mut self, at: usize) -> Option<&mut Self::VecItem> {
        self.inner_mut().get_mut(at)
    }

    fn push(&mut self, item: Self::VecItem) {
        self.inner_mut().push(item)
    }

    fn pop(&mut self) -> Option<Self::VecItem> {
        self.inner_mut().pop()
    }

    fn insert(&mut self, at: usize, item: Self::VecItem) {
        self.inner_mut().insert(at, item)
    }

    fn remove(&mut self, at: usize) -> Self::VecItem {
        self.inner_mut().remove(at)
    }

    fn append(&mut self, other: &mut Self) {
        self.inner_mut().append(other.inner_mut())
    }

    fn clear(&mut self) {
        self.inner_mut().clear()
    }

    fn iter(&self) -> std::slice::Iter<'_, Self::VecItem> {
        self.inner().iter()
    }

    fn iter_mut(&mut self) -> std::slice::IterMut<'_, Self::VecItem> {
        self.inner_mut().iter_mut()
    }

    fn reverse(&mut self) {
        self.inner_mut().reverse()
    }

    fn contains(&self, item: &Self::VecItem) -> bool
    where
        Self::VecItem: PartialEq,
    {
        self.inner().contains(item)
    }

    fn sort(&mut self)
    where
        Self::VecItem: Ord,
    {
        self.inner_mut().sort()
    }

    fn sort_unstable(&mut self)
    where
        Self::VecItem: Ord,
    {
        self.inner_mut().sort_unstable()
    }
}

/// Makes a tuple struct of one `Vec` act like that `Vec`.
#[macro_export]
macro_rules! impl_veclike {
    ($type:ty, Item = $item:ty) => {
        $crate::impl_veclike!(@for [] $type, Item = $item);
    };
    (@for [$($var:ident),*] $type:ty, Item = $item:ty) => {
        impl<$($var),*> From<Vec<$item>> for $type {
            fn from(items: Vec<$item>) -> Self {
                Self(items)
            }
        }

        $crate::impl_veclike_field!(@for [$($var),*] $type, Item = $item, Field = .0);
    };
}

/// Makes a struct act like the `Vec`, or the type like a `Vec`, in one of its fields.
#[macro_export]
macro_rules! impl_veclike_field {
    ($type:ty, Item = $item:ty, Field = .$field:tt) => {
        $crate::impl_veclike_field!(@for [] $type, Item = $item, Field = .$field .0);
    };
    (@for [$($var:ident),*] $type:ty, Item = $item:ty, Field = $(.$field:tt)+) => {
        impl<$($var),*> $crate::VecLike for $type {
            type VecItem = $item;

            fn inner(&self) -> &Vec<$item> {
                &self$(.$field)+
            }

            fn inner_mut(&mut self) -> &mut Vec<$item> {
                &mut self$(.$field)+
            }

            fn into_inner(self) -> Vec<$item> {
                self$(.$field)+
            }
        }

        impl<$($var),*> Default for $type {
            fn default() -> Self {
                $crate::VecLike::new()
            }
        }

        impl<$($var),*> AsRef<[$item]> for $type {
            fn as_ref(&self) -> &[$item] {
                &self$(.$field)+
            }
        }

        impl<$($var),*> std::ops::Index<usize> for $type {
            type Output = $item;

            fn index(&self, at: usize) -> &$item {
                &self$(.$field)+[at]
            }
        }

        impl<$($var),*> std::ops::IndexMut<usize> for $type {
            fn index_mut(&mut self, at: usize) -> &mut $item {
                &mut self$(.$field)+[at]
            }
        }

        impl<$($var),*> FromIterator<$item> for $type {
            fn from_iter<I: IntoIterator<Item = $item>>(items: I) -> Self {
                Vec::from_iter(items).into()
            }
        }

        impl<$($var),*> IntoIterator for $type {
            type Item = $item;
            type IntoIter = std::vec::IntoIter<$item>;

            fn into_iter(self) -> Self::IntoIter {
                $crate::VecLike::into_inner(self).into_iter()
            }
        }

        impl<'a, $($var),*> IntoIterator for &'a $type {
            type Item = &'a $item;
            type IntoIter = std::slice::Iter<'a, $item>;

            fn into_iter(self) -> Self::IntoIter {
                self$(.$field)+.iter()
            }
        }

        impl<'a, $($var),*> IntoIterator for &'a mut $type {
            type Item = &'a mut $item;
            type IntoIter = std::slice::IterMut<'a, $item>;

            fn into_iter(self) -> Self::IntoIter {
                self$(.$field)+.iter_mut()
            }
        }
    };
}
