//! A stand-in for the package `rayon`: the one loop that is asked for, run one item after another.

pub mod iter {
    pub trait ParallelIterator: Sized {
        type Item;

        fn for_each<F: Fn(Self::Item)>(self, f: F);
    }

    pub trait IntoParallelIterator {
        type Iter: ParallelIterator<Item = Self::Item>;
        type Item;

        fn into_par_iter(self) -> Self::Iter;
    }

    pub trait IntoParallelRefMutIterator<'a> {
        type Iter;

        fn par_iter_mut(&'a mut self) -> Self::Iter;
    }

    impl<'a, T: 'a> IntoParallelIterator for &'a mut Vec<T> {
        type Iter = crate::slice::IterMut<'a, T>;
        type Item = &'a mut T;

        fn into_par_iter(self) -> Self::Iter {
            crate::slice::IterMut(self.iter_mut())
        }
    }

    impl<'a, C: 'a> IntoParallelRefMutIterator<'a> for C
    where
        &'a mut C: IntoParallelIterator,
    {
        type Iter = <&'a mut C as IntoParallelIterator>::Iter;

        fn par_iter_mut(&'a mut self) -> Self::Iter {
            self.into_par_iter()
        }
    }
}

pub mod slice {
    pub struct IterMut<'a, T>(pub(crate) std::slice::IterMut<'a, T>);

    impl<'a, T> crate::iter::ParallelIterator for IterMut<'a, T> {
        type Item = &'a mut T;

        fn for_each<F: Fn(&'a mut T)>(self, f: F) {
            self.0.for_each(f)
        }
    }
}
