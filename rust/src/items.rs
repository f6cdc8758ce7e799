//! Iterators over the items of messages.

/// Defines an iterator over consecutive items of a message, the function that begins it, and the method for its offset.
macro_rules! consecutive {
    ($(#[$doc:meta])* $items:ident: $item:ident; $(#[$begin_doc:meta])* $begin:ident; $(#[$at_doc:meta])* $at:ident) => {
        $(#[$doc])*
        #[derive(Clone, Debug)]
        pub struct $items<'a> {
            message: &'a [u8],
            offset: usize,
            has_failed: bool,
        }

        $(#[$begin_doc])*
        pub fn $begin(message: &[u8], start: usize) -> $items<'_> {
            $items { message, offset: start, has_failed: false }
        }

        impl $items<'_> {
            $(#[$at_doc])*
            pub fn $at(&self) -> usize {
                self.offset
            }
        }

        impl<'a> Iterator for $items<'a> {
            type Item = Result<$item<'a>, Error>;

            fn next(&mut self) -> Option<Self::Item> {
                if self.has_failed || self.offset == self.message.len() {
                    return None;
                }
                let item = $item::read(self.message, self.offset);
                match &item {
                    Ok(item) => self.offset = item.end(),
                    Err(_) => self.has_failed = true,
                }
                Some(item)
            }
        }

        impl core::iter::FusedIterator for $items<'_> {}
    };
}

/// Defines an iterator over as many items of a message that was checked. The function reads one, and returns where it ends.
macro_rules! counted {
    ($(#[$doc:meta])* $items:ident: $item:ident, $read:expr) => {
        $(#[$doc])*
        #[derive(Clone, Debug)]
        pub struct $items<'a> {
            message: &'a [u8],
            offset: usize,
            left: u16,
        }

        impl<'a> Iterator for $items<'a> {
            type Item = $item<'a>;

            fn next(&mut self) -> Option<$item<'a>> {
                self.left = self.left.checked_sub(1)?;
                // The message was checked, so nothing is missing here.
                let (item, end) = $read(self.message, self.offset)?;
                self.offset = end;
                Some(item)
            }

            fn size_hint(&self) -> (usize, Option<usize>) {
                (self.left.into(), Some(self.left.into()))
            }
        }

        impl ExactSizeIterator for $items<'_> {}

        impl core::iter::FusedIterator for $items<'_> {}
    };
}

pub(crate) use {consecutive, counted};
