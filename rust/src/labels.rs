//! The labels of names.

/// An iterator over the labels of a name, from either end. See [`Name::labels`] and [`NameRef::labels`].
///
/// [`Name::labels`]: crate::Name::labels
/// [`NameRef::labels`]: crate::NameRef::labels
///
/// `len` and `next_back` walk over all labels that are left.
///
/// ```
/// let name: dns_names_wire::Name = "www.example.com.".parse()?;
/// let mut labels = name.labels();
/// assert_eq!((labels.next(), labels.next_back()), (Some(&b"www"[..]), Some(&b"com"[..])));
/// assert_eq!(labels.len(), 1);
/// # Ok::<(), dns_names_wire::Error>(())
/// ```
#[derive(Clone, Debug)]
pub struct Labels<'a> {
    message: &'a [u8],
    at: usize,
    /// the number of labels that are left, known after the first step from the back
    left: Option<usize>,
}

impl<'a> Labels<'a> {
    /// Returns the labels of the name at an offset of a message. The C library must have accepted the name.
    #[inline]
    pub(crate) fn new(message: &'a [u8], at: usize) -> Self {
        Labels { message, at, left: None }
    }

    /// Returns the number of labels that are left.
    fn count_left(&self) -> usize {
        self.left.unwrap_or_else(|| self.clone().count())
    }
}

/// Returns the label at an offset of a message, following pointers, and moves the offset after it. Returns `None` at
/// the end of the name. The C library has accepted the name, so each step is within the message, and each pointer
/// points backwards.
#[inline]
fn step<'a>(message: &'a [u8], at: &mut usize) -> Option<&'a [u8]> {
    loop {
        let octet = usize::from(*message.get(*at)?);
        match octet {
            0 => return None,
            1..=63 => {
                let label = message.get(*at + 1..*at + 1 + octet)?;
                *at += 1 + octet;
                return Some(label);
            }
            _ => *at = (octet & 0x3F) << 8 | usize::from(*message.get(*at + 1)?),
        }
    }
}

impl<'a> Iterator for Labels<'a> {
    type Item = &'a [u8];

    #[inline]
    fn next(&mut self) -> Option<&'a [u8]> {
        if let Some(left) = &mut self.left {
            *left = left.checked_sub(1)?;
        }
        step(self.message, &mut self.at)
    }

    fn size_hint(&self) -> (usize, Option<usize>) {
        let left = self.count_left();
        (left, Some(left))
    }
}

impl DoubleEndedIterator for Labels<'_> {
    fn next_back(&mut self) -> Option<Self::Item> {
        let left = self.count_left().checked_sub(1)?;
        self.left = Some(left);
        Labels { left: None, ..*self }.nth(left)
    }
}

impl ExactSizeIterator for Labels<'_> {}

impl core::iter::FusedIterator for Labels<'_> {}
