//! What owned and borrowed names have in common: how they are printed, compared and hashed.
use crate::ffi::{self, TEXT_SIZE};
use core::fmt;

/// Why `expect` never fails: the C library has accepted each wire form.
pub(crate) const VALID: &str = "the wire form of a name";

/// Returns whether the labels are equal, ignoring case.
#[inline]
pub(crate) fn are_equal(left: &[u8], right: &[u8]) -> bool {
    // Equal names have wire forms of one length, and a form equals itself.
    left.len() == right.len() && (left == right || ffi::name_equal(left, right).expect(VALID))
}

/// Calls a function with the text of a name.
pub(crate) fn with_text(form: &[u8], is_fqdn: bool, show: impl FnOnce(&str) -> fmt::Result) -> fmt::Result {
    let mut room = [0; TEXT_SIZE];
    let len = ffi::name_print(form, is_fqdn, &mut room).map_err(|_| fmt::Error)?;
    show(ffi::str_of(&room[..len]))
}

/// Implements them for a type whose `with_labels` calls a function with the wire form of its labels.
macro_rules! name_traits {
    ($name:ty) => {
        /// Prints the name in ASCII (RFC 1035, section 5.1), with a last dot if it is fully qualified. The root is `.`, and
        /// [`Name::new`] is `@`. [`Name::from_text`], without an origin, reads the text as the same name.
        ///
        /// `"`, `$`, `(`, `)`, `.`, `;`, `@` and `\` are printed after a backslash, and octets that are not printable ASCII
        /// as a backslash and three decimal digits.
        ///
        /// [`Name::new`]: crate::Name::new
        /// [`Name::from_text`]: crate::Name::from_text
        impl fmt::Display for $name {
            fn fmt(&self, f: &mut fmt::Formatter<'_>) -> fmt::Result {
                self.with_labels(|form| form::with_text(form, self.is_fqdn(), |text| f.pad(text)))
            }
        }

        impl fmt::Debug for $name {
            fn fmt(&self, f: &mut fmt::Formatter<'_>) -> fmt::Result {
                let mut show = |text: &str| f.debug_tuple("Name").field(&text).finish();
                self.with_labels(|form| form::with_text(form, self.is_fqdn(), &mut show))
            }
        }

        /// Names are equal if their labels are, ignoring case, and both are fully qualified or both not.
        impl PartialEq for $name {
            fn eq(&self, other: &Self) -> bool {
                let are_equal = || self.with_labels(|own| other.with_labels(|form| form::are_equal(own, form)));
                self.is_fqdn() == other.is_fqdn() && are_equal()
            }
        }

        impl Eq for $name {}

        impl PartialOrd for $name {
            fn partial_cmp(&self, other: &Self) -> Option<Ordering> {
                Some(self.cmp(other))
            }
        }

        /// Canonical order (RFC 4034, section 6.1). Names that are not fully qualified are before all others.
        impl Ord for $name {
            fn cmp(&self, other: &Self) -> Ordering {
                let compare = |own: &[u8], form: &[u8]| ffi::name_compare(own, form).expect(form::VALID).cmp(&0);
                let labels = || self.with_labels(|own| other.with_labels(|form| compare(own, form)));
                self.is_fqdn().cmp(&other.is_fqdn()).then_with(labels)
            }
        }

        impl Hash for $name {
            fn hash<H: Hasher>(&self, state: &mut H) {
                self.with_labels(|form| {
                    // A length octet is at most 63, which is no letter, so the whole form is lowered at once.
                    let mut room = [0; FORM_SIZE];
                    let lowered = &mut room[..form.len()];
                    lowered.copy_from_slice(form);
                    lowered.make_ascii_lowercase();
                    state.write(lowered);
                });
                state.write_u8(self.is_fqdn().into());
            }
        }
    };
}

pub(crate) use name_traits;
