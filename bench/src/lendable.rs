//! What can be lent to the archives, and which of its bytes are padding.
use lagumtay::queue::raw as queue;
use lagumtay::raw::{Answer, Command, Format, Outcome, Reader, Writer};

/// # Safety
///
/// Any bytes are a value of the type, and these of its bytes are its padding.
pub unsafe trait Lendable: Copy {
    const PADDING: &'static [usize] = &[];
}

unsafe impl Lendable for u8 {}
unsafe impl Lendable for u16 {}
unsafe impl Lendable for Writer {}
unsafe impl Lendable for Answer {}
unsafe impl Lendable for Outcome {}
unsafe impl Lendable for queue::Format {}
unsafe impl Lendable for queue::Sender {}
unsafe impl Lendable for queue::Receiver {}

unsafe impl Lendable for Format {
    const PADDING: &'static [usize] = &[12, 13, 14, 15];
}

unsafe impl Lendable for Reader {
    const PADDING: &'static [usize] = &[4, 5, 6, 7];
}

unsafe impl Lendable for Command {
    const PADDING: &'static [usize] = &[3, 6, 7];
}

#[cfg(test)]
mod tests {
    use super::*;
    use std::mem::offset_of;

    /// The bytes that fields do not hold, each of which is told by where it begins and how many bytes it has.
    fn not_held<T: Lendable>(fields: &[(usize, usize)]) -> Vec<usize> {
        let held = |at| fields.iter().any(|&(begin, length)| (begin..begin + length).contains(&at));
        (0..size_of::<T>()).filter(|&at| !held(at)).collect()
    }

    #[test]
    fn padding_is_what_no_field_holds() {
        let [q, base, layout] = [offset_of!(Format, q), offset_of!(Format, base), offset_of!(Format, layout)];
        let [n, readers] = [offset_of!(Format, n), offset_of!(Format, readers)];
        assert_eq!(not_held::<Format>(&[(q, 8), (base, 2), (layout, 2), (n, 8), (readers, 8)]), Format::PADDING);
        let [kind, allowed, finished] =
            [offset_of!(Reader, kind), offset_of!(Reader, allowed), offset_of!(Reader, finished)];
        let [choice, steps, digits] =
            [offset_of!(Reader, choice), offset_of!(Reader, steps), offset_of!(Reader, digits)];
        let fields = [(kind, 1), (allowed, 1), (finished, 1), (choice, 1), (steps, 8), (digits, 16)];
        assert_eq!(not_held::<Reader>(&fields), Reader::PADDING);
        let [kind, reader, attempts] =
            [offset_of!(Command, kind), offset_of!(Command, reader), offset_of!(Command, attempts)];
        let [index, count] = [offset_of!(Command, index), offset_of!(Command, count)];
        let fields = [(kind, 1), (reader, 1), (attempts, 1), (index, 2), (count, 8)];
        assert_eq!(not_held::<Command>(&fields), Command::PADDING);
    }

    /// The fields of these are as long as the whole.
    #[test]
    fn the_others_have_none() {
        assert_eq!(
            [size_of::<Writer>(), size_of::<Answer>(), size_of::<Outcome>()],
            [3 * 8 + 2 * 4, 3 * 8, 4 + 4 + 3 * 8]
        );
        let queue = [size_of::<queue::Format>(), size_of::<queue::Sender>(), size_of::<queue::Receiver>()];
        assert_eq!(queue, [2 * 8, 3 * 8 + 8 + 8, 3 * 8 + 8]);
    }
}
