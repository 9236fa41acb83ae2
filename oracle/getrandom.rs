//! A `getrandom` of lent bytes: it hands them out one after another, and fails where fewer are left than are asked for.
use std::cell::RefCell;

/// Lent bytes, how many of them were handed out, and whether more were asked for than there were.
#[derive(Default)]
struct Lent {
    bytes: Vec<u8>,
    used: usize,
    dry: bool,
}

thread_local! {
    static LENT: RefCell<Lent> = RefCell::default();
}

/// Why a request is not met.
#[derive(Debug)]
pub struct Dry;

/// Lends bytes, in place of what was lent before.
pub fn lend(bytes: &[u8]) {
    LENT.with_borrow_mut(|lent| {
        *lent = Lent {
            bytes: bytes.to_vec(),
            ..Lent::default()
        }
    });
}

/// Takes the bytes back, and answers how many were handed out, or nothing where a request was not met.
pub fn take_back() -> Option<usize> {
    let lent = LENT.take();
    (!lent.dry).then_some(lent.used)
}

/// Whether a request was not met.
pub fn is_dry() -> bool {
    LENT.with_borrow(|lent| lent.dry)
}

/// The next lent bytes.
pub fn getrandom(buffer: &mut [u8]) -> Result<(), Dry> {
    LENT.with_borrow_mut(|lent| {
        let end = lent.used + buffer.len();
        if end > lent.bytes.len() {
            lent.dry = true;
            return Err(Dry);
        }
        buffer.copy_from_slice(&lent.bytes[lent.used..end]);
        lent.used = end;
        Ok(())
    })
}
