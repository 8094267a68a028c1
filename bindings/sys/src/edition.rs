//! Which archive this is: it says so itself, and another than the one that was declared is refused.
use std::error::Error;
use std::fmt;
use std::sync::OnceLock;

/// The words of a slot, as these declarations have it.
pub const SLOT_WORDS: usize = 12;

/// The edition of the interface that these declarations are of.
pub const INTERFACE: u32 = 3;

unsafe extern "C" {
    safe fn dokphalun_interface() -> u32;
    safe fn dokphalun_slot_words() -> u32;
}

/// What an archive says of itself.
#[derive(Clone, Copy, Debug, PartialEq, Eq)]
pub struct Edition {
    /// The edition of its interface.
    pub interface: u32,
    /// The words of a slot.
    pub slot_words: u32,
}

/// What is declared here.
const DECLARED: Edition = Edition {
    interface: INTERFACE,
    slot_words: SLOT_WORDS as u32,
};

/// The archive that is linked is not the one that these bindings were made for.
#[derive(Clone, Copy, Debug, PartialEq, Eq)]
pub struct OtherArchive {
    /// What it says of itself.
    pub edition: Edition,
}

impl fmt::Display for OtherArchive {
    fn fmt(&self, f: &mut fmt::Formatter) -> fmt::Result {
        write!(
            f,
            "libdokphalun.a is not the archive that these bindings were made for: its interface is edition {}, theirs {}; \
             its slots are {} words, theirs {}. Nothing is called. Build both from one repository",
            self.edition.interface,
            DECLARED.interface,
            self.edition.slot_words,
            DECLARED.slot_words
        )
    }
}

impl Error for OtherArchive {}

/// Whether the archive that is linked is the one that these bindings were made for. It is asked once.
pub fn archive() -> Result<(), OtherArchive> {
    static ASKED: OnceLock<Result<(), OtherArchive>> = OnceLock::new();
    *ASKED.get_or_init(|| {
        let edition = Edition {
            interface: dokphalun_interface(),
            slot_words: dokphalun_slot_words(),
        };
        match edition == DECLARED {
            true => Ok(()),
            false => Err(OtherArchive { edition }),
        }
    })
}

/// Panics where the archive is another.
pub(crate) fn held() {
    if let Err(other) = archive() {
        panic!("{other}");
    }
}
