//! The forms of a list block, and the geometry that form, U and n give it.

/// The greatest U and the greatest N.
pub const GREATEST_BOUND: u32 = 16_777_216;

/// Bytes before a list's pointers.
pub const LIST_HEADER: usize = 13;

/// The version byte of a term in every edition.
pub const TERM_VERSION: u8 = 1;

/// Whether there is an edition, a version of an index, of this number.
#[inline(always)]
pub fn is_edition(version: u32) -> bool {
    matches!(version, 1 | 2)
}

/// The form of a list, with the version byte of its block.
#[derive(Clone, Copy, PartialEq, Eq)]
#[repr(u8)]
pub enum Form {
    /// A lower and an upper run, with pointers.
    Runs = 1,
    /// A bit for each number below U, with the counts of ones before each 256.
    Bitmap = 2,
}

/// What a caller knows of the forms of the lists that it reads, so that nothing of another form is compiled for it.
pub mod known {
    pub const NOTHING: u8 = 0;
    pub const RUNS: u8 = 1;
    pub const BITMAPS: u8 = 2;
}

impl Form {
    /// The form that a block's version byte tells.
    #[inline(always)]
    pub fn told_by(byte: u8) -> Option<Form> {
        match byte {
            1 => Some(Form::Runs),
            2 => Some(Form::Bitmap),
            _ => None,
        }
    }

    /// The form of n pages below u in an edition, for n <= u.
    #[inline(always)]
    pub fn of_pages(edition: u32, u: u32, n: u32) -> Form {
        match edition == 2 && n > 0 && Shape::of_runs(u, n).needs_more_than_a_bitmap() {
            true => Form::Bitmap,
            false => Form::Runs,
        }
    }
}

/// The geometry of a list. A bitmap counts as an upper run of U bits, and its counts of ones as pointers.
#[derive(Clone, Copy)]
pub struct Shape {
    pub form: Form,
    pub u: u32,
    pub n: u32,
    /// The low width w.
    pub width: u32,
    /// The bits of the upper run.
    pub bits: u32,
    pub pointers: usize,
    pub lower_words: usize,
    pub upper_words: usize,
}

impl Shape {
    /// What stands for the geometry of an empty list: a header and nothing else.
    pub const EMPTY: Shape = Shape {
        form: Form::Runs,
        u: 0,
        n: 0,
        width: 0,
        bits: 0,
        pointers: 0,
        lower_words: 0,
        upper_words: 0,
    };

    /// The geometry of n pages below u in an edition, for n <= u.
    #[inline(always)]
    pub fn of_pages(edition: u32, u: u32, n: u32) -> Shape {
        match Form::of_pages(edition, u, n) {
            Form::Bitmap => Shape::of_bitmap(u, n),
            Form::Runs if n == 0 => Shape::EMPTY,
            Form::Runs => Shape::of_runs(u, n),
        }
    }

    /// The geometry of a bitmap, for 1 <= n <= u.
    #[inline(always)]
    pub fn of_bitmap(u: u32, n: u32) -> Shape {
        Shape {
            form: Form::Bitmap,
            u,
            n,
            width: 0,
            bits: u,
            pointers: (u / 256) as usize,
            lower_words: 0,
            upper_words: (u as usize).div_ceil(64),
        }
    }

    /// The geometry of runs, for 1 <= n <= u.
    #[inline(always)]
    pub fn of_runs(u: u32, n: u32) -> Shape {
        // Or-ing 1 changes no width, as U div n is at least 1.
        let width = ((u / n) | 1).ilog2();
        let zeros = u >> width;
        let bits = n + zeros;
        Shape {
            form: Form::Runs,
            u,
            n,
            width,
            bits,
            pointers: (zeros / 256) as usize,
            lower_words: (n as usize * width as usize).div_ceil(64),
            upper_words: (bits as usize).div_ceil(64),
        }
    }

    /// Whether these runs have more bits than there are numbers below U.
    #[inline(always)]
    fn needs_more_than_a_bitmap(&self) -> bool {
        self.bits + self.n * self.width > self.u
    }

    /// The byte at which the lower run begins.
    #[inline(always)]
    pub fn lower_at(&self) -> usize {
        LIST_HEADER + 4 * self.pointers
    }

    /// The byte at which the upper run begins.
    #[inline(always)]
    pub fn upper_at(&self) -> usize {
        self.lower_at() + 8 * self.lower_words
    }

    /// The bytes of the block.
    #[inline(always)]
    pub fn size(&self) -> usize {
        self.upper_at() + 8 * self.upper_words
    }
}
