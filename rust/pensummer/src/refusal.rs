//! Why a call was refused: the number of the papers' item, and a sentence.
use core::fmt;

/// Why a call was refused. A call tests its items in order, which is that of the numbers but for 25 and 26: the one is
/// tested after 7, the other after 12. It gives the first that applies.
#[derive(Clone, Copy, Debug, PartialEq, Eq, PartialOrd, Ord, Hash)]
pub struct Refusal(u32);

/// Names the items by number from 1, each with its sentence.
macro_rules! items {
    ($($name:ident = $number:literal, $sentence:literal;)*) => {
        impl Refusal {
            $(#[doc = $sentence] pub const $name: Refusal = Refusal($number);)*

            /// Every refusal, in the order of the numbers.
            pub const ALL: [Refusal; [$($number),*].len()] = [$(Refusal::$name),*];
        }

        const SENTENCES: [&str; [$($number),*].len()] = [$($sentence),*];
    };
}

items! {
    TABLE_FORM = 1, "the table's length, a mark, or its number of labels is wrong";
    TABLE_WEIGHT = 2, "a weight of the table is out of range and not the forbidden number";
    RECORDED_FORM = 3, "the recorded tree's length, a mark, or its number of vertices is wrong";
    RECORDED_LABEL = 4, "a vertex or edge label of the recorded tree is not in the table";
    RECORDED_END = 5, "an edge of the recorded tree names a vertex that is not there";
    RECORDED_LOOP = 6, "an edge of the recorded tree closes a loop";
    RECORDED_DEGREE = 7, "a vertex of the recorded tree has more than 8 edges";
    FOUND_FORM = 8, "the found tree's length, a mark, or its number of vertices is wrong";
    FOUND_LABEL = 9, "a vertex or edge label of the found tree is not in the table";
    FOUND_END = 10, "an edge of the found tree names a vertex that is not there";
    FOUND_LOOP = 11, "an edge of the found tree closes a loop";
    FOUND_DEGREE = 12, "a vertex of the found tree has more than 8 edges";
    WORK_SHORT = 13, "too few work numbers are lent";
    JOB_RECORD = 14, "the job's record is idle, or its numbers are out of range";
    JOB_TREES = 15, "the job's record is of trees of other sizes";
    WORK_NUMBER = 16, "a work number before the position is none that a job stores";
    JOB_UNFINISHED = 17, "the job has subproblems left";
    MAPPING_SHORT = 18, "the mapping buffer is too short";
    CERTIFICATE_SHORT = 19, "the certificate buffer is too short";
    CERTIFICATE_FORM = 20, "the certificate's length, a mark, or a number of vertices is wrong";
    CERTIFICATE_MAPPING = 21, "the certificate's mapping breaks a rule";
    CERTIFICATE_WEIGHT = 22, "the certificate's weight is not its mapping's";
    CERTIFICATE_RECORD = 23, "a subproblem record of the certificate breaks a rule";
    CERTIFICATE_ANSWER = 24, "the certificate's weight is not the greater of 0 and its largest value with s = v";
    RECORDED_SERIAL = 25, "a known serial stands twice in the recorded tree";
    FOUND_SERIAL = 26, "a known serial stands twice in the found tree";
}

impl Refusal {
    /// The refusal that a call of the archive gives as this number; none for 0, which says that the call was carried
    /// out.
    pub const fn of(number: u32) -> Option<Refusal> {
        if number == 0 {
            None
        } else {
            Some(Refusal(number))
        }
    }

    /// The item's number.
    pub const fn number(self) -> u32 {
        self.0
    }

    /// What the item says, without a full stop.
    pub const fn sentence(self) -> &'static str {
        if self.0 as usize <= SENTENCES.len() {
            SENTENCES[self.0 as usize - 1]
        } else {
            "no item has this number"
        }
    }
}

impl fmt::Display for Refusal {
    fn fmt(&self, f: &mut fmt::Formatter<'_>) -> fmt::Result {
        write!(f, "refused {}: {}", self.0, self.sentence())
    }
}
