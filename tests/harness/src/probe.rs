//! The counts as functions of numbers alone.

use reference::counts::Count;

/// A count as the archive hands it over: in what it is given any mark but 0 says that the count is cut,
/// and then its value does not matter; in what it gives a mark is 0 or 1.
#[repr(C)]
#[derive(Clone, Copy, Debug, PartialEq, Eq)]
pub struct Marked {
    pub value: u32,
    pub cut: u32,
}

impl From<Count> for Marked {
    fn from(count: Count) -> Marked {
        Marked {
            value: count.value,
            cut: count.cut as u32,
        }
    }
}

impl From<Marked> for Count {
    fn from(marked: Marked) -> Count {
        assert!(marked.cut <= 1, "{marked:?}");
        Count {
            value: marked.value,
            cut: marked.cut == 1,
        }
    }
}

/// e, f and g of a rule or of a clause.
#[repr(C)]
#[derive(Clone, Copy, Debug, PartialEq, Eq)]
pub struct Three<C = Count> {
    pub e: C,
    pub f: C,
    pub g: C,
}

impl<C> Three<C> {
    fn map<D>(self, each: impl Fn(C) -> D) -> Three<D> {
        Three {
            e: each(self.e),
            f: each(self.f),
            g: each(self.g),
        }
    }
}

impl Three {
    pub fn marked(self) -> Three<Marked> {
        self.map(Marked::from)
    }
}

/// Those of a clause before its first rule.
pub const START: Three = Three {
    e: Count::ZERO,
    f: Count::ZERO,
    g: Count::uncut(1),
};

mod raw {
    use super::{Marked, Three};

    extern "C" {
        pub fn probe_binomial(m: u64, k: u64) -> Marked;
        pub fn probe_factors(m: u64, k: u64) -> u32;
        pub fn probe_difference(m: u32, w: u32, k: u64) -> Marked;
        pub fn probe_shares(
            case: u32,
            w: u32,
            n: u32,
            p: u32,
            lower: bool,
            a: u64,
            upper: bool,
            b: u64,
        ) -> Three<Marked>;
        pub fn probe_joined(clause: Three<Marked>, rule: Three<Marked>) -> Three<Marked>;
        pub fn probe_third(a: i64) -> i64;
    }
}

/// m over k.
pub fn binomial(m: u64, k: u64) -> Count {
    unsafe { raw::probe_binomial(m, k) }.into()
}

/// How many factors m over k costs.
pub fn factors(m: u64, k: u64) -> u32 {
    unsafe { raw::probe_factors(m, k) }
}

/// m + w over k less m over k.
pub fn difference(m: u32, w: u32, k: u64) -> Count {
    unsafe { raw::probe_difference(m, w, k) }.into()
}

/// How the variable stands in a rule, with its weight.
#[derive(Clone, Copy, Debug)]
pub enum Standing {
    Out,
    On(u32),
    Off(u32),
}

pub fn shares(standing: Standing, n: u32, p: u32, a: Option<u64>, b: Option<u64>) -> Three {
    let (case, w) = match standing {
        Standing::Out => (0, 0),
        Standing::On(w) => (1, w),
        Standing::Off(w) => (2, w),
    };
    let shares = unsafe {
        raw::probe_shares(
            case,
            w,
            n,
            p,
            a.is_some(),
            a.unwrap_or(0),
            b.is_some(),
            b.unwrap_or(0),
        )
    };
    shares.map(Count::from)
}

pub fn joined(clause: Three, rule: Three) -> Three {
    joined_marked(clause.marked(), rule.marked())
}

/// The same of counts with any marks.
pub fn joined_marked(clause: Three<Marked>, rule: Three<Marked>) -> Three {
    let joined = unsafe { raw::probe_joined(clause, rule) };
    joined.map(Count::from)
}

/// A third, rounded down.
pub fn third(a: i64) -> i64 {
    unsafe { raw::probe_third(a) }
}
