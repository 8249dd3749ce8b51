//! What comes back from a call, and the three calls as a struct of functions.

/// The answer of a call: the document's number, origin and value, and what goes with a 0.
#[derive(Clone, Debug, PartialEq, Eq)]
pub struct Answer {
    pub number: u8,
    pub origin: u8,
    pub value: usize,
    /// Of a finished check or claim writing, else `None`.
    pub verdict: Option<Verdict>,
    /// Bytes written by a finished claim writing, else `None`.
    pub written: Option<usize>,
}

#[derive(Clone, Debug, PartialEq, Eq)]
pub enum Verdict {
    Safe,
    Possible(Witness),
}

/// The first witness: error row (0 for the failed store), shared store, a local store per thread.
#[derive(Clone, Debug, PartialEq, Eq)]
pub struct Witness {
    pub row: usize,
    pub shared: usize,
    pub locals: Vec<usize>,
}

/// One implementation of the document's calls.
#[derive(Clone, Copy)]
pub struct Calls {
    pub name: &'static str,
    /// Table, working memory, budget.
    pub check: fn(&[u8], &mut [u8], usize) -> Answer,
    /// Table, working memory, budget, space for the claim.
    pub write_claim: fn(&[u8], &mut [u8], usize, &mut [u8]) -> Answer,
    /// Table, claim, working memory.
    pub check_claim: fn(&[u8], &[u8], &mut [u8]) -> Answer,
}
