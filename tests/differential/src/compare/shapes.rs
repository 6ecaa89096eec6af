//! Shapes of inputs and answers that a run must meet, each counted.

pub struct Shapes<const COUNT: usize> {
    names: [&'static str; COUNT],
    met: [u64; COUNT],
}

impl<const COUNT: usize> Shapes<COUNT> {
    pub fn new(names: [&'static str; COUNT]) -> Shapes<COUNT> {
        Shapes { names, met: [0; COUNT] }
    }

    /// Counts those that hold of one input, in the order of the names.
    pub fn count(&mut self, hold: [bool; COUNT]) {
        for (met, hold) in self.met.iter_mut().zip(hold) {
            *met += hold as u64;
        }
    }

    /// Counts the one of this name.
    pub fn meet(&mut self, name: &str) {
        let at = self.names.iter().position(|&known| known == name).expect("a known shape");
        self.met[at] += 1;
    }

    /// Counts those of these names that hold.
    pub fn meet_each(&mut self, met: &[(bool, &str)]) {
        met.iter().filter(|met| met.0).for_each(|met| self.meet(met.1));
    }

    pub fn never_met(&self) -> Option<&'static str> {
        self.names.iter().zip(self.met).find(|&(_, met)| met == 0).map(|(&name, _)| name)
    }

    /// How often each came up.
    pub fn told(&self) -> String {
        let met: Vec<String> =
            self.names.iter().zip(self.met).map(|(name, met)| format!("{name}: {met}")).collect();
        met.join(", ")
    }
}
