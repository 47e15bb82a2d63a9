// What follows is not the source's: tools/compare_bank/run appends it, since a run's fields are
// private to this module.

impl DshotCommandSequence {
    pub fn of_fields(commands: [u16; 2], index: u8, repeats_left: u8) -> Self {
        Self {
            commands,
            index,
            repeats_left,
        }
    }

    pub fn fields(&self) -> ([u16; 2], u8, u8) {
        (self.commands, self.index, self.repeats_left)
    }
}
