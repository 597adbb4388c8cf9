//! Generations.

#[derive(Clone, Copy, PartialEq, Eq)]
pub struct Record {
    pub local: u16,
    pub remote: u16,
    pub last: u16,
    pub fin: bool,
}

impl Record {
    pub fn new() -> Record {
        Record {
            local: 0,
            remote: 0,
            last: 0,
            fin: false,
        }
    }

    #[inline(never)]
    pub fn is_owed(&self) -> bool {
        self.local > self.last && !self.fin
    }

    /// The generation and the rekey bit of the next frame.
    fn frame(&mut self, fin: bool) -> (u16, bool) {
        let rekey = self.local > self.last;
        self.last += u16::from(rekey);
        self.fin |= fin;
        (self.last, rekey)
    }

    #[inline(never)]
    pub fn send(&mut self, fin: bool) -> Result<(u16, bool), u8> {
        if self.fin {
            return Err(14);
        }
        Ok(self.frame(fin))
    }

    #[inline(never)]
    pub fn initiate(&mut self, has_data: bool, fin: bool) -> Result<(u16, bool), u8> {
        if self.is_owed() {
            return Err(4);
        }
        let local = self.local.checked_add(1).ok_or(13)?;
        if self.fin {
            return Err(14);
        }
        if !has_data && self.remote < self.local {
            return Err(15);
        }
        self.local = local;
        Ok(self.frame(fin))
    }

    #[inline(never)]
    pub fn receive(&mut self, rekey: bool) -> Result<u16, u8> {
        if rekey {
            self.remote = self.remote.checked_add(1).ok_or(13)?;
            self.local = self.local.max(self.remote);
        }
        Ok(self.remote)
    }
}
