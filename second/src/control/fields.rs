//! The fields, and which of them clause 22 allows within one Section.

/// MIN, SEC and FRAC of a Section, two decimal digits each.
#[derive(Clone, Copy, Debug, PartialEq, Eq)]
pub struct ControlTime(pub u8, pub u8, pub u8);

#[derive(Clone, Copy, Debug, PartialEq, Eq)]
pub enum Item {
    Track(u8, ControlTime),
    FirstTrack(u8),
    LastTrack(u8),
    LeadOut(ControlTime),
}

#[derive(Clone, Copy, Debug, PartialEq, Eq)]
pub enum QData {
    UserData(u8, u8, ControlTime, ControlTime),
    LeadOut(ControlTime, ControlTime),
    LeadIn(Item, ControlTime),
    /// 13 digits, four bits each, and A-FRAC.
    CatalogNumber(u64, u8),
}

#[derive(Clone, Copy, Debug, PartialEq, Eq)]
pub struct Fields {
    pub flag: bool,
    pub copying: bool,
    pub q_data: QData,
}

/// Two decimal digits, at most `top`.
fn digits(byte: u8, top: u8) -> bool {
    format!("{byte:02X}").parse::<u8>().is_ok_and(|n| n <= top)
}

fn track(byte: u8) -> bool {
    byte != 0 && digits(byte, 99)
}

impl ControlTime {
    pub fn in_range(self) -> bool {
        digits(self.0, 99) && digits(self.1, 59) && digits(self.2, 74)
    }

    fn values(self) -> [u64; 3] {
        [self.0, self.1, self.2].map(u64::from)
    }
}

impl Item {
    fn allowed(self) -> bool {
        match self {
            Item::Track(n, at) => track(n) && at.in_range(),
            Item::FirstTrack(n) | Item::LastTrack(n) => track(n),
            Item::LeadOut(at) => at.in_range(),
        }
    }
}

impl Fields {
    pub fn allowed(&self) -> bool {
        match self.q_data {
            QData::UserData(tno, index, relative, absolute) => {
                track(tno) && digits(index, 99) && relative.in_range() && absolute.in_range()
            }
            QData::LeadOut(relative, absolute) => relative.in_range() && absolute.in_range(),
            QData::LeadIn(item, relative) => !self.flag && item.allowed() && relative.in_range(),
            QData::CatalogNumber(n, frac) => {
                n < 1 << 52 && format!("{n:013X}").parse::<u64>().is_ok() && digits(frac, 74)
            }
        }
    }

    /// The Control, q-Mode and q-Data fields.
    pub fn ten_bytes(&self) -> [u8; 10] {
        let control = if self.copying { 0b0110 } else { 0b0100 };
        let one =
            |a, b, t: ControlTime, x, y, z| [control << 4 | 1, a, b, t.0, t.1, t.2, 0, x, y, z];
        match self.q_data {
            QData::UserData(tno, index, t, at) => one(tno, index, t, at.0, at.1, at.2),
            QData::LeadOut(t, at) => one(0xAA, 0x01, t, at.0, at.1, at.2),
            QData::LeadIn(Item::Track(n, at), t) => one(0, n, t, at.0, at.1, at.2),
            QData::LeadIn(Item::FirstTrack(n), t) => one(0, 0xA0, t, n, 0, 0),
            QData::LeadIn(Item::LastTrack(n), t) => one(0, 0xA1, t, n, 0, 0),
            QData::LeadIn(Item::LeadOut(at), t) => one(0, 0xA2, t, at.0, at.1, at.2),
            QData::CatalogNumber(n, frac) => {
                let mut ten = [0; 10];
                ten[0] = control << 4 | 2;
                ten[1..9].copy_from_slice(&(n << 12).to_be_bytes());
                ten[9] = frac;
                ten
            }
        }
    }

    /// The numbers that come back where reading is done: p bit, Control field, kind, and what it holds.
    pub fn values(&self) -> Vec<u64> {
        let mut all = vec![self.flag as u64, if self.copying { 6 } else { 4 }];
        match self.q_data {
            QData::UserData(tno, index, t, at) => {
                all.extend([0, tno as u64, index as u64]);
                all.extend(t.values());
                all.extend(at.values());
            }
            QData::LeadOut(t, at) => {
                all.push(1);
                all.extend(t.values());
                all.extend(at.values());
            }
            QData::LeadIn(item, t) => {
                all.push(2);
                all.extend(t.values());
                match item {
                    Item::Track(n, at) => {
                        all.extend([0, n as u64]);
                        all.extend(at.values());
                    }
                    Item::FirstTrack(n) => all.extend([1, n as u64]),
                    Item::LastTrack(n) => all.extend([2, n as u64]),
                    Item::LeadOut(at) => {
                        all.push(3);
                        all.extend(at.values());
                    }
                }
            }
            QData::CatalogNumber(n, frac) => all.extend([3, n, frac as u64]),
        }
        all
    }
}
