// A chart, and its file.
use crate::refusal::Refusal;

pub struct Mode {
    marks: u16,
    degree: u8,
    ways: [u16; 8],
}

impl Mode {
    pub fn stands(&self, mark: u8) -> bool {
        self.marks >> mark & 1 == 1
    }

    pub fn ways(&self) -> &[u16] {
        &self.ways[..self.degree as usize]
    }
}

pub struct Chart {
    pub marks: u8,
    pub start: u16,
    pub modes: Vec<Mode>,
}

fn number(bytes: &[u8]) -> u16 {
    u16::from_be_bytes([bytes[0], bytes[1]])
}

// The mode of a record, if the record keeps its layout.
fn read_record(record: &[u8], modes: u16, marks: u8, width: u8) -> Option<Mode> {
    let standing = number(record);
    let degree = record[2];
    if u32::from(standing) >> marks != 0 || degree < 1 || degree > width || record[3] != 0 {
        return None;
    }
    let mut ways = [0; 8];
    for (place, bytes) in record[4..].chunks_exact(2).enumerate() {
        let way = number(bytes);
        if place < degree as usize {
            if way >= modes {
                return None;
            }
            ways[place] = way;
        } else if way != 0xFFFF {
            return None;
        }
    }
    Some(Mode { marks: standing, degree, ways })
}

impl Chart {
    pub fn open(file: &[u8]) -> Result<Chart, Refusal> {
        if file.len() < 12 {
            return Err(Refusal::ShortFile);
        }
        let (header, records) = file.split_at(12);
        if &header[..5] != b"MCH\x00\x01" {
            return Err(Refusal::Signature);
        }
        let count = number(&header[5..]);
        let marks = header[7];
        let width = header[8];
        let start = number(&header[9..]);
        if !(1..=256).contains(&count)
            || marks > 16
            || !(1..=8).contains(&width)
            || start >= count
            || header[11] != 0
        {
            return Err(Refusal::Header);
        }
        let stride = 4 + 2 * width as usize;
        if records.len() != count as usize * stride {
            return Err(Refusal::FileLength);
        }
        let mut modes = Vec::with_capacity(count as usize);
        for (mode, record) in records.chunks_exact(stride).enumerate() {
            match read_record(record, count, marks, width) {
                Some(read) => modes.push(read),
                None => return Err(Refusal::Record(mode as u16)),
            }
        }
        Ok(Chart { marks, start, modes })
    }
}
