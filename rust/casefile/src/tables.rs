//! The seven tables of a case file as plain words, and their bytes.

/// The word that stands for no name and for no principal or resource.
pub const NONE: u32 = u32::MAX;

/// Bytes of the contents: edition, number of variables, seven (offset, length) pairs.
pub const CONTENTS: usize = 64;

const EDITION: u32 = 1;

/// Words a record of each table but text, which is single bytes.
pub const RECORD_WORDS: [usize; 6] = [2, 4, 2, 12, 8, 1];

#[derive(Clone, Debug, Default, PartialEq, Eq)]
pub struct Tables {
    pub variables: u32,
    pub strings: Vec<[u32; 2]>,
    pub values: Vec<[u32; 4]>,
    pub members: Vec<[u32; 2]>,
    pub points: Vec<[u32; 12]>,
    pub nodes: Vec<[u32; 8]>,
    pub lists: Vec<u32>,
    pub text: Vec<u8>,
}

impl Tables {
    /// The whole case file. Records are written as they stand, right or wrong.
    pub fn encode(&self) -> Vec<u8> {
        let bodies = [
            bytes_of(&self.strings),
            bytes_of(&self.values),
            bytes_of(&self.members),
            bytes_of(&self.points),
            bytes_of(&self.nodes),
            self.lists.iter().flat_map(|w| w.to_le_bytes()).collect(),
            self.text.clone(),
        ];
        let mut file = Vec::new();
        push_word(&mut file, EDITION);
        push_word(&mut file, self.variables);
        let mut offset = CONTENTS;
        for body in &bodies {
            push_word(&mut file, offset as u32);
            push_word(&mut file, body.len() as u32);
            offset += body.len();
        }
        for body in bodies {
            file.extend(body);
        }
        file
    }

    /// The tables of a file whose bodies are where the contents say; no record is looked at.
    pub fn decode(file: &[u8]) -> Result<Tables, String> {
        if file.len() < CONTENTS {
            return Err(format!("the file has {} bytes, the contents alone take {CONTENTS}", file.len()));
        }
        if word(file, 0) != EDITION {
            return Err(format!("the edition is {}, not {EDITION}", word(file, 0)));
        }
        let mut bodies: [&[u8]; 7] = [&[]; 7];
        let mut start = CONTENTS;
        for (k, body) in bodies.iter_mut().enumerate() {
            let (offset, length) = (word(file, 2 + 2 * k) as usize, word(file, 3 + 2 * k) as usize);
            let record = RECORD_WORDS.get(k).map_or(1, |words| 4 * words);
            if offset != start || length > file.len() - start || length % record != 0 {
                return Err(format!("body {k} is misplaced or no whole number of records"));
            }
            *body = &file[start..start + length];
            start += length;
        }
        if start != file.len() {
            return Err(format!("{} bytes follow the last body", file.len() - start));
        }
        Ok(Tables {
            variables: word(file, 1),
            strings: records_of(bodies[0]),
            values: records_of(bodies[1]),
            members: records_of(bodies[2]),
            points: records_of(bodies[3]),
            nodes: records_of(bodies[4]),
            lists: (0..bodies[5].len() / 4).map(|k| word(bodies[5], k)).collect(),
            text: bodies[6].to_vec(),
        })
    }

    /// The bytes of string number `string`.
    pub fn string(&self, string: u32) -> &[u8] {
        let [start, length] = self.strings[string as usize];
        &self.text[start as usize..start as usize + length as usize]
    }
}

fn word(bytes: &[u8], k: usize) -> u32 {
    u32::from_le_bytes([bytes[4 * k], bytes[4 * k + 1], bytes[4 * k + 2], bytes[4 * k + 3]])
}

fn push_word(bytes: &mut Vec<u8>, word: u32) {
    bytes.extend(word.to_le_bytes());
}

fn bytes_of<const N: usize>(records: &[[u32; N]]) -> Vec<u8> {
    records.iter().flatten().flat_map(|w| w.to_le_bytes()).collect()
}

fn records_of<const N: usize>(body: &[u8]) -> Vec<[u32; N]> {
    (0..body.len() / (4 * N)).map(|k| std::array::from_fn(|f| word(body, k * N + f))).collect()
}
