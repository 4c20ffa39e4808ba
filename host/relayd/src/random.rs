//! Port starts from the system's random source, so that relay ports can't be guessed.

use std::fs::File;
use std::io::{self, BufReader, Read};

/// Random numbers, read ahead a block at a time.
pub struct Random(BufReader<File>);

impl Random {
    /// Opens the system's source.
    pub fn open() -> io::Result<Self> {
        Ok(Random(BufReader::new(File::open("/dev/urandom")?)))
    }

    /// The next number.
    pub fn next(&mut self) -> io::Result<u32> {
        let mut bytes = [0; 4];
        self.0.read_exact(&mut bytes)?;
        Ok(u32::from_ne_bytes(bytes))
    }

    /// A key for as long as relayd runs.
    pub fn key(&mut self) -> Result<[u8; 32], String> {
        let mut bytes = [0; 32];
        self.0.read_exact(&mut bytes).map_err(|error| format!("no random key: {error}"))?;
        Ok(bytes)
    }
}

#[cfg(test)]
mod tests {
    use super::*;
    use std::collections::HashSet;

    #[test]
    fn numbers_differ() {
        let mut random = Random::open().expect("the random source opens");
        let seen: HashSet<u32> = (0..5000).map(|_| random.next().expect("a number")).collect();
        assert!(seen.len() > 4900);
        let ports: HashSet<u32> = seen.iter().map(|n| n % 128).collect();
        assert_eq!(ports.len(), 128);
    }
}
