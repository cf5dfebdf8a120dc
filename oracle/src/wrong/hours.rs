//! Hours as the program `vectors` replays them: two lengths of two bytes, least
//! significant byte first, of the file and of the text, then both.

use std::io::{self, Read, Write};

/// The most bytes of a file and of a text for which the program lends room.
pub const MOST: [usize; 2] = [4160, 8192];

fn length(bytes: &[u8]) -> [u8; 2] {
    u16::try_from(bytes.len()).unwrap().to_le_bytes()
}

/// The files of a stored list.
pub fn files(mut from: impl Read) -> io::Result<Vec<Vec<u8>>> {
    let mut files = Vec::new();
    let mut head = [0; 4];
    while from.read_exact(&mut head).is_ok() {
        let lengths = [0, 2].map(|i| usize::from(u16::from_le_bytes([head[i], head[i + 1]])));
        let mut both = vec![0; lengths[0] + lengths[1]];
        from.read_exact(&mut both)?;
        both.truncate(lengths[0]);
        files.push(both);
    }
    Ok(files)
}

/// Writes the list of some files, each with what `sheet` prints of it.
pub fn write(mut to: impl Write, files: &[Vec<u8>]) -> io::Result<()> {
    for file in files {
        let text = crate::programs::sheet(file);
        to.write_all(&length(file))?;
        to.write_all(&length(text.as_bytes()))?;
        to.write_all(file)?;
        to.write_all(text.as_bytes())?;
    }
    Ok(())
}
