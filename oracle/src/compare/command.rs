//! Commands to the program under test, as bytes and in readable form.

use std::fmt;
use std::io::{self, ErrorKind, Read};

/// The most bytes a piece may have.
pub const LONGEST_PIECE: usize = 65_536;

/// Pieces longer than this are shown without their middle.
const SHOWN: usize = 4_000;

#[derive(Clone, Debug, PartialEq, Eq)]
pub enum Command {
    New,
    Piece(Vec<u8>),
    Finish,
    Counts,
    /// A report with room for only 133 counts.
    ShortCounts,
}

impl Command {
    fn letter(&self) -> u8 {
        match self {
            Command::New => b'N',
            Command::Piece(_) => b'P',
            Command::Finish => b'F',
            Command::Counts => b'C',
            Command::ShortCounts => b'S',
        }
    }

    /// The piece; nothing for other commands.
    pub fn bytes(&self) -> &[u8] {
        match self {
            Command::Piece(bytes) => bytes,
            _ => &[],
        }
    }

    /// How many bytes the piece has; 0 for other commands.
    pub fn length(&self) -> usize {
        self.bytes().len()
    }

    /// Whether the program writes a line for it.
    pub fn is_answered(&self) -> bool {
        *self != Command::New
    }

    pub fn write(&self, out: &mut Vec<u8>) {
        let length = self.length();
        assert!(length <= LONGEST_PIECE, "a piece of {length} bytes");
        out.push(self.letter());
        out.extend_from_slice(&(length as u32).to_le_bytes());
        out.extend_from_slice(self.bytes());
    }

    /// The next command, or none where the input ends.
    pub fn read(from: &mut impl Read) -> io::Result<Option<Command>> {
        let mut head = [0; 5];
        if from.read(&mut head[..1])? == 0 {
            return Ok(None);
        }
        from.read_exact(&mut head[1..])?;
        let mut bytes = vec![0; u32::from_le_bytes([head[1], head[2], head[3], head[4]]) as usize];
        from.read_exact(&mut bytes)?;
        let command = match (head[0], bytes.len()) {
            (b'P', 0..=LONGEST_PIECE) => Command::Piece(bytes),
            (b'N', 0) => Command::New,
            (b'F', 0) => Command::Finish,
            (b'C', 0) => Command::Counts,
            (b'S', 0) => Command::ShortCounts,
            _ => return Err(io::Error::new(ErrorKind::InvalidData, "no such command")),
        };
        Ok(Some(command))
    }
}

pub fn stream(commands: &[Command]) -> Vec<u8> {
    let mut out = Vec::new();
    commands.iter().for_each(|command| command.write(&mut out));
    out
}

impl fmt::Display for Command {
    fn fmt(&self, to: &mut fmt::Formatter) -> fmt::Result {
        write!(to, "{}", self.letter() as char)?;
        let Command::Piece(bytes) = self else {
            return Ok(());
        };
        if bytes.len() <= SHOWN {
            return write!(to, " {} \"{}\"", bytes.len(), bytes.escape_ascii());
        }
        let (start, end) = (&bytes[..SHOWN / 2], &bytes[bytes.len() - SHOWN / 2..]);
        let hidden = bytes.len() - SHOWN;
        let (start, end) = (start.escape_ascii(), end.escape_ascii());
        write!(to, " {} \"{start}\" ({hidden} bytes not shown) \"{end}\"", bytes.len())
    }
}

#[cfg(test)]
mod tests {
    use super::*;

    #[test]
    fn bytes_of_each_command() {
        let piece = Command::Piece(vec![b'|', 13, 200]);
        let all = [Command::New, piece, Command::Finish, Command::Counts, Command::ShortCounts];
        let bytes = b"N\0\0\0\0P\x03\0\0\0|\r\xc8F\0\0\0\0C\0\0\0\0S\0\0\0\0";
        assert_eq!(stream(&all), bytes);
        let mut from = &bytes[..];
        for command in all {
            assert_eq!(Command::read(&mut from).unwrap(), Some(command));
        }
        assert_eq!(Command::read(&mut from).unwrap(), None);
    }

    #[test]
    fn length_of_the_longest_piece() {
        let bytes = stream(&[Command::Piece(vec![b'x'; LONGEST_PIECE])]);
        assert_eq!(bytes[..5], *b"P\0\0\x01\0");
    }

    #[test]
    fn readable_form() {
        let piece = Command::Piece(b"|0\r\n\xff\"".to_vec());
        assert_eq!(piece.to_string(), r#"P 6 "|0\r\n\xff\"""#);
        assert_eq!(Command::New.to_string(), "N");
    }
}
