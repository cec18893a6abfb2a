//! The commands that feed a file: its pieces, and what is asked between
//! and after them.

use super::command::{Command, LONGEST_PIECE};
use super::cuts::Pieces;
use crate::generate::Random;
use crate::{verdict, Verdict};

/// Commands for all rounds. Only the last one has the long end. Where it is
/// finished too early, one round before it is not.
pub fn commands(
    random: &mut Random,
    bytes: &[u8],
    rounds: Vec<Pieces>,
    long_end: bool,
) -> Vec<Command> {
    let mut commands = Vec::new();
    if random.percent(10) {
        commands.extend(given_up(random, bytes));
    }
    let last = rounds.len() - 1;
    let too_early = long_end && random.percent(12);
    if too_early && last == 0 {
        commands.push(Command::New);
        commands.extend(short_round(random, pieces_of(rounds[0].clone())));
    }
    for (number, pieces) in rounds.into_iter().enumerate() {
        commands.push(Command::New);
        let pieces = pieces_of(pieces);
        if number == last && long_end {
            commands.extend(long_round(random, bytes, pieces, too_early));
        } else {
            commands.extend(short_round(random, pieces));
        }
    }
    commands
}

/// Nothing but the pieces of each round, as there are many, and at the end of the
/// last one a report, finish and a report.
pub fn bare_commands(rounds: Vec<Pieces>) -> Vec<Command> {
    let mut commands = Vec::new();
    for pieces in rounds {
        commands.push(Command::New);
        commands.extend(pieces_of(pieces));
    }
    commands.extend([Command::Counts, Command::Finish, Command::Counts]);
    commands
}

/// The same with a report after each piece.
pub fn reporting_commands(rounds: Vec<Pieces>) -> Vec<Command> {
    let with_report = |command: Command| match command {
        Command::Piece(_) => vec![command, Command::Counts],
        other => vec![other],
    };
    bare_commands(rounds).into_iter().flat_map(with_report).collect()
}

fn pieces_of(pieces: Pieces) -> Vec<Command> {
    pieces.into_iter().map(Command::Piece).collect()
}

/// A round that ends in the middle of the file with no finish.
fn given_up(random: &mut Random, bytes: &[u8]) -> [Command; 2] {
    let length = random.below(bytes.len().min(LONGEST_PIECE) + 1);
    [Command::New, Command::Piece(bytes[..length].to_vec())]
}

fn short_round(random: &mut Random, mut commands: Vec<Command>) -> Vec<Command> {
    if random.percent(50) {
        commands.push(Command::Counts);
    }
    commands.push(Command::Finish);
    if random.percent(50) {
        commands.push(Command::Counts);
    }
    commands
}

fn long_round(
    random: &mut Random,
    bytes: &[u8],
    mut commands: Vec<Command>,
    too_early: bool,
) -> Vec<Command> {
    let refused = matches!(verdict(bytes), Verdict::Refused { .. });
    if refused && random.percent(40) {
        // the refusal must be repeated
        for _ in 0..random.between(1, 3) {
            commands.push(any_piece(random, bytes));
        }
    }
    sprinkle(random, &mut commands, 25, Command::Counts);
    sprinkle(random, &mut commands, 20, Command::ShortCounts);
    sprinkle(random, &mut commands, 20, Command::Piece(Vec::new()));
    if too_early {
        // pieces come after it
        sprinkle(random, &mut commands, 100, Command::Finish);
    }
    commands.extend(end(random, bytes));
    commands
}

/// Report, finish, report, then a piece and a finish too many, which must
/// change nothing.
fn end(random: &mut Random, bytes: &[u8]) -> Vec<Command> {
    let mut commands = vec![
        Command::Counts,
        Command::Finish,
        Command::Counts,
        any_piece(random, bytes),
        Command::Finish,
        Command::Counts,
    ];
    sprinkle(random, &mut commands, 20, Command::ShortCounts);
    sprinkle(random, &mut commands, 10, Command::Piece(Vec::new()));
    commands
}

fn sprinkle(random: &mut Random, commands: &mut Vec<Command>, chance: usize, command: Command) {
    if random.percent(chance) {
        let place = random.below(commands.len() + 1);
        commands.insert(place, command);
    }
}

/// A piece where none is wanted any more.
fn any_piece(random: &mut Random, bytes: &[u8]) -> Command {
    let start = &bytes[..bytes.len().min(1000)];
    Command::Piece(match random.below(6) {
        0 => Vec::new(),
        1 => b"|".to_vec(),
        2 => b"\n".to_vec(),
        3 => b"\r\n|0001|1|\r\n".to_vec(),
        4 => start.to_vec(),
        _ => random.text(5),
    })
}

#[cfg(test)]
mod tests {
    use super::*;

    #[test]
    fn commands_of_many_rounds() {
        let piece = |byte: u8| Command::Piece(vec![byte]);
        let rounds = vec![vec![vec![1], vec![2]], vec![vec![3]]];
        let end = [Command::Counts, Command::Finish, Command::Counts];
        let bare = [&[Command::New, piece(1), piece(2), Command::New, piece(3)], &end[..]].concat();
        assert_eq!(bare_commands(rounds.clone()), bare);
        let reporting = reporting_commands(rounds);
        assert_eq!(reporting.len(), bare.len() + 3);
        assert_eq!(reporting[3..6], [piece(2), Command::Counts, Command::New]);
    }
}
