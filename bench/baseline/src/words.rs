//! The words of the command line.

pub const USAGE: &str = "usage: baseline [--runs] read|bases|problem|values|check|owners COUNT FILE, or \
     baseline threads values|check|counts FILE [--owners N] [--deal round|blocks] [--cut FILE] [--mail queue], or \
     baseline replay FILE --schedule FILE [--owners N] [--deal round|blocks] [--cut FILE], or \
     baseline schedule COUNT FILE [--owners N] [--deal round|blocks] [--cut FILE]";

/// The commands that a file alone follows.
const COMMANDS: [&str; 5] = ["read", "bases", "problem", "values", "check"];

/// The commands that owners in threads know.
const THREAD_COMMANDS: [&str; 3] = ["values", "check", "counts"];

/// How regions are dealt to owners.
#[derive(Clone, Copy)]
pub enum Deal<'w> {
    Round,
    Blocks,
    /// As the cut file of this path says.
    Listed(&'w str),
}

/// By what the values are found.
#[derive(Clone, Copy)]
pub enum Solver<'w> {
    /// Keeps what each constraint has reached.
    Old,
    /// Goes about it as `nllc` does on one thread.
    Runs,
    /// So many owners that one thread drives.
    Turns(u16),
    /// So many owners in threads of their own.
    Threads(u16, Deal<'w>),
    /// So many owners that do what the schedule of this path says.
    Replay(u16, Deal<'w>, &'w str),
    /// So many owners for which a schedule of so many events is made.
    Schedule(u16, Deal<'w>, usize),
}

/// What is asked.
#[derive(Clone, Copy)]
pub struct Asked<'w> {
    pub command: &'w str,
    pub path: &'w str,
    pub solver: Solver<'w>,
}

/// The number of owners that a word gives.
fn owner_count(word: &str) -> Option<u16> {
    let count: u16 = word.parse().ok().filter(|count| (1..=64).contains(count))?;
    (word == count.to_string()).then_some(count)
}

/// What the words behind a command say, each thing at most once.
#[derive(Default)]
struct Said<'w> {
    file: Option<&'w str>,
    owners: Option<&'w str>,
    deal: Option<&'w str>,
    cut: Option<&'w str>,
    mail: Option<&'w str>,
    schedule: Option<&'w str>,
}

impl<'w> Said<'w> {
    /// What is said; an option is two words, or one with a `=`.
    fn of(words: &'w [String]) -> Option<Said<'w>> {
        let mut said = Said::default();
        let mut words = words.iter();
        while let Some(word) = words.next() {
            let (name, value) = match word.split_once('=') {
                _ if !word.starts_with("--") => ("", word.as_str()),
                Some(pair) => pair,
                None => (word.as_str(), words.next().filter(|value| !value.starts_with('-'))?.as_str()),
            };
            let place = match name {
                "" => &mut said.file,
                "--owners" => &mut said.owners,
                "--deal" => &mut said.deal,
                "--cut" => &mut said.cut,
                "--mail" => &mut said.mail,
                "--schedule" => &mut said.schedule,
                _ => return None,
            };
            if place.replace(value).is_some() {
                return None;
            }
        }
        Some(said)
    }

    /// How many owners there are, and how regions are dealt to them.
    fn dealt(&self) -> Option<(u16, Deal<'w>)> {
        let count = owner_count(self.owners.unwrap_or("1"))?;
        let deal = match self.deal.unwrap_or("round") {
            "round" => Deal::Round,
            "blocks" => Deal::Blocks,
            _ => return None,
        };
        if self.deal.is_some() && self.cut.is_some() {
            return None;
        }
        Some((count, self.cut.map_or(deal, Deal::Listed)))
    }

    /// The solver that is asked for: one thread where there is no number of owners and no cut file.
    fn solver(&self) -> Option<Solver<'w>> {
        let (count, deal) = self.dealt()?;
        if self.schedule.is_some() || self.mail.is_some_and(|mail| mail != "queue") {
            return None;
        }
        if self.owners.is_none() && self.cut.is_none() {
            return Some(Solver::Runs);
        }
        Some(Solver::Threads(count, deal))
    }

    /// The replay of a schedule, or the making of one of so many events.
    fn events(&self, made: Option<usize>) -> Option<Solver<'w>> {
        let (count, deal) = self.dealt()?;
        if self.mail.is_some() {
            return None;
        }
        match (self.schedule, made) {
            (Some(schedule), None) => Some(Solver::Replay(count, deal, schedule)),
            (None, Some(events)) => Some(Solver::Schedule(count, deal, events)),
            _ => None,
        }
    }
}

/// What words ask for.
pub fn asked(words: &[String]) -> Option<Asked<'_>> {
    let (words, solver) = match words {
        [first, rest @ ..] if first == "--runs" => (rest, Solver::Runs),
        _ => (words, Solver::Old),
    };
    match words {
        [command, path] if COMMANDS.contains(&command.as_str()) => {
            Some(Asked { command, path, solver })
        }
        [command, count, path] if command == "owners" => {
            Some(Asked { command, path, solver: Solver::Turns(owner_count(count)?) })
        }
        [first, command, rest @ ..]
            if first == "threads" && THREAD_COMMANDS.contains(&command.as_str()) =>
        {
            let said = Said::of(rest)?;
            Some(Asked { command, path: said.file?, solver: said.solver()? })
        }
        [command, rest @ ..] if command == "replay" => {
            let said = Said::of(rest)?;
            Some(Asked { command, path: said.file?, solver: said.events(None)? })
        }
        [command, count, rest @ ..] if command == "schedule" => {
            let said = Said::of(rest)?;
            Some(Asked { command, path: said.file?, solver: said.events(Some(count.parse().ok()?))? })
        }
        _ => None,
    }
}
