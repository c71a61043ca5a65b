//! An option for each of the seventeen counters, by the names that the library has.

use clap::{value_parser, Arg, ArgMatches, Args, Command, Error, FromArgMatches};
use cotterleaf::COUNTER_NAMES;

/// The counters that are asked for, by their place in the array.
#[derive(Clone, Default)]
pub struct Counters(Vec<(usize, u16)>);

impl Counters {
    /// Whether a readout's counters are those asked for.
    pub fn match_with(&self, counters: &[u16; 17]) -> bool {
        self.0.iter().all(|&(i, asked)| counters[i] == asked)
    }
}

/// An option for a counter: `--kspace-encode-step-1`, or with the underscores of its name.
fn option(name: &'static str) -> Arg {
    // clap takes names that live as long as the program; these are made once.
    let long: &'static str = Box::leak(name.replace('_', "-").into_boxed_str());
    Arg::new(name)
        .long(long)
        .alias(name)
        .value_name("N")
        .value_parser(value_parser!(u16))
        .help_heading("Counters")
        .help(format!("Readouts whose counter {name} is N"))
}

impl Args for Counters {
    fn augment_args(command: Command) -> Command {
        command.args(COUNTER_NAMES.map(option))
    }

    fn augment_args_for_update(command: Command) -> Command {
        Counters::augment_args(command)
    }
}

impl FromArgMatches for Counters {
    fn from_arg_matches(matches: &ArgMatches) -> Result<Counters, Error> {
        let given = |(i, name)| matches.get_one::<u16>(name).map(|&asked| (i, asked));
        let given = COUNTER_NAMES.into_iter().enumerate().filter_map(given);
        Ok(Counters(given.collect()))
    }

    fn update_from_arg_matches(&mut self, matches: &ArgMatches) -> Result<(), Error> {
        *self = Counters::from_arg_matches(matches)?;
        Ok(())
    }
}
