//! An edge: it holds a part of some tables of a PostgreSQL database, follows their changes, and serves clients of
//! Redis.
mod changes;
mod configuration;
mod content;
mod dataflow;
mod fault;
mod group;
mod json;
mod key;
mod metrics;
mod needs;
mod residents;
mod serve;
mod session;
mod shared;
mod slot;
mod stats;
mod stream;
mod tables;
mod upquery;
mod value;
mod writes;

use clap::{Parser, Subcommand};
use configuration::Configuration;
use edge_common::postgres::{base, base::Base, fresh, log, lsn, parts, pgoutput, pq, query, snapshot};
use edge_common::{ending, guest, listener, resp};
use needs::Lack;
use std::{collections::HashSet, fs, path::Path, path::PathBuf, process::ExitCode};

/// Serves parts of PostgreSQL's tables to clients of Redis, and looks whether a database has what that needs.
#[derive(Parser)]
#[command(version)]
struct Command {
    #[command(subcommand)]
    what: What,
}

#[derive(Subcommand)]
enum What {
    /// Serves the views until SIGTERM. The status is 1 where something lacks, and 2 where PostgreSQL can't be reached.
    Serve { configuration: PathBuf },
    /// Says what lacks, a line each. The status is 0 where nothing does.
    Check { configuration: PathBuf },
    /// Tells the SQL that makes what lacks.
    Setup {
        /// Print it, and change nothing.
        #[arg(long, required = true)]
        print_sql: bool,
        configuration: PathBuf,
    },
}

fn read(path: &Path) -> Result<Configuration, String> {
    let text = fs::read_to_string(path).map_err(|fault| format!("{}: {fault}", path.display()))?;
    text.parse().map_err(|why| format!("{}: {why}", path.display()))
}

fn lacks(path: &Path) -> Result<Vec<Lack>, String> {
    let configuration = read(path)?;
    let base = Base::new(&configuration.address()?, configuration.source.deadline());
    let mut connection = base.as_it_is().map_err(|fault| fault.to_string())?;
    needs::lacking(&configuration, &mut connection).map_err(|fault| fault.to_string())
}

fn run(what: &What) -> Result<ExitCode, String> {
    match what {
        What::Serve { configuration } => serve::serve(read(configuration)?),
        What::Check { configuration } => {
            let lacks = lacks(configuration)?;
            lacks.iter().for_each(|lack| println!("{}", lack.says));
            Ok(if lacks.is_empty() { ExitCode::SUCCESS } else { ExitCode::FAILURE })
        }
        What::Setup { configuration, .. } => {
            let lacks = lacks(configuration)?;
            // What two views of a table lack is made once.
            let mut made = HashSet::new();
            for Lack { says, sql } in &lacks {
                println!("-- {says}");
                if made.insert(sql) {
                    println!("{sql}");
                }
            }
            Ok(ExitCode::SUCCESS)
        }
    }
}

fn main() -> ExitCode {
    run(&Command::parse().what).unwrap_or_else(|why| {
        eprintln!("edge: {why}");
        ExitCode::from(2)
    })
}
