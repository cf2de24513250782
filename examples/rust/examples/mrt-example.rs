//! A table of a router, or a check of a certificate; its output is that of the program:
//!
//!     mrt-example table DB PROFILE ROUTER
//!     mrt-example check DB PROFILE CERT
//!
//! PROFILE is - for none.
#![forbid(unsafe_code)]

use mrt::{Area, Fault};
use std::error::Error;
use std::fs;
use std::process::ExitCode;

fn contents(name: &str) -> Result<Vec<u8>, std::io::Error> {
    if name == "-" {
        Ok(Vec::new())
    } else {
        fs::read(name)
    }
}

fn table(area: Area<'_>, name: &str) -> Result<(), Box<dyn Error>> {
    let router = name.parse()?;
    let island = area.island(router)?;
    println!(
        "router {router} root {} nodes {} links {}",
        island.root, island.nodes, island.links
    );
    for row in area.table(router)? {
        println!("{row}");
    }
    Ok(())
}

fn check(area: Area<'_>, name: &str) -> Result<(), Box<dyn Error>> {
    let verdict = area.check(&contents(name)?)?;
    println!(
        "accepted root {} nodes {} links {}",
        verdict.root, verdict.nodes, verdict.links
    );
    Ok(())
}

fn run(words: &[&str]) -> Result<(), Box<dyn Error>> {
    match *words {
        [form @ ("table" | "check"), database, profile, last] => {
            let (lsas, profile) = (contents(database)?, contents(profile)?);
            let area = Area {
                lsas: &lsas,
                profile: &profile,
            };
            if form == "check" {
                check(area, last)
            } else {
                table(area, last)
            }
        }
        _ => Err("usage: mrt-example table DB PROFILE ROUTER, check DB PROFILE CERT".into()),
    }
}

fn main() -> ExitCode {
    let words: Vec<String> = std::env::args().skip(1).collect();
    let words: Vec<&str> = words.iter().map(String::as_str).collect();
    match run(&words) {
        Ok(()) => ExitCode::SUCCESS,
        Err(error) => {
            eprintln!("{error}");
            ExitCode::from(
                error
                    .downcast_ref::<Fault>()
                    .map_or(2, |fault| fault.status as u8),
            )
        }
    }
}
