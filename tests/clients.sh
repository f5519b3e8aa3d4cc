#!/usr/bin/env bash
# examples/client.rs over the first session of the README; it is compiled alone, by `rustc`, and left out where there is none.
set -u
. "$(dirname "$0")/lib/expect.bash"
cd "$folder" || exit 1
if ! command -v rustc > /dev/null; then
    echo "skipped: there is no command rustc on the PATH, so examples/client.rs wasn't compiled"
    exit 0
fi

cat > session.rs << 'MAIN'
#[path = "client.rs"]
mod client;
use client::{Failure, Gazetteer};

fn names(places: &[client::Columns]) -> Vec<&str> {
    places.iter().map(|place| place["name"].as_str()).collect()
}

fn refusal(gazetteer: &mut Gazetteer, request: &str) -> String {
    match gazetteer.ask(request) {
        Err(Failure::Refused(words)) => words,
        other => format!("{other:?}"),
    }
}

fn main() -> Result<(), Failure> {
    let words: Vec<String> = std::env::args().collect();
    let open = || Gazetteer::open(&words[1], &words[2]).map_err(Failure::Pipe);
    let mut gazetteer = open()?;
    println!("{}", refusal(&mut gazetteer, "get 102"));
    gazetteer.ask("load 2024-03-01")?;
    println!("{}", refusal(&mut gazetteer, "day 2024-03-04"));
    gazetteer.ask("day 2024-03-02")?;
    let place = gazetteer.get(102)?.expect("it is there");
    println!("{} {} {} {}", place.len(), place["geonameid"], place["population"], place["modification_date"]);
    println!("{:?} {}", gazetteer.get(103)?, gazetteer.get(104)?.expect("it is there")["name"]);
    println!("{:?}", names(&gazetteer.search(&[("name_startsWith", "neue"), ("searchlang", "de")])?));
    println!("{}", gazetteer.search(&[])?.len());
    println!("{:?} {:?}", names(&gazetteer.hierarchy(105)?), names(&gazetteer.children(91, 1)?));
    let code = gazetteer.admin("XB.02")?.expect("it is there");
    println!("{} {} {} {:?}", code["code"], code["ascii_name"], code["geonameid"], gazetteer.admin("XX")?);
    match gazetteer.search(&[("maxRows", "1001")]) {
        Err(Failure::Refused(words)) => println!("{words}"),
        other => println!("{other:?}"),
    }
    match gazetteer.ask("get 102\nget 103") {
        Err(Failure::Pipe(error)) => println!("{:?}", error.kind()),
        other => println!("{other:?}"),
    }
    let mut second = open()?;
    for _ in 0..2 {
        match second.get(102) {
            Err(Failure::Ended(status)) => println!("ended {:?}", status.code()),
            other => println!("{other:?}"),
        }
    }
    println!("{:?}", gazetteer.close().map_err(Failure::Pipe)?.code());
    Ok(())
}
MAIN
cp "$top/examples/client.rs" . && mkdir first_day && cp "$top"/examples/first_day/* first_day
check it_compiles_without_a_warning "$(timeout 120 rustc --edition 2021 -D warnings -o session session.rs 2>&1; echo "status $?")" 'status 0'
check the_session "$(timeout 60 ./session first_day "$program" 2>&1; echo "status $?")" "notloaded
sequence 2024-03-01
19 102 91500 2024-03-02
None New Ford
[\"New Ford\"]
8
[\"Farland\", \"Everreach\", \"Everland\", \"Évermore\", \"Évermore Old Town\"] [\"Évermore\"]
XB.02 Everland 91 None
request maxRows
InvalidInput
ended Some(3)
ended Some(3)
Some(0)
status 0"

finish
