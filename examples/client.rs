//! A client of the mirror: it holds both ends of the pipe to `gaz serve`. Written to be copied, as a module.
//!
//!     let mut gazetteer = Gazetteer::open("/data/geonames", "gaz")?;
//!     for place in gazetteer.search(&[("name_equals", "évreux"), ("country", "FR")])? {
//!         println!("{} {}", place["name"], place["population"]);
//!     }
use std::collections::HashMap;
use std::io::{self, BufRead, BufReader, Write};
use std::process::{Child, ChildStdout, Command, ExitStatus, Stdio};

const PLACE: &str = "geonameid name asciiname alternatenames latitude longitude feature_class \
    feature_code country_code cc2 admin1_code admin2_code admin3_code admin4_code population \
    elevation dem timezone modification_date";
const CODE: &str = "code name ascii_name geonameid";

/// The columns of a line by their names.
pub type Columns = HashMap<&'static str, String>;

#[derive(Debug)]
pub enum Failure {
    /// The mirror refused the request; the words are its reply, without `refused`.
    Refused(String),
    /// The program ended before it replied.
    Ended(ExitStatus),
    /// The pipe failed, or the request isn't one line.
    Pipe(io::Error),
}

pub struct Gazetteer {
    process: Child,
    replies: BufReader<ChildStdout>,
}

impl Gazetteer {
    /// Opens the mirror in the folder, where the export's files are too.
    pub fn open(folder: &str, program: &str) -> io::Result<Self> {
        let mut command = Command::new(program);
        command.arg("serve").current_dir(folder);
        let mut process = command.stdin(Stdio::piped()).stdout(Stdio::piped()).spawn()?;
        let replies = BufReader::new(process.stdout.take().expect("it is piped"));
        Ok(Gazetteer { process, replies })
    }

    /// The lines of a reply before its last one, which begins with `ok`. So `ask("day 2024-03-02")` applies a day.
    pub fn ask(&mut self, request: &str) -> Result<Vec<String>, Failure> {
        if request.contains('\n') {
            return Err(Failure::Pipe(io::ErrorKind::InvalidInput.into()));
        }
        if let Some(requests) = &mut self.process.stdin {
            // This fails only where the program has ended, and then its replies end too.
            let _ = requests.write_all(format!("{request}\n").as_bytes());
        }
        let mut lines = Vec::new();
        loop {
            let mut line = String::new();
            self.replies.read_line(&mut line).map_err(Failure::Pipe)?;
            if line.pop() != Some('\n') {
                return Err(self.process.wait().map_or_else(Failure::Pipe, Failure::Ended));
            } else if line.starts_with("ok ") {
                return Ok(lines);
            } else if let Some(words) = line.strip_prefix("refused ") {
                return Err(Failure::Refused(words.to_string()));
            }
            lines.push(line);
        }
    }

    /// The place, or none.
    pub fn get(&mut self, geonameid: u32) -> Result<Option<Columns>, Failure> {
        Ok(self.named(PLACE, &format!("get {geonameid}"))?.pop())
    }

    /// The places that pass, by population; the parameters are those of docs/PROTOCOL.md.
    pub fn search(&mut self, parameters: &[(&str, &str)]) -> Result<Vec<Columns>, Failure> {
        let words = parameters.iter().map(|(name, value)| format!("{name}={value}"));
        let request = format!("search {}", words.collect::<Vec<_>>().join("\t"));
        self.named(PLACE, if parameters.is_empty() { "search" } else { &request })
    }

    pub fn children(&mut self, geonameid: u32, most: u32) -> Result<Vec<Columns>, Failure> {
        self.named(PLACE, &format!("children {geonameid} maxRows={most}"))
    }

    /// From the top down to the place itself.
    pub fn hierarchy(&mut self, geonameid: u32) -> Result<Vec<Columns>, Failure> {
        self.named(PLACE, &format!("hierarchy {geonameid}"))
    }

    /// The admin code's line, or none.
    pub fn admin(&mut self, code: &str) -> Result<Option<Columns>, Failure> {
        Ok(self.named(CODE, &format!("admin {code}"))?.pop())
    }

    /// Ends the program; its status is 0 where all went well.
    pub fn close(mut self) -> io::Result<ExitStatus> {
        self.process.wait()
    }

    fn named(&mut self, names: &'static str, request: &str) -> Result<Vec<Columns>, Failure> {
        let columns = |line: &String| names.split(' ').zip(line.split('\t').map(String::from)).collect();
        Ok(self.ask(request)?.iter().map(columns).collect())
    }
}
