//! The example of a head, built in C: streams of groups whose airings are plain from how they were
//! sent, random ones whose airings follow from the policy over the independent collector, and input
//! that ends too soon. The files that the head writes, its report, its lines of progress, the line that
//! it ends with and its status are compared.

mod record;
mod streams;

use independent::random::histories::{calls, Call};
use independent::random::Random;
use record::{files, Aired, Files, Record, Tally, LIMIT, SLOTS};
use std::fs::{self, File};
use std::io::{ErrorKind, Write};
use std::path::{Path, PathBuf};
use std::process::{Command, Output, Stdio};

const SEED: u64 = 65_536;
/// So many streams of each sort.
const EACH: u64 = 12;
const CUT: u64 = 12;
/// Of so many streams of a sort the last is without a report, and of so many the last without progress.
const REPORTED: u64 = 5;
const FOLLOWED: u64 = 3;
const HISTORIES: u64 = 40;
const CALLS: usize = 250;

/// Lines of progress that must be compared in all streams, and of these with nothing known.
const PROGRESS_LEAST: usize = 20_000;
const UNKNOWN_LEAST: usize = 5_000;

/// What a head is asked for beside its record.
#[derive(Clone, Copy)]
struct Asked {
    report: bool,
    progress: bool,
}

/// A head, and a folder and a report of its own.
struct Head {
    top: PathBuf,
    folder: PathBuf,
    report: PathBuf,
}

fn said(error: std::io::Error) -> String {
    error.to_string()
}

impl Head {
    fn new() -> Head {
        let top = PathBuf::from(env!("CARGO_MANIFEST_DIR")).join("..");
        let folder = top.join("target/head_objects");
        let report = top.join("target/head_report");
        Head {
            top,
            folder,
            report,
        }
    }

    fn clear(&self) -> Result<(), String> {
        if self.report.exists() {
            fs::remove_file(&self.report).map_err(said)?;
        }
        if self.folder.exists() {
            fs::remove_dir_all(&self.folder).map_err(said)?;
        }
        fs::create_dir_all(&self.folder).map_err(said)
    }

    /// A head with these words.
    fn command(&self, words: &[&Path]) -> Command {
        let mut command = Command::new(self.top.join("target/head"));
        command.args(words);
        command.stdout(Stdio::piped()).stderr(Stdio::piped());
        command
    }

    /// Runs a head on its own folder, with a report and progress or without.
    fn run(&self, input: &[u8], asked: Asked) -> Result<Output, String> {
        let words: [&Path; 3] = [Path::new("--progress"), &self.folder, &self.report];
        let first = usize::from(!asked.progress);
        let end = 2 + usize::from(asked.report);
        self.run_on(&words[first..end], input)
    }

    fn run_on(&self, words: &[&Path], input: &[u8]) -> Result<Output, String> {
        self.feed(self.command(words), input)
    }

    /// Runs a head on this input.
    fn feed(&self, mut command: Command, input: &[u8]) -> Result<Output, String> {
        let mut child = command.stdin(Stdio::piped()).spawn().map_err(said)?;
        let mut stdin = child.stdin.take().expect("standard input is piped");
        match stdin.write_all(input) {
            // A head that ends before its input does reads no more of it.
            Err(error) if error.kind() != ErrorKind::BrokenPipe => return Err(said(error)),
            _ => (),
        }
        drop(stdin);
        child.wait_with_output().map_err(said)
    }

    /// The folder has these files and no others.
    fn has(&self, expected: &Files) -> Result<(), String> {
        let mut written = 0;
        for entry in fs::read_dir(&self.folder).map_err(said)? {
            let entry = entry.map_err(said)?;
            let name = entry.file_name().to_string_lossy().into_owned();
            match expected.get(&name) {
                Some(sent) if *sent == fs::read(entry.path()).map_err(said)? => written += 1,
                Some(_) => return Err(format!("{name} is not what was sent")),
                None => return Err(format!("{name} was never aired")),
            }
        }
        if written != expected.len() {
            return Err(format!("{written} files, not {}", expected.len()));
        }
        Ok(())
    }

    /// The report has these lines and no others; it is there only where one was asked for.
    fn has_report(&self, expected: &str, reported: bool) -> Result<(), String> {
        if self.report.exists() != reported {
            return Err(format!(
                "a report asked for: {reported}, and there: {}",
                !reported
            ));
        }
        if !reported {
            return Ok(());
        }
        let report = fs::read_to_string(&self.report).map_err(said)?;
        if report == expected {
            return Ok(());
        }
        let mut lines = report.lines().zip(expected.lines());
        let differing = lines.find(|(ours, theirs)| ours != theirs);
        Err(format!(
            "{} lines of the report, not {}, and the first that differ are {differing:?}",
            report.lines().count(),
            expected.lines().count()
        ))
    }
}

/// The place of the first lines that differ, and these; nothing stands for a text that has ended.
fn first_difference(ours: &str, theirs: &str) -> String {
    let [ours, theirs] = [ours, theirs].map(|text| text.lines().map(Some).chain([None]));
    let mut pairs = ours.zip(theirs).enumerate();
    let differing = pairs.find(|(_, (ours, theirs))| ours != theirs);
    format!("{differing:?}")
}

/// What a head is to say: how far it came, at the end its line, and why it ended too soon.
fn ended(
    output: &Output,
    tally: &Tally,
    progress: &str,
    problem: Option<&str>,
) -> Result<(), String> {
    let line = String::from_utf8_lossy(&output.stdout);
    if line != tally.line() {
        return Err(format!("{line:?}, not {:?}", tally.line()));
    }
    let said = String::from_utf8_lossy(&output.stderr);
    let problem = problem.map_or(String::new(), |problem| format!("head: {problem}\n"));
    let expected = [progress, &problem].concat();
    if said != expected {
        let difference = first_difference(&said, &expected);
        return Err(format!("standard error differs: {difference}"));
    }
    let status = output.status.code();
    if status != Some(i32::from(!problem.is_empty())) {
        return Err(format!("status {status:?}"));
    }
    Ok(())
}

fn encoded(groups: &[Vec<u8>]) -> Vec<u8> {
    let mut input = Vec::new();
    for group in groups {
        input.extend((group.len() as u16).to_be_bytes());
        input.extend(group);
    }
    input
}

/// How many streams of a sort ran, with how much in them.
struct Seen {
    sort: &'static str,
    streams: u64,
    groups: usize,
    airings: usize,
    again: usize,
    lost: usize,
    lines: usize,
    progress: usize,
    unknown: usize,
}

impl Seen {
    fn of(sort: &'static str) -> Seen {
        Seen {
            sort,
            streams: 0,
            groups: 0,
            airings: 0,
            again: 0,
            lost: 0,
            lines: 0,
            progress: 0,
            unknown: 0,
        }
    }

    /// What the next stream is run with.
    fn asked(&self) -> Asked {
        Asked {
            report: self.streams % REPORTED != REPORTED - 1,
            progress: self.streams % FOLLOWED != FOLLOWED - 1,
        }
    }

    /// The lines of progress of a record, if they are asked for with the next stream.
    fn progress_of<'record>(&self, record: &'record Record) -> &'record str {
        match self.asked().progress {
            true => &record.progress,
            false => "",
        }
    }

    fn count(&mut self, groups: usize, record: &Record) {
        let tally = &record.tally;
        if self.asked().report {
            self.lines += tally.taken + tally.repeated;
        }
        let progress = self.progress_of(record).lines();
        self.progress += progress.clone().count();
        self.unknown += progress.filter(|line| line.ends_with("unknown")).count();
        self.streams += 1;
        self.groups += groups;
        self.airings += tally.written;
        self.again += tally.complete - tally.written;
        self.lost += tally.dropped_unfinished;
    }

    fn told(&self) -> String {
        let Seen {
            sort,
            streams,
            groups,
            airings,
            again,
            lost,
            lines,
            progress,
            unknown,
        } = self;
        format!(
            "{streams} {sort} ({groups} groups, {airings} airings, {again} complete again, {lost} lost, {lines} lines \
             reported, {progress} of progress with {unknown} unknown)"
        )
    }
}

/// Runs a head on whole groups: its files are those of what was aired, which is what the policy makes
/// of the groups, too.
fn whole(
    head: &Head,
    groups: &[Vec<u8>],
    aired: Option<&[Aired]>,
    seen: &mut Seen,
) -> Result<(), String> {
    let record = Record::of(groups);
    let by_policy = files(&record.aired);
    let expected = aired.map_or(by_policy.clone(), files);
    if expected != by_policy {
        return Err("the policy makes something else of what was sent".to_string());
    }
    head.clear()?;
    let output = head.run(&encoded(groups), seen.asked())?;
    ended(&output, &record.tally, seen.progress_of(&record), None)?;
    head.has(&expected)?;
    head.has_report(&record.report, seen.asked().report)?;
    seen.count(groups.len(), &record);
    Ok(())
}

/// A stream that is cut: between two groups, inside a length or inside a group. What was complete
/// before the cut is in the folder, and nothing else.
fn cut(head: &Head, random: &mut Random, seen: &mut [Seen; 3]) -> Result<(), String> {
    let (stream, complete) = streams::fresh(random);
    let left = random.within(0, stream.groups.len() - 1);
    let (before, after) = stream.groups.split_at(left);
    let mut input = encoded(before);
    let next = encoded(&after[..1]);
    let place = random.within(0, 2);
    let problem = match place {
        0 => None,
        1 => {
            input.push(next[0]);
            Some("the input ends inside a group's length")
        }
        _ => {
            input.extend(&next[..random.within(2, next.len() - 1)]);
            Some("the input ends inside a group")
        }
    };
    let was_complete = complete.iter().map(|&last| last < left);
    let aired: Vec<_> = stream.aired.into_iter().zip(was_complete).collect();
    let aired: Vec<_> = aired
        .into_iter()
        .filter_map(|(each, complete)| complete.then_some(each))
        .collect();
    let record = Record::of(before);
    let seen = &mut seen[place];
    head.clear()?;
    let output = head.run(&input, seen.asked())?;
    ended(&output, &record.tally, seen.progress_of(&record), problem)?;
    head.has(&files(&aired))?;
    head.has_report(&record.report, seen.asked().report)?;
    seen.count(left, &record);
    Ok(())
}

/// A head that is stopped and started again in the midst of a stream goes on with the record, and where
/// it has a report again with that.
fn restarted(head: &Head, random: &mut Random, seen: &mut Seen) -> Result<(), String> {
    let (parts, aired) = streams::crowded(random);
    let stop = random.within(1, parts.len() - 1);
    head.clear()?;
    let mut recorded = Vec::new();
    let mut lines = String::new();
    for part in [&parts[..stop], &parts[stop..]] {
        let groups = part.concat();
        let output = head.run(&encoded(&groups), seen.asked())?;
        let record = Record::after(recorded, &groups);
        ended(&output, &record.tally, seen.progress_of(&record), None)?;
        if seen.asked().report {
            lines += &record.report;
        }
        head.has_report(&lines, !lines.is_empty())?;
        seen.count(groups.len(), &record);
        recorded = record.aired;
    }
    if files(&recorded) != files(&aired) {
        return Err("the policy makes something else of what was sent".to_string());
    }
    head.has(&files(&aired))
}

/// A file that is cut short from outside is not the object: when it comes again it is written again.
fn spoilt(head: &Head, random: &mut Random, seen: &mut Seen) -> Result<(), String> {
    let (stream, _) = streams::fresh(random);
    let mut expected = files(&stream.aired);
    let bodies: Vec<_> = stream
        .aired
        .iter()
        .filter(|each| !each.body.is_empty())
        .collect();
    let Some(again) = bodies.get(random.within(0, bodies.len().max(1) - 1)) else {
        return Ok(());
    };
    head.clear()?;
    let input = encoded(&stream.groups);
    let mut record = Record::of(&stream.groups);
    let output = head.run(&input, seen.asked())?;
    ended(&output, &record.tally, seen.progress_of(&record), None)?;
    let twice = files(&[(*again).clone(), (*again).clone()]);
    // The first of its four files, by their names: the body of the first airing.
    let short = twice.keys().next().cloned().expect("an airing has files");
    let bytes = &again.body[..random.within(0, again.body.len() - 1)];
    fs::write(head.folder.join(&short), bytes).map_err(said)?;
    record.tally.written = 1;
    let output = head.run(&input, seen.asked())?;
    ended(&output, &record.tally, seen.progress_of(&record), None)?;
    expected.extend(twice);
    expected.insert(short, bytes.to_vec());
    head.has(&expected)?;
    head.has_report(&record.report.repeat(2), seen.asked().report)?;
    seen.count(stream.groups.len(), &record);
    Ok(())
}

/// The groups of a random history, whatever they are.
fn any_groups(random: &mut Random) -> Vec<Vec<u8>> {
    let calls = calls(random, LIMIT, SLOTS, CALLS);
    let groups = calls.into_iter().filter_map(|call| match call {
        Call::Take(group) => Some(group),
        _ => None,
    });
    groups.collect()
}

/// Words that are too few or too many.
fn misused(head: &Head) -> Result<usize, String> {
    let word: &Path = &head.folder;
    let progress = Path::new("--progress");
    let wrong = [
        &[][..],
        &[word; 3],
        &[progress],
        &[progress, word, word, word],
    ];
    for words in wrong {
        let output = head.run_on(words, &[])?;
        let message = String::from_utf8_lossy(&output.stderr);
        let expected = "usage: head [--progress] FOLDER [REPORT] < GROUPS\n";
        if message != expected || output.status.code() != Some(2) || !output.stdout.is_empty() {
            return Err(format!("{} words: {output:?}", words.len()));
        }
    }
    Ok(wrong.len())
}

/// A report that can't be opened, as it is a folder, and one that can't be written, as its device is full.
fn no_report(head: &Head) -> Result<usize, String> {
    let (stream, _) = streams::fresh(&mut Random::from_seed(SEED));
    let input = encoded(&stream.groups);
    head.clear()?;
    let output = head.run_on(&[&head.folder, &head.folder], &input)?;
    ended(
        &output,
        &Tally::default(),
        "",
        Some("the report can't be opened"),
    )?;
    head.has(&Files::new())?;

    // It ends with the first group that it would report, of which it still tells the progress.
    let record = first_stored(&stream);
    let full = Path::new("/dev/full");
    let output = head.run_on(&[Path::new("--progress"), &head.folder, full], &input)?;
    ended(
        &output,
        &record.tally,
        &record.progress,
        Some("the report can't be written"),
    )?;
    head.has(&files(&record.aired))?;
    Ok(2)
}

/// What a head that ends with the first group that is stored has recorded.
fn first_stored(stream: &streams::Stream) -> Record {
    let mut records = (1..).map(|count| Record::of(&stream.groups[..count]));
    let record = records.find(|record| !record.report.is_empty());
    record.expect("some group is stored")
}

/// Progress that can't be written, as the device is full: nor can the message, and the status says it.
fn no_progress(head: &Head) -> Result<usize, String> {
    let (stream, _) = streams::fresh(&mut Random::from_seed(SEED));
    head.clear()?;
    let mut command = head.command(&[Path::new("--progress"), &head.folder]);
    let full = File::options()
        .write(true)
        .open("/dev/full")
        .map_err(said)?;
    command.stderr(full);
    let output = head.feed(command, &encoded(&stream.groups))?;
    let record = first_stored(&stream);
    let line = String::from_utf8_lossy(&output.stdout);
    if line != record.tally.line() || output.status.code() != Some(1) {
        return Err(format!("{output:?} without a place for progress"));
    }
    head.has(&files(&record.aired))?;
    Ok(1)
}

/// What is no stream, no folder or no place to write: a message and a status.
fn problems(head: &Head) -> Result<usize, String> {
    let nothing = Tally::default();
    head.clear()?;
    let mut directory = head.command(&[&head.folder]);
    directory.stdin(File::open(&head.folder).map_err(said)?);
    let output = directory.output().map_err(said)?;
    ended(&output, &nothing, "", Some("the input can't be read"))?;

    let output = head.run_on(&[&head.folder.join("nowhere")], &[])?;
    ended(&output, &nothing, "", Some("the folder can't be read"))?;

    // A folder that is not empty stands where the head would write a file first.
    let random = &mut Random::from_seed(SEED);
    let (stream, complete) = streams::fresh(random);
    let first = complete.into_iter().min().expect("there is an object");
    let mut record = Record::of(&stream.groups[..=first]);
    record.tally.written = 0;
    for place in ["unfinished.body", "unfinished.header"] {
        head.clear()?;
        fs::create_dir_all(head.folder.join(place).join("taken")).map_err(said)?;
        let asked = Asked {
            report: false,
            progress: true,
        };
        let output = head.run(&encoded(&stream.groups), asked)?;
        // That it is complete is told before it is written.
        ended(
            &output,
            &record.tally,
            &record.progress,
            Some("an object can't be written"),
        )?;
        // Not even the half of the object that could be written is there.
        fs::remove_dir_all(head.folder.join(place)).map_err(said)?;
        head.has(&Files::new())?;
    }
    Ok(4 + no_report(head)? + no_progress(head)? + misused(head)?)
}

pub fn run() -> Result<String, String> {
    let head = Head::new();
    let mut all = Vec::new();
    let sorts: [(&str, fn(&mut Random) -> streams::Stream); 6] = [
        ("of new numbers", |random| streams::fresh(random).0),
        ("of numbers used again", streams::reused),
        ("of more numbers than slots", |random| {
            let (parts, aired) = streams::crowded(random);
            let groups = parts.concat();
            streams::Stream { groups, aired }
        }),
        ("with a slow object", streams::patient),
        ("of more unfinished objects than slots", streams::lost),
        ("with conflicts before the end", streams::in_the_way),
    ];
    for (sort, made) in sorts
        .into_iter()
        .chain([("with a stray group", streams::strayed as _)])
    {
        let mut seen = Seen::of(sort);
        for number in 0..EACH {
            let stream = made(&mut Random::from_seed(SEED + number));
            whole(&head, &stream.groups, Some(&stream.aired), &mut seen)
                .map_err(|said| format!("stream {number} {sort}: {said}"))?;
        }
        all.push(seen);
    }
    let mut restarts = Seen::of("halves of streams that a head was stopped and started again in");
    for number in 0..EACH {
        restarted(&head, &mut Random::from_seed(SEED + number), &mut restarts)
            .map_err(|said| format!("stream {number} with a restart: {said}"))?;
    }
    let mut spoilt_files = Seen::of("sent again after a file was cut short");
    for number in 0..EACH {
        spoilt(
            &head,
            &mut Random::from_seed(SEED + number),
            &mut spoilt_files,
        )
        .map_err(|said| format!("stream {number} with a spoilt file: {said}"))?;
    }
    let mut histories = Seen::of("of any groups");
    for number in 0..HISTORIES {
        let groups = any_groups(&mut Random::from_seed(SEED + number));
        whole(&head, &groups, None, &mut histories)
            .map_err(|said| format!("stream {number} of any groups: {said}"))?;
    }
    let mut cuts = [
        "cut between groups",
        "cut inside a length",
        "cut inside a group",
    ]
    .map(Seen::of);
    let mut number = 0;
    while cuts.iter().any(|seen| seen.streams < CUT) {
        cut(&head, &mut Random::from_seed(SEED + number), &mut cuts)
            .map_err(|said| format!("stream {number} that is cut: {said}"))?;
        number += 1;
    }
    all.extend([restarts, spoilt_files, histories].into_iter().chain(cuts));
    let progress: usize = all.iter().map(|seen| seen.progress).sum();
    let unknown: usize = all.iter().map(|seen| seen.unknown).sum();
    if progress < PROGRESS_LEAST || unknown < UNKNOWN_LEAST {
        return Err(format!(
            "only {progress} lines of progress, {unknown} unknown"
        ));
    }
    let problems = problems(&head)?;
    let told: Vec<String> = all.iter().map(Seen::told).collect();
    Ok(format!(
        "streams: {}; {progress} lines of progress in all, {unknown} of them unknown; and {problems} without input, \
         folder, report, place to write or the right words",
        told.join(", ")
    ))
}
