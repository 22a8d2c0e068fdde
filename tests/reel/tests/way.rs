//! A reel's way as the tool tells it, against the reference's reading of the same log; and the tables that calls leave in the library file.

use reel::days::{log, plan, Chance};
use reel::file::{read, File};
use reel::tool::{answer, Room};
use reel::way::{follow, places, Step};
use std::fs;

const DAYS: u64 = 12;
const LINES: u32 = 300;

struct Day {
    room: Room,
    library: String,
    reels: u32,
    chance: Chance,
}

impl Day {
    fn new(name: &str, seed: u64) -> Day {
        let mut chance = Chance(0x9E37_79B9_7F4A_7C15 ^ (seed << 20));
        let plan = plan(&mut chance);
        let room = Room::new(&format!("{name}-{seed}"));
        fs::write(room.path("labels"), &plan.labels).expect("a list of labels");
        let library = room.path("vault.loft").display().to_string();
        let labels = room.path("labels").display().to_string();
        let first = format!("{}", 1 + seed * 1000);
        let mut words = vec!["new", &library, "--labels", &labels, "--first", &first];
        words.extend(plan.words.iter().map(String::as_str));
        answer(&words, &[0]);
        Day {
            room,
            library,
            reels: plan.reels,
            chance,
        }
    }

    fn file(&self) -> File {
        read(&fs::read(&self.library).expect("the library file"))
    }
}

/// A row of the sheet: label, volume, number, line, host, call, from, from_place, to, to_place.
fn steps(sheet: &str, first: u32) -> Vec<Step> {
    let address = |text: &str| u32::from_str_radix(text.trim_end_matches('h'), 16).unwrap_or(0);
    let row = |line: &str| {
        let fields: Vec<&str> = line.split(',').collect();
        assert_eq!(fields.len(), 10, "{line}");
        let number: u32 = fields[2].parse().expect("a number");
        assert_eq!(
            fields[3].parse::<u32>().expect("a line"),
            number - first + 1
        );
        Step {
            number,
            host: fields[4].parse().expect("a host"),
            from: address(fields[6]),
            to: address(fields[8]),
        }
    };
    sheet.lines().skip(1).map(row).collect()
}

#[test]
fn each_reel_goes_where_the_reference_says() {
    let mut told = 0;
    for seed in 1..=DAYS {
        let mut day = Day::new("way", seed);
        let file = day.file();
        let log = log(&mut day.chance, &file.then, (file.first, LINES), day.reels);
        let path = day.room.path("day.log").display().to_string();
        fs::write(&path, &log).expect("a log");
        let mut tables = file.then.clone();
        let ways = follow(&mut tables, &log, file.first);
        let ends = places(&tables);
        for volume in 1..=day.reels {
            let reel = format!("volume:{volume}");
            let sheet = answer(
                &["replay", &day.library, &path, "--reel", &reel, "--csv", "-"],
                &[0],
            );
            let expected = ways.get(&volume).cloned().unwrap_or_default();
            assert_eq!(
                steps(&sheet, file.first),
                expected,
                "day {seed}, volume {volume}"
            );
            let text = answer(&["replay", &day.library, &path, "--reel", &reel], &[0]);
            let now = ends
                .get(&volume)
                .map_or("outside".to_string(), |a| format!("{a:04X}h"));
            let line = text
                .lines()
                .find(|line| line.contains("now: "))
                .expect("where it is now");
            assert!(
                line.ends_with(&now),
                "day {seed}, volume {volume}: {line}, expected {now}"
            );
            told += expected.len();
        }
    }
    assert!(told > 1000, "only {told} steps in all days");
}

/// The words that send what a line of a log records.
fn words(line: &str, library: &str) -> Vec<String> {
    let fields: Vec<&str> = line.trim_end_matches('\n').split('\t').collect();
    let mut words: Vec<String> = Vec::new();
    let parameters = fields[3];
    let given: Vec<String> = match (fields[1], fields[2]) {
        ("0", "01") => {
            let volume = u32::from_str_radix(&parameters[4..], 16).expect("a volume");
            vec![
                "import".into(),
                library.into(),
                parameters[..4].into(),
                format!("volume:{volume}"),
            ]
        }
        ("0", "02") => vec!["export".into(), library.into(), parameters.into()],
        ("0", _) => vec!["reset".into(), library.into()],
        (host, block) => {
            let send = [
                "send",
                library,
                "--host",
                host,
                block,
                "--parameters",
                parameters,
            ];
            send.iter().map(ToString::to_string).collect()
        }
    };
    words.extend(given);
    words
}

#[test]
fn calls_leave_the_tables_and_the_log_that_the_reference_has() {
    for seed in 1..=3 {
        let mut day = Day::new("sent", seed);
        let file = day.file();
        let all = log(&mut day.chance, &file.then, (file.first, 80), day.reels);
        // Host 9 has the form of a line, and the tool sends for hosts 1 to 8 alone.
        let calls: Vec<&str> = all
            .lines()
            .filter(|line| line.split('\t').nth(1) != Some("9"))
            .collect();
        let mut log = String::new();
        for (number, line) in (file.first..).zip(&calls) {
            let rest = line.split_once('\t').expect("four fields").1;
            log += &format!("{number}\t{rest}\n");
            let words = words(line, &day.library);
            answer(
                &words.iter().map(String::as_str).collect::<Vec<_>>(),
                &[0, 1],
            );
        }
        let mut tables = file.then.clone();
        follow(&mut tables, &log, file.first);
        let after = day.file();
        assert_eq!(after.now, tables, "day {seed}: the tables");
        assert_eq!(after.then, file.then, "day {seed}: the tables as they were");
        let kept = fs::read_to_string(format!("{}.log", day.library)).expect("the log");
        assert_eq!(kept, log, "day {seed}: the log");
        assert_eq!(
            (after.next, after.place),
            (file.first + calls.len() as u32, log.len() as u64)
        );
    }
}
