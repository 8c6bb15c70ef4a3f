//! Many jobs side by side, refused ones among them: the answers are those of one after the other.

mod common;

use arvumnao::{Job, UseCounts};
use common::{limited, unreachable, Folder, CROWDED, JOB_B, TIMED};

/// Fifty jobs: sound ones, texts that are refused, and jobs that are not routed.
fn fifty(folder: &Folder) -> Vec<String> {
    let texts = [
        JOB_B.to_string(),
        CROWDED.to_string(),
        limited(),
        TIMED.to_string(),
        JOB_B.replacen("N,3,5,1", "N,3,5,0", 1),
        unreachable(),
        JOB_B.replace('\n', "\r\n"),
    ];
    let name = |number: usize| format!("job_{number}.txt");
    (0..50).for_each(|number| folder.write(&name(number), &texts[number % texts.len()]));
    (0..50).map(name).collect()
}

#[test]
fn the_same_whatever_runs_beside() {
    let folder = Folder::new("fifty");
    let jobs = fifty(&folder);
    let run = |parallel: &str| {
        let mut args = vec!["route", "-j", parallel];
        args.extend(jobs.iter().map(String::as_str));
        folder.run(&args)
    };
    let one = run("1");
    assert_eq!(one.status, 3);
    // 8 of job B, 8 crowded, 7 timed
    assert_eq!(one.out.lines().filter(|line| line.starts_with('R')).count(), 8 + 7 + 7);
    for (number, job) in jobs.iter().enumerate() {
        let told = one.told.lines().filter(|line| line.starts_with(&format!("{job}:"))).count();
        assert_eq!(told, usize::from([2, 4, 5, 6].contains(&(number % 7))), "{job}");
    }
    for parallel in ["2", "7", "64", "0"] {
        assert_eq!(run(parallel), one);
    }
}

#[test]
fn a_folder_of_fifty() {
    let folder = Folder::new("fifty_files");
    let jobs = fifty(&folder);
    let mut args = vec!["route", "-j", "4", "-d", "out"];
    args.extend(jobs.iter().map(String::as_str));
    assert_eq!(folder.run(&args).status, 3);
    for (number, job) in jobs.iter().enumerate() {
        let stem = job.strip_suffix(".txt").unwrap();
        let stands = |ending: &str| folder.0.join(format!("out/{stem}.{ending}")).exists();
        assert_eq!(stands("routes"), [0, 1, 3].contains(&(number % 7)), "{job}");
        assert_eq!(stands("log"), number % 7 == 2, "{job}");
    }
}

/// The counts of parts, added, are those of one run over all.
#[test]
fn counts_add_up() {
    let folder = Folder::new("fifty_uses");
    let mut jobs = Vec::new();
    for number in 0..50 {
        let name = format!("job_{number}.txt");
        // jobs of one block: net 0 goes to either sink, and some are refused
        let text = match number % 5 {
            0 => limited(),
            1 => JOB_B.replacen("T,0,4", "T,0,5", 1),
            _ => JOB_B.to_string(),
        };
        folder.write(&name, text);
        jobs.push(name);
    }
    let run = |parallel: &str| {
        let mut args = vec!["uses", "--csv", "--skip-refused", "-j", parallel];
        args.extend(jobs.iter().map(String::as_str));
        folder.run(&args)
    };
    let one = run("1");
    assert_eq!(one.status, 3);
    assert_eq!(one.told.lines().filter(|line| line.contains(": X,9,")).count(), 20);
    assert_eq!(run("8"), one);
    let mut counts = UseCounts::default();
    let mut block = None;
    for job in &jobs {
        let job = Job::read(folder.read(job).as_bytes()).unwrap();
        if let Ok(answer) = job.route() {
            counts.add(&job.block, &answer.log).unwrap();
            block = Some(job.block);
        }
    }
    for line in counts.text(&block.unwrap()).unwrap().lines().filter(|line| !line.ends_with(",0,0")) {
        let fields: Vec<&str> = line.split(',').collect();
        let row = one.out.lines().find(|row| row.starts_with(&format!("{},", fields[1]))).unwrap();
        assert!(row.contains(&format!(",{},{},", fields[2], fields[3])), "{row} is not {line}");
    }
}
