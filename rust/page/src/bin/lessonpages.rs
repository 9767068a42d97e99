//! `lessonpages LESSON RUNS OUT` writes the lesson's pages into the folder OUT:
//! a page for each chapter of the text LESSON, and an index. RUNS is a folder
//! that has of each example NAME its text, its event file and its proved
//! listing: `NAME.txt`, `NAME.events` and `NAME.listing`. The exit status is 1
//! where the second program would have written another line.

use events::program::{ended, Stop};
use page::lesson::{Lesson, INDEX};
use page::steps::Run;
use std::fs;
use std::path::Path;
use std::process::ExitCode;

fn main() -> ExitCode {
    ended(run)
}

fn run(arguments: &[String]) -> Result<(), Stop> {
    let (lesson, runs, out) = match arguments {
        [lesson, runs, out] => (lesson, Path::new(runs), Path::new(out)),
        _ => return Err(String::from("usage: lessonpages LESSON RUNS OUT").into()),
    };
    let text = read(Path::new(lesson))?;
    let lesson = Lesson::of(&String::from_utf8_lossy(&text))?;
    for (at, chapter) in lesson.chapters.iter().enumerate() {
        let part = |kind: &str| read(&runs.join(format!("{}.{}", chapter.example, kind)));
        let run = Run::of(&part("events")?, &part("listing")?, Some(&part("txt")?));
        if run.different() > 0 {
            let name = &chapter.example;
            return Err(format!("the second program differs on {}", name).into());
        }
        write(&out.join(&chapter.file), &lesson.page(at, &run))?;
    }
    write(&out.join(INDEX), &lesson.index())?;
    Ok(())
}

fn read(path: &Path) -> Result<Vec<u8>, String> {
    fs::read(path).map_err(|error| told(path, error))
}

fn write(path: &Path, page: &str) -> Result<(), String> {
    fs::write(path, page).map_err(|error| told(path, error))
}

fn told(path: &Path, error: std::io::Error) -> String {
    format!("lessonpages: {}: {}", path.display(), error)
}
