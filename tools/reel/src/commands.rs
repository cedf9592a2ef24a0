//! The subcommands.

use crate::failure::Failure;
use crate::filter::{Filter, Span};
use crate::forecast::{Foretold, Most};
use crate::history::{FrameHistory, History};
use crate::looks::Watched;
use crate::options::{help, Command, Form, Plan, Shift};
use crate::output::{create, put, to_standard, Out};
use crate::record::Record;
use crate::run::{
    each_message, name_of, names_frame_outside, open, tell, Answered, Outcome, Pass, Run,
};
use crate::start::tables;
use crate::summary::Summary;
use crate::{diff, json, lines, view, words};
use kernel::layout;
use std::ffi::OsStr;
use std::fs;
use std::io::{BufRead, BufReader};

/// How a command ended that was carried out.
pub enum Status {
    Done,
    /// A message was refused, and the caller asked to fail on that; or two runs part; or a file does not
    /// fit.
    Otherwise,
}

pub fn run(command: Command) -> Result<Status, Failure> {
    match command {
        Command::Help => to_standard(|out| out.line(help().trim_end())).map(done),
        Command::Version => to_standard(|out| out.line(version())).map(done),
        Command::Write { lines, out } => write(&lines, &out).map(done),
        Command::Words { file } => {
            words_of(&file)?.tell_notes(&file);
            Ok(Status::Done)
        }
        Command::Show {
            shift,
            filter,
            form,
        } => show(&shift, &filter, form),
        Command::Page {
            shift,
            page,
            at: None,
        } => history(&shift, page),
        Command::Page {
            shift,
            page,
            at: Some(at),
        } => latest(&shift, page, at),
        Command::Frame {
            shift,
            frame,
            at: None,
        } => frame_history(&shift, frame),
        Command::Frame {
            shift,
            frame,
            at: Some(at),
        } => frame_at(&shift, frame, at),
        Command::View { shift, span, out } => picture(&shift, span, &out),
        Command::Diff { shift, other } => differ(&shift, &other),
        Command::Forecast(plan) => forecast(&plan),
    }
}

fn done((): ()) -> Status {
    Status::Done
}

/// The end of a shift.
fn end(run: &Run) -> Result<Status, Failure> {
    Ok(match run.end()? {
        true => Status::Done,
        false => Status::Otherwise,
    })
}

fn version() -> String {
    let [patch, minor, major, _] = kernel::version().to_le_bytes();
    let reel = env!("CARGO_PKG_VERSION");
    format!("reel {reel}, kernel {major}.{minor}.{patch}")
}

fn write(path: &OsStr, out: &OsStr) -> Result<(), Failure> {
    let (file, notes) = call_file(path)?;
    put(out, path, &file)?;
    // After the file, since nothing is written if a later line stands for nothing.
    tell(path, &notes);
    Ok(())
}

/// The call file of the lines at this place, with a note on each call that the writer refuses.
fn call_file(path: &OsStr) -> Result<(Vec<u8>, Vec<String>), Failure> {
    let (input, _) = open(path)?;
    let mut input = BufReader::new(input);
    let (mut file, mut notes) = (Vec::new(), Vec::new());
    let (mut line, mut number) = (Vec::new(), 0);
    let name = name_of(path);
    loop {
        line.clear();
        let length = input.read_until(b'\n', &mut line);
        if length.map_err(|error| Failure::at(&name, error))? == 0 {
            return Ok((file, notes));
        }
        number += 1;
        let wrong = |error| Failure::line(format!("{name}: line {number}: {error}"));
        let text = std::str::from_utf8(&line).map_err(|_| wrong("not a line of text".into()))?;
        // Some editors begin a file of text with a byte order mark.
        let text = text
            .strip_prefix('\u{FEFF}')
            .filter(|_| number == 1)
            .unwrap_or(text);
        let written = lines::written(text).map_err(wrong)?;
        if let Some(refused) = written.refused {
            let word = words::word(refused);
            notes.push(format!(
                "line {number}: the writer refuses this call, {refused} {word}; written all the same"
            ));
        }
        file.extend(written.bytes);
    }
}

fn words_of(file: &OsStr) -> Result<Outcome, Failure> {
    to_standard(|out| {
        each_message(file, Pass::whole().printing(out), |_, message| {
            out.line(lines::line(message))
        })
    })
}

fn show(shift: &Shift, filter: &Filter, form: Form) -> Result<Status, Failure> {
    let run = Run::start(shift)?;
    let mut run = match filter.frame {
        Some(frame) => run.has_frame(frame).map(|()| run)?,
        None => run.unwatched(),
    };
    let mut summary = Summary::default();
    to_standard(|out| {
        run.each(Pass::up_to(filter.span.to).printing(out), |answered| {
            if !filter.admits(&answered) {
                return Ok(());
            }
            match form {
                Form { summary: true, .. } => summary.count(&answered),
                Form { json: true, .. } => out.line(json::line(&answered))?,
                _ => out.line(answered.line())?,
            }
            Ok(())
        })?;
        if filter.span.from > 1 {
            run.has_message("--from", filter.span.from)?;
        }
        run.watched.look_around();
        match form.summary {
            true => summarize(out, &summary, form, &run.watched),
            false => Ok(()),
        }
    })?;
    end(&run)
}

fn summarize(out: &Out, summary: &Summary, form: Form, watched: &Watched) -> Result<(), Failure> {
    match form.json {
        true => out.line(summary.json(watched)),
        false => summary
            .lines(watched)
            .into_iter()
            .try_for_each(|line| out.line(line)),
    }
}

fn history(shift: &Shift, page: u8) -> Result<Status, Failure> {
    let mut run = Run::start(shift)?;
    let mut history = History::start(page, &run.watched);
    let (fast, _) = run.watched.frames();
    each_printed(&mut run, |answered| {
        history.follow(answered, page);
        answered.is_about(page).then(|| history.line(fast))
    })?;
    end(&run)
}

fn frame_history(shift: &Shift, frame: u8) -> Result<Status, Failure> {
    let mut run = Run::start(shift)?;
    run.has_frame(frame)?;
    let mut history = FrameHistory::start(frame, &run.watched);
    each_printed(&mut run, |answered| {
        history.follow(answered);
        answered.touches(frame).then(|| history.line())
    })?;
    end(&run)
}

/// Prints each message for which there is something to say, with what that is.
fn each_printed(
    run: &mut Run,
    mut say: impl FnMut(&Answered) -> Option<String>,
) -> Result<(), Failure> {
    to_standard(|out| {
        run.each(Pass::whole().printing(out), |answered| {
            match say(&answered) {
                Some(words) => out.line(format_args!("{} | {words}", answered.line())),
                None => Ok(()),
            }
        })
    })
}

fn latest(shift: &Shift, page: u8, at: u64) -> Result<Status, Failure> {
    let mut run = Run::start(shift)?;
    let mut history = History::start(page, &run.watched);
    run.each(Pass::up_to(at), |answered| {
        history.follow(&answered, page);
        Ok(())
    })?;
    run.has_message("--at", at)?;
    let (fast, _) = run.watched.frames();
    to_standard(|out| {
        let mut lines = history.latest(page, at, fast).into_iter();
        lines.try_for_each(|line| out.line(line))
    })?;
    end(&run)
}

fn frame_at(shift: &Shift, frame: u8, at: u64) -> Result<Status, Failure> {
    let mut run = Run::start(shift)?;
    run.has_frame(frame)?;
    let mut history = FrameHistory::start(frame, &run.watched);
    run.each(Pass::up_to(at), |answered| {
        history.follow(&answered);
        Ok(())
    })?;
    run.has_message("--at", at)?;
    let (fast, _) = run.watched.frames();
    to_standard(|out| out.line(history.at(at, fast)))?;
    end(&run)
}

fn picture(shift: &Shift, span: Span, path: &OsStr) -> Result<Status, Failure> {
    count_ahead(shift, span)?;
    let mut run = Run::start(shift)?;
    let mut record = Record::default();
    let before = span.from - 1;
    if before == 0 {
        record.start(0, &run.watched);
    }
    run.each(Pass::up_to(span.to), |answered| {
        if answered.number == before {
            record.start(before, answered.watched);
        }
        if answered.number > before {
            record.turn(&answered);
        }
        has_room(record.messages)
    })?;
    if before > 0 {
        run.has_message("--from", span.from)?;
    }
    let most = Most::of(&record.tables, &record.file);
    let mut out = create(path, &shift.file)?;
    let written = view::write(
        &mut out,
        &name_of(&shift.file),
        run.watched.frames(),
        &record,
        &most,
    );
    written.map_err(|error| Failure::at(path.display(), error))?;
    end(&run)
}

/// An error at once where a plain file, which can be read twice, has more messages than a page.
fn count_ahead(shift: &Shift, span: Span) -> Result<(), Failure> {
    if !fs::metadata(&shift.file).is_ok_and(|data| data.is_file()) {
        return Ok(());
    }
    let last = span.from.saturating_add(view::MOST_MESSAGES).min(span.to);
    let outcome = each_message(&shift.file, Pass::up_to(last), |_, _| Ok(()))?;
    has_room(outcome.messages.saturating_sub(span.from - 1))
}

/// An error if a page has no room for so many messages.
fn has_room(messages: u64) -> Result<(), Failure> {
    let most = view::MOST_MESSAGES;
    match messages > most {
        true => Err(Failure::line(format!(
            "a page has room for {most} messages, and there are more; --from and --to choose a part"
        ))),
        false => Ok(()),
    }
}

fn differ(shift: &Shift, other: &OsStr) -> Result<Status, Failure> {
    let lines = diff::parting(shift, other)?;
    to_standard(|out| {
        if lines.is_empty() {
            return out.line(diff::same(shift, other));
        }
        lines.iter().try_for_each(|line| out.line(line))
    })?;
    Ok(match lines.is_empty() {
        true => Status::Done,
        false => Status::Otherwise,
    })
}

fn forecast(plan: &Plan) -> Result<Status, Failure> {
    let tables = tables(&plan.start)?;
    let frames = (tables[layout::P], tables[layout::S]);
    let (mut file, mut outside) = (Vec::new(), 0);
    let mut outcome = each_message(&plan.file, Pass::whole(), |_, message| {
        outside += u64::from(names_frame_outside(frames, message));
        file.extend(message);
        Ok(())
    })?;
    let foretold = Foretold::of(&tables, &file, plan.frames);
    to_standard(|out| match plan.json {
        true => out.line(foretold.json()),
        false => {
            let mut lines = foretold.lines().into_iter();
            lines.try_for_each(|line| out.line(line))
        }
    })?;
    outcome.note_size(&plan.start, outside);
    outcome.tell_notes(&plan.file);
    let is_refused = plan.strict && foretold.refused() > 0;
    Ok(match foretold.fits() && !is_refused {
        true => Status::Done,
        false => Status::Otherwise,
    })
}
