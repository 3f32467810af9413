//! What is drawn: boxes add up to the accounts, a refusal moves nothing and is told with its
//! reason, windows fit together, a faulty trace is drawn up to its stop.

use super::{all, examples};
use timeline::lanes::{lanes, Lane};
use timeline::layout::Entry;
use timeline::names::Names;
use timeline::page::page;
use timeline::run::{Run, View};
use timeline::svg::svg;
use timeline::words;
use vesztamor::Answer;

/// The ticks of a lane's boxes whose class has all of some words and none of others.
fn ticks(lane: &Lane, with: &[&str], without: &[&str]) -> u32 {
    let fits = |class: &str| {
        let has = |word: &&str| class.split(' ').any(|own| own == *word);
        with.iter().all(has) && !without.iter().any(has)
    };
    let boxes = lane.boxes.iter().filter(|span| fits(&span.what.class));
    boxes.map(|span| span.to - span.from).sum()
}

fn drawn(view: &View) -> Vec<Lane> {
    lanes(view, &Names::default())
}

/// Each lane's boxes, strip and line, as they stand on the clock.
fn shape(view: &View) -> Vec<String> {
    let of = |lane: Lane| {
        format!(
            "{:?} {:?} {:?} {:?}",
            lane.boxes, lane.strip, lane.budget, lane.deadlines
        )
    };
    drawn(view).into_iter().map(of).collect()
}

#[test]
fn boxes_add_up_to_the_accounts() {
    for (name, trace) in all(300) {
        let run = Run::of(&trace);
        let Some(view) = run.view(None, None) else {
            continue;
        };
        let last = run.last().unwrap();
        for lane in drawn(&view) {
            let number = usize::from(lane.entry.number());
            match lane.entry {
                Entry::Server(_) => {
                    let server = last.servers[number];
                    assert_eq!(ticks(&lane, &["x"], &["lent"]), server.own, "{name}");
                    assert_eq!(ticks(&lane, &["x", "lent"], &[]), server.lent, "{name}");
                    assert_eq!(ticks(&lane, &["s"], &[]), server.spin, "{name}");
                }
                Entry::Task(_) => assert_eq!(
                    ticks(&lane, &["x"], &[]),
                    last.tasks[number].executed,
                    "{name}"
                ),
                Entry::Resource(_) => {}
            }
        }
    }
}

fn is_refused(answer: Answer) -> bool {
    matches!(answer, Answer::Refused(_) | Answer::RefusedWaiting(_))
}

#[test]
fn a_refusal_moves_nothing() {
    let mut refusals = 0;
    for (name, trace) in all(150) {
        let mut run = Run::of(&trace);
        let Some(with) = run.view(None, None).map(|view| shape(&view)) else {
            continue;
        };
        let before = run.moments.len();
        run.moments.retain(|moment| !is_refused(moment.answer));
        refusals += before - run.moments.len();
        assert_eq!(with, shape(&run.view(None, None).unwrap()), "{name}");
    }
    assert!(refusals > 500, "only {refusals} refusals");
}

/// The page of a stored example, with names for two tasks and a resource.
fn page_of(example: &str) -> String {
    let (_, trace) = examples()
        .into_iter()
        .find(|(name, _)| name.contains(example))
        .unwrap();
    let names = Names::of("task 0 meter\ntask 2 label\nresource 1 map").unwrap();
    let run = Run::of(&trace);
    page(&run, run.view(None, None), &names, "x")
}

#[test]
fn why_a_task_does_not_act_is_told() {
    for (example, line, why) in [
        (
            "61-suspended",
            "2 refused 61",
            "refused to lock R0 for meter: the task is suspended",
        ),
        (
            "62-waiting",
            "12 refused 62 0",
            "refused to suspend T1: the task waits for R0",
        ),
        (
            "62-waiting",
            "17 refused 62 1",
            "refused to lock R0 for label: the task waits for map",
        ),
        (
            "63-not_served",
            "10 refused 63",
            "refused to unlock R0 for meter: the task is ready, and no Running server serves it",
        ),
    ] {
        let told = format!("<li><b>{line}</b> {why}</li>\n");
        assert!(page_of(example).contains(&told), "{example}: {told}");
    }
}

#[test]
fn windows_fit_together() {
    for (name, trace) in all(60) {
        let run = Run::of(&trace);
        let Some(whole) = run.view(None, None) else {
            continue;
        };
        let (lanes, middle) = (drawn(&whole), whole.to / 2);
        let first = drawn(&run.view(None, Some(middle)).unwrap());
        let second = drawn(&run.view(Some(middle), None).unwrap());
        for (place, lane) in lanes.iter().enumerate() {
            for class in ["x", "s", "a", "r", "w"] {
                let parts =
                    ticks(&first[place], &[class], &[]) + ticks(&second[place], &[class], &[]);
                assert_eq!(
                    parts,
                    ticks(lane, &[class], &[]),
                    "{name}: {class} in {:?}",
                    lane.entry
                );
            }
            let marks = first[place].marks.len() + second[place].marks.len();
            assert!(marks >= lane.marks.len(), "{name}");
        }
    }
}

#[test]
fn a_window_past_the_end_is_empty() {
    for (_, trace) in examples() {
        let run = Run::of(&trace);
        let Some(view) = run.view(Some(4_000_000_000), None) else {
            continue;
        };
        assert!(drawn(&view)
            .iter()
            .all(|lane| lane.boxes.is_empty() && lane.marks.is_empty()));
        assert!(svg(&run, Some(view), &Names::default(), "x").ends_with("</svg>\n"));
    }
}

#[test]
fn a_faulty_trace_is_drawn_up_to_its_stop() {
    let mut stops = 0;
    for (name, trace) in all(150) {
        let run = Run::of(&trace);
        let Some(stop) = run.stop else { continue };
        stops += 1;
        let told = words::stop(stop);
        for file in [
            svg(&run, run.view(None, None), &Names::default(), "x"),
            page(&run, run.view(None, None), &Names::default(), "x"),
        ] {
            assert!(file.contains(&told), "{name}: {told}");
        }
        let cut = Run::of(&trace[..stop.offset]);
        if let (Some(view), Some(whole)) = (run.view(None, None), cut.view(None, None)) {
            assert_eq!(shape(&view), shape(&whole), "{name}");
        }
    }
    assert!(stops > 100, "only {stops} stops");
}

#[test]
fn names_stand_in_the_picture_and_break_nothing() {
    let (_, trace) = examples()
        .into_iter()
        .find(|(name, _)| name.contains("incident"))
        .unwrap();
    let run = Run::of(&trace);
    let names = Names::of("task 0 <dose & \"meter\">\nresource 0 </script>").unwrap();
    for file in [
        svg(&run, run.view(None, None), &names, "a<b"),
        page(&run, run.view(None, None), &names, "a<b"),
    ] {
        assert!(file.contains("&lt;dose &amp; &quot;meter&quot;&gt;"));
        assert!(!file.contains("<dose") && !file.contains("a<b"));
        assert!(file.matches("</script>").count() <= 2);
    }
}
