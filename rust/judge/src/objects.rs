//! The answers as JSON, one object a line. Events and positions count from 0, lines of a text from 1.

use crate::answer::Answer;
use crate::cards::{Cards, Touched, COUNTS};
use crate::explain::{Misread, Reason, Refused};
use crate::groups::{Group, Groups};
use crate::json::Json;
use crate::recording::Recording;
use crate::study::{Clash, Converted, Listed, Planned, Question, Scene, Study};
use crate::why::Why;
use crate::words::Picture;
use racejudge::{Conversion, Leaf, Pair, Refusal, Verdict, CLOSE};
use std::ffi::OsStr;
use std::io::{self, Write};

type Fields = Vec<(&'static str, Json)>;

/// A file that cannot be judged.
pub fn unread(file: &OsStr, wrong: &str) -> String {
    let fields = vec![("answer", Json::from("error")), ("error", wrong.into())];
    line(file, fields)
}

/// A file that was judged.
pub fn judged(file: &OsStr, study: &Study, picture: &Picture) -> String {
    let mut fields = answered(study);
    fields.extend(drawn(picture));
    line(file, fields)
}

/// A plan that was judged.
pub fn planned(file: &OsStr, planned: &Planned, picture: &Picture) -> String {
    let Planned { schedule, study, clash } = planned;
    let mut fields = head(study.line(), study.scene.as_ref());
    fields.push(("leaves", schedule.plan.as_ref().ok().map(|plan| plan.leaves().count()).into()));
    fields.push(("links", study.answer.as_ref().map_or(0, Verdict::links).into()));
    fields.extend(race(&study.answer, study));
    fields.extend(clash.iter().flat_map(meeting));
    if let (Err(refusal), Some(misread)) = (&study.answer, Misread::of(schedule)) {
        fields.extend(rule(refusal));
        fields.extend(reason(misread.reason()));
    }
    fields.extend(drawn(picture));
    line(file, fields)
}

/// Where the two leaves of a race stand, and the operator where they meet.
fn meeting(clash: &Clash) -> Fields {
    let Clash { s, t, meet } = clash;
    let place = |what: &'static str, text: String, byte: usize| {
        Json::Object(vec![(what, text.into()), ("byte", byte.into())])
    };
    let leaf = |leaf: &Leaf| place("leaf", leaf.to_string(), leaf.position);
    let operator = place("operator", meet.operator.to_string(), meet.position);
    vec![("s_leaf", leaf(s)), ("t_leaf", leaf(t)), ("meet", operator)]
}

fn drawn(picture: &Picture) -> Fields {
    match picture {
        Picture::Unwanted => Vec::new(),
        Picture::Drawn(path) => vec![("picture", lossy(path.as_encoded_bytes()).into())],
        Picture::Nothing => vec![("picture", Json::Null)],
        Picture::Failed(wrong) => vec![("picture", Json::Null), ("error", wrong.as_str().into())],
    }
}

/// A file that was judged, with its cards where it is clean.
pub fn counted(file: &OsStr, study: &Study, busiest: bool) -> String {
    let mut fields = answered(study);
    if let Some(Cards { scene, touched }) = Cards::of(study, busiest) {
        let cards: Vec<Json> = touched.iter().map(|it| card(scene, it)).collect();
        fields.push(("cards", cards.into()));
    }
    line(file, fields)
}

/// A file whose close pairs are listed. The pairs stand last, and are printed as they are made: there may
/// be millions.
pub fn listed(
    file: &OsStr,
    listed: &Listed,
    picture: &Picture,
    out: &mut dyn Write,
) -> io::Result<()> {
    let scene = listed.study.scene.as_ref();
    let mut fields = head(listed.line(), scene);
    let (Ok(pairs), Some(scene)) = (&listed.answer, scene) else {
        if let Err(refusal) = &listed.answer {
            fields.extend(refused(listed.study.recording, scene, refusal));
            // It may stand before the event for which the list is refused.
            fields.push(first_race(listed, scene));
        }
        fields.extend(drawn(picture));
        return out.write_all(line(file, fields).as_bytes());
    };
    fields.extend(grouped(scene, listed, &Groups::of(scene, pairs.clone(), 0)));
    fields.extend(drawn(picture));
    let object = line(file, fields);
    write!(out, "{},\"pairs\":[", object.strip_suffix("}\n").unwrap_or(&object))?;
    for (place, it) in pairs.clone().enumerate() {
        write!(out, "{}{}", if place > 0 { "," } else { "" }, pair(scene, it))?;
    }
    out.write_all(b"]}\n")
}

/// How many pairs there are, what they come down to, and the first race of the trace.
fn grouped(scene: &Scene, listed: &Listed, groups: &Groups) -> Fields {
    vec![
        ("count", groups.pairs().into()),
        ("locations", groups.locations().into()),
        ("sources", groups.sources().into()),
        ("groups", groups.list.iter().map(group).collect::<Vec<Json>>().into()),
        first_race(listed, Some(scene)),
    ]
}

fn group(group: &Group) -> Json {
    let kinds = group.ends.kinds().map(|kinds| kinds.map(|kind| kind.to_string()).to_vec());
    Json::Object(vec![
        ("location", group.location.into()),
        ("sources", group.ends.sources().map(Vec::from).into()),
        ("kinds", kinds.into()),
        ("tasks", group.tasks.clone().into()),
        ("count", group.count.into()),
    ])
}

fn first_race(listed: &Listed, scene: Option<&Scene>) -> (&'static str, Json) {
    let race = listed.first_race().zip(scene).map(|(Pair { s, t }, scene)| {
        Json::Object(vec![
            ("location", scene.trace.event(t).map(|event| event.operand).into()),
            ("s", event(scene, s)),
            ("t", event(scene, t)),
            ("close", (t - s <= CLOSE).into()),
        ])
    });
    ("race", race.into())
}

fn pair(scene: &Scene, Pair { s, t }: Pair) -> Json {
    let line = |p: usize| scene.place(p).map(|place| place.line).into();
    let source = |p: usize| scene.place(p).map(|place| place.source).into();
    Json::Object(vec![
        ("s", s.into()),
        ("t", t.into()),
        ("location", scene.trace.event(t).map(|event| event.operand).into()),
        ("s_line", line(s)),
        ("t_line", line(t)),
        ("s_source", source(s)),
        ("t_source", source(t)),
    ])
}

/// An answer to a question.
pub fn asked(file: &OsStr, question: &Question) -> String {
    let mut fields = head(question.line(), question.scene.as_ref());
    match (&question.answer, &question.scene) {
        (Err(refusal), scene) => {
            fields.extend(refused(question.recording, scene.as_ref(), refusal));
        }
        (Ok(_), Some(scene)) => {
            let Question { p, q, .. } = *question;
            let path = scene.graph.path(p, q);
            fields.extend([
                ("p", event(scene, p)),
                ("q", event(scene, q)),
                ("reverse", question.reverse.ok().into()),
                ("path", Some(path).filter(|path| !path.is_empty()).into()),
                ("why", question.why.as_ref().map(why).into()),
            ]);
        }
        (Ok(_), None) => {}
    }
    line(file, fields)
}

/// A trace that was brought over to a new file.
pub fn converted(file: &OsStr, converted: &Converted, new: &OsStr) -> String {
    let scene = Scene::new(&converted.recording);
    let mut fields = head(converted.line(), scene.as_ref());
    match (&converted.answer, &scene) {
        (Err(refusal), scene) => {
            fields.extend(refused(&converted.recording, scene.as_ref(), refusal));
        }
        (Ok(conversion), Some(scene)) => {
            let Conversion { halts, stopped, broken, .. } = *conversion;
            fields.extend([
                ("halts", halts.into()),
                ("stopped", stopped.map(|p| event(scene, p)).into()),
                ("broken", broken.map(|refusal| Json::Object(rule(&refusal))).into()),
                ("new", lossy(new.as_encoded_bytes()).into()),
            ]);
        }
        (Ok(_), None) => {}
    }
    line(file, fields)
}

fn line(file: &OsStr, mut fields: Fields) -> String {
    fields.insert(0, ("file", lossy(file.as_encoded_bytes()).into()));
    format!("{}\n", Json::Object(fields))
}

/// What every answer has: the first word of its own line, the line, and how much there is.
fn head(line: String, scene: Option<&Scene>) -> Fields {
    let word = line.split(' ').next().unwrap_or_default();
    vec![
        ("answer", word.into()),
        ("said", line.into()),
        ("events", scene.map(|scene| scene.trace.len()).into()),
        ("tasks", scene.map(|scene| scene.graph.columns().len()).into()),
    ]
}

/// What every file has that was judged.
fn answered(study: &Study) -> Fields {
    let mut fields = head(study.line(), study.scene.as_ref());
    fields.push(("links", study.answer.as_ref().map_or(0, Verdict::links).into()));
    fields.extend(match &study.answer {
        Err(refusal) => refused(study.recording, study.scene.as_ref(), refusal),
        answer => race(answer, study),
    });
    fields
}

fn race(answer: &Answer, study: &Study) -> Fields {
    let (Ok(Verdict::Race { s, t, first, second, .. }), Some(scene)) = (answer, &study.scene)
    else {
        return Vec::new();
    };
    vec![
        ("location", scene.trace.event(*t).map(|event| event.operand).into()),
        ("s", event(scene, *s)),
        ("t", event(scene, *t)),
        ("why", study.why.as_ref().map(why).into()),
        ("first", first.clone().into()),
        ("second", second.clone().into()),
        ("broken", study.broken.as_ref().map(|refusal| Json::Object(rule(refusal))).into()),
    ]
}

/// The rule of a refusal, and where it is broken.
fn rule(refusal: &Refusal) -> Fields {
    vec![
        ("row", refusal.row.into()),
        ("position", refusal.position.into()),
        ("meaning", refusal.meaning().into()),
    ]
}

fn why(why: &Why) -> Json {
    Json::Object(vec![
        ("parted", why.parted.into()),
        ("to_s", why.to_s.clone().into()),
        ("to_t", why.to_t.clone().into()),
        ("unjoined", why.unjoined.clone().into()),
        ("joined_later", why.joined_later.into()),
    ])
}

fn event(scene: &Scene, p: usize) -> Json {
    let Some(event) = scene.trace.event(p) else {
        return Json::Null;
    };
    let kind = event.kind().map_or(format!("kind-{}", event.kind), |kind| kind.to_string());
    let place = scene.place(p);
    Json::Object(vec![
        ("event", p.into()),
        ("task", event.task.into()),
        ("kind", kind.into()),
        ("operand", event.operand.into()),
        ("line", place.map(|place| place.line).into()),
        ("source", place.map(|place| place.source).into()),
        ("text", scene.line(p).map(lossy).into()),
    ])
}

fn card(scene: &Scene, touched: &Touched) -> Json {
    let Touched { location, card, first, last } = *touched;
    let line_of = |p: usize| scene.place(p).map(|place| place.line).into();
    let mut fields = vec![("location", location.into())];
    fields.extend(COUNTS.iter().map(|(name, count)| (*name, count(&card).into())));
    fields.extend([
        ("first", first.into()),
        ("last", last.into()),
        ("first_line", line_of(first)),
        ("last_line", line_of(last)),
    ]);
    Json::Object(fields)
}

fn refused(recording: &Recording, scene: Option<&Scene>, refusal: &Refusal) -> Fields {
    let refused = Refused::of(recording, scene, refusal);
    let told = reason(refused.reason(refusal));
    let text_line = |text: &[u8], byte: Option<usize>| {
        Json::Object(vec![
            ("line", (refusal.position + 1).into()),
            ("text", lossy(text).into()),
            ("byte", byte.into()),
        ])
    };
    let (event, text_line) = match refused {
        Refused::Event(scene, p) => (event(scene, p), Json::Null),
        Refused::Line(text, misfit) => (Json::Null, text_line(text, Some(misfit.at))),
        Refused::LineTooMany(text) => (Json::Null, text_line(text, None)),
        Refused::Whole(_) => (Json::Null, Json::Null),
    };
    let mut fields = rule(refusal);
    fields.extend([("event", event), ("text_line", text_line)]);
    fields.extend(told);
    fields
}

/// Why something is refused, for people.
fn reason(Reason { state, hint }: Reason) -> Fields {
    let unless_empty = |text: &'static str| Some(text).filter(|text| !text.is_empty()).into();
    vec![
        ("state", state.into()),
        ("cause", unless_empty(hint.cause)),
        ("advice", unless_empty(hint.advice)),
    ]
}

fn lossy(bytes: &[u8]) -> String {
    String::from_utf8_lossy(bytes).into_owned()
}
