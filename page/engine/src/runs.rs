//! `find`, `check` and `diff`.

use rizhavaan_core::diff::Difference;
use rizhavaan_core::json::{summary, FoundJson};
use rizhavaan_core::why::why;
use rizhavaan_core::{chosen, diff as compare, Document, Loaded, Options, Pattern, Reading};
use serde_json::{json, Value};

use crate::call::{Answer, Call, No, OrNo};
use crate::library::Library;

/// Lists longer than this go beside the answer, by item numbers.
const MOST_NAMED: usize = 100_000;

pub fn find(call: &mut Call) -> Answer {
    let options = call.options(call.flag("countOnly"))?;
    let titles = call.titles("patterns");
    let mut lists = Vec::new();
    let answer = call.with_document(|answer, reading, document| {
        answer.put("summary", &summary(document));
        match find_all(reading, document, &options, &titles, &mut lists) {
            Ok(patterns) => answer.json("patterns", &format!("[{}]", patterns.join(","))),
            Err(no) => answer.put("error", &no.error()),
        }
        Ok(())
    });
    call.lists.append(&mut lists);
    answer
}

fn find_all(
    reading: &Reading,
    document: &Document,
    options: &Options,
    titles: &[String],
    lists: &mut Vec<Vec<u32>>,
) -> Result<Vec<String>, No> {
    let patterns = reading.or_no(chosen(document, titles))?;
    let loaded = reading.or_no(Loaded::load(&Library, document))?;
    let mut all = Vec::with_capacity(patterns.len());
    for pattern in patterns {
        all.push(match reading.or_no(loaded.find(&Library, pattern, options)) {
            Ok(mut found) => {
                let places = found.places();
                let list = !options.count_only && places <= MOST_NAMED;
                let view = FoundJson { loaded: &loaded, found: &found, list };
                let mut json = serde_json::to_string(&view).map_err(|e| No::because(e.to_string()))?;
                json.pop();
                if places == 0 {
                    json.push_str(&format!(",\"why\":{}", Value::from(why(&loaded, &found))));
                }
                if !options.count_only && !list {
                    json.push_str(&format!(",\"rowsFlat\":{},\"width\":{}", lists.len(), found.width()));
                    lists.push(std::mem::take(&mut found.rows));
                }
                json.push('}');
                json
            }
            Err(no) => json!({ "pattern": pattern.name, "error": no.error() }).to_string(),
        });
    }
    Ok(all)
}

pub fn check(call: &Call) -> Answer {
    let options = call.options(true)?;
    call.with_document(|answer, reading, document| {
        let loaded = reading.or_no(Loaded::load(&Library, document))?;
        let mut rules = Vec::new();
        let mut ok = true;
        for pattern in &document.patterns {
            let expect = match pattern.expect {
                Some(expect) => expect,
                None => continue,
            };
            let mut rule =
                json!({ "pattern": pattern.title(), "sentence": pattern.sentence, "expect": expect.to_string() });
            match reading.or_no(loaded.find(&Library, pattern, &options)) {
                Ok(found) => {
                    let holds = expect.holds(found.places() as u64);
                    ok &= holds;
                    rule["places"] = found.places().into();
                    rule["holds"] = holds.into();
                }
                Err(no) => {
                    ok = false;
                    rule["error"] = no.error();
                }
            }
            rules.push(rule);
        }
        let without = document.patterns.iter().filter(|p| p.expect.is_none());
        answer.put("ok", &ok);
        answer.put("without", &without.map(Pattern::title).collect::<Vec<_>>());
        answer.put("rules", &rules);
        Ok(())
    })
}

pub fn diff(call: &Call) -> Answer {
    let options = call.options(false)?;
    call.with_document(|answer, reading, document| {
        let pattern = call.pattern(document, reading)?;
        let before = reading.or_no(Loaded::load(&Library, document))?;
        let after = reading.or_no(before.changed(&Library))?;
        let old = reading.or_no(before.find(&Library, pattern, &options))?;
        let new = reading.or_no(after.find(&Library, pattern, &options))?;
        let Difference { gone, new: added, kept } = compare::diff((before.hang, &old), (after.hang, &new));
        answer.put("pattern", &pattern.title());
        answer.put("vertices", &pattern.vertices());
        answer.put("before", &old.places());
        answer.put("after", &new.places());
        answer.put("gone", &gone);
        answer.put("new", &added);
        answer.put("kept", &kept.len());
        answer.put("keptRows", &kept);
        Ok(())
    })
}
