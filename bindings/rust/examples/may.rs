//! Whether a user of a file of objects may do something. usage: may OBJECTS USER VERB RESOURCE [NAMESPACE]

use std::{env, fs};

fn main() -> Result<(), Box<dyn std::error::Error>> {
    let words: Vec<String> = env::args().skip(1).collect();
    let [objects, user, verb, resource, ..] = words.as_slice() else {
        return Err("usage: may OBJECTS USER VERB RESOURCE [NAMESPACE]".into());
    };
    let mut policy = kapi::Policy::load(&fs::read(objects)?)?;
    let question = kapi::Question {
        user,
        verb,
        resource,
        groups: &["system:authenticated"],
        namespace: words.get(4).map_or("", String::as_str),
        ..Default::default()
    };
    println!("{}", policy.why(&question)?.1);
    Ok(())
}
