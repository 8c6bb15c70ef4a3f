//! A job's routes or its refusal as JSON, in a line.

use crate::json::Json;
use crate::routes::Routes;
use arvumnao::Refusal;

/// The routes text as an object.
pub fn routed(name: &str, routes: &str) -> String {
    let routes = Routes::of(routes);
    let branch = |branch: &[u32; 3]| Json::numbers(&branch[1..]);
    let net = |(net, branches): (u32, &[[u32; 3]])| {
        Json::Object(vec![
            ("net", net.into()),
            ("branches", Json::List(branches.iter().map(branch).collect())),
        ])
    };
    let joined = |joined: &[u32; 2]| Json::numbers(joined);
    line(vec![
        ("job", Json::text(name)),
        ("routed", Json::Bool(true)),
        ("iteration", routes.iteration.into()),
        ("turns", routes.turns.into()),
        ("nets", Json::List(routes.nets().map(net).collect())),
        ("joined", Json::List(routes.joined.iter().map(joined).collect())),
    ])
}

/// The refusal as an object.
pub fn refused(name: &str, refusal: &Refusal) -> String {
    line(vec![
        ("job", Json::text(name)),
        ("routed", Json::Bool(false)),
        ("refusal", Json::numbers(&refusal.numbers())),
        ("reason", Json::text(refusal.to_string())),
    ])
}

fn line(members: Vec<(&'static str, Json)>) -> String {
    format!("{}\n", Json::Object(members))
}
