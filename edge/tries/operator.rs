//! What an operator met at a publication and at a key: each was once wrong, or out of service, without a word.
use crate::edges::Edge;
use crate::Case;

const TRIGGER: &str = "ALTER EVENT TRIGGER edge_changed";

/// While neither the trigger nor the stream tells the edge.
fn untold(case: &mut Case, edge: &Edge, sql: &[&str]) {
    edge.signal("STOP");
    case.sql(&format!("{TRIGGER} DISABLE"));
    sql.iter().for_each(|sql| _ = case.sql(sql));
    case.sql(&format!("{TRIGGER} ENABLE ALWAYS"));
    edge.signal("CONT");
}

/// The stream ends with an error, at the same change each time.
pub fn a_publication_that_is_gone_for_a_while(case: &mut Case) {
    let edge = case.following();
    assert_eq!(edge.get("p", ""), "");
    let row = "INSERT INTO votes VALUES ('p', 1, 1)";
    untold(case, &edge, &["DROP PUBLICATION edge", row, "CREATE PUBLICATION edge FOR TABLE votes, kept"]);
    let now = case.write("INSERT INTO votes VALUES ('p', 2, 1)");
    assert_eq!(edge.get("p", &now), "1:1 2:1");
    assert_eq!((edge.count("losses"), edge.count("disagreements")), (1, 0));
}

/// A key is a text also where the database takes backslashes for more than themselves.
pub fn texts_that_are_no_sql(case: &mut Case) {
    case.sql("ALTER DATABASE cases SET standard_conforming_strings = off");
    let edge = case.following();
    let articles = [r"\',1,1);DELETE/**/FROM/**/votes;COMMIT;--", r"a\b", r#"a\\"'{,}b"#, "$1", "'"];
    for article in articles {
        assert_eq!(edge.get(article, ""), "", "{article}");
        case.base.run_with("INSERT INTO votes VALUES ($1, 1, 1)", &[article]).unwrap();
        let now = case.write("SELECT 1");
        assert_eq!(edge.held(article, &now), "1:1", "{article}");
    }
    assert_eq!(case.sql("SELECT count(*) FROM votes"), articles.len().to_string());
    case.sql("ALTER DATABASE cases RESET standard_conforming_strings");
}
