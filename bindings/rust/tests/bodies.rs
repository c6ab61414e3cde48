//! Calls each function of the crate.
use smithy_transcode::{Finding, Form, Kind, Refusal, Source, Table, Target};
use std::thread;

const TEXT: &[u8] = b"structure S\nmember a integer\nmember l L\nmember t timestamp\nmember x document\nlist L string sparse\n";

fn body(table: &mut Table, from: Source, input: &[u8], to: Target<'_>) -> Result<Vec<u8>, Refusal> {
    let mut out = Vec::new();
    table.transcode("S", from, input, to, &mut out)?;
    Ok(out)
}

#[test]
fn each_wire() {
    let mut table = Table::accept(TEXT).unwrap();
    assert_eq!(
        body(
            &mut table,
            Source::Json,
            br#"{"z":[1], "a" : 7}"#,
            Target::Cbor
        )
        .unwrap(),
        b"\xbf\x61\x61\x07\xff"
    );
    assert_eq!(
        body(
            &mut table,
            Source::Json,
            br#"{"l":["x"]}"#,
            Target::CborDefinite
        )
        .unwrap(),
        b"\xbf\x61\x6c\x81\x61\x78\xff"
    );
    assert_eq!(
        body(
            &mut table,
            Source::Cbor,
            b"\xa1\x61\x61\x07",
            Target::JsonName
        )
        .unwrap(),
        br#"{"a":7}"#
    );
    assert_eq!(
        body(
            &mut table,
            Source::JsonIntegral,
            br#"{"a":7.0}"#,
            Target::Json
        )
        .unwrap(),
        br#"{"a":7}"#
    );
    let form = Target::Query {
        action: "Do",
        version: "1",
    };
    assert_eq!(
        body(&mut table, Source::Json, br#"{"a":7}"#, form).unwrap(),
        b"Action=Do&Version=1&a=7"
    );
}

#[test]
fn refusals() {
    let mut table = Table::accept(TEXT).unwrap();
    let form = Target::Query {
        action: "Do",
        version: "1",
    };
    let deep = [br#"{"z":"#.as_slice(), &[b'['; 128], &[b']'; 128], b"}"].concat();
    let rows: [(&[u8], Target<'_>, Refusal); 6] = [
        (br#"{"a":7.5}"#, Target::Json, Refusal::InvalidInput),
        (&deep, Target::Json, Refusal::TooDeep),
        (br#"{"x":1.5}"#, Target::Json, Refusal::NotCarried),
        (br#"{"x":1}"#, Target::Cbor, Refusal::Document),
        (br#"{"l":[null]}"#, form, Refusal::Null),
        (br#"{"t":1.5}"#, Target::Cbor, Refusal::Instant),
    ];
    for (input, to, refusal) in rows {
        assert_eq!(body(&mut table, Source::Json, input, to), Err(refusal));
    }
    let mut out = vec![1];
    assert_eq!(
        table.transcode("Q", Source::Json, b"{}", Target::Json, &mut out),
        Err(Refusal::NoSuchShape)
    );
    assert_eq!(
        table.transcode("L", Source::Json, b"{}", Target::Json, &mut out),
        Err(Refusal::NotAStructure)
    );
    assert!(out.is_empty());
    assert_eq!(Table::accept(b"x\n").unwrap_err(), Refusal::TableRefused);
    let mut wide = Table::accept(b"structure S\nmember n bigInteger\n").unwrap();
    let number = [br#"{"n":1"#.as_slice(), &[b'0'; 39], b"}"].concat();
    assert_eq!(
        body(&mut wide, Source::Json, &number, Target::Json),
        Err(Refusal::TooWide)
    );
    assert_eq!(Refusal::Instant.to_string(), "instant not expressible");
}

const OTHER: &[u8] = b"structure S\nmember a integer\nmember n bigInteger\nmember t timestamp\nmember x document\nmember m M\nmember l L\nmember u U\n\
map M string\nlist L string\nunion U\nmember s S\nmember n long\n";

#[test]
fn compared() {
    let mut table = Table::accept(OTHER).unwrap();
    let mut json =
        |first: &[u8], second: &[u8]| table.compare("S", Source::Json, first, Source::Json, second);
    assert_eq!(json(br#"{"z":1, "a" : 7}"#, br#"{"a":7}"#), Ok(None));
    assert_eq!(
        json(br#"{"a":7}"#, br#"{"a":8}"#),
        Ok(Some("$.a".to_owned()))
    );
    let key = "\u{e9}".repeat(400);
    let long = format!(r#"{{"m":{{"{key}":"x"}}}}"#);
    assert_eq!(
        json(long.as_bytes(), br#"{"m":{}}"#),
        Ok(Some(format!(r#"$.m{{"{key}"}}"#)))
    );
    let deep = [br#"{"z":"#.as_slice(), &[b'['; 128], &[b']'; 128], b"}"].concat();
    let wide = [br#"{"n":1"#.as_slice(), &[b'0'; 39], b"}"].concat();
    let rows: [(&[u8], Refusal, Refusal); 4] = [
        (
            br#"{"a":7.5}"#,
            Refusal::InvalidInput,
            Refusal::SecondInvalidInput,
        ),
        (&deep, Refusal::TooDeep, Refusal::SecondTooDeep),
        (&wide, Refusal::TooWide, Refusal::SecondTooWide),
        (
            br#"{"x":1.5}"#,
            Refusal::NotCarried,
            Refusal::SecondNotCarried,
        ),
    ];
    for (body, of_first, of_second) in rows {
        assert_eq!(json(body, b"{"), Err(of_first));
        assert_eq!(json(b"", body), Err(of_second));
    }
    let cbor = table.compare(
        "S",
        Source::Cbor,
        b"\xa1\x61\x61\x07",
        Source::JsonIntegral,
        br#"{"a":7.0}"#,
    );
    assert_eq!(cbor, Ok(None));
    let other = table.compare("Q", Source::Json, b"", Source::Json, b"");
    assert_eq!(other, Err(Refusal::NoSuchShape));
    let list = table.compare("L", Source::Json, b"", Source::Json, b"");
    assert_eq!(list, Err(Refusal::NotAStructure));
}

#[test]
fn findings() {
    let mut table = Table::accept(OTHER).unwrap();
    let wide = [br#"{"n":1"#.as_slice(), &[b'0'; 39], b"}"].concat();
    let rows: [(Source, &[u8], &str, Kind); 7] = [
        (Source::Json, br#"{"z":1}"#, "${\"z\"}", Kind::Unknown),
        (Source::Json, br#"{"a":7.5}"#, "$.a", Kind::Mismatch),
        (Source::Json, &wide, "$.n", Kind::Wide),
        (
            Source::Json,
            br#"{"t":0.0000000001}"#,
            "$.t",
            Kind::NotCarried,
        ),
        (Source::Cbor, b"\xa1\x01\x07", "$", Kind::Key),
        (Source::Json, br#"{"u":{}}"#, "$.u", Kind::Union),
        (Source::Json, br#"{"l":[null]}"#, "$.l[0]", Kind::Null),
    ];
    for (source, body, path, kind) in rows {
        let found = table.findings("S", source, body).unwrap();
        assert_eq!(found.iter().collect::<Vec<_>>(), [Finding { path, kind }]);
    }
    let deep = [br#"{"z":"#.as_slice(), &[b'['; 128], &[b']'; 128], b"}"].concat();
    let found = table.findings("S", Source::Json, &deep).unwrap();
    assert_eq!(
        found.iter().map(|it| it.kind).collect::<Vec<_>>(),
        [Kind::Unknown, Kind::Deep]
    );
    assert!(table
        .findings("S", Source::Json, br#"{"a":7}"#)
        .unwrap()
        .is_empty());
    let many = [br#"{"l":[7"#.as_slice(), &b",7".repeat(4999), b"]}"].concat();
    let found = table.findings("S", Source::Json, &many).unwrap();
    assert_eq!(found.len(), 5000);
    assert!(found
        .iter()
        .enumerate()
        .all(|(n, it)| it.path == format!("$.l[{n}]") && it.kind == Kind::Mismatch));
    assert_eq!(
        table.findings("S", Source::Json, b"{"),
        Err(Refusal::NotWellFormed)
    );
    let nested = [[b'['; 513], [b']'; 513]].concat();
    assert_eq!(
        table.findings("S", Source::Json, &nested),
        Err(Refusal::TooNested)
    );
    assert_eq!(
        table.findings("Q", Source::Json, b""),
        Err(Refusal::NoSuchShape)
    );
    assert_eq!(
        table.findings("L", Source::Json, b""),
        Err(Refusal::NotAStructure)
    );
}

#[test]
fn forms() {
    let mut table = Table::accept(TEXT).unwrap();
    let form = table.form(
        "S",
        b"Action=Go&Version=1+2&l.member.1=x%26&a=7",
        Target::Json,
    );
    let read = Form {
        action: "Go".to_owned(),
        version: "1 2".to_owned(),
        body: br#"{"a":7,"l":["x&"]}"#.to_vec(),
    };
    assert_eq!(form, Ok(read));
    let long: String = (1..2000).map(|n| format!("&l.member.{n}=")).collect();
    let form = table
        .form(
            "S",
            format!("Action=Go&Version=1{long}").as_bytes(),
            Target::Json,
        )
        .unwrap();
    assert_eq!(form.body.len(), 7 + 3 * 1999);
    let rows: [(&str, Target<'_>, Refusal); 6] = [
        ("Action=Go&Version=1&a", Target::Json, Refusal::BadPair(3)),
        ("Action=Go", Target::Json, Refusal::NotAForm),
        (
            "Action=Go&Version=1&a=7&a=7",
            Target::Json,
            Refusal::RepeatedPath(4),
        ),
        ("Action=Go&Version=1&a=07", Target::Json, Refusal::NoValue),
        (
            "Action=Go&Version=1&t=2000-01-01T00%3A00%3A00.5Z",
            Target::Cbor,
            Refusal::Instant,
        ),
        ("", Target::JsonName, Refusal::BadPair(1)),
    ];
    for (form, to, refusal) in rows {
        assert_eq!(table.form("S", form.as_bytes(), to), Err(refusal));
    }
    assert_eq!(
        table.form("Q", b"", Target::Json),
        Err(Refusal::NoSuchShape)
    );
    assert_eq!(
        table.form("L", b"", Target::Json),
        Err(Refusal::NotAStructure)
    );
    assert_eq!(Refusal::BadPair(3).to_string(), "bad pair 3");
}

#[test]
fn prepared() {
    let mut table = Table::accept(TEXT).unwrap();
    let mut other = Table::accept(b"structure T\nmember b integer\n").unwrap();
    let to_cbor = table.prepare("S", Source::Json, Target::Cbor).unwrap();
    let form = Target::Query {
        action: "Do",
        version: "1",
    };
    let to_form = table.prepare("S", Source::Json, form).unwrap();
    let mut out = Vec::new();
    table.run(&to_cbor, br#"{"a":7}"#, &mut out).unwrap();
    assert_eq!(out, b"\xbf\x61\x61\x07\xff");
    table.run(&to_form, br#"{"a":7}"#, &mut out).unwrap();
    assert_eq!(out, b"Action=Do&Version=1&a=7");
    assert_eq!(
        table.run(&to_cbor, b"{", &mut out),
        Err(Refusal::InvalidInput)
    );
    assert_eq!(
        other.run(&to_cbor, b"{}", &mut out),
        Err(Refusal::OtherTable)
    );
    assert!(other.prepare("S", Source::Json, Target::Json).is_err());
    assert_eq!(
        table.prepare("L", Source::Json, Target::Json).unwrap_err(),
        Refusal::NotAStructure
    );
}

#[test]
fn many() {
    let mut table = Table::accept(TEXT).unwrap();
    let bodies: Vec<Vec<u8>> = (0..2000)
        .map(|n| format!("{{\"a\":{n}}}").into_bytes())
        .collect();
    let mut given: Vec<&[u8]> = bodies.iter().map(Vec::as_slice).collect();
    given[1000] = b"{";
    let mut answers = Vec::new();
    table
        .transcode_all("S", Source::Json, &given, Target::Json, |answer| {
            answers.push(answer.map(<[u8]>::to_vec))
        })
        .unwrap();
    assert_eq!(answers.len(), 2000);
    for (n, (answer, body)) in answers.into_iter().zip(&bodies).enumerate() {
        assert_eq!(
            answer,
            if n == 1000 {
                Err(Refusal::InvalidInput)
            } else {
                Ok(body.clone())
            }
        );
    }
    assert_eq!(
        table.transcode_all("Q", Source::Json, &given, Target::Json, |_| panic!()),
        Err(Refusal::NoSuchShape)
    );
}

#[test]
fn threads() {
    let workers: Vec<_> = (0..4)
        .map(|number| {
            thread::spawn(move || {
                let mut table = Table::accept(TEXT).unwrap();
                let mut out = Vec::new();
                for n in 0..2000 {
                    let input = format!("{{\"a\":{}}}", number * 10_000 + n);
                    table
                        .transcode("S", Source::Json, input.as_bytes(), Target::Json, &mut out)
                        .unwrap();
                    assert_eq!(out, input.as_bytes());
                }
            })
        })
        .collect();
    for worker in workers {
        worker.join().unwrap();
    }
}
