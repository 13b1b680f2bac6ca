//! What a session answers, and how it fails.
use rtfilter::{Answers, Columns, Error, FaultKind, Order, Point, Query, Region, Session, Settings};
use std::error::Error as _;

const TABLE: &[u8] = b"1,0,10,0,10,3\n2,5,15,5,15\n3,20,30,0,10,3\n4,-5,-1,-5,-1,0\n5,12,12,12,12,63\n";

fn session() -> Session {
    Session::of_bytes(TABLE, &Settings::new()).unwrap()
}

fn answer(session: &mut Session) {
    assert_eq!(session.find(Query::window(0, 10, 0, 10)).unwrap(), [1, 2]);
    assert_eq!(session.find(Query::inside(0, 15, 0, 15)).unwrap(), [1, 2, 5]);
    assert_eq!(session.find(Query::covers(5, 5, 5, 5).smallest().first(1)).unwrap(), [1]);
    assert_eq!(session.find(Query::ALL.smallest()).unwrap(), [5, 4, 1, 2, 3]);
    assert_eq!(session.find(Query::ALL.near(12, 12)).unwrap(), [2, 5, 1, 3, 4]);
    assert_eq!(session.find(Query::ALL.near(12, 12).order(Order::ById)).unwrap(), [1, 2, 3, 4, 5]);
    assert_eq!(session.find(Query::circle(0, 0, 2)).unwrap(), [1, 4]);
    assert_eq!(session.find(Query::ALL.on(1 << 3 | 1 << 63)).unwrap(), [1, 3, 5]);
    let vertices = [(9, 9), (0, 0), (30, 0), (0, 30)].map(Point::from);
    let all = session.find_each(&[Query::nearest(18, 4, 2), Query::polygon(1, 3)], &vertices).unwrap();
    assert_eq!((&all.ids[..], &all.ends[..]), (&[3, 2, 1, 2, 3, 5][..], &[2, 6][..]));
    assert_eq!(all.iter().map(|(_, scores)| scores.to_vec()).collect::<Vec<_>>(), [vec![4, 10], vec![0; 4]]);
    let both = [Query::ALL, Query::window(0, 10, 0, 10)];
    assert_eq!(session.count_each(&both, &[]).unwrap(), [5, 2]);
    assert_eq!(session.count(both[1].first(1)).unwrap(), 2);
    let reply = session.ask(b"find window 0 10 0 10\nbad").unwrap();
    assert!(reply.is_faulty && reply.text == b"1 0\n2 0\nok 1 2\nerror 2 Q2 unknown verb\n");
    session.forget();
    assert!(!session.ask(b"").unwrap().is_faulty);
}

#[test]
fn answers() {
    let mut first = session();
    answer(&mut first);
    let info = first.info();
    assert_eq!((info.boxes, info.level_sizes), (5, vec![5, 1]));
    let bounds = info.bounds.unwrap();
    assert_eq!((bounds.min_x, bounds.max_x, bounds.min_y, bounds.max_y), (-5, 30, -5, 15));
    assert_eq!(Query::new(Region::Covers(bounds)), Query::covers(-5, 30, -5, 15));
    assert!(format!("{first:?}").starts_with("Session"));
    assert!(Session::of_bytes(b"", &Settings::new()).unwrap().info().bounds.is_none());
}

/// A find and a count open different numbers of nodes: each cost is that of its own call.
#[test]
fn costs() {
    let mut session = Session::of_bytes(TABLE, &Settings::new().fanout(2)).unwrap();
    let queries = [Query::ALL, Query::nearest(12, 12, 2), Query::ALL.first(0)];
    assert_eq!(session.cost_of_find(&queries, &[]).unwrap(), [6, 3, 0]);
    assert_eq!(session.cost_of_count(&queries, &[]).unwrap(), [1, 1, 1]);
}

#[test]
fn settings_and_layers() {
    let settings = Settings::new().header(true).fanout(2).max_entries(2);
    let file = std::env::temp_dir().join(format!("rtfilter-{}.csv", std::process::id()));
    std::fs::write(&file, "id,min_x,max_x,min_y,max_y,layer\n1,0,1,0,1,0\n2,5,6,5,6,7\n").unwrap();
    let mut session = Session::of_file(&file, &settings).unwrap();
    assert_eq!(session.find(Query::ALL.on(1 << 7)).unwrap(), [2]);
    let many = Session::of_file(&file, &settings.max_entries(1));
    assert!(matches!(many, Err(Error::BadTable(it)) if it.kind() == FaultKind::TooMany && it.record() == 3), "{many:?}");
    let header = Session::of_file(&file, &Settings::new());
    assert!(matches!(header, Err(Error::BadTable(it)) if it.kind() == FaultKind::NotNumber), "{header:?}");
    std::fs::remove_file(&file).unwrap();
    let sides: &[i32] = &[0, 0];
    let boxes = Columns { ids: &[1, 2], min_x: sides, max_x: sides, min_y: sides, max_y: sides, layers: Some(&[0, 9]) };
    assert_eq!(Session::of_columns(&boxes, &Settings::new()).unwrap().find(Query::ALL.on(1 << 9)).unwrap(), [2]);
}

#[test]
fn threads_share_a_table() {
    let mut first = session();
    let threads: Vec<_> = (0..4)
        .map(|_| {
            let mut own = first.share().unwrap();
            std::thread::spawn(move || answer(&mut own))
        })
        .collect();
    drop(first);
    threads.into_iter().for_each(|it| it.join().unwrap());
}

/// Answers that don't fit into the first arrays, of several queries, of a limit, and behind such.
#[test]
fn long_lists_and_replies() {
    let ids: Vec<i64> = (0..1000).collect();
    let sides: Vec<i32> = (0..1000).collect();
    let boxes = Columns { ids: &ids, min_x: &sides, max_x: &sides, min_y: &sides, max_y: &sides, layers: None };
    let mut session = Session::of_columns(&boxes, &Settings::new().fanout(2)).unwrap();
    let all = session.find_each(&[Query::ALL, Query::window(0, 9, 0, 9), Query::ALL.near(0, 0).first(500)], &[]).unwrap();
    assert_eq!(all.ends, [1000, 1010, 1510]);
    assert_eq!((all.of(0).0, all.of(1).0, all.of(2).0), (&ids[..], &ids[..10], &ids[..500]));
    assert!(all.of(2).1.iter().zip(0..).all(|(score, at)| *score == 2 * at * at));
    assert_eq!(session.find(Query::ALL).unwrap(), ids);
    let mut kept = Answers::default();
    session.find_each_into(&[Query::ALL.first(300)], &[], &mut kept).unwrap();
    assert_eq!((&kept.ids[..], &kept.ends[..]), (&ids[..300], &[300][..]));
    let expected: String = ids.iter().map(|id| format!("{id} 0\n")).collect();
    assert_eq!(session.ask(b"find all").unwrap().text, format!("{expected}ok 1 1000\n").into_bytes());
}

/// The greatest score has 65 bits, and is above all others.
#[test]
fn greatest_score() {
    let (low, high) = (&[i32::MIN][..], &[i32::MAX][..]);
    let boxes = Columns { ids: &[1], min_x: high, max_x: high, min_y: high, max_y: high, layers: None };
    let mut session = Session::of_columns(&boxes, &Settings::new()).unwrap();
    let all = session.find_each(&[Query::ALL.near(low[0], low[0])], &[]).unwrap();
    assert_eq!(all.scores, [36893488130239234050]);
}

/// Closing frees the table, and a share keeps it.
#[test]
fn a_closed_session_frees_its_table() {
    let kilobytes = || {
        let text = std::fs::read_to_string("/proc/self/statm").unwrap();
        text.split(' ').nth(1).unwrap().parse::<usize>().unwrap() * 4
    };
    let ids: Vec<i64> = (0..100_000).collect();
    let sides = vec![0; ids.len()];
    let boxes = Columns { ids: &ids, min_x: &sides, max_x: &sides, min_y: &sides, max_y: &sides, layers: None };
    let open = || drop(Session::of_columns(&boxes, &Settings::new()).unwrap());
    open();
    let before = kilobytes();
    (0..20).for_each(|_| open());
    assert!(kilobytes() < before + 10_000, "{before} kB, and then {}", kilobytes());
}

#[test]
fn failures() {
    let settings = Settings::new();
    let table = Session::of_bytes(b"1,0,1,0,1\n2,9,0,0,0\n", &settings).unwrap_err();
    assert!(matches!(table, Error::BadTable(it) if (it.kind(), it.record(), it.field()) == (FaultKind::MinAboveMax, 2, 2)));
    assert_eq!(table.to_string(), "table record 2: minimum above maximum in x");
    let file = Session::of_file("/nowhere", &settings).unwrap_err();
    assert!(matches!(&file, Error::BadFile(it) if it.kind() == std::io::ErrorKind::NotFound), "{file}");
    assert_eq!(file.to_string(), "cannot read file: No such file or directory (os error 2)");
    assert!(file.source().is_some());
    assert!(matches!(Session::of_file("a\0b", &settings), Err(Error::BadFile(_))));
    assert!(matches!(Session::of_bytes(b"", &settings.fanout(1)), Err(Error::BadSetting)));
    let query = session().find_each(&[Query::ALL, Query::window(1, 0, 0, 0)], &[]).unwrap_err();
    assert_eq!(query.to_string(), "invalid query 1: minimum above maximum");
    // behind answers that don't fit into the first arrays
    let ids: Vec<i64> = (0..1000).collect();
    let sides = vec![0; 1000];
    let boxes = Columns { ids: &ids, min_x: &sides, max_x: &sides, min_y: &sides, max_y: &sides, layers: None };
    let queries = [Query::ALL.first(9), Query::ALL, Query::window(1, 0, 0, 0)];
    let mut many = Session::of_columns(&boxes, &settings).unwrap();
    assert!(matches!(many.find_each(&queries, &[]), Err(Error::BadQuery { index: 2, .. })));
    assert!(matches!(many.count_each(&queries, &[]), Err(Error::BadQuery { index: 2, .. })));
    assert!(Session::of_file("/dev/null", &settings).unwrap().find(Query::ALL).unwrap().is_empty());
}
