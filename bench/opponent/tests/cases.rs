//! The cases of document 01 as texts, and what the library promises beside the listing: refusals that change nothing,
//! offers, and slices that keep what stands behind a text.

use opponent::{
    list, reread, Desk, Event, Graph, Offers, Played, Refusal, Run, Scratch, Status, Table, LISTING_ROOM,
};

const SYNCHRONISED: &str = "10010101/1100/12060000000000000001/120200/1207/120200/1208/1f0005/";
const LOOP: &str = "10010100/1100/120100/1f0001/";

/// A text with its line feeds written as slashes.
fn text(slashed: &str) -> Vec<u8> {
    slashed.replace('/', "\n").into_bytes()
}

fn listing(input: &str) -> String {
    let mut out = vec![0; LISTING_ROOM];
    let length = list(&text(input), &mut Desk::new(), &mut out);
    String::from_utf8(out[..length].to_vec()).unwrap().replace('\n', "/")
}

fn reread_listing(input: &str) -> String {
    let mut out = vec![0; 1_000];
    let length = reread(&text(input), &mut Desk::new(), &mut out);
    String::from_utf8(out[..length].to_vec()).unwrap().replace('\n', "/")
}

fn table(slashed: &str) -> Box<Table> {
    let mut table = Table::new();
    assert_eq!(table.check(&text(slashed)), Ok(()));
    table
}

/// A run after some steps, all of them accepted, and their events.
fn stepped(table: &Table, steps: &[&[u8]]) -> (Box<Run>, Vec<Event>) {
    let mut run = Run::new();
    let events = steps.iter().map(|digits| run.step(table, digits).unwrap()).collect();
    (run, events)
}

fn saved(table: &Table, run: &Run) -> Vec<u8> {
    let mut out = vec![0; LISTING_ROOM];
    let length = run.save(table, &mut Scratch::new(), &mut out).unwrap();
    out.truncate(length);
    out
}

#[test]
fn case_a_and_b() {
    let track = "3001000800070001/310000000100/3100010000/31000200020101/310003000101/31000400020102/\
                 31000500020201/310006000102/31000700020202/3200000001/3200010002/3200010005/3200020003/\
                 3200030004/3200050006/3200060007/3300020005/3f/";
    let told = format!("4000/400200/4000/4000/4102/{track}");
    let started = format!("{SYNCHRONISED}200000/20000103/");
    assert_eq!(listing(&format!("{started}20000101/20000102/")), told);
    assert_eq!(listing(&format!("{started}20000102/20000101/")), told);
    assert!(listing(&format!("{started}20000101/")).contains("4000/4102/3001"));
    assert_eq!(reread_listing(&format!("{SYNCHRONISED}{track}")), track);
}

#[test]
fn case_c_saves_one_text_for_both_orders() {
    let told = "10010102/1100/12060000000000000000/120200/1208/120201/1208/1f0005/";
    let table = table(told);
    let (one, _) = stepped(&table, &[&[], &[1], &[2]]);
    let (other, _) = stepped(&table, &[&[], &[2], &[1]]);
    assert_eq!(saved(&table, &one), saved(&table, &other));
    assert!(saved(&table, &one).starts_with(b"3001000600050000\n"));
}

#[test]
fn case_d_and_e_join_ends() {
    let ends = "12060000000000000000/1207/1207/";
    let table_d = table(&format!("10010100/1100/{ends}1f0003/"));
    let (run, events) = stepped(&table_d, &[&[], &[1], &[2], &[4]]);
    assert_eq!(events, [Event::Tau, Event::Tau, Event::Tau, Event::Tick]);
    assert_eq!(run.status(&table_d), Status::Ended);
    assert!(saved(&table_d, &run).starts_with(b"3001000400030000\n"));
    let table_e = table(&format!("10010100/1100/1205/{ends}1208/1f0005/"));
    let (run, events) = stepped(&table_e, &[&[], &[1], &[2], &[4]]);
    assert_eq!(events, [Event::Tau; 4]);
    let track = saved(&table_e, &run);
    assert!(track.starts_with(b"3001000500050000\n"));
    assert!(track.ends_with(b"3200010004\n3200020003\n3200040003\n3f\n"));
}

#[test]
fn case_f_and_g_drop_and_keep_choices() {
    let table_f = table("10010101/1100/1204/1207/120200/1208/1f0004/");
    let (run, events) = stepped(&table_f, &[&[], &[1]]);
    assert_eq!(events, [Event::Tau, Event::Tick]);
    assert_eq!(run.status(&table_f), Status::Ended);
    assert!(saved(&table_f, &run).starts_with(b"3001000300020000\n"));
    let table_g = table("10010202/1100/1204/120101/120200/1208/1101/120201/1207/1f0006/");
    let (run, events) = stepped(&table_g, &[&[], &[1], &[2]]);
    assert_eq!(events, [Event::Tau, Event::Tau, Event::Visible(0)]);
    assert!(saved(&table_g, &run).starts_with(b"3001000500040000\n"));
}

#[test]
fn case_h_meets_all() {
    let both = "12060000000000000001/";
    let side = "120200/1208/";
    let table = table(&format!("10010101/1100/{both}{both}{side}{side}{side}1f0008/"));
    let (run, events) = stepped(&table, &[&[], &[3, 3]]);
    assert_eq!(events, [Event::Tau, Event::Visible(0)]);
    let track = saved(&table, &run);
    let meetings = track.split(|&byte| byte == b'\n').filter(|line| line.starts_with(b"33"));
    assert_eq!(meetings.count(), 3);
}

#[test]
fn case_i_and_j_fill_the_room() {
    let table_i = table(LOOP);
    let mut run = Run::new();
    for _ in 0..4_096 {
        assert_eq!(run.step(&table_i, &[]), Ok(Event::Tau));
    }
    assert_eq!(run.step(&table_i, &[]), Err(9));
    assert_eq!(run.status(&table_i), Status::Live);
    let table_j = table("10010100/1100/1205/120100/1207/1f0003/");
    run.start();
    for _ in 0..1_024 {
        assert_eq!(run.step(&table_j, &[]), Ok(Event::Tau));
    }
    assert_eq!(run.step(&table_j, &[]), Err(8));
}

#[test]
fn case_k_refuses_and_keeps_the_run() {
    let table = table("10010102/1100/12060000000000000001/120200/1208/120201/1208/1f0005/");
    let (mut run, _) = stepped(&table, &[&[]]);
    for refused in [&[1][..], &[3], &[4], &[], &[1, 1], &[5], &[0], &[2; 1_025]] {
        assert_eq!(run.step(&table, refused), Err(7));
    }
    assert_eq!(run.offers(&table), Offers { events: 0b10, tau: false, tick: false });
    assert_eq!(run.step(&table, &[2]), Ok(Event::Visible(1)));
    assert_eq!(run.offers(&table), Offers { events: 0, tau: true, tick: false });
    assert_eq!(run.status(&table), Status::Stuck);
}

#[test]
fn case_l_and_m() {
    let prefixes =
        |count: usize| format!("10010101/1100/{}1207/1f{:04x}/", "120200/".repeat(count), count + 1);
    assert!(Table::new().check(&text(&prefixes(64))).is_ok());
    assert_eq!(Table::new().check(&text(&prefixes(65))), Err(Refusal { number: 5, line: 67 }));
    assert_eq!(listing(LOOP), "4100/3001000000000000/3f/");
}

#[test]
fn spellings_of_tables_and_scripts() {
    let plain = listing(&format!("{SYNCHRONISED}200000/20000103/"));
    let spelt = format!("{SYNCHRONISED}200000/20000103/").replace('/', "\r/").replace("1f0005", "1F0005");
    assert_eq!(listing(&spelt), plain);
    assert_eq!(listing("10010100/1100/12\r07/1f0001/"), "4e010003/");
    assert_eq!(reread_listing(&format!("{LOOP}3001000000000000/3F/")), "4e010002/");
}

#[test]
fn a_refused_text_leaves_table_and_graph() {
    let mut kept = table(SYNCHRONISED);
    assert_eq!(kept.check(&text("10010100/1100/1207/")), Err(Refusal { number: 2, line: 4 }));
    assert_eq!((kept.definitions(), kept.events(), kept.terms()), (1, 1, 5));
    let (mut graph, mut scratch) = (Graph::new(), Scratch::new());
    let start = text("3001000100000000/310000000100/3f/");
    assert_eq!(graph.read(&kept, &start, &mut scratch), Ok(()));
    let broken = text("3001000100000000/3100000000/3f/");
    assert_eq!(graph.read(&kept, &broken, &mut scratch), Err(Refusal { number: 13, line: 0 }));
    let mut out = [b'x'; 40];
    assert_eq!(graph.write(&kept, &mut out), Ok(start.len()));
    assert!(out.starts_with(&start) && out[start.len()..].iter().all(|&byte| byte == b'x'));
}

#[test]
fn a_saved_text_touches_nothing_else() {
    let table = table(SYNCHRONISED);
    let (run, _) = stepped(&table, &[&[], &[3]]);
    let track = saved(&table, &run);
    let mut out = vec![b'x'; track.len() + 20];
    assert_eq!(run.save(&table, &mut Scratch::new(), &mut out), Ok(track.len()));
    assert!(out.starts_with(&track) && out[track.len()..].iter().all(|&byte| byte == b'x'));
    let mut short = vec![b'x'; track.len() - 1];
    assert_eq!(run.save(&table, &mut Scratch::new(), &mut short), Err(track.len()));
    assert!(short.iter().all(|&byte| byte == b'x'));
}

#[test]
fn lines_of_a_script_are_played_one_by_one() {
    let table = table(SYNCHRONISED);
    let script = text("200000/20000103/20000105/");
    let mut run = Run::new();
    assert_eq!(run.play(&table, &script, 0), Played::Stepped { event: Event::Tau, next: 7 });
    assert_eq!(run.play(&table, &script, 7), Played::Stepped { event: Event::Visible(0), next: 16 });
    assert_eq!(run.play(&table, &script, 16), Played::Refused(3));
    assert_eq!(run.play(&table, &script, script.len()), Played::End);
}

#[test]
fn long_addresses_are_found_again() {
    let table = table("10010100/1100/12060000000000000000/120100/1207/1f0003/");
    let mut run = Run::new();
    for depth in 0..512 {
        assert_eq!(run.step(&table, &vec![1; depth]), Ok(Event::Tau));
    }
    assert_eq!(run.step(&table, &[1; 512]), Err(8));
    for depth in (0..511).rev() {
        let mut address = vec![1; depth];
        address.push(2);
        assert_eq!(run.step(&table, &address), Ok(Event::Tau));
        assert_eq!(run.step(&table, &address), Err(7));
    }
}
