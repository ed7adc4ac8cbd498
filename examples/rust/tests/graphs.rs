
use sgb::{draws, uniform_draws, version, Arc, Entry, Error, Field, Graph, Product, Rows};

const FILE: &[u8] = b"* GraphBase graph (util_types ZZZZZZZZZZZZZZ,2V,2A)\n\"two\",2,2\n* Vertices\n\"left\",A0\n\"right\",A1\n\
                      * Arcs\nV1,0,7\nV0,0,-3\n* Checksum -1\n";
const GREAT: &str = "board(1000000000,0,0,0,1,0,0)";
const GRAPHS: [&str; 7] = [
    "petersen()", "board(3,4,0,0,-2,0,0)", "simplex(3,-3,0,0,0,0,0)", "simplex(3,1,1,0,0,0,0)", "wheel(5,1,0)",
    "lines(complete(4),0)", "simplex(4,2,1,0,0,0,0)",
];

fn graph(text: &str) -> Graph {
    Graph::new(text, b"").unwrap()
}

#[test]
fn petersens_graph_has_ten_vertices_of_degree_three() {
    let graph = graph("petersen()");
    assert_eq!((graph.n(), graph.m(), graph.text()), (10, Ok(30), "petersen()"));
    let rows = graph.all().unwrap();
    assert!((0..10).all(|v| rows.tips_of(v).len() == 3 && rows.degree(v) == 3 && graph.degree(v) == Ok(3)));
    assert_eq!(graph.id(), "subsets(2,1,-4,0,0,0,0x1,0)");
    assert_eq!(rows.tips_of(0), [9, 8, 5]);
}

#[test]
fn a_listing_is_that_of_the_program() {
    let wanted = "  The graph whose official name is\nboard(2,0,0,0,-1,0,0)\n  has 2 vertices and 2 arcs:\n\n\
                  0\n  -> 1, length 1\n1\n  -> 0, length 1\n";
    assert_eq!(graph("complete(2)").listing().unwrap(), wanted);
}

#[test]
fn a_file_is_read() {
    let graph = Graph::new("stdin", FILE).unwrap();
    assert!(graph.all_names().unwrap().iter().eq(["left", "right"]));
    let rows = graph.all().unwrap();
    assert_eq!((rows.starts(), rows.tips(), rows.lengths()), (&[0, 1, 2][..], &[1, 0][..], &[7, -3][..]));
}

#[test]
fn a_file_is_written_as_it_was() {
    let graph = Graph::new("stdin", FILE).unwrap();
    assert_eq!(graph.kinds().unwrap(), "Z".repeat(14));
    let file = graph.file().unwrap();
    let again = Graph::new("stdin", &file).unwrap();
    assert_eq!((again.file().unwrap(), again.listing()), (file, graph.listing()));
}

#[test]
fn a_graph_of_no_vertices_has_empty_arrays() {
    let file = b"* GraphBase graph (util_types ZZZZZZZZZZZZZZ,0V,0A)\n\"\",0,0\n* Vertices\n* Arcs\n* Checksum 10363\n";
    let graph = Graph::new("stdin", file).unwrap();
    assert_eq!((graph.id(), graph.all_names().unwrap().is_empty()), ("", true));
    let rows = graph.all().unwrap();
    assert_eq!((rows.starts(), rows.tips(), rows.lengths()), (&[0][..], &[][..], &[][..]));
    assert_eq!((graph.chunks(3).count(), graph.arcs().count()), (0, 0));
}

#[test]
fn coordinates_are_in_the_fields_x_and_y() {
    let graph = graph("board(2,2,0,0,1,0,0)");
    assert_eq!(graph.ints(Field::X, 0, 4), Ok(vec![0, 0, 1, 1]));
    assert_eq!(graph.ints(Field::Y, 0, 4), Ok(vec![0, 1, 0, 1]));
    assert_eq!(graph.ints(Field::Y, 1, 2), Ok(vec![1, 0]));
    assert_eq!(graph.ints(Field::U, 0, 4), Err(Error::Code(102)));
    assert_eq!(graph.ints(Field::X, 1, 4), Err(Error::Code(106)));
}

#[test]
fn several_graphs_are_open_at_once() {
    let board = graph("board(2,2,0,0,1,0,0)");
    let names = {
        let petersen = graph("petersen()");
        assert!(board.all_names().unwrap().iter().eq(["0.0", "0.1", "1.0", "1.1"]));
        petersen.all_names().unwrap()
    };
    assert_eq!((names.len(), &names[0]), (10, "0.0.0.1.1"));
    assert_eq!(&board.all_names().unwrap()[3], "1.1");
}

#[test]
fn a_graph_that_is_dropped_is_given_back() {
    // pages that this process holds, where the system says so
    let pages = || std::fs::read_to_string("/proc/self/statm").ok()?.split(' ').nth(1)?.parse::<u64>().ok();
    let before = pages();
    for _ in 0..300 {
        assert_eq!(graph("complement(empty(300),0,0,0)").n(), 300);
    }
    // one takes some megabytes
    assert!(before.zip(pages()).map_or(true, |(before, after)| after < before + 40_000));
}

#[test]
fn what_is_no_graph_is_refused() {
    let refusal = |text: &str| Graph::new(text, b"").err();
    assert_eq!(refusal("board(3,"), Some(Error::Expression(8)));
    assert_eq!(refusal(""), Some(Error::Expression(0)));
    assert_eq!(refusal("simplex(-1,0,0,0,0,0,0)"), Some(Error::Code(30)));
    assert_eq!(refusal("stdin"), Some(Error::Code(10)));
    assert_eq!(refusal(&"x".repeat(65_537)), Some(Error::Code(100)));
}

#[test]
fn a_refusal_is_said_in_words() {
    let said = |text: &str| Graph::new(text, b"").unwrap_err().to_string();
    assert_eq!(said("board(3,"), "bad expression at byte 8");
    assert_eq!(said("simplex(-1,0,0,0,0,0,0)"), "parameters that make no sense (code 30)");
    assert_eq!((Error::Expression(8).code(), Error::Code(30).code()), (Some(1008), Some(30)));
    assert_eq!((Error::Code(30).words(), Error::Code(77).words()), ("parameters that make no sense", "something went wrong"));
}

#[test]
fn the_runs_of_a_graph_are_its_arrays() {
    for text in GRAPHS {
        let graph = graph(text);
        let (all, names) = (graph.all().unwrap(), graph.all_names().unwrap());
        assert_eq!((all.vertices(), names.vertices()), (0..graph.n(), 0..graph.n()));
        for size in [1, 3, 1000] {
            let (mut tips, mut lengths, mut seen) = (vec![], vec![], 0);
            for rows in graph.chunks(size) {
                let rows = rows.unwrap();
                assert_eq!((rows.first(), rows.count()), (seen, size.min(graph.n() - seen)));
                assert_eq!(rows.lists(), &graph.lists(rows.first(), rows.count()).unwrap());
                assert!(rows.vertices().all(|v| rows.tips_of(v) == all.tips_of(v) && rows.lengths_of(v) == all.lengths_of(v)));
                let some = graph.names(rows.first(), rows.count()).unwrap();
                assert!(some.iter().eq(rows.vertices().map(|v| &names[v])));
                tips.extend_from_slice(rows.tips());
                lengths.extend_from_slice(rows.lengths());
                seen += rows.count();
            }
            assert_eq!((tips, lengths, seen), (all.tips().to_vec(), all.lengths().to_vec(), graph.n()));
        }
        for v in 0..graph.n() {
            assert_eq!(graph.tips_of(v), Ok(all.tips_of(v).to_vec()));
            assert_eq!(graph.lengths_of(v), Ok(all.lengths_of(v).to_vec()));
            assert_eq!(graph.degree(v), Ok(all.degree(v) as u64));
            assert_eq!((graph.name(v).as_deref(), names.get(v)), (Ok(&names[v]), Some(&names[v])));
            assert_eq!(graph.vertex(&names[v]), Ok(Some(v)));
        }
        assert_eq!((names.get(graph.n()), graph.vertex("none")), (None, Ok(None)));
    }
}

#[test]
fn arcs_come_in_the_order_of_the_lists() {
    for text in GRAPHS.into_iter().chain(["board(5000,0,0,0,1,0,0)", "circuit(1)"]) {
        let graph = graph(text);
        let rows = graph.all().unwrap();
        let arcs: Result<Vec<Arc>, Error> = graph.arcs().collect();
        let arcs = arcs.unwrap();
        assert!(rows.arcs().eq(arcs.iter().copied()));
        assert!(arcs.iter().map(|arc| arc.tip).eq(rows.tips().iter().copied()));
        assert!(arcs.iter().map(|arc| arc.length).eq(rows.lengths().iter().copied()));
        assert!(arcs.iter().all(|arc| rows.arcs_of(arc.v as usize).any(|other| other == *arc)));
        assert!(arcs.windows(2).all(|two| two[0].v <= two[1].v));
    }
}

#[test]
fn an_edge_is_two_arcs() {
    let ends = |text: &str| graph(text).edges().map(|edges| edges.iter().map(|e| (e.v, e.tip, e.length)).collect::<Vec<_>>());
    assert_eq!(ends("circuit(1)"), Ok(vec![(0, 0, 1)]));
    assert_eq!(ends("board(3,0,0,0,-1,0,0)").map(|edges| edges.len()), Ok(3));
    let parallel = ends("gunion(complete(3),circuit(3),1,0)").unwrap();
    assert_eq!((parallel.len(), parallel.iter().filter(|edge| **edge == (0, 1, 1)).count()), (6, 2));
    let alone = Arc { v: 0, tip: 1, length: 7 };
    assert_eq!(Graph::new("stdin", FILE).unwrap().edges(), Err(Error::Unpaired(alone)));
    let said = "the arc from vertex 0 to vertex 1, length 7, is no edge, since none leads back";
    assert_eq!(Error::Unpaired(alone).to_string(), said);
}

/// Whether a type has `==`: what it says by itself comes before what every type says.
struct Compared<T>(std::marker::PhantomData<T>);

trait NotCompared {
    const IS: bool = false;
}

impl<T> NotCompared for Compared<T> {}

impl<T: PartialEq> Compared<T> {
    const IS: bool = true;
}

#[test]
fn graphs_are_compared_by_what_they_have() {
    assert_eq!((Compared::<Rows>::IS, Compared::<Graph>::IS), (true, false));
    let one = |length| Graph::from_edges(2, &[Arc { v: 0, tip: 1, length }], false, "one").unwrap();
    assert_eq!((one(1).id(), one(1).all(), one(1).file()), ("one", one(1).all(), one(1).file()));
    assert!(one(2).id() == "one" && one(2).all() != one(1).all() && one(2).file() != one(1).file());
    assert_eq!(graph("petersen()").file(), graph("subsets(2,1,-4,0,0,0,1,0)").file());
}

#[test]
fn a_great_graph_has_a_last_run() {
    let graph = graph(GREAT);
    assert_eq!((graph.n(), graph.m()), (1_000_000_000, Ok(1_999_999_998)));
    let rows = graph.rows(999_999_998, 2).unwrap();
    assert!(graph.names(999_999_998, 2).unwrap().iter().eq(["999999998", "999999999"]));
    assert_eq!((rows.starts(), rows.lengths()), (&[0, 2, 3][..], &[1; 3][..]));
    assert_eq!(rows.tips(), [999_999_999, 999_999_997, 999_999_998]);
    assert_eq!(graph.tips_of(999_999_999), Ok(vec![999_999_998]));
    assert_eq!(graph.chunks(10).next().unwrap().unwrap().vertices(), 0..10);
}

#[test]
fn a_run_that_is_not_there_is_refused() {
    for text in ["petersen()", "wheel(9,1,0)"] {
        let graph = graph(text);
        assert!(graph.rows(0, 10).is_ok());
        assert!(graph.rows(10, 0).is_ok());
        for (first, count) in [(1, 10), (11, 0), (0, 11), (u32::MAX as usize, u32::MAX as usize), (1 << 32, 0), (0, 1 << 32)] {
            assert_eq!(graph.rows(first, count).err(), Some(Error::Code(106)));
            assert_eq!(graph.lists(first, count).err(), Some(Error::Code(106)));
            assert_eq!(graph.names(first, count).err(), Some(Error::Code(106)));
        }
        assert_eq!((graph.degree(10), graph.tips_of(10)), (Err(Error::Code(106)), Err(Error::Code(106))));
    }
}

#[test]
#[should_panic(expected = "vertex 4 is not among 1..4")]
fn a_list_that_is_not_there_panics() {
    graph("petersen()").rows(1, 3).unwrap().tips_of(4);
}

/// That what was made is the graph of the expression: its file, in which everything stands.
fn same(made: Result<Graph, Error>, text: &str) {
    let (made, wanted) = (made.unwrap(), graph(text));
    assert_eq!((made.id(), made.n(), made.text()), (wanted.id(), wanted.n(), "stdin"));
    assert!(made.file() == wanted.file(), "another file than that of {text}");
}

#[test]
fn an_operation_is_that_of_the_expression() {
    let (board, ring, arcs) = (graph("board(3,3,0,0,1,0,0)"), graph("circuit(4)"), graph("transitive(3)"));
    let before = (board.file(), ring.file(), arcs.file());
    same(board.complement(false, true, false), "complement(board(3,3,0,0,1,0,0),0,1,0)");
    same(board.complement(true, false, true), "complement(board(3,3,0,0,1,0,0),1,0,1)");
    same(board.lines(false), "lines(board(3,3,0,0,1,0,0),0)");
    same(arcs.lines(true), "lines(transitive(3),1)");
    same(board.gunion(&ring, false, false), "gunion(board(3,3,0,0,1,0,0),circuit(4),0,0)");
    same(ring.gunion(&board, true, false), "gunion(circuit(4),board(3,3,0,0,1,0,0),1,0)");
    same(ring.gunion(&ring, true, true), "gunion(circuit(4),circuit(4),1,1)");
    same(ring.intersection(&board, false, true), "intersection(circuit(4),board(3,3,0,0,1,0,0),0,1)");
    same(ring.intersection(&ring, true, false), "intersection(circuit(4),circuit(4),1,0)");
    for (number, kind) in [Product::Cartesian, Product::Direct, Product::Strong].into_iter().enumerate() {
        same(ring.product(&arcs, kind, false), &format!("product(circuit(4),transitive(3),{number},0)"));
        same(arcs.product(&arcs, kind, true), &format!("product(transitive(3),transitive(3),{number},1)"));
    }
    assert_eq!((board.file(), ring.file(), arcs.file()), before);
}

#[test]
fn entries_are_numbers_and_graphs() {
    let (ring, arcs) = (graph("circuit(4)"), graph("transitive(3)"));
    let entries = [1.into(), Entry::Number(2), Entry::Graph(&ring)];
    same(arcs.induced(&entries, false, false, false), "induced(transitive(3),[1,2,circuit(4)],0,0,0)");
    let entries = [Entry::Number(-1), (&arcs).into(), Entry::Number(-1)];
    same(arcs.induced(&entries, true, false, true), "induced(transitive(3),[-1,transitive(3),-1],1,0,1)");
    same(arcs.induced(&entries, false, true, false), "induced(transitive(3),[-1,transitive(3),-1],0,1,0)");
    same(Graph::bi_complete(2, 3, true), "bi_complete(2,3,1)");
    same(Graph::wheel(5, 2, false), "wheel(5,2,0)");
    let around = "induced(board(2,0,0,0,1,0,1),[circuit(4),board(5,0,0,0,1,1,1)],0,0,1)";
    same(Graph::wheel_around(&ring, 5, true), around);
    let board = "induced(board(2,0,0,0,1,0,0),[circuit(4),board(0,0,0,0,1,1,0)],0,0,0)";
    same(Graph::wheel_around(&ring, i64::MIN, false), board);
}

#[test]
fn an_operation_may_be_refused() {
    let (arcs, many) = (graph("transitive(3)"), graph("empty(40000)"));
    assert_eq!(arcs.lines(false).err(), Some(Error::Code(60)));
    assert_eq!(many.product(&many, Product::Direct, false).err(), Some(Error::Code(40)));
    assert_eq!(arcs.induced(&[1.into()], false, false, false).err(), Some(Error::Code(30)));
    for n in [1_000_000_000 - 2, i64::MAX] {
        assert_eq!(Graph::wheel_around(&arcs, n, false).err(), Some(Error::Code(40)));
    }
    assert_eq!((Graph::wheel(3, -1, false).err(), Graph::bi_complete(-1, 0, false).err()), (Some(Error::Code(30)), Some(Error::Code(30))));
}

#[test]
fn a_graph_is_made_of_its_arcs() {
    let made = Graph::make(&["a", "", "c"], &[0, 0, 2], &[1, 2, 2], &[1, i64::MIN, i64::MAX], true, "made").unwrap();
    let rows = made.all().unwrap();
    assert_eq!((made.id(), rows.tips(), rows.lengths()), ("made", &[2, 1, 2][..], &[i64::MIN, 1, i64::MAX][..]));
    assert!(made.all_names().unwrap().iter().eq(["a", "", "c"]));
    let edges = [(1, 0, 5), (1, 2, 1), (1, 1, 7), (2, 2, 3)].map(|(v, tip, length)| Arc { v, tip, length });
    let own = Graph::from_edges(3, &edges, false, "own").unwrap();
    assert_eq!((own.tips_of(1), own.lengths_of(1)), (Ok(vec![0, 2, 1, 1]), Ok(vec![5, 1, 7, 7])));
    let arcs = Graph::from_edges(3, &edges, true, "own").unwrap();
    assert_eq!((arcs.tips_of(0), arcs.tips_of(1), arcs.tips_of(2)), (Ok(vec![]), Ok(vec![0, 2, 1]), Ok(vec![2])));
    let refused = |ends: &[u32], name: &str, id: &str| Graph::make(&[name], ends, &[0], &[1], false, id).err();
    assert_eq!(refused(&[1], "a", "x"), Some(Error::Code(106)));
    assert_eq!(refused(&[0], "\"", "x"), Some(Error::Code(107)));
    assert_eq!(refused(&[0], "a", "\n"), Some(Error::Code(107)));
    assert_eq!(refused(&[0, 0], "a", "x"), Some(Error::Code(101)));
    assert_eq!(Graph::make::<&str>(&[], &[], &[], &[], false, "").unwrap().n(), 0);
}

#[test]
fn an_edge_that_cannot_be_is_told() {
    let edges = [(1, 0), (2, 3), (7, 1), (3, 2)].map(|(v, tip)| Arc { v, tip, length: 5 });
    let told = |n| Graph::from_edges(n, &edges, false, "own").unwrap_err();
    assert_eq!((told(4), told(3), told(0)), (Error::NoEnd(2, edges[2]), Error::NoEnd(1, edges[1]), Error::NoEnd(0, edges[0])));
    let said = "edge 2 of those given, from vertex 7 to vertex 1: there are not so many vertices (code 106)";
    assert_eq!((told(4).to_string().as_str(), told(4).code(), told(4).words()), (said, Some(106), Error::Code(106).words()));
    assert_eq!(Graph::from_edges(8, &edges, false, "own").unwrap().m(), Ok(8));
}

#[test]
fn the_first_draw_is_that_of_gb_flip() {
    assert_eq!(draws(-314159, 0, 1), [119318998]);
    assert_eq!(draws(-314159, 0, 0), []);
    assert_eq!(uniform_draws(-314159, 0, 0, 1), Err(Error::Code(103)));
    assert_eq!(uniform_draws(-314159, 0, 1, 3), Ok(vec![0, 0, 0]));
}

#[test]
fn the_library_has_the_version_of_the_crate() {
    let crate_is: Vec<u64> = env!("CARGO_PKG_VERSION").split('.').map(|part| part.parse().unwrap()).collect();
    assert_eq!(crate_is[0] * 1_000_000 + crate_is[1] * 1_000 + crate_is[2], version());
}
