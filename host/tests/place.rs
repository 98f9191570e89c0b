//! examples/place.c, compiled as it says of itself and held against what it should print.

mod c;

/// By the paper's first four steps; a page has 1024 bytes.
const EXPECTED: &str = "\
buffer: 100 bytes at 0, id 2
image: 256 bytes at 1024, id 3
buffer: 16 bytes at 2048, id 4
image: refusal 7
id 2 given back, 1.92 KB left
live: id 3, from 100 on, 1.15 KB with padding
live: id 4, from 1280 on, 784.00 B with padding
";

#[test]
fn the_c_example_prints_where_everything_stands() {
    assert_eq!(c::output_of("examples/place.c", "place"), EXPECTED);
}
