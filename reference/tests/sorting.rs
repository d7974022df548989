//! A text table in a file that is named, and one that is put in order.

mod program;

use program::run;

#[test]
fn a_fault_names_the_file_where_one_is_given() {
    let table = b"# p\nnodes 4\n\n0 1\n0 3\n# q\n0 2\n9 9\n";
    for (arguments, begin) in [
        (&["book"][..], "line "),
        (&["book", "my.table"], "my.table:"),
    ] {
        let output = run(arguments, table);
        assert_eq!(output.status.code(), Some(1));
        assert!(output.stdout.is_empty());
        let expected = format!("{begin}7: refused 8: pair 0 2 is below the previous pair 0 3\n");
        assert_eq!(String::from_utf8(output.stderr).unwrap(), expected);
    }
}

#[test]
fn a_table_is_put_in_order() {
    let table = b"# p\nnodes 4\n2 1 7 # trunk\n0 3\n";
    let output = run(&["sort"], table);
    assert!(output.status.success());
    let expected = "# p\nnodes 4\n0 3\n1 2 7 # trunk\n";
    assert_eq!(String::from_utf8(output.stdout).unwrap(), expected);
    let moves = "link 0 (line 3) is link 1, turned round\nlink 1 (line 4) is link 0\n";
    assert_eq!(String::from_utf8(output.stderr).unwrap(), moves);
}

#[test]
fn a_faulty_table_is_not_put_in_order() {
    let output = run(&["sort", "my.table"], b"nodes 4\n2 1\n\n3 3\n");
    assert_eq!(output.status.code(), Some(1));
    assert!(output.stdout.is_empty());
    let expected = "my.table:4: refused 7: low end 3 is not below high end 3\n";
    assert_eq!(String::from_utf8(output.stderr).unwrap(), expected);
}
