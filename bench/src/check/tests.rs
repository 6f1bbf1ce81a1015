//! A case for each clause of each question, alone and where two questions compete.

use super::*;

/// A valid file of two historical and three stress scenarios; line 14 is its first row.
const HEADING: [&str; 13] = [
    "Valuation_DT,2/5/2023", "HVaR_WGT,0.75", "SVaR_WGT,0.25", "HVaR_Scen_Count,2", "SVaR_Scen_Count,3",
    "STV_Count,200", "HVaR_CL,0.5", "SVaR_CL,0.98", "HVaR_Measure,4", "SVaR_Measure,4", "Rounding,10000",
    "Holiday_Factor,0.4142135623", "InstrumentId,FieldType,1,2,3",
];

fn joined(lines: &[&str], end: &str) -> Vec<u8> {
    lines.iter().flat_map(|line| [*line, end]).collect::<String>().into_bytes()
}

fn with_rows(rows: &[&str]) -> Vec<u8> {
    joined(&[&HEADING, rows].concat(), "\n")
}

/// The valid heading with another text on one line.
fn with_heading(line: usize, text: &str) -> Vec<u8> {
    let mut lines = HEADING;
    lines[line - 1] = text;
    joined(&lines, "\n")
}

fn answer(bytes: &[u8]) -> Option<(u32, u32)> {
    check(bytes).err().map(|fault| (fault.question.number(), fault.line))
}

#[track_caller]
fn passes(bytes: &[u8]) {
    assert_eq!(answer(bytes), None, "{}", String::from_utf8_lossy(bytes));
}

#[track_caller]
fn refused(bytes: &[u8], question: u32, line: u32) {
    assert_eq!(answer(bytes), Some((question, line)), "{}", String::from_utf8_lossy(bytes));
}

/// Each of these values passes on the line.
#[track_caller]
fn values_pass(line: usize, values: &[&str]) {
    for value in values {
        passes(&with_heading(line, &format!("{},{value}", HEADING_NAMES[line - 1])));
    }
}

/// Each of these values is refused by the question on the line.
#[track_caller]
fn values_refused(line: usize, question: u32, values: &[&str]) {
    for value in values {
        refused(&with_heading(line, &format!("{},{value}", HEADING_NAMES[line - 1])), question, line as u32);
    }
}

/// Each of these rows is refused by the question where it stands alone on line 14.
#[track_caller]
fn rows_refused(question: u32, rows: &[&str]) {
    for row in rows {
        refused(&with_rows(&[row]), question, 14);
    }
}

/// Each of these rows passes where it stands alone on line 14.
#[track_caller]
fn rows_pass(rows: &[&str]) {
    for row in rows {
        passes(&with_rows(&[row]));
    }
}

/// A valid heading whose counts and levels are the given ones.
fn with_scenarios(hvar: u32, svar: u32, hvar_level: &str, svar_level: &str) -> Vec<u8> {
    let mut lines: Vec<String> = HEADING.iter().map(|line| line.to_string()).collect();
    lines[3] = format!("HVaR_Scen_Count,{hvar}");
    lines[4] = format!("SVaR_Scen_Count,{svar}");
    lines[6] = format!("HVaR_CL,{hvar_level}");
    lines[7] = format!("SVaR_CL,{svar_level}");
    lines[12] = "InstrumentId,FieldType".into();
    for scenario in 1..=hvar.max(svar) {
        lines[12] += &format!(",{scenario}");
    }
    joined(&lines.iter().map(String::as_str).collect::<Vec<_>>(), "\n")
}

// Question 1: the length.

#[test]
fn an_empty_file_is_refused() {
    refused(b"", 1, 0);
}

#[test]
fn the_longest_file_passes_and_one_byte_more_is_refused() {
    let mut bytes = with_rows(&["700,4,"]);
    bytes.pop();
    bytes.resize(MAX_FILE_BYTES, b'x');
    passes(&bytes);
    bytes.push(b'x');
    assert_eq!(answer(&bytes), Some((1, 0)));
    bytes[0] = b'?';
    assert_eq!(answer(&bytes), Some((1, 0)));
}

// Question 2: the first 13 lines.

#[test]
fn a_missing_line_is_named_after_the_last() {
    for lines in 1..13 {
        refused(&joined(&HEADING[..lines], "\n"), 2, lines as u32 + 1);
        let mut bytes = joined(&HEADING[..lines], "\n");
        bytes.pop();
        refused(&bytes, 2, lines as u32 + 1);
    }
}

#[test]
fn an_earlier_fault_goes_before_a_missing_line() {
    refused(b"Valuation_DT,2/5/23\n", 5, 1);
    refused(b"Valuation_DT,2/5/2023\nHVaR_WGT,2\n", 6, 2);
}

#[test]
fn a_file_without_rows_passes() {
    passes(&joined(&HEADING, "\n"));
}

// Question 3: names and line 13.

#[test]
fn a_wrong_name_is_refused() {
    for line in 1..=12usize {
        let value = HEADING[line - 1].split(',').nth(1).unwrap();
        let name = HEADING_NAMES[line - 1];
        for wrong in [
            name.to_lowercase(),
            format!("{name} "),
            format!(" {name}"),
            name[1..].into(),
            format!("\"{name}\""),
            String::new(),
        ] {
            refused(&with_heading(line, &format!("{wrong},{value}")), 3, line as u32);
        }
    }
}

#[test]
fn a_blank_line_in_the_heading_has_no_name() {
    for line in 1..=13 {
        refused(&with_heading(line, ""), 3, line as u32);
    }
    refused(b"\n", 3, 1);
    refused(b"\r\n", 3, 1);
    refused(b"\r", 3, 1);
}

#[test]
fn the_name_is_asked_before_cells_and_form() {
    refused(&with_heading(2, "Weight"), 3, 2);
    refused(&with_heading(2, "Weight,x,y"), 3, 2);
}

#[test]
fn swapped_lines_are_refused() {
    let mut lines = HEADING;
    lines.swap(1, 2);
    refused(&joined(&lines, "\n"), 3, 2);
}

#[test]
fn line_13_is_compared_as_text() {
    for text in [
        "InstrumentId,FieldType",
        "InstrumentId,FieldType,1,2",
        "InstrumentId,FieldType,1,2,3,",
        "InstrumentId,FieldType,1,2,3,4",
        "InstrumentId,FieldType,1,2,03",
        "InstrumentId,FieldType,1,3,2",
        "InstrumentID,FieldType,1,2,3",
        "InstrumentId,FieldType,1,2,3 ",
        "InstrumentId,Field_Type,1,2,3",
        "InstrumentId,FieldType,1,2,3\r",
    ] {
        let mut bytes = with_heading(13, text);
        if text.ends_with('\r') {
            bytes.pop();
        }
        refused(&bytes, 3, 13);
    }
}

#[test]
fn line_13_counts_to_the_greater_count() {
    passes(&with_scenarios(1, 1, "0", "0"));
    passes(&with_scenarios(12, 5, "0", "0"));
    passes(&with_scenarios(5, 12, "0", "0"));
}

// Question 4: cells.

#[test]
fn a_heading_line_has_exactly_two_cells() {
    for line in 1..=12 {
        let name = HEADING_NAMES[line - 1];
        refused(&with_heading(line, name), 4, line as u32);
        refused(&with_heading(line, &format!("{},", HEADING[line - 1])), 4, line as u32);
        refused(&with_heading(line, &format!("{},1", HEADING[line - 1])), 4, line as u32);
        refused(&with_heading(line, &format!("{name},,")), 4, line as u32);
        refused(&with_heading(line, &format!("{name},x,y")), 4, line as u32);
    }
}

#[test]
fn a_row_of_one_cell_is_refused() {
    rows_refused(4, &["", "700", "x", "0", "100000", " ", "\r\r"]);
}

#[test]
fn a_blank_last_line_is_a_row() {
    let mut bytes = with_rows(&["700,3,0.12"]);
    bytes.extend_from_slice(b"\n");
    refused(&bytes, 4, 15);
}

#[test]
fn a_row_with_a_missing_cell_is_refused() {
    rows_refused(4, &["700,1", "700,1,0.1", "700,2,0.1,0.2", "700,3", "700,7", "700,7,1", "700,7,1,4,-0.5"]);
}

#[test]
fn a_row_with_a_cell_too_many_is_refused() {
    rows_refused(
        4,
        &[
            "700,1,0.1,0.2,0.3", "700,1,0.1,0.2,,0.3", "700,2,0.1,0.2,0.3,0", "700,3,0.12,x", "700,3,0.12,,,1",
            "700,3,,0.12", "700,7,1,4,-0.5,0.25,0",
        ],
    );
}

#[test]
fn a_row_may_end_in_empty_cells() {
    passes(&with_rows(&[
        "700,1,0.1,0.2,", "700,2,0.1,0.2,0.3,,,,", "5,3,0.12,,", "5,7,1,4,-0.5,0.25,,,", "5,4,", "5,5,,,", "5,6,x,,",
    ]));
}

#[test]
fn the_number_of_cells_is_asked_before_form_range_and_repeat() {
    rows_refused(
        4,
        &["700,1,x", "700,1,9", "700,1,x,9,1", "700,3,x,y", "700,3,2,1", "700,7,x,4,-0.5", "700,7,4,4,-0.5"],
    );
    refused(&with_rows(&["5,3,0.12", "5,3,0.12,x"]), 4, 15);
    refused(&with_rows(&["5,3,0.12", "5,3"]), 4, 15);
}

// Question 5: forms.

#[test]
fn a_needed_cell_that_stands_there_empty_is_a_matter_of_form() {
    for line in 1..=12 {
        refused(&with_heading(line, &format!("{},", HEADING_NAMES[line - 1])), 5, line as u32);
    }
    rows_refused(
        5,
        &[
            ",", ",1", "700,", ",,", "700,1,,", "700,1,0.1,", "700,1,,0.1", "700,3,", "700,3,,", "700,7,,4,-0.5,0.25",
            "700,7,1,,-0.5,0.25", "700,7,1,4,,0.25", "700,7,1,4,-0.5,",
        ],
    );
}

#[test]
fn heading_values_have_their_form() {
    values_refused(
        1,
        5,
        &[
            "2/5/23", "2/5", "2-5-2023", "002/5/2023", "2/005/2023", "2/5/20230", "2023/5/2", "x", " 2/5/2023",
            "2/5/2023 ", "-2/5/2023", "2/5/2023/1", "//", "2//2023",
        ],
    );
    for line in [2, 3, 7, 8, 12] {
        values_refused(
            line,
            5,
            &["x", ".5", "0.", "-", "+0.5", "00000", "0.00000000000", "0.5 ", " 0.5", "5e-1", "0..5", "--0", "0.5.0"],
        );
    }
    for line in [4, 5, 6, 9, 10, 11] {
        values_refused(line, 5, &["x", "-1", "+1", "4.0", "4.", "0000000004", "1_000", "4 ", " 4"]);
    }
}

#[test]
fn a_row_has_a_stock_and_a_type() {
    rows_refused(
        5,
        &[
            "0,1", "00,1", "0700,1", "-7,1", "7.0,1", "x,1", " 7,1", "1234567890,1", "+7,3,0.12", "7,x", "7,-1",
            "7,1.0", "7,0000000001", "7, 1", "7,1 ", "7,4 ,x",
        ],
    );
}

#[test]
fn the_forms_of_stock_and_type_are_asked_before_the_range_of_either() {
    rows_refused(5, &["100000,x", "100000,", "x,8", ",0", "0,8", "0,100000"]);
}

#[test]
fn row_cells_have_their_form() {
    rows_refused(
        5,
        &[
            "700,1,x,0.1", "700,1,0.1,.5", "700,1,0.1,5.", "700,1,0.1,12345", "700,1,0.1,0.12345678901",
            "700,1,0.1,--1", "700,1,0.1,1e1", "700,1,0.1, 1", "700,1,0.1,1 ", "700,1,0.1,-", "700,2,0.1,0.1,+1",
            "700,3,x", "700,3,12%", "700,7,x,4,-0.5,0.25", "700,7,1.0,4,-0.5,0.25", "700,7,-1,4,-0.5,0.25",
            "700,7,1,x,-0.5,0.25", "700,7,1,12345,-0.5,0.25", "700,7,1,4,x,0.25", "700,7,1,4,-0.5,x",
        ],
    );
}

#[test]
fn all_forms_are_asked_before_any_range() {
    rows_refused(
        5,
        &["700,1,5,x", "700,1,x,5", "700,1,0.123456789,x", "700,7,4,4,-0.5,x", "700,7,x,4,-5,0.25", "700,7,1,-1,,0.25"],
    );
}

#[test]
fn a_carriage_return_without_a_line_feed_belongs_to_its_cell() {
    let mut bytes = with_rows(&["700,3,0.12\r"]);
    bytes.pop();
    refused(&bytes, 5, 14);
    refused(&with_rows(&["700,3,0.12\r\r"]), 5, 14);
    refused(&with_rows(&["700,3,0.12\r,"]), 5, 14);
    refused(&with_rows(&["700,3,0.12,\r\r"]), 4, 14);
    refused(&with_rows(&["700\r,3,0.12"]), 5, 14);
    refused(&with_rows(&["700,1,0.1\r,0.1"]), 5, 14);
    rows_pass(&["700,3,0.12\r", "700,3,0.12,\r", "700,4\r", "700,4,\r\r", "700,4,a\rb"]);
}

// Question 6: ranges and places.

#[test]
fn dates_are_real_and_of_this_century() {
    values_pass(1, &["29/2/2024", "1/1/2000", "31/12/2099", "01/02/2003", "29/2/2000", "30/11/2050"]);
    values_refused(
        1,
        6,
        &[
            "29/2/2023", "31/12/1999", "1/1/2100", "0/1/2023", "1/0/2023", "1/13/2023", "32/1/2023", "31/4/2023",
            "30/2/2024", "5/31/2023", "00/00/0000",
        ],
    );
}

#[test]
fn weights_are_from_0_to_1_and_their_sum_is_1() {
    let weights = |hvar: &str, svar: &str| {
        let mut lines = HEADING.map(String::from);
        lines[1] = format!("HVaR_WGT,{hvar}");
        lines[2] = format!("SVaR_WGT,{svar}");
        joined(&lines.iter().map(String::as_str).collect::<Vec<_>>(), "\n")
    };
    passes(&weights("1", "0"));
    passes(&weights("0", "1"));
    passes(&weights("1.0000", "-0"));
    passes(&weights("0001.0000000000", "-0000.0000"));
    passes(&weights("0.0001", "0.9999"));
    for (hvar, svar, line) in [
        ("1.0001", "0", 2),
        ("-0.0001", "1", 2),
        ("0.75005", "0.24995", 2),
        ("2", "-1", 2),
        ("0", "1.0001", 3),
        ("1", "-0.0001", 3),
        ("0.75", "0.24999", 3),
        ("0.75", "0.2499", 3),
        ("0.75", "0.2501", 3),
        ("0", "0", 3),
        ("1", "1", 3),
    ] {
        refused(&weights(hvar, svar), 6, line);
    }
}

#[test]
fn scenario_counts_are_from_1_to_4000() {
    values_refused(4, 6, &["0", "4001", "999999999", "000"]);
    values_refused(5, 6, &["0", "4001", "999999999"]);
    values_pass(4, &["000000002", "1", "3"]);
    passes(&with_scenarios(4_000, 4_000, "0.975", "0.9999"));
    passes(&with_scenarios(1, 4_000, "0", "0.975"));
}

#[test]
fn the_count_of_stress_tests_is_at_most_100000() {
    values_pass(6, &["0", "100000", "000100000"]);
    values_refused(6, 6, &["100001", "999999999"]);
}

#[test]
fn levels_are_from_0_to_1_and_leave_a_tail_of_1_to_100() {
    for line in [7, 8] {
        values_pass(line, &["0", "-0", "0.9999", "0.5", "0.99990000"]);
        values_refused(line, 6, &["1", "1.0", "1.0001", "-0.0001", "0.99995", "2"]);
    }
    passes(&with_scenarios(100, 1, "0", "0"));
    refused(&with_scenarios(101, 1, "0", "0"), 6, 7);
    passes(&with_scenarios(1, 100, "0", "0"));
    refused(&with_scenarios(1, 101, "0", "0"), 6, 8);
    passes(&with_scenarios(4_000, 1, "0.975", "0"));
    refused(&with_scenarios(4_000, 1, "0.9749", "0"), 6, 7);
    refused(&with_scenarios(1, 4_000, "0", "0.9749"), 6, 8);
}

#[test]
fn tail_counts_are_rounded_up() {
    assert_eq!(tail_count(9_940, 1_000), 6);
    assert_eq!(tail_count(9_800, 1_018), 21);
    assert_eq!(tail_count(5_000, 4), 2);
    assert_eq!(tail_count(7_000, 5), 2);
    assert_eq!(tail_count(9_999, 1), 1);
    assert_eq!(tail_count(10_000, 4_000), 0);
    assert_eq!(tail_count(0, 4_000), 4_000);
}

#[test]
fn measures_are_4() {
    for line in [9, 10] {
        values_pass(line, &["4", "04", "000000004"]);
        values_refused(line, 6, &["3", "5", "0", "44"]);
    }
}

#[test]
fn the_step_is_from_1_to_1000000() {
    values_pass(11, &["1", "1000000", "0000001"]);
    values_refused(11, 6, &["0", "1000001"]);
}

#[test]
fn the_holiday_factor_is_from_0_to_1() {
    values_pass(12, &["0", "1", "1.0000000000", "0.0000000001", "0.9999999999", "-0.0"]);
    values_refused(12, 6, &["1.0000000001", "-0.0000000001", "2", "9999"]);
}

#[test]
fn stocks_and_types_are_in_range() {
    rows_pass(&["1,4", "99999,4", "5,04", "5,000000006,x", "5,3,0.12", "5,03,0.12"]);
    rows_refused(6, &["100000,1", "999999999,4", "5,0", "5,8", "5,999999999", "5,08,x", "100000,8"]);
}

#[test]
fn a_bad_stock_or_type_is_judged_before_the_cells() {
    rows_refused(5, &["x,1,0.1", "5,x,,,"]);
    rows_refused(6, &["100000,1,0.1", "5,8,x", "5,0,", "100000,3,0.12,x"]);
}

#[test]
fn returns_are_from_minus_4_to_4_with_eight_places() {
    passes(&with_rows(&["5,1,4,-4", "5,2,0.1234567800,-0.00000001,4.0000000000"]));
    passes(&with_rows(&["5,1,-0,0004.00000000", "5,2,3.99999999,-3.9999999900,0"]));
    rows_refused(
        6,
        &[
            "5,1,4.00000001,0", "5,1,0,-4.00000001", "5,1,0.123456789,0", "5,1,0,5", "5,1,0,-9999",
            "5,1,0.0000000001,0", "5,2,0,0,4.1",
        ],
    );
}

#[test]
fn flat_rates_are_from_0_to_1_with_four_places() {
    rows_pass(&["5,3,0", "5,3,1", "5,3,-0", "5,3,0.0001", "5,3,1.0000000000"]);
    rows_refused(6, &["5,3,1.0001", "5,3,-0.0001", "5,3,0.00001", "5,3,2"]);
}

#[test]
fn entitlements_are_in_range() {
    rows_pass(&["5,7,1,0,-4,4", "5,7,3,9999,4,-4", "5,07,002,9998.9999,-0.0001,0.00010", "5,7,1,-0,0,-0"]);
    rows_refused(
        6,
        &[
            "5,7,0,4,0,0", "5,7,4,4,0,0", "5,7,999999999,4,0,0", "5,7,1,9999.0001,0,0", "5,7,1,-0.0001,0,0",
            "5,7,1,0.00001,0,0", "5,7,1,4,4.0001,0", "5,7,1,4,-4.0001,0", "5,7,1,4,0.00001,0", "5,7,1,4,0,4.0001",
            "5,7,1,4,0,-4.0001", "5,7,1,4,0,0.00001",
        ],
    );
}

#[test]
fn unread_rows_may_hold_anything() {
    rows_pass(&["5,4", "5,5,x,,y", "5,6,\"a\",-1e9,..", "5,4,\0", "5,4,é"]);
    let mut bytes = with_rows(&["5,4,"]);
    bytes.pop();
    bytes.extend_from_slice(&[0xff, 0xfe, 0, b'\r', b',']);
    passes(&bytes);
}

#[test]
fn a_value_in_range_is_asked_before_a_repeat() {
    refused(&with_rows(&["5,3,0.12", "5,3,2"]), 6, 15);
    refused(&with_rows(&["5,3,0.12", "5,3,x"]), 5, 15);
}

// Question 7: the first of its stock and type.

#[test]
fn a_second_row_of_a_stock_and_type_is_refused() {
    refused(&with_rows(&["5,1,0,0", "5,1,0,0"]), 7, 15);
    refused(&with_rows(&["5,1,0,0", "5,2,0,0,0", "5,2,0,0,0"]), 7, 16);
    refused(&with_rows(&["5,3,0.12", "6,3,0.12", "5,03,0.3"]), 7, 16);
}

#[test]
fn entitlements_are_told_apart_by_their_type() {
    passes(&with_rows(&["5,7,1,4,0,0", "5,7,2,4,0,0", "5,7,3,4,0,0", "6,7,1,4,0,0"]));
    refused(&with_rows(&["5,7,1,4,0,0", "5,7,2,4,0,0", "5,7,01,4,0,0"]), 7, 16);
    refused(&with_rows(&["5,7,3,4,0,0", "5,07,3,5,1,1"]), 7, 15);
}

#[test]
fn unread_rows_may_repeat() {
    passes(&with_rows(&["5,4,a", "5,4,a", "5,5", "5,5", "5,6", "5,6"]));
}

#[test]
fn a_repeat_goes_before_rows_that_do_not_stand_together() {
    refused(&with_rows(&["4,1,0,0", "5,3,0.12", "5,3,0.12"]), 7, 16);
}

// Question 8: rows that stand together.

#[test]
fn a_stock_has_both_return_rows_or_neither() {
    refused(&with_rows(&["5,1,0,0"]), 8, 14);
    refused(&with_rows(&["5,2,0,0,0"]), 8, 14);
    passes(&with_rows(&["5,2,0,0,0", "5,1,0,0"]));
}

#[test]
fn a_stock_with_returns_has_no_flat_rate() {
    refused(&with_rows(&["5,1,0,0", "5,2,0,0,0", "5,3,0.12"]), 8, 14);
    refused(&with_rows(&["5,3,0.12", "5,1,0,0", "5,2,0,0,0"]), 8, 14);
    refused(&with_rows(&["5,3,0.12", "5,1,0,0"]), 8, 14);
    refused(&with_rows(&["5,2,0,0,0", "5,3,0.12"]), 8, 14);
}

#[test]
fn the_earliest_row_of_any_stock_at_fault_is_named() {
    let good = ["9,1,0,0", "9,2,0,0,0", "8,3,0.12"];
    refused(&with_rows(&[&good[..], &["7,2,0,0,0", "3,1,0,0"]].concat()), 8, 17);
    refused(&with_rows(&["3,7,1,4,0,0", "3,4,x", "9,1,0,0", "3,2,0,0,0", "9,2,0,0,0", "3,3,0.1"]), 8, 17);
    refused(&with_rows(&["3,3,0.1", "7,1,0,0", "3,1,0,0"]), 8, 14);
    refused(&with_rows(&["3,3,0.1", "7,1,0,0", "4,2,0,0,0"]), 8, 15);
}

#[test]
fn a_faulty_row_goes_before_rows_that_do_not_stand_together() {
    refused(&with_rows(&["5,1,0,0", "6,3"]), 4, 15);
}

// Lines and what a checked file means.

#[test]
fn lines_end_in_either_way_and_the_last_end_may_be_missing() {
    let lines = [&HEADING[..], &["700,1,0.1,0.2", "700,2,0.1,0.2,0.3"]].concat();
    for end in ["\n", "\r\n"] {
        let bytes = joined(&lines, end);
        passes(&bytes);
        passes(&bytes[..bytes.len() - end.len()]);
    }
    let mut mixed = joined(&HEADING, "\r\n");
    mixed.extend_from_slice(b"5,3,0.12\n6,3,0.12\r\n7,3,0.12");
    passes(&mixed);
    let heading = joined(&HEADING, "\n");
    passes(&heading[..heading.len() - 1]);
}

#[test]
fn a_checked_file_means_what_its_text_lays_down() {
    let bytes = with_rows(&[
        "700,2,0.01,-0.1,4", "33,03,0.1200", "700,1,-0.004567,0.012345", "44,7,1,4,-0.5,0.25", "44,7,3,1,0,-1",
        "55,4,x",
    ]);
    let file = check(&bytes).unwrap();
    let parameters = *file.parameters();
    assert_eq!(parameters.hvar_weight_ten_thousandths, 7_500);
    assert_eq!(parameters.svar_weight_ten_thousandths, 2_500);
    assert_eq!((parameters.hvar_scenarios, parameters.svar_scenarios), (2, 3));
    assert_eq!((parameters.hvar_tail, parameters.svar_tail), (1, 1));
    assert_eq!((parameters.step_dollars, parameters.holiday_factor), (10_000, 4_142_135_623));
    assert_eq!(file.tier(700), Some(Tier::Portfolio));
    assert_eq!(file.tier(33), Some(Tier::Flat));
    assert_eq!(
        (file.tier(44), file.tier(55), file.tier(1), file.tier(0), file.tier(u32::MAX)),
        (None, None, None, None, None)
    );
    assert_eq!(file.returns(700, ReturnSet::Historical), Some(&[-456_700, 1_234_500][..]));
    assert_eq!(file.returns(700, ReturnSet::Stress), Some(&[1_000_000, -10_000_000, 400_000_000][..]));
    assert_eq!(file.returns(33, ReturnSet::Stress), None);
    assert_eq!((file.flat_rate_ten_thousandths(33), file.flat_rate_ten_thousandths(700)), (Some(1_200), None));
    let distribution = Entitlement { price: 40_000, short_percentage: 5_000, long_percentage: 2_500 };
    let dividend = Entitlement { price: 10_000, short_percentage: 0, long_percentage: 10_000 };
    assert_eq!(file.entitlement(44, EntitlementType::DistributionInSpecie), Some(distribution));
    assert_eq!(file.entitlement(44, EntitlementType::CashDividend), Some(dividend));
    assert_eq!(file.entitlement(44, EntitlementType::RightsIssue), None);
    assert_eq!((file.stocks_in(Tier::Portfolio), file.stocks_in(Tier::Flat), file.entitlement_count()), (1, 1, 2));
}
