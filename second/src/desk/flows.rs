//! The sheet of flows: its first line, and then a line of five numbers for each flow, at most 16.

use crate::admit::{Flow, MOST_FLOWS};
use crate::answer::{refuse, Outcome};
use crate::sheet::{bad_line, fields, number, split_lines};

const FIRST_LINE: &[u8] = b"cell,burst,period,repeats,value";

fn read_flow(line: &[u8]) -> Option<Flow> {
    let numbers: Vec<u16> = fields(line).into_iter().map(number).collect::<Option<_>>()?;
    let [cell, burst, period, repeats, value] = numbers[..] else { return None };
    Some(Flow { cell, burst, period, repeats, value })
}

/// Reads a sheet of flows: 17 with the first bad line, and 18 where anything stands after the sixteenth flow's line.
pub fn read_flows(bytes: &[u8]) -> Outcome<Vec<Flow>> {
    let (lines, rest) = split_lines(bytes);
    if lines.first() != Some(&FIRST_LINE) {
        return bad_line(1);
    }
    let mut flows = Vec::new();
    for line in 2..=lines.len() {
        if flows.len() == MOST_FLOWS {
            return refuse(18, &[]);
        }
        match read_flow(lines[line - 1]) {
            Some(flow) => flows.push(flow),
            None => return bad_line(line),
        }
    }
    match rest {
        [] => Ok(flows),
        _ if flows.len() == MOST_FLOWS => refuse(18, &[]),
        _ => bad_line(lines.len() + 1),
    }
}

#[cfg(test)]
mod tests {
    use super::*;

    const FIRST: &str = "cell,burst,period,repeats,value\r\n";

    fn read(lines: &str) -> Outcome<Vec<Flow>> {
        read_flows(format!("{FIRST}{lines}").as_bytes())
    }

    #[test]
    fn flows_in_their_order() {
        let one = Flow { cell: 1, burst: 2, period: 3, repeats: 4, value: 5 };
        let two = Flow { cell: 65_535, burst: 0, period: 10, repeats: 0, value: 65_535 };
        assert_eq!(read("1,2,3,4,5\r\n65535,0,10,0,65535\r\n"), Ok(vec![one, two]));
        assert_eq!(read(""), Ok(vec![]));
    }

    #[test]
    fn the_first_bad_line() {
        for text in ["", "\r\n", "cell,burst,period,repeats,value", "cell,burst,period,repeats,value\n", "\u{feff}cell"]
        {
            assert_eq!(read_flows(text.as_bytes()), bad_line(1), "{text:?}");
        }
        for lines in
            ["1,2,3,4,5", "1,2,3,4\r\n", "1,2,3,4,5,6\r\n", "01,2,3,4,5\r\n", "1,2,3,4,65536\r\n", "1,2,3,,5\r\n"]
        {
            assert_eq!(read(lines), bad_line(2), "{lines:?}");
        }
        for lines in ["1,2,3,4,5\r\n\r\n", "1,2,3,4,5\r\n ", "1,2,3,4,5\r\n1,2,3,4,+5\r\nx"] {
            assert_eq!(read(lines), bad_line(3), "{lines:?}");
        }
    }

    #[test]
    fn sixteen_and_more() {
        let line = "1,2,3,4,5\r\n";
        assert_eq!(read(&line.repeat(16)).unwrap().len(), 16);
        for more in [line, "\r\n", "x", "1,2,3,4,5"] {
            assert_eq!(read(&(line.repeat(16) + more)), refuse(18, &[]), "{more:?}");
        }
        assert_eq!(read(&(line.repeat(15) + "x\r\n" + line)), bad_line(17));
    }
}
