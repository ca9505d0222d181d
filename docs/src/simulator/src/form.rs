//! The case stream of CASES.md: cases of both forms, one after the other.

use std::io::{self, Read, Write};

use crate::cases::{self, case_after, next_header, print_each, Case, Next, HEADER};
use crate::long::{long_after, long_bytes, long_line, Long, FIRST_LONG};

/// One case of a stream.
#[derive(Clone, Debug, PartialEq, Eq)]
pub enum Form {
    Short(Case),
    Long(Long),
}

/// The next case, short or long by its `what`.
pub fn next_form(input: &mut impl Read) -> Next<Form> {
    let header = match next_header(input)? {
        Ok(header) => header,
        Err(why) => return Ok(Err(why)),
    };
    if header[HEADER - 1] < FIRST_LONG {
        Ok(case_after(&header, input)?.map(Form::Short))
    } else {
        Ok(long_after(&header, input)?.map(Form::Long))
    }
}

/// All whole cases of a stream.
pub fn forms_of(mut stream: &[u8]) -> Vec<Form> {
    let mut forms = Vec::new();
    while let Ok(Ok(form)) = next_form(&mut stream) {
        forms.push(form);
    }
    forms
}

/// The line for a case, without its line feed.
pub fn line(form: &Form) -> String {
    match form {
        Form::Short(case) => cases::line(case),
        Form::Long(case) => long_line(case),
    }
}

/// The bytes of a case, as the stream holds them.
pub fn bytes_of(form: &Form) -> Vec<u8> {
    match form {
        Form::Short(case) => cases::bytes_of(case),
        Form::Long(case) => long_bytes(case),
    }
}

/// Print the lines of a whole stream of cases.
pub fn print_lines(input: impl Read, output: impl Write) -> io::Result<()> {
    print_each(input, output, next_form, line)
}
