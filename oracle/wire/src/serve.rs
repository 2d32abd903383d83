use std::io::{self, BufRead, BufReader, BufWriter, Write};

/// Answers each line of standard input on standard output, `bad` where it is no request. Answers are held back only
/// while more requests are at hand, so that a person can type requests and a file of millions runs fast.
pub fn serve(mut handle: impl FnMut(&str) -> Option<String>) -> io::Result<()> {
    let mut input = BufReader::with_capacity(1 << 16, io::stdin().lock());
    let mut output = BufWriter::with_capacity(1 << 16, io::stdout().lock());
    let mut line = Vec::new();
    while input.read_until(b'\n', &mut line)? > 0 {
        let request = line.strip_suffix(b"\n").unwrap_or(&line);
        let answer = std::str::from_utf8(request).ok().and_then(&mut handle);
        writeln!(output, "{}", answer.as_deref().unwrap_or("bad"))?;
        if input.buffer().is_empty() {
            output.flush()?;
        }
        line.clear();
    }
    output.flush()
}
