//! A case file taken apart, as docs/CASES.md describes it.

/// A case: its name, and its lines after that, of which `next` is the first not yet taken.
pub struct Case<'a> {
    pub name: &'a str,
    lines: Vec<&'a str>,
    next: usize,
}

/// What is wrong, in words.
pub type Fault = String;

/// All cases of a file: blocks parted by empty lines, without the comments before a case.
pub fn cases(file: &str) -> Vec<Case<'_>> {
    let lines: Vec<&str> = file.lines().collect();
    let blocks = lines.split(|line| line.is_empty());
    let cases = blocks.filter_map(|block| {
        let mut said = block.iter().skip_while(|line| line.starts_with('#')).copied();
        let name = said.next()?;
        Some(Case { name, lines: said.collect(), next: 0 })
    });
    cases.collect()
}

impl<'a> Case<'a> {
    /// The next line's first word, which is left there.
    pub fn call(&self) -> &'a str {
        self.lines.get(self.next).map_or("", |line| line.split(' ').next().unwrap_or(""))
    }

    /// What stands after the next line's name, which must be this.
    fn line(&mut self, name: &str) -> Result<&'a str, Fault> {
        let line = self.lines.get(self.next).ok_or(format!("a line {name} is missing"))?;
        let rest = line.strip_prefix(name).ok_or(format!("{line:?} stands for a line {name}"))?;
        if !rest.is_empty() && !rest.starts_with(' ') {
            return Err(format!("{line:?} stands for a line {name}"));
        }
        self.next += 1;
        Ok(rest)
    }

    /// The entries of a list.
    pub fn list<T: TryFrom<u64>>(&mut self, name: &str) -> Result<Vec<T>, Fault> {
        let mut entries = Vec::new();
        for item in self.line(name)?.split(' ').skip(1) {
            for entry in item_entries(item)? {
                entries.push(T::try_from(entry).map_err(|_| format!("{entry} is too large in {name}"))?);
            }
        }
        Ok(entries)
    }

    /// The entries of a list that may be left out, and is empty then.
    pub fn list_or_none<T: TryFrom<u64>>(&mut self, name: &str) -> Result<Vec<T>, Fault> {
        if self.call() == name {
            self.list(name)
        } else {
            Ok(Vec::new())
        }
    }

    /// So many numbers.
    pub fn numbers<const N: usize>(&mut self, name: &str) -> Result<[u32; N], Fault> {
        let list = self.list(name)?;
        list.try_into().map_err(|list: Vec<u32>| format!("{name} has {} numbers for {N}", list.len()))
    }

    /// The bytes of a text.
    pub fn text(&mut self, name: &str) -> Result<Vec<u8>, Fault> {
        let line = self.line(name)?;
        let mut rest = line.strip_prefix(' ').unwrap_or(line);
        let mut bytes = Vec::new();
        while let Some(first) = rest.chars().next() {
            let mut after = &rest[first.len_utf8()..];
            match first {
                '/' => bytes.push(b'\n'),
                '<' => {
                    let (item, behind) = after.split_once('>').ok_or(format!("no > after {rest:?}"))?;
                    for entry in item_entries(item)? {
                        bytes.push(u8::try_from(entry).map_err(|_| format!("{entry} is no byte"))?);
                    }
                    after = behind;
                }
                _ => bytes.extend(u8::try_from(first).ok()),
            }
            rest = after;
        }
        Ok(bytes)
    }

    /// No line is left.
    pub fn end(&self) -> Result<(), Fault> {
        self.lines.get(self.next).map_or(Ok(()), |line| Err(format!("{line:?} is a line too many")))
    }
}

fn number(digits: &str) -> Result<u64, Fault> {
    if !digits.bytes().all(|b| b.is_ascii_digit()) {
        return Err(format!("{digits:?} is no number"));
    }
    digits.parse().map_err(|_| format!("{digits:?} is no number of 64 bits"))
}

/// A number, `value*times`, or `first-last`.
fn item_entries(item: &str) -> Result<Vec<u64>, Fault> {
    if let Some((value, times)) = item.split_once('*') {
        return Ok(vec![number(value)?; number(times)? as usize]);
    }
    if let Some((first, last)) = item.split_once('-') {
        return Ok((number(first)?..=number(last)?).collect());
    }
    Ok(vec![number(item)?])
}
