//! How the text of a case is made, said in a line that a program in any language can follow.
//!
//! A recipe is pieces joined by ` + `:
//! - `"…"`: these bytes; `\t`, `\n`, `\r`, `\0`, `\\`, `\"` and `\xHH` stand for one byte each
//! - `repeat N "…"`: these bytes N times
//! - `each A B "…"`: these bytes for i from A to B, where `{…}` is a whole number worked out from i
//!   with `+ - * / %` and parentheses, written in decimal

/// Makes the text. Recipes are part of the program, so a bad one is a panic.
pub fn make(recipe: &str) -> Vec<u8> {
    let mut cook = Cook { rest: recipe.as_bytes(), index: 0 };
    let mut text = cook.piece();
    while !cook.rest.is_empty() {
        cook.expect(b'+');
        text.extend(cook.piece());
    }
    text
}

struct Cook<'a> {
    rest: &'a [u8],
    /// What `i` stands for.
    index: i64,
}

impl<'a> Cook<'a> {
    fn piece(&mut self) -> Vec<u8> {
        self.blanks();
        if self.taken(b"repeat ") {
            let times = self.number() as usize;
            return self.quoted().repeat(times);
        }
        if self.taken(b"each ") {
            let (first, last) = (self.number(), self.number());
            let pattern = self.quoted();
            return (first..=last).flat_map(|index| fill(&pattern, index)).collect();
        }
        self.quoted()
    }

    fn quoted(&mut self) -> Vec<u8> {
        self.expect(b'"');
        let mut bytes = Vec::new();
        loop {
            match self.byte() {
                b'"' => break,
                b'\\' => {
                    let escaped = self.escaped();
                    bytes.push(escaped)
                }
                byte => bytes.push(byte),
            }
        }
        self.blanks();
        bytes
    }

    fn escaped(&mut self) -> u8 {
        match self.byte() {
            b't' => b'\t',
            b'n' => b'\n',
            b'r' => b'\r',
            b'0' => 0,
            b'x' => {
                let digits = [self.byte(), self.byte()];
                let digits = std::str::from_utf8(&digits).expect("hexadecimal digits");
                u8::from_str_radix(digits, 16).expect("hexadecimal digits")
            }
            byte => byte,
        }
    }

    /// A sum of products, from left to right.
    fn sum(&mut self) -> i64 {
        let mut value = self.product();
        loop {
            if self.taken(b"+") {
                value += self.product();
            } else if self.taken(b"-") {
                value -= self.product();
            } else {
                return value;
            }
        }
    }

    fn product(&mut self) -> i64 {
        let mut value = self.factor();
        loop {
            if self.taken(b"*") {
                value *= self.factor();
            } else if self.taken(b"/") {
                value /= self.factor();
            } else if self.taken(b"%") {
                value %= self.factor();
            } else {
                return value;
            }
        }
    }

    fn factor(&mut self) -> i64 {
        if self.taken(b"(") {
            let value = self.sum();
            self.expect(b')');
            return value;
        }
        if self.taken(b"i") {
            return self.index;
        }
        self.number()
    }

    fn number(&mut self) -> i64 {
        self.blanks();
        let length = self.rest.iter().take_while(|byte| byte.is_ascii_digit()).count();
        let (digits, rest) = self.rest.split_at(length);
        self.rest = rest;
        self.blanks();
        let digits = std::str::from_utf8(digits).expect("digits");
        digits.parse().expect("a number in a recipe")
    }

    fn taken(&mut self, word: &[u8]) -> bool {
        let found = self.rest.starts_with(word);
        if found {
            self.rest = &self.rest[word.len()..];
        }
        found
    }

    fn byte(&mut self) -> u8 {
        let byte = self.rest[0];
        self.rest = &self.rest[1..];
        byte
    }

    fn expect(&mut self, byte: u8) {
        self.blanks();
        assert_eq!(self.byte(), byte, "in a recipe");
    }

    fn blanks(&mut self) {
        while self.taken(b" ") {}
    }
}

/// The pattern with each `{…}` worked out for one i.
fn fill(pattern: &[u8], index: i64) -> Vec<u8> {
    let mut filled = Vec::new();
    let mut rest = pattern;
    while let Some(open) = rest.iter().position(|&byte| byte == b'{') {
        let close = rest.iter().position(|&byte| byte == b'}').expect("a closing brace");
        filled.extend_from_slice(&rest[..open]);
        let mut cook = Cook { rest: &rest[open + 1..close], index };
        filled.extend(cook.sum().to_string().into_bytes());
        rest = &rest[close + 1..];
    }
    filled.extend_from_slice(rest);
    filled
}

#[cfg(test)]
mod tests {
    use super::make;

    #[test]
    fn pieces() {
        assert_eq!(make(r#""a\t\x80\0" + repeat 3 "b\n""#), b"a\t\x80\0b\nb\nb\n");
        assert_eq!(make(r#"each 1 3 "{i-1},{(i*7+1)%5/2};""#), b"0,1;1,0;2,1;");
        assert_eq!(make(r#""""#), b"");
    }
}
