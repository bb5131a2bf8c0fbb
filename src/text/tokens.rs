// Made by `make package` of crates/fixed_text/src/tokens.rt, which is proved: changes go there.

//! The tokens of a line: the parts between its spaces.

/// Returns whether the byte is among the eight from `at` on. All eight are read, so that the compiler compares them at
/// once.
fn stands_in_eight(bytes: &[u8], at: usize, byte: u8) -> bool {
    let mut stands = false;
    for b in &bytes[at..at + 8] {
        stands |= *b == byte;
    }
    stands
}

/// Returns a place before which the byte does not occur. Eight bytes are compared at once.
fn free_eights(bytes: &[u8], byte: u8) -> usize {
    let mut at = 0;
    while bytes.len() - at >= 8 {
        if stands_in_eight(bytes, at, byte) {
            return at;
        }
        at += 8;
    }
    at
}

/// Returns the first place of the byte, or `None` if it does not occur.
pub(crate) fn first_place(bytes: &[u8], byte: u8) -> Option<usize> {
    let mut at = free_eights(bytes, byte);
    while at < bytes.len() {
        if bytes[at] == byte {
            return Some(at);
        }
        at += 1;
    }
    None
}

/// Returns the first token of a piece, and the bytes after its space, or `None` if no space follows it.
///
/// # Examples
///
/// ```
/// use zugyelmas::text::cut;
///
/// assert_eq!(cut(b"r0 set 5"), (&b"r0"[..], Some(&b"set 5"[..])));
/// assert_eq!(cut(b"5"), (&b"5"[..], None)); // no space
/// ```
///
/// # Proved
///
/// ```text
/// ensures { tokens_of piece.now ≡ result.0.now ∷ tokens_left result.1 }
/// ```
///
/// Definitions: [`tokens_of`], [`tokens_left`], [`tokens_left`].
///
/// [`tokens_of`]: crate::definitions::text_tokens
/// [`tokens_left`]: crate::definitions::text_tokens
/// [`tokens_left`]: crate::definitions::text_tokens
#[must_use]
pub fn cut(piece: &[u8]) -> (&[u8], Option<&[u8]>) {
    match first_place(piece, b' ') {
        Some(at) => (&piece[..at], Some(&piece[at + 1..])),
        None => (piece, None),
    }
}

/// The remaining tokens of a piece. Contracts see them as a list.
pub struct Tokens<'a> {
    rest: Option<&'a [u8]>,
}

impl<'a> Tokens<'a> {
    #[must_use]
    pub fn new(piece: &'a [u8]) -> Self {
        Tokens { rest: Some(piece) }
    }

    /// Removes the next token and returns it, or returns `None` if no token remains.
    ///
    /// # Examples
    ///
    /// ```
    /// use zugyelmas::text::Tokens;
    ///
    /// let mut tokens = Tokens::new(b"r0 set");
    /// assert_eq!(tokens.take(), Some(&b"r0"[..]));
    /// assert_eq!(tokens.take(), Some(&b"set"[..]));
    /// assert_eq!(tokens.take(), None);
    /// ```
    ///
    /// # Proved
    ///
    /// ```text
    /// ensures { MatchOption result
    ///     ((self.old ≡ []) × (self.new ≡ [])) (λ t. self.old ≡ t.now ∷ self.new) }
    /// ```
    pub fn take(&mut self) -> Option<&'a [u8]> {
        let piece = self.rest?;
        let (token, rest) = cut(piece);
        self.rest = rest;
        Some(token)
    }

    /// Returns the rest of the piece, at whose front the next token is, or `None` if no token remains.
    ///
    /// # Examples
    ///
    /// ```
    /// use zugyelmas::text::Tokens;
    ///
    /// let mut tokens = Tokens::new(b"r0 set 5");
    /// assert_eq!(tokens.take(), Some(&b"r0"[..]));
    /// assert_eq!(tokens.rest(), Some(&b"set 5"[..]));
    /// ```
    ///
    /// # Proved
    ///
    /// ```text
    /// ensures { tokens_left result ≡ self.now }
    /// ```
    ///
    /// Definitions: [`tokens_left`], [`tokens_left`].
    ///
    /// [`tokens_left`]: crate::definitions::text_tokens
    /// [`tokens_left`]: crate::definitions::text_tokens
    #[must_use]
    pub fn rest(&self) -> Option<&'a [u8]> {
        self.rest
    }

    /// Replaces the remaining tokens by those of these bytes, or by none.
    ///
    /// # Examples
    ///
    /// ```
    /// use zugyelmas::text::Tokens;
    ///
    /// let mut tokens = Tokens::new(b"r0 set 5");
    /// tokens.go_on(Some(b"r1"));
    /// assert_eq!(tokens.take(), Some(&b"r1"[..]));
    /// tokens.go_on(None);
    /// assert_eq!(tokens.take(), None);
    /// ```
    ///
    /// # Proved
    ///
    /// ```text
    /// ensures { self.new ≡ tokens_left rest.entry }
    /// ```
    ///
    /// Definitions: [`tokens_left`], [`tokens_left`].
    ///
    /// [`tokens_left`]: crate::definitions::text_tokens
    /// [`tokens_left`]: crate::definitions::text_tokens
    pub fn go_on(&mut self, rest: Option<&'a [u8]>) {
        self.rest = rest;
    }

    /// Returns whether no token remains.
    ///
    /// # Examples
    ///
    /// ```
    /// use zugyelmas::text::Tokens;
    ///
    /// let mut tokens = Tokens::new(b"r0");
    /// assert!(!tokens.is_empty());
    /// assert_eq!(tokens.take(), Some(&b"r0"[..]));
    /// assert!(tokens.is_empty());
    /// ```
    ///
    /// # Proved
    ///
    /// ```text
    /// ensures { result ≡ (length self.now == 0) }
    /// ```
    #[must_use]
    pub fn is_empty(&self) -> bool {
        self.rest.is_none()
    }
}
