//! The modules of a symbol: all in a row, by rows, and each by its place.
use crate::Symbol;
use std::ops::Index;
use std::slice::ChunksExact;

impl Symbol {
    /// Returns the modules, row by row from the upper left corner, `true` for a dark one, without
    /// a quiet zone.
    ///
    /// ```
    /// # use sicklespan::{Level, Symbol};
    /// let symbol = Symbol::new("hello", Level::M)?;
    /// assert_eq!(symbol.modules().len(), 21 * 21);
    /// // The upper edge of the finder pattern, and the light modules beside it.
    /// assert_eq!(symbol.modules()[..8], [true, true, true, true, true, true, true, false]);
    /// # Ok::<(), sicklespan::Error>(())
    /// ```
    pub fn modules(&self) -> &[bool] {
        &self.modules
    }

    /// Returns the rows of the modules from the top. `&symbol` in a loop gives the same.
    ///
    /// ```
    /// # use sicklespan::{Level, Symbol};
    /// for row in Symbol::new("hello", Level::M)?.rows() {
    ///     let signs = row.iter().map(|module| if *module { '#' } else { '.' });
    ///     println!("{}", signs.collect::<String>());
    /// }
    /// # Ok::<(), sicklespan::Error>(())
    /// ```
    pub fn rows(&self) -> ChunksExact<'_, bool> {
        self.modules.chunks_exact(self.width)
    }

    /// Whether the module in column `x` of row `y` is dark; one outside the symbol is light.
    ///
    /// ```
    /// # use sicklespan::{Level, Symbol};
    /// let symbol = Symbol::new("hello", Level::L)?;
    /// assert!(symbol.is_dark(20, 0) && !symbol.is_dark(21, 0));
    /// # Ok::<(), sicklespan::Error>(())
    /// ```
    pub fn is_dark(&self, x: usize, y: usize) -> bool {
        x < self.width && y < self.width && self.modules[y * self.width + x]
    }
}

impl Index<(usize, usize)> for Symbol {
    type Output = bool;

    /// Returns whether the module in column `x` of row `y` is dark.
    ///
    /// ```
    /// # use sicklespan::{Level, Symbol};
    /// let symbol = Symbol::new("hello", Level::M)?;
    /// // The ring of the finder pattern, and within it the light modules.
    /// assert!(symbol[(6, 0)] && !symbol[(1, 1)]);
    /// # Ok::<(), sicklespan::Error>(())
    /// ```
    ///
    /// # Panics
    ///
    /// If `x` or `y` is not below the width, as the index of a slice does it. `is_dark` does not.
    ///
    /// ```should_panic
    /// # use sicklespan::{Level, Symbol};
    /// let symbol = Symbol::new("hello", Level::M).unwrap();
    /// let _ = symbol[(21, 0)];
    /// ```
    fn index(&self, (x, y): (usize, usize)) -> &bool {
        let width = self.width;
        assert!(
            x < width && y < width,
            "index out of bounds: the width is {width} but the index is ({x}, {y})"
        );
        &self.modules[y * width + x]
    }
}

impl<'a> IntoIterator for &'a Symbol {
    type Item = &'a [bool];
    type IntoIter = ChunksExact<'a, bool>;

    /// Returns the rows of the modules from the top, as `rows` does.
    ///
    /// ```
    /// # use sicklespan::{Level, Symbol};
    /// let symbol = Symbol::new("hello", Level::M)?;
    /// let mut count = 0;
    /// for row in &symbol {
    ///     assert_eq!(row.len(), symbol.width());
    ///     count += 1;
    /// }
    /// assert_eq!(count, 21);
    /// # Ok::<(), sicklespan::Error>(())
    /// ```
    fn into_iter(self) -> ChunksExact<'a, bool> {
        self.rows()
    }
}
