//! An index of a Struct's members, and keys looked up through it.

use crate::lookup::reported;
use crate::sys::Report;
use crate::{Item, Member, Refusal, sys};

pub use crate::sys::Entry;

/// An index of a Struct's members: an entry for each, in byte order of their
/// keys.
#[derive(Clone, Copy, Debug)]
pub struct Index<'t, 'l> {
    of: Item<'t>,
    list: &'l [Entry],
}

impl<'t> Item<'t> {
    /// Fills a list with the index of this Struct; all of its entries are
    /// written, unused ones behind the members'. A refusal is `NotWritable`,
    /// `NoMember` if this is no Struct, or `ShortList`; then no entry is used.
    ///
    /// ```
    /// use binmode::{Entry, Member};
    ///
    /// let bytes = b"binmode-rpc:RS\x02\0\0\0U\x01\0\0\0bI\x07\0\0\0U\x01\0\0\0at";
    /// let mut table = [0; 64];
    /// let card = binmode::read(bytes, &mut table)?;
    /// let values = card.root().children().next().expect("a Value");
    /// let mut list = [Entry::default(); 4];
    /// let index = values.index(&mut list)?;
    /// let names: Vec<_> = index.members().filter_map(|(key, _)| key.text()).collect();
    /// assert_eq!(names, ["a", "b"]);
    /// assert!(matches!(index.find("b")?, Member::WholeNumber(7)));
    /// # Ok::<(), binmode::Refusal>(())
    /// ```
    pub fn index<'l>(self, list: &'l mut [Entry]) -> Result<Index<'t, 'l>, Refusal> {
        let table = self.table();
        // SAFETY: the slices are valid for the call, and the list, which is
        // written, overlaps nothing.
        let number = unsafe {
            sys::binmode_index_fill(
                table.words.as_ptr(),
                table.words.len(),
                table.rows,
                table.text.as_ptr(),
                table.text.len(),
                self.row(),
                list.as_mut_ptr(),
                list.len(),
            )
        };
        match number {
            sys::ACCEPTED => Ok(self.through(list)),
            _ => Err(Refusal::given(number, 0)),
        }
    }

    /// A list that was filled before, of this Struct or not. Through any other
    /// list than this Struct's a key is answered as by [`Item::lookup`] or with
    /// `NoMember`.
    #[must_use]
    pub fn through<'l>(self, list: &'l [Entry]) -> Index<'t, 'l> {
        Index { of: self, list }
    }
}

impl<'t> Index<'t, '_> {
    /// The keys and values that the entries name, in order.
    pub fn members(self) -> impl Iterator<Item = (Item<'t>, Item<'t>)> {
        let used = self.list.iter().take_while(|entry| entry.key != 0);
        used.filter_map(move |entry| {
            let item = |row: u32| self.of.table().item(row as usize);
            Some((item(entry.key)?, item(entry.value)?))
        })
    }

    /// Looks up a key, as [`Item::lookup`] does.
    pub fn find(self, key: impl AsRef<[u8]>) -> Result<Member<'t>, Refusal> {
        let mut report = [Report::default()];
        let key = key.as_ref();
        let end = key.len().min(u32::MAX as usize) as u32;
        self.report(key, &[end], &mut report);
        reported(self.of.table(), report[0])
    }

    /// Looks up keys that lie one behind the other, each ending at its number
    /// in `ends`, and gives what each is answered; the table is judged once.
    /// There is a report for each, lent by the caller.
    pub fn find_each<'r>(
        self,
        keys: &[u8],
        ends: &[u32],
        reports: &'r mut [Report],
    ) -> impl Iterator<Item = Result<Member<'t>, Refusal>> + use<'t, 'r> {
        self.report(keys, ends, reports);
        let table = self.of.table();
        reports.iter().map(move |&report| reported(table, report))
    }

    fn report(self, keys: &[u8], ends: &[u32], reports: &mut [Report]) {
        let table = self.of.table();
        // SAFETY: the slices are valid for the call, and the reports, which
        // are written, overlap nothing.
        unsafe {
            sys::binmode_index_find(
                table.words.as_ptr(),
                table.words.len(),
                table.rows,
                table.text.as_ptr(),
                table.text.len(),
                self.of.row(),
                self.list.as_ptr(),
                self.list.len(),
                keys.as_ptr(),
                keys.len(),
                ends.as_ptr(),
                ends.len(),
                reports.as_mut_ptr(),
                reports.len(),
            );
        }
    }
}
