//! Sheets: the kinds of a text.

use crate::refusal::Refusal;

/// Reads a sheet, XML 1.0 cut down, and writes its kinds into the list as bytes: 1 a begin, 2 an end, 3 a text, as the
/// variants of [`Kind`](crate::Kind) are numbered. Their number is replied, and what stands after them stays; a refused
/// call leaves the whole list. A list as long as the text suffices for every sheet.
///
/// A sheet is content: data, the references `&lt; &gt; &amp; &apos; &quot;`, CDATA sections, comments and elements, at most
/// 64 deep, of the bytes 9, 10, 13 and 32 to 127. A text is a longest run of data, references and CDATA sections.
///
/// ```
/// use vekhturop::{kinds_of_xml, Refusal};
///
/// let mut kinds = [0; 8];
/// assert_eq!(kinds_of_xml(b"<pass n='1'>gap &lt; 4<!-- mm --></pass>", &mut kinds), Ok(3));
/// assert_eq!(kinds[..3], [1, 3, 2]);
/// assert_eq!(kinds_of_xml(b"<pass>", &mut kinds), Err(Refusal::NotASheet));
/// ```
pub fn kinds_of_xml(text: &[u8], kinds: &mut [u8]) -> Result<usize, Refusal> {
    // SAFETY: both pointers and lengths are those of slices, of which one is lent mutably and one is only read.
    let reply = unsafe { vekhturop_sys::vk_xml_kinds(text.as_ptr(), text.len(), kinds.as_mut_ptr(), kinds.len()) };
    Refusal::check(reply.refusal)?;
    Ok(reply.count)
}
