//! Every small mesh, for acceptance runs.

use crate::raw::sedgepick_small_mesh;
use crate::Refusal;

/// Numbers of the longest list: how many triangles it has, and three nodes each.
const NUMBERS: usize = 10;

/// The list at a place, from 0, of all lists of one to three different triangles on 3, 4 or 5 points; `None` where the order has ended.
///
/// Each triangle has its nodes ascending, each list is ascending, and shorter lists come before longer ones, then by node numbers: 1, 14 and 175 lists.
/// Another number of points is refused as [`Refusal::OverLimit`].
///
/// ```
/// assert_eq!(sedgepick::small_mesh(4, 4), Ok(Some(vec![[0, 1, 2], [0, 1, 3]])));
/// assert_eq!(sedgepick::small_mesh(4, 14), Ok(None));
/// assert_eq!(sedgepick::small_mesh(6, 0), Err(sedgepick::Refusal::OverLimit));
/// ```
pub fn small_mesh(points: u32, place: usize) -> Result<Option<Vec<[u32; 3]>>, Refusal> {
    let mut list = [0u32; NUMBERS];
    // The pointer comes with the length of its slice, which is exclusive, and the function asks nothing else.
    let number = unsafe { sedgepick_small_mesh(points, place, list.as_mut_ptr(), list.len()) };
    Refusal::check(number)?;
    let triangles = list[1..].chunks_exact(3).take(list[0] as usize);
    let triangles: Vec<[u32; 3]> = triangles.map(|t| [t[0], t[1], t[2]]).collect();
    Ok((!triangles.is_empty()).then_some(triangles))
}
