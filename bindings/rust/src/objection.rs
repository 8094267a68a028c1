//! Why a partner's lists were not accepted.
use crate::lists::Lists;
use crate::mesh::Mesh;
use crate::refusal::Refusal;
use crate::triangles::{Side, Triangle, triangles};
use std::error::Error;
use std::fmt;

/// One of the three lists.
#[derive(Clone, Copy, Debug, PartialEq, Eq)]
pub enum List {
    /// The links.
    Links,
    /// The groups.
    Groups,
    /// The orientations.
    Orientations,
}

impl fmt::Display for List {
    fn fmt(&self, f: &mut fmt::Formatter) -> fmt::Result {
        f.write_str(match self {
            List::Links => "links",
            List::Groups => "groups",
            List::Orientations => "orientations",
        })
    }
}

/// The first objection to a partner's lists, where the lowest side, corner or triangle has it. A corner is named by the side
/// that starts there.
#[derive(Clone, Copy, Debug, PartialEq, Eq)]
#[non_exhaustive]
pub enum Objection {
    /// The mesh itself is refused; the lists were not looked at.
    Refused(Refusal),
    /// 1: a list has more or fewer words than the mesh's sound triangles call for.
    Length {
        /// Which list.
        list: List,
        /// How many words it has.
        words: usize,
        /// How many the triangles call for.
        wanted: usize,
    },
    /// 2: a side is linked to a row that is not there.
    PastTheEnd(Side),
    /// 3: a side is linked to one that does not have the same two welded ends, run the opposite way.
    NotOpposite(Side),
    /// 4: a side is linked to one that is not linked back to it.
    NotMutual(Side),
    /// 5: a side is left unlinked though another unlinked one has the same ends, run the opposite way.
    LeftOver(Side),
    /// 6: an orientation is neither 0 nor 1.
    NoOrientation(Triangle),
    /// 7: a triangle that is not `group_with_any` has another orientation than step 3 gives it.
    Turned(Triangle),
    /// 8: a corner of a triangle that is not `group_with_any` is in no group.
    Ungrouped(Side),
    /// 9: a corner is in a group with a lower row to whose corner it is not welded.
    OtherCorner(Side),
    /// 10: a corner is in a group with a lower row whose triangle has the other orientation.
    OtherOrientation(Side),
    /// 11: a side links two triangles of one orientation, neither `group_with_any`, and an end of it is not in one group.
    Parted(Side),
    /// 12: a corner is in a group with a lower row from which no chain of linked sides that end in the corner leads to it.
    Severed(Side),
    /// A number or a place that this crate does not know: the archive is newer.
    Unknown {
        /// Its number.
        number: u32,
        /// Its place.
        place: u32,
    },
}

impl Objection {
    /// What a number of the archive, and a place, say of these lists for a mesh that is accepted.
    pub(crate) fn of(number: u32, place: u32, mesh: Mesh, lists: Lists) -> Result<(), Objection> {
        if number == 0 {
            return Ok(());
        }
        let unknown = Objection::Unknown { number, place };
        let (all, at) = (triangles(mesh), place as usize);
        let found = match number {
            1 => length(at, all.len(), lists),
            6 => all.get(at).copied().map(Objection::NoOrientation),
            7 => all.get(at).copied().map(Objection::Turned),
            _ => all
                .get(at / 3)
                .and_then(|triangle| of_side(number, triangle.side(at % 3))),
        };
        Err(found.unwrap_or(unknown))
    }

    /// The number that docs/EXAMINER.md gives it; 0 where the mesh is refused, which has a number of its own.
    pub fn number(&self) -> u32 {
        match self {
            Objection::Refused(_) => 0,
            Objection::Length { .. } => 1,
            Objection::PastTheEnd(_) => 2,
            Objection::NotOpposite(_) => 3,
            Objection::NotMutual(_) => 4,
            Objection::LeftOver(_) => 5,
            Objection::NoOrientation(_) => 6,
            Objection::Turned(_) => 7,
            Objection::Ungrouped(_) => 8,
            Objection::OtherCorner(_) => 9,
            Objection::OtherOrientation(_) => 10,
            Objection::Parted(_) => 11,
            Objection::Severed(_) => 12,
            Objection::Unknown { number, .. } => *number,
        }
    }

    /// The side that it is about, or the one that starts at the corner that it is about.
    pub fn side(&self) -> Option<Side> {
        match self {
            Objection::PastTheEnd(side)
            | Objection::NotOpposite(side)
            | Objection::NotMutual(side)
            | Objection::LeftOver(side)
            | Objection::Ungrouped(side)
            | Objection::OtherCorner(side)
            | Objection::OtherOrientation(side)
            | Objection::Parted(side)
            | Objection::Severed(side) => Some(*side),
            _ => None,
        }
    }

    /// The triangle that it is about, where it is about a whole one.
    pub fn triangle(&self) -> Option<Triangle> {
        match self {
            Objection::NoOrientation(triangle) | Objection::Turned(triangle) => Some(*triangle),
            _ => None,
        }
    }

    /// The face that it is about, if it is about one.
    pub fn face(&self) -> Option<usize> {
        let of_triangle = self.triangle().map(|triangle| triangle.face);
        self.side().map(|side| side.face).or(of_triangle)
    }

    /// The list whose word at that place is objected to.
    pub fn list(&self) -> Option<List> {
        match (self, self.number()) {
            (Objection::Length { list, .. }, _) => Some(*list),
            (Objection::Unknown { .. }, _) => None,
            (_, 2..=5) => Some(List::Links),
            (_, 6 | 7) => Some(List::Orientations),
            (_, 8..=12) => Some(List::Groups),
            _ => None,
        }
    }

    /// What it says of its place, where it has one.
    fn sentence(&self) -> &'static str {
        match self {
            Objection::PastTheEnd(_) => "it is linked to a row that is not there",
            Objection::NotOpposite(_) => {
                "it is linked to a side that does not have the same two welded ends, run the opposite way"
            }
            Objection::NotMutual(_) => "it is linked to a side that is not linked back to it",
            Objection::LeftOver(_) => {
                "it is left unlinked, and so is another side with the same two welded ends, run the opposite way"
            }
            Objection::NoOrientation(_) => "its orientation is neither 0 nor 1",
            Objection::Turned(_) => {
                "it is not group_with_any, and its orientation is not the one of step 3"
            }
            Objection::Ungrouped(_) => {
                "the corner where it starts is in no group, and its triangle is not group_with_any"
            }
            Objection::OtherCorner(_) => {
                "the corner where it starts is in a group with a lower row to whose corner it is not welded"
            }
            Objection::OtherOrientation(_) => {
                "the corner where it starts is in a group with a lower row whose triangle has the other orientation"
            }
            Objection::Parted(_) => {
                "it links two triangles of one orientation, neither of them group_with_any, and the corners that meet at an end of it are not in one group"
            }
            Objection::Severed(_) => {
                "the corner where it starts is in a group with a lower row from which no chain of linked sides that end there leads to it"
            }
            Objection::Refused(_) | Objection::Length { .. } | Objection::Unknown { .. } => "",
        }
    }
}

/// Objection 1 of a list by its place, for so many sound triangles.
fn length(place: usize, sound: usize, lists: Lists) -> Option<Objection> {
    let (list, words, wanted) = match place {
        0 => (List::Links, lists.links.len(), 3 * sound),
        1 => (List::Groups, lists.groups.len(), 3 * sound),
        2 => (List::Orientations, lists.orientations.len(), sound),
        _ => return None,
    };
    Some(Objection::Length {
        list,
        words,
        wanted,
    })
}

/// The objection of a number at a side.
fn of_side(number: u32, side: Side) -> Option<Objection> {
    Some(match number {
        2 => Objection::PastTheEnd(side),
        3 => Objection::NotOpposite(side),
        4 => Objection::NotMutual(side),
        5 => Objection::LeftOver(side),
        8 => Objection::Ungrouped(side),
        9 => Objection::OtherCorner(side),
        10 => Objection::OtherOrientation(side),
        11 => Objection::Parted(side),
        12 => Objection::Severed(side),
        _ => return None,
    })
}

impl fmt::Display for Objection {
    fn fmt(&self, f: &mut fmt::Formatter) -> fmt::Result {
        let (number, sentence) = (self.number(), self.sentence());
        match (self, self.side(), self.triangle()) {
            (Objection::Refused(refusal), ..) => refusal.fmt(f),
            (_, Some(side), _) => write!(f, "objection {number}: {side}: {sentence}"),
            (_, _, Some(triangle)) => write!(f, "objection {number}: {triangle}: {sentence}"),
            (
                Objection::Length {
                    list,
                    words,
                    wanted,
                },
                ..,
            ) => write!(
                f,
                "objection 1: the {list} are {words} words, and the sound triangles of the mesh call for {wanted}"
            ),
            _ => write!(f, "objection {number}: not known here ({self:?})"),
        }
    }
}

impl Error for Objection {}
