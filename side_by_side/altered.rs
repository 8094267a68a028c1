//! Makes the ALTERED copy of the crate: request E6's rule for a vector without a direction, a note whether such a vector was met, and
//! request E7's two words of each frame: where it came from, and how many triangles stood behind it.
//! It is made at each build from where the crate's source stands, among this package's products, and is plainly marked. Nothing of it is kept.
use std::fs;
use std::path::{Path, PathBuf};

/// Put before each file of the copy that is altered.
const MARK: &str = "// ALTERED copy of bevy_mikktspace 0.17.0-dev, made by side_by_side/altered.rs: not the original software.\n";

/// A text that stands once in a file of the crate, and what stands there in the copy.
struct Place {
    file: &'static str,
    old: &'static str,
    new: &'static str,
}

const PLACES: [Place; 16] = [
    // none exactly when no component counts, or the squared length is zero, infinite or NaN; the zero vector for none
    Place {
        file: "math.rs",
        old: "        // might change this to an epsilon based test
        if not_zero(self.x) || not_zero(self.y) || not_zero(self.z) {
            *self = *self * self.length().recip();
        }
",
        new: "        if self.has_none() {
            crate::met::note([self.x, self.y, self.z]);
            *self = Self::ZERO;
        } else {
            *self = *self * self.length().recip();
        }
",
    },
    Place {
        file: "math.rs",
        old: "    pub(crate) fn length_squared(self)",
        new: "    pub(crate) fn has_none(self) -> bool {
        let squared = self.length_squared();
        let counts = not_zero(self.x) || not_zero(self.y) || not_zero(self.z);
        !counts || squared == 0.0 || squared.is_infinite() || squared.is_nan()
    }

    pub(crate) fn length_squared(self)",
    },
    // a triangle whose raw s or t has none is also group_with_any
    Place {
        file: "mikktspace.rs",
        old: "                    };

                    info
                })
                .filter(|info| {
                    not_zero(",
        new: "                    };

                    (info, s.has_none() || t.has_none())
                })
                .filter(|(info, none)| {
                    !none && not_zero(",
    },
    Place {
        file: "mikktspace.rs",
        old: "                .for_each(|info| {\n",
        new: "                .for_each(|(info, _)| {\n",
    },
    // where a frame came from, and how many triangles that are not group_with_any stood in the subgroups behind it
    Place {
        file: "mikktspace.rs",
        old: "    is_combined: bool,
    orientation_preserving: bool,
}",
        new: "    is_combined: bool,
    orientation_preserving: bool,
    origin: u32,
    behind: u32,
}",
    },
    Place {
        file: "mikktspace.rs",
        old: "            is_orientation_preserving: value.orientation_preserving,\n",
        new: "            is_orientation_preserving: value.orientation_preserving,
            origin: value.origin,
            behind: value.behind,
",
    },
    Place {
        file: "mikktspace.rs",
        old: "            if let Some(tangent_space) = tangent_space {\n",
        new: "            let counts = |&&t: &&usize| !triangle_info_list[t].group_with_any;
            let behind = unified_sub_groups[l].iter().filter(counts).count() as u32;
            if let Some(tangent_space) = tangent_space {
",
    },
    // two that are combined, equal or not
    Place {
        file: "mikktspace.rs",
        old: "                    is_combined: true,\n",
        new: "                    is_combined: true,
                    origin: 2,
                    behind: tangent_space.behind + behind,
",
    },
    Place {
        file: "mikktspace.rs",
        old: "                    is_combined: false,\n",
        new: "                    is_combined: false,
                    origin: 1,
                    behind,
",
    },
    // a copy says so, and a copy of none is none
    Place {
        file: "mikktspace.rs",
        old: "    tangent_spaces: &mut [impl Copy],
    triangles_good:",
        new: "    tangent_spaces: &mut [Option<TangentSpace<O>>],
    triangles_good:",
    },
    Place {
        file: "mikktspace.rs",
        old: "                b.tangent_spaces_offset + b.vertex_indices()[j] as usize,
            )
        })
        .for_each(|(dst, src)| {
            tangent_spaces[dst] = tangent_spaces[src];
",
        new: "                b.tangent_spaces_offset + b.vertex_indices()[j] as usize,
            )
        })
        .for_each(|(dst, src)| {
            tangent_spaces[dst] = tangent_spaces[src].map(|t| TangentSpace { origin: 3, ..t });
",
    },
    Place {
        file: "mikktspace.rs",
        old: "    tangent_spaces: &mut [impl Copy],
    triangle_info_list:",
        new: "    tangent_spaces: &mut [Option<TangentSpace<O>>],
    triangle_info_list:",
    },
    Place {
        file: "mikktspace.rs",
        old: "            (dst + offset, src + offset)
        })
        .for_each(|(dst, src)| {
            tangent_spaces[dst] = tangent_spaces[src];
",
        new: "            (dst + offset, src + offset)
        })
        .for_each(|(dst, src)| {
            tangent_spaces[dst] = tangent_spaces[src].map(|t| TangentSpace { origin: 4, ..t });
",
    },
    Place {
        file: "lib.rs",
        old: "    is_orientation_preserving: bool,
}",
        new: "    is_orientation_preserving: bool,
    /// Where it came from: 1 single, 2 combined, 3 copied to a degenerate corner, 4 copied within a quad.
    pub origin: u32,
    /// How many triangles stood behind it.
    pub behind: u32,
}",
    },
    Place {
        file: "lib.rs",
        old: "            is_orientation_preserving: false,\n",
        new: "            is_orientation_preserving: false,
            origin: 0,
            behind: 0,
",
    },
    Place {
        file: "lib.rs",
        old: "mod math;\nmod mikktspace;\n",
        new: "mod math;
mod mikktspace;

/// Whether a vector was met that has no direction and is not +0 +0 +0, which both rules leave as it is.
pub mod met {
    extern crate std;
    use std::cell::Cell;

    std::thread_local! {
        static MET: Cell<bool> = const { Cell::new(false) };
    }

    pub(crate) fn note(v: [f32; 3]) {
        if v.iter().any(|x| x.to_bits() != 0) {
            MET.set(true);
        }
    }

    /// Whether one was met in this thread since the last time that this was asked.
    pub fn take() -> bool {
        MET.replace(false)
    }
}
",
    },
];

/// Writes the altered copy of the crate in `source` into a folder in `made`; that folder, which holds src/lib.rs.
pub fn copy(source: &Path, made: &Path) -> PathBuf {
    let folder = made.join("altered");
    let (from, to) = (source.join("src"), folder.join("src"));
    copy_files(&from, &to);
    copy_files(&from.join("mikktspace"), &to.join("mikktspace"));
    for place in PLACES {
        alter(&to.join(place.file), &place);
    }
    for file in ["math.rs", "mikktspace.rs", "lib.rs"] {
        let text = fs::read_to_string(to.join(file)).expect("a file of the copy");
        fs::write(to.join(file), format!("{MARK}{text}")).expect("a file of the copy");
    }
    folder
}

/// Copies the files of one folder.
fn copy_files(from: &Path, to: &Path) {
    fs::create_dir_all(to).expect("a folder for the copy");
    for entry in fs::read_dir(from).expect("the crate's source") {
        let path = entry.expect("a file of the crate").path();
        if path.is_file() {
            let name = path.file_name().expect("a name");
            fs::copy(&path, to.join(name)).expect("a file of the copy");
        }
    }
}

/// Alters one place of a file.
fn alter(path: &Path, place: &Place) {
    let text = fs::read_to_string(path).expect("a file of the copy");
    let found = text.matches(place.old).count();
    assert!(
        found == 1,
        "{}: {found} times, not once:\n{}",
        place.file,
        place.old
    );
    fs::write(path, text.replace(place.old, place.new)).expect("a file of the copy");
}
