#!/usr/bin/env bash
# Moves the theorems of the crates whose definitions must-fail edits turn from specs/ to proofs/, with their statements unchanged: a law in specs/ that others
# in specs/ rest on makes such an edit read as one that the prover cannot read. Run once, at the top of the repository, after respell.py.
set -euo pipefail
crates="bridges carried codec collection depth_first doubled drilled ducts earlier faults guarantees heaviest history legacy queries refusals status upgrade wavelengths"
move() { # CRATE MODULE
    local from=crates/$1/specs to=crates/$1/proofs
    mkdir -p "$to"
    git mv "$from/$2.antt" "$to/$2.antt"
    [ ! -d "$from/$2" ] || git mv "$from/$2" "$to/$2"
    sed -i "/^pub mod $2\$/d" "$from/Lib.antt"
    touch "$to/Lib.antt"
    sed -i "/^\\(pub \\)\\?mod $2\$/d" "$to/Lib.antt"
    echo "pub mod $2" >>"$to/Lib.antt"
    moved+=("s/Rattle\\.$1\\.specs\\.$2\\b/Rattle.$1.proofs.$2/g")
}
moved=()
for crate in $crates; do move "$crate" Laws; done
move wavelengths Guarantees
move guarantees Main
script=$(printf '%s;' "${moved[@]}")
find crates -name '*.antt' -o -name '*.rt' -o -name '*.edit' | grep -v /out/ | xargs sed -i "$script"
for crate in doubled drilled history; do
    sed -i 's|^file: specs/Laws/|file: proofs/Laws/|' crates/"$crate"/must-fail/*.edit
done
