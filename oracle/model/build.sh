#!/usr/bin/env bash
# Builds the oracle around the Rust's four sources, twice.
# oracle/model/build.sh SOURCES FOLDER
# SOURCES: the folder with model.rs, params.rs, spec.rs, linsolve.rs; they are never copied into the repository.
# FOLDER: a scratch folder outside the repository. It gets
#   routed/oracle     root, logarithm and exponential are oracle/shim/fm.rs; the places and columns that the Rust's errors do not
#                     say, and how often the filter began, are written down; at order zero rule 2 has its own prediction
#   untouched/oracle  the sources byte for byte, but for lines at the end of model.rs
set -euo pipefail

stop() {
    echo "$0: $1" >&2
    exit 2
}
[[ $# -eq 2 ]] || stop "usage: $0 SOURCES FOLDER"
sources=$1
here=$(cd "$(dirname "${BASH_SOURCE[0]}")" && pwd)
top=$(cd "$here/../.." && pwd)
folder=$(realpath -m "$2")
[[ $folder/ != "$top"/* ]] || stop "$2 is inside the repository"
for name in model params spec linsolve; do
    [[ -f $sources/$name.rs ]] || stop "no $name.rs in $sources"
done
command -v rustc >/dev/null || stop "rustc is missing"

# Ends the build unless the text stands in that many lines of the file: each edit hits what it was written for.
stands() { # FILE COUNT TEXT
    local found
    found=$(grep -cF -- "$3" "$1" || true)
    [[ $found == "$2" ]] || stop "'$3' stands in $found lines of $1, not in $2"
}

# Sends root, logarithm and exponential to crate::fm.
route() { # MODEL
    sed -E -i \
        -e 's/\b([a-z_]+)\.(sqrt|ln)\(\)/crate::fm::\2(\1)/g' \
        -e 's/^( *)(\(.*\))\.exp\(\)$/\1crate::fm::exp\2/' "$1"
    stands "$1" 1 'crate::fm::sqrt(var)'
    stands "$1" 1 'crate::fm::ln(lik_t)'
    stands "$1" 1 'crate::fm::exp(StdNormal.ln_pdf(z) - crate::fm::ln(sd))'
    for own in '.sqrt()' '.ln()' '.exp()'; do
        stands "$1" 0 "$own"
    done
}

# Puts rule 2's prediction at order zero beside the Rust's line, which stays for all else.
add_rule() { # MODEL
    local two='crate::rule::predicted(|x| params.transition(s0, x), prev)'
    sed -E -i "s/^( *\*slot = )(params\.transition\(s0, s1\) \* acc);\$/\1if crate::rule::differs(p) { $two } else { \2 };/" "$1"
    stands "$1" 1 "*slot = if crate::rule::differs(p) { $two } else { params.transition(s0, s1) * acc };"
    stands "$1" 1 'params.transition(s0, s1) * acc'
}

# Writes down that the filter begins, the label of a refusal 22, the row of a refusal 23 and the column of a refusal 21.
note_model() { # MODEL
    sed -E -i \
        -e 's/^( *)for &p in &pi \{$/\1for (label, \&p) in pi.iter().enumerate() {/' \
        -e 's/^use crate::linsolve::solve;$/use crate::solver::solve;/' \
        -e '/^ *if !\(p\.is_finite\(\) && p >= -1e-9\) \{$/ s/$/ crate::met::at(label, p);/' \
        -e '/^ *if !\(lik_t\.is_finite\(\) && lik_t > 0\.0\) \{$/ s/$/ crate::met::at(t_idx, 0.0);/' \
        -e 's/^( *)self\.check_params\(params\)\?;$/\1crate::met::began(); self.check_params(params)?;/' "$1"
    stands "$1" 1 'use crate::solver::solve;'
    stands "$1" 0 'linsolve'
    stands "$1" 1 'for (label, &p) in pi.iter().enumerate() {'
    stands "$1" 1 'crate::met::at(label, p);'
    stands "$1" 1 'crate::met::at(t_idx, 0.0);'
    stands "$1" 1 'crate::met::began(); self.check_params(params)?;'
}

# Writes down the places of refusals 11, 13, 15 and 16, which a fit's own step may end with.
note_params() { # PARAMS
    sed -E -i \
        -e '/^ *if !m\.is_finite\(\) \{$/ s/$/ crate::met::at(i, m);/' \
        -e '/^ *if !\(p\.is_finite\(\) && \(0\.0\.\.=1\.0 \+ STOCHASTIC_TOL\)\.contains\(&p\)\) \{$/ s/$/ crate::met::at(i * k + j, p);/' \
        -e '/^ *if !c\.is_finite\(\) \{$/ s/$/ crate::met::at(flat_ar.len(), c);/' \
        -e 's/^( *)for &v in &variances \{$/\1for (i, \&v) in variances.iter().enumerate() {/' \
        -e '/^ *if !\(v\.is_finite\(\) && v > 0\.0\) \{$/ s/$/ crate::met::at(i, v);/' "$1"
    stands "$1" 1 'crate::met::at(i, m);'
    stands "$1" 1 'crate::met::at(i * k + j, p);'
    stands "$1" 1 'crate::met::at(flat_ar.len(), c);'
    stands "$1" 1 'for (i, &v) in variances.iter().enumerate() {'
    stands "$1" 1 'crate::met::at(i, v);'
}

compile() { # ARGUMENTS
    rustc --edition 2021 -C opt-level=3 -C codegen-units=1 -A dead_code --check-cfg 'cfg(routed, untouched)' \
        -L "$room" --out-dir "$room" "$@"
}

for flavour in routed untouched; do
    room=$folder/$flavour
    rm -rf "$room"
    mkdir -p "$room/src"
    for name in model params spec linsolve; do
        cat "$sources/$name.rs" >"$room/src/$name.rs"
    done
    cp "$here"/standins/{lib,error,results,met,rule,solver}.rs "$here"/../{shim/fm,linsolve/column}.rs "$room/src/"
    if [[ $flavour == routed ]]; then
        route "$room/src/model.rs"
        add_rule "$room/src/model.rs"
        note_model "$room/src/model.rs"
        note_params "$room/src/params.rs"
    fi
    cat "$here/standins/model_tail.rs" >>"$room/src/model.rs"
    compile --crate-type rlib --crate-name tsecon_stats "$here/standins/tsecon_stats.rs"
    compile --crate-type rlib --crate-name tsecon_regime --cfg "$flavour" --extern tsecon_stats "$room/src/lib.rs"
    compile --crate-name oracle --extern tsecon_regime "$here/oracle.rs"
done
