# Sourced by the commands of this folder: the folder for what is built, the compiler's flags, and the library to link.
. "$(dirname "$0")/paths.sh"
mapfile -t crates < <(tools/crates.py archives)
archives=()
for crate in "${crates[@]}"; do archives+=("crates/$crate/out/lib$crate.a"); done
ls "${archives[@]}" >/dev/null 2>&1 || tools/prove "${crates[@]}"
archives+=("$runtime")
