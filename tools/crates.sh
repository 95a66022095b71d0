# The crates that the program stands on, by crates.txt, for the scripts that source this. `top` is the top of the checkout.

# What each crate stands on; and the libraries of this repository that the program stands on.
declare -A below=()
libraries=()

read_crates() {
  local name words
  while IFS=: read -r name words; do
    below[${name%% *}]=$words
  done < <(sed 's/#.*//' "$top/crates.txt" | grep '[^[:space:]]')
  add_below framec
}

# Adds the libraries of this repository that a crate stands on, each once.
add_below() {
  local name
  for name in ${below[$1]:-}; do
    if [ -d "$top/crates/$name" ] && [[ " ${libraries[*]} " != *" $name "* ]]; then
      libraries+=("$name")
      add_below "$name"
    fi
  done
}

# Whether the built program $1 is there, and nothing that it is made of is newer. Proofs are no part of it.
is_current() {
  local name folder folders=()
  [ -x "$1" ] || return 1
  for name in framec "${libraries[@]}"; do
    for folder in "$top/crates/$name"/{src,specs}; do
      [ ! -d "$folder" ] || folders+=("$folder")
    done
  done
  [ -z "$(find "$top/crates.txt" "${folders[@]}" -type f -newer "$1" -print -quit)" ]
}
