# What the scripts of this folder and `dethart` share about built programs. To be sourced by bash, with root set to the repository's
# folder.
#
# A built program has a file SOURCES beside it: the sum of the logic that it was proved in, the program's sha256, and one sha256 over what
# it was made of. Which kit of that logic built it isn't told: where two make other bytes, the program's sum tells them apart.
# built/ has the program that is shipped with the repository, .built/ the one that was built here last.

# The crates that the program stands on by crates.txt, each after those that it stands on itself, and the program's last.
list_crates() {
  awk -F: '
    function visit(name, below, count, i) {
      if (!(name in line) || name in seen) return
      seen[name] = 1
      count = split(line[name], below, " ")
      for (i = 1; i <= count; i++) visit(below[i])
      print name
    }
    { sub(/#.*/, ""); if (split($1, words, " ")) line[words[1]] = $2 }
    END { visit("dethart") }' "$root/crates.txt"
}

# All crates of crates.txt.
list_all_crates() {
  awk -F: '{ sub(/#.*/, ""); if (split($1, words, " ")) print words[1] }' "$root/crates.txt"
}

# The lines of crates.txt for these crates.
crate_lines() {
  awk -F: -v "names=$*" '
    BEGIN { count = split(names, name, " "); for (i = 1; i <= count; i++) wanted[name[i]] = 1 }
    { sub(/#.*/, ""); if (split($1, words, " ") && words[1] in wanted) print }' "$root/crates.txt"
}

# Copies these crates to the empty folder $1, without their edits: `rt ci` proves them there side by side.
copy_crates() {
  local copy=$1 crate part
  shift
  mkdir -- "$copy/.git" "$copy/crates" && cp -- "$root/HANDLES" "$copy/" && crate_lines "$@" >"$copy/crates.txt" || return
  for crate in "$@"; do
    mkdir -- "$copy/crates/$crate" || return
    for part in src specs proofs args data stdin stdout status; do
      [ ! -e "$root/crates/$crate/$part" ] || cp -R -- "$root/crates/$crate/$part" "$copy/crates/$crate/" || return
    done
  done
}

# The folders, from the repository's on, with what the program and its contracts are made of. A proof changes neither.
source_folders() {
  local crate part
  for crate in "$@"; do
    for part in src specs; do
      [ -d "$root/crates/$crate/$part" ] && printf 'crates/%s/%s\n' "$crate" "$part"
    done
  done
}

# One sha256 over these sources: their paths and bytes, the lines of crates.txt, and HANDLES. No time of a file counts.
sum_of_sources() (
  cd -- "$root" || exit
  mapfile -t crates < <(list_crates)
  mapfile -t folders < <(source_folders "${crates[@]}")
  {
    crate_lines "${crates[@]}"
    cat HANDLES
    find "${folders[@]}" -type f -print0 | LC_ALL=C sort -z | xargs -0 sha256sum
  } | sha256sum | cut -d ' ' -f 1
)

sum_of_file() {
  sha256sum <"$1" | cut -d ' ' -f 1
}

# Whether folder $1 has a program that was made of the sources with the sum $2, byte for byte as its SOURCES says.
has_program_of() {
  local told
  [ -x "$1/dethart" ] && [ -r "$1/SOURCES" ] && told=$(<"$1/SOURCES") &&
    [[ $told == *$'\n'"sources $2" && $told == *$'\n'"program $(sum_of_file "$1/dethart")"$'\n'* ]]
}

# What the toolchain on the PATH proves in, as 'logic SUM', by the end of its line 'KIT logic SUM'; else its whole line.
logic_of_toolchain() {
  local told
  told=$(rt version) && printf 'logic %s\n' "${told#* logic }"
}

# Puts the program $1, made of the sources with the sum $2 by the toolchain on the PATH, into folder $3 with its SOURCES.
put_program() {
  mkdir -p -- "$3" && rm -f -- "$3/SOURCES" && cp -- "$1" "$3/dethart.new" && mv -f -- "$3/dethart.new" "$3/dethart" &&
    { logic_of_toolchain && printf 'program %s\nsources %s\n' "$(sum_of_file "$3/dethart")" "$2"; } >"$3/SOURCES.new" &&
    mv -f -- "$3/SOURCES.new" "$3/SOURCES"
}
