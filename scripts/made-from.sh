# Read by the scripts that ask what the program is made from, which set `root` to the repository's folder: crates.txt, and what
# stands in src/, specs/ and proofs/ of each crate that the program stands on. The proofs are among it, since nothing is built
# unproved. Which crates these are is read from crates.txt. So the crates of tests and the example of use are left out: the
# program doesn't stand on them. What else a crate has (wrong bodies, what a run is given and must write) makes no program, and
# the toolchain reads no files but *.rt and *.antt.

# The names of the crates, one a line, and of the toolchain's libraries, which have no folder here.
crates_made_from() {
  found=' tikzsvg '
  before=
  while [ "$found" != "$before" ]; do
    before=$found
    # A line is `NAME: BELOW BELOW ..`; it may have words for the toolchain before its colon, and a comment.
    while IFS=: read -r name below || [ "$name" ]; do
      case $found in *" ${name%% *} "*) ;; *) continue ;; esac
      for crate in ${below%%#*}; do
        case $found in *" $crate "*) ;; *) found="$found$crate " ;; esac
      done
    done <"$root/crates.txt"
  done
  printf '%s\n' $found
}

# The folders of these crates that may have such files, one a line, whether they are there or not.
folders_made_from() {
  for crate in $(crates_made_from); do
    printf '%s\n' "crates/$crate/src" "crates/$crate/specs" "crates/$crate/proofs"
  done
}

# names_made_from [TEST..]: the names of all files that the program is made from, each ended by a zero byte. With further tests of
# `find`, as `-o -type d`, what these take stands there too.
names_made_from() (
  folders=$(folders_made_from) && CDPATH='' cd -- "$root" && printf 'crates.txt\0' || exit
  there=
  for folder in $folders; do
    [ -d "$folder" ] && there="$there $folder"
  done
  find $there \( -name '*.rt' -o -name '*.antt' "$@" \) -print0
)

# What follows makes the list that scripts/current.sh reads, in a folder of its own: `names` and `times`.

# watched_names FILE..: the names of these files, of all that the program is made from, and of the folders
watched_names() {
  printf '%s\0' "$@"
  for folder in $(folders_made_from); do
    [ -d "$root/$folder" ] || printf '%s\0' "$folder"
  done
  names_made_from -o -type d
}

# begin_list FOLDER FILE..: before it is asked whether these are the sources, or before they are built
begin_list() {
  list=$1
  shift
  watched_names "$@" >"$list/names" || rm -f "$list/names"
  times_of "$list/names" >"$list/times"
}

# end_list FOLDER FILE..: once the program is in place. The list is kept only where nothing has changed since it was begun.
end_list() {
  list=$1
  shift
  watched_names "$@" | cmp -s - "$list/names" && times_of "$list/names" | cmp -s - "$list/times" || return 0
  printf 'crates/tikzsvg/out/tikzsvg\0' >"$list/name"
  times_of "$list/name" >>"$list/times" && cat "$list/name" >>"$list/names" &&
    mv -f "$list/names" "$program.names" && mv -f "$list/times" "$program.times"
}
