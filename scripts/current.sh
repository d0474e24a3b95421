# Read by ./tikzsvg and by the scripts that put its program in place, which set `root` to the repository's folder.
#
# Whether the program is of the sources that are here is told by a list that is kept beside it, and made when it was put there.
# `tikzsvg.names` has the names of the program, of all files that it is made from, and of the folders in which these stand;
# `tikzsvg.times` has what `stat` said of each: its size, and the times at which it and its entry last changed. So a file that is
# changed, gone or new is told, and so is one that comes with an older time or one of the future: the system itself sets the
# second time, and a folder's changes with the names in it. A name that isn't there has no line. Where a tool isn't there or
# fails, the lists differ.
program=$root/crates/tikzsvg/out/tikzsvg

# times_of NAMES: what is said of each file that the list has
times_of() {
  (CDPATH='' cd -- "$root" && exec xargs -0 stat -c '%s %.9Y %.9Z %n' --) 2>/dev/null <"$1" || :
}

is_current() {
  [ -x "$program" ] && [ -s "$program.times" ] && times_of "$program.names" | cmp -s - "$program.times"
}
