# shellcheck shell=bash disable=SC2154
# What the scripts here share: where things are, how something is said, and whether the program is proved. To be sourced,
# with the top of the repository in `top`.
shell=$top/crates/crystal_shell
program=$shell/out/crystal_shell
# In a release the program lies here, and there is nothing to prove it from.
[ -x "$top/bin/crystal_shell" ] && program=$top/bin/crystal_shell

# Says a line on standard error.
say() { printf 'crystal: %s\n' "$*" >&2; }

# Says why this call gives no answer, and ends it.
give_up() {
  say "$*"
  exit 70
}

# Prints a source that is newer than a file, if there is one, in place of the subshell that it is called in. A folder is
# newer where something came into it or left it.
newer_than() {
  exec find "$top/crates.txt" "$top"/crates/*/{src,specs,proofs} -newer "$1" -print -quit 2>/dev/null
}

# Whether the program stands and is proved since the last change.
is_built() { [ -x "$program" ] && { [ "$program" != "$shell/out/crystal_shell" ] || [ -z "$(newer_than "$program")" ]; }; }

# Whether these words are such as have the program read a job.
reads_job() { case ${1-} in grow | match | wide) [ $# -gt 1 ] ;; *) false ;; esac; }
