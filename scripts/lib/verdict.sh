# What make-dist and make-deb share: programs, and the verdict that goes with them.

sum_of() { sha256sum <"$1" | cut -d ' ' -f 1; }

# require_verdict WHO VERDICT PROGRAM..: ends with status 1 unless each program is there, and the verdict, if one is named, is of it
require_verdict() {
  local who=$1 verdict=$2 program
  shift 2
  for program in "$@"; do
    if [ ! -x "$program" ]; then
      echo "$who: there is no program $program: make build proves and builds it (up to an hour)" >&2
      exit 1
    fi
    if [ -n "$verdict" ] && ! grep -q "^sha256 $(sum_of "$program")" "$verdict" 2>/dev/null; then
      echo "$who: build/verdict is not of this $program: make build proves and builds it anew" >&2
      exit 1
    fi
  done
}

# write_verdict VERDICT FILE PROGRAM..: copies the verdict, or says that the programs are not proved
write_verdict() {
  local verdict=$1 file=$2 program
  shift 2
  if [ -n "$verdict" ]; then cp "$verdict" "$file"; return; fi
  for program in "$@"; do echo "sha256 $(sum_of "$program") $(basename "$program")"; done >"$file"
  echo "These programs are not proved." >>"$file"
}
